//! Parity over groups that are wholly present (02, request 6): what lies about them, and how often each kind was met.

use crate::model::{four, group, two, Answer, Window, COLUMN};
use crate::rng::Rng;
use crate::wire::unit;
use std::collections::BTreeMap;

/// What a run has to meet: where packets were refused with 18, what alone was wrong with them, and what came near it.
pub const KINDS: [&str; 26] = [
    "on a column",
    "on a row",
    "not aligned",
    "over the wrap",
    "with all records in use",
    "with none in use",
    "shorter than P",
    "lengths that differ",
    "old bytes past a length",
    "timestamp recovery alone",
    "length recovery alone",
    "the first byte alone",
    "the last byte alone",
    "another byte alone",
    "longer by zeros alone",
    "longer by other bytes alone",
    "shorter alone",
    "shorter by zeros alone",
    "several things",
    "with the SNBase of another group",
    "what was sent, over a wrong packet",
    "11 for PT recovery",
    "taken",
    "taken with all records in use",
    "taken over old bytes past a length",
    "taken, and not what was sent",
];

#[derive(Clone, Debug, Default, PartialEq, Eq)]
pub struct Lies {
    pub refused: u64,
    /// How often each kind was met.
    pub kinds: BTreeMap<&'static str, u64>,
}

/// What the store has of a group that is wholly present.
pub struct Whole {
    /// The parity packet by the definition.
    pub defined: Vec<u8>,
    /// Whether its members differ in length, and whether bytes other than zeros stand past one.
    pub mixed: bool,
    pub old_bytes: bool,
}

impl Lies {
    pub fn met(&mut self, kind: &'static str, is: bool) {
        if is {
            *self.kinds.entry(kind).or_default() += 1;
        }
    }

    /// Counts an offer of a packet whose whole group was present, by its answer.
    pub fn count(&mut self, w: Window, stream: u8, datagram: &[u8], whole: &Whole, answer: Answer) {
        let full = w.in_use == w.k;
        match answer.number {
            0 => {
                self.met("taken", true);
                self.met("taken with all records in use", full);
                self.met("taken over old bytes past a length", whole.old_bytes);
            }
            11 => self.met("11 for PT recovery", true),
            18 => {
                let snbase = two(datagram, 12);
                let start = u64::from(snbase.wrapping_sub(w.base));
                self.refused += 1;
                self.met("on a column", stream == COLUMN);
                self.met("on a row", stream != COLUMN);
                self.met("not aligned", if stream == COLUMN { start % (w.l * w.d) >= w.l } else { start % w.l != 0 });
                self.met("over the wrap", group(&w, stream, snbase).iter().any(|&number| number < snbase));
                self.met("with all records in use", full);
                self.met("with none in use", w.in_use == 0);
                self.met("shorter than P", (whole.defined.len() as u64) < 28 + w.p);
                self.met("lengths that differ", whole.mixed);
                self.met("old bytes past a length", whole.old_bytes);
                self.met(what_is_wrong(datagram, &whole.defined), true);
            }
            _ => {}
        }
    }
}

/// What alone differs from the definition.
fn what_is_wrong(datagram: &[u8], defined: &[u8]) -> &'static str {
    let (end, least) = (defined.len(), defined.len().min(datagram.len()));
    let wrong: Vec<usize> = (28..least).filter(|&at| datagram[at] != defined[at]).collect();
    let timestamp = four(datagram, 20) != four(defined, 20);
    let length = two(datagram, 14) != two(defined, 14);
    let zeros = |bytes: &[u8]| bytes.iter().all(|&byte| byte == 0);
    match (timestamp, length, &wrong[..], datagram.len()) {
        (true, false, [], len) if len == end => "timestamp recovery alone",
        (false, true, [], len) if len == end => "length recovery alone",
        (false, false, [28], len) if len == end => "the first byte alone",
        (false, false, [at], len) if len == end && at + 1 == end => "the last byte alone",
        (false, false, [_], len) if len == end => "another byte alone",
        (false, false, [], len) if len > end && zeros(&datagram[end..]) => "longer by zeros alone",
        (false, false, [], len) if len > end => "longer by other bytes alone",
        (false, false, [], len) if len < end && zeros(&defined[len..]) => "shorter by zeros alone",
        (false, false, [], len) if len < end => "shorter alone",
        _ => "several things",
    }
}

/// Puts a lie into a parity packet.
pub fn lie(rng: &mut Rng, p: usize, datagram: &mut Vec<u8>) {
    let (end, unit) = (datagram.len(), unit(p));
    let bit = 1 << rng.below(8);
    if end - 28 > unit && datagram[end - unit..].iter().all(|&byte| byte == 0) && rng.chance(300) {
        return datagram.truncate(end - unit);
    }
    match rng.below(18) {
        0..=1 => datagram[20 + rng.index(4)] ^= bit,
        2..=3 => datagram[14 + rng.index(2)] ^= bit,
        4 => datagram[16] ^= 1 << rng.below(7),
        5 => datagram[28] ^= bit,
        6 => datagram[end - 1] ^= bit,
        7 => {
            // At the bound between two units.
            let at = 28 + unit * rng.index((end - 28) / unit);
            datagram[at - if at > 28 { rng.index(2) } else { 0 }] ^= bit;
        }
        8..=10 if end - 28 < p => datagram.resize(end + unit, 0),
        11 if end - 28 < p => {
            datagram.resize(end + unit, 0);
            datagram[end + rng.index(unit)] = bit;
        }
        12 if end - 28 < p => {
            // As if the longest were a unit longer.
            let by = ((end - 28) ^ (end - 28 + unit)) as u16;
            datagram[14] ^= (by >> 8) as u8;
            datagram[15] ^= by as u8;
            datagram.resize(end + unit, 0);
        }
        13..=15 if end - 28 > unit => datagram.truncate(end - unit),
        16 => {
            // The same bit in two bytes: a sum over all of them would not show it.
            datagram[28 + rng.index(end - 28)] ^= bit;
            datagram[28 + rng.index(end - 28)] ^= bit;
        }
        _ => datagram[28 + rng.index(end - 28)] ^= bit,
    }
}

/// A lie that no rebuild shows as spoilt: in the timestamp, or in a byte that the missing packet has.
pub fn unseen(rng: &mut Rng, missing: usize, datagram: &mut [u8]) {
    let which = rng.below(3);
    if which != 0 {
        datagram[20 + rng.index(4)] ^= 1 << rng.below(8);
    }
    if which != 1 {
        datagram[28 + rng.index(missing)] ^= rng.between(1, 255) as u8;
    }
}

#[cfg(test)]
mod tests {
    use super::*;

    #[test]
    fn each_lie_has_a_name() {
        let mut defined = vec![7; 28 + 3 * 188];
        defined[28 + 376..].fill(0);
        let name = |change: &dyn Fn(&mut Vec<u8>)| {
            let mut datagram = defined.clone();
            change(&mut datagram);
            what_is_wrong(&datagram, &defined)
        };
        assert_eq!(name(&|datagram| datagram[23] ^= 1), "timestamp recovery alone");
        assert_eq!(name(&|datagram| datagram[14] ^= 1), "length recovery alone");
        assert_eq!(name(&|datagram| datagram[28] ^= 1), "the first byte alone");
        assert_eq!(name(&|datagram| datagram[591] ^= 1), "the last byte alone");
        assert_eq!(name(&|datagram| datagram[590] ^= 1), "another byte alone");
        assert_eq!(name(&|datagram| datagram.extend([0; 188])), "longer by zeros alone");
        assert_eq!(name(&|datagram| datagram.extend([1; 188])), "longer by other bytes alone");
        assert_eq!(name(&|datagram| datagram.truncate(28 + 376)), "shorter by zeros alone");
        assert_eq!(name(&|datagram| datagram.truncate(28 + 188)), "shorter alone");
        assert_eq!(name(&|datagram| datagram[14..24].fill(0)), "several things");
    }

    /// Every lie changes the packet, but that the same bit of one byte may be changed twice.
    #[test]
    fn a_lie_is_one() {
        let mut rng = Rng::new(1, 1);
        let mut same = 0;
        for i in 0..10_000 {
            let good = vec![3; 28 + 188 * (1 + i % 3)];
            let mut datagram = good.clone();
            lie(&mut rng, 564, &mut datagram);
            assert_eq!((datagram[..14] == good[..14], datagram.len() <= 28 + 564), (true, true));
            same += u64::from(datagram == good);
        }
        assert!(same < 20);
    }
}
