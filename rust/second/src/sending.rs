//! Senders through both programs, an opening at a time: packets one by one, with refused ones of every kind between, and then what went
//! out at the other end. All of it is drawn from the seed.

use crate::model::Stamp;
use crate::received::{self, Parity};
use crate::rng::Rng;
use crate::sender::{Sender, Value, ALIGNED};
use crate::sender_pair::{need, Offer, Pair, Sizes};
use crate::traffic::{alter, profiles, sizes, twist};
use crate::wire::Stretch;
use std::collections::BTreeSet;

/// Elements past the longest part that is ever lent.
const GUARD: usize = 16;

/// Small profiles whose matrix does not divide 65,536: a count that wraps there loses its place.
const SMALL: [(u64, u64); 6] = [(4, 5), (3, 4), (5, 5), (1, 5), (7, 4), (4, 6)];
/// With these they count past 65,536.
const MANY: usize = 66_500;

/// What was met so far.
#[derive(Default)]
pub struct Tally {
    pub openings: u64,
    /// Openings of more than 65,536 packets.
    pub long: u64,
    /// With true for the staggered arrangement.
    pub profiles: BTreeSet<(u64, u64, bool)>,
    pub calls: u64,
    pub numbers: [u64; 14],
    pub taken: u64,
    pub rows: u64,
    pub columns: u64,
    /// Taken with a value or a room that no call left.
    pub made_up: u64,
    pub received: received::Tally,
}

/// The numbers that an opening or an offer has.
const NUMBERS: [usize; 10] = [0, 1, 2, 4, 5, 6, 7, 8, 9, 13];

impl Tally {
    /// How often each number was met, and an offer that is taken with a value or a room that no call left.
    pub fn met(&self) -> Vec<(String, u64)> {
        let numbers = NUMBERS.into_iter().map(|number| (number.to_string(), self.numbers[number]));
        numbers.chain([("made up and taken".to_string(), self.made_up)]).collect()
    }
}

struct Play<'a> {
    rng: Rng,
    /// Offers between the packets, in cases of a thousand.
    disturb: u64,
    stretch: Stretch,
    pair: Pair,
    /// The longest that is lent of each part.
    most: Sizes,
    model: Sender,
    /// What the library's last call left.
    value: Value,
    sent: Vec<Parity>,
    tally: &'a mut Tally,
}

/// Runs the sender of a seed. The error says at which packet the programs differ and how.
pub fn run(seed: u64, tally: &mut Tally) -> Result<(), String> {
    let mut rng = Rng::new(seed, 7);
    let all = profiles();
    let asked = draw(&mut rng, all[(seed / 2) as usize % all.len()], seed % 2 == 1);
    let matrix = asked.matrix() as usize;
    let total = 3 * matrix + 1 + rng.index(3 * matrix);
    let disturb = rng.pick(&[0, 100, 400, 600]);
    whole(rng, asked, total, disturb, tally)
}

/// The same with more packets than there are numbers.
pub fn run_long(seed: u64, tally: &mut Tally) -> Result<(), String> {
    let mut rng = Rng::new(seed, 8);
    let profile = SMALL[(seed / 2) as usize % SMALL.len()];
    let p = rng.pick(&[188, 204]);
    let asked = Value { p, ..draw(&mut rng, profile, seed % 2 == 1) };
    let total = MANY + rng.index(1000);
    tally.long += 1;
    whole(rng, asked, total, 10, tally)
}

/// An opening for a profile. The numbers mostly run across 65,535 → 0.
fn draw(rng: &mut Rng, (l, d): (u64, u64), staggered: bool) -> Value {
    let arrangement = if staggered { rng.pick(&[1, 1, 2, 255]) } else { ALIGNED };
    let p = if rng.chance(800) { rng.pick(&[188, 204, 376, 408, 564, 612]) } else { rng.pick(&sizes()) };
    let first = match rng.below(5) {
        0 => rng.pick(&[0, 1, 65_535, 65_534]),
        1 => (65_536 - l * d) as u16,
        2 => rng.next() as u16,
        _ => (65_536 - rng.between(1, 3 * l * d)) as u16,
    };
    Value { first, arrangement, l, d, p, ..Value::default() }
}

fn whole(mut rng: Rng, asked: Value, total: usize, disturb: u64, tally: &mut Tally) -> Result<(), String> {
    let slack = rng.pick(&[0, 0, 1, 3, 20]);
    let most = need(&asked).map(|size| size + slack);
    let mut pair = Pair::new(&mut rng, most.map(|size| size + GUARD));
    // Some more than are taken: altered packets may be taken too.
    let stretch = Stretch::draw(&mut rng, asked.first, asked.l as usize, asked.d as usize, asked.p as usize, total + 20);
    while rng.chance(300) {
        refused_opening(&mut rng, &mut pair, asked, &most, tally)?;
    }
    let (model, value) = open(&mut pair, asked, &most, tally)?;
    let mut play = Play { rng, disturb, stretch, pair, most, model, value, sent: Vec::new(), tally };
    if play.rng.chance(200) {
        // What an earlier sender left in the room is gone with the opening.
        let some = play.rng.index(2 * asked.matrix() as usize);
        play.packets(some)?;
        (play.model, play.value) = open(&mut play.pair, asked, &need(&asked), play.tally)?;
        play.sent.clear();
    }
    play.packets(total)?;
    received::run(&mut play.rng, &asked, play.model.packets(), &play.sent, &mut play.tally.received)
}

/// An opening that is permitted.
fn open(pair: &mut Pair, asked: Value, lent: &Sizes, tally: &mut Tally) -> Result<(Sender, Value), String> {
    tally.calls += 1;
    let (sent, model) = pair.open(asked, lent)?;
    tally.openings += 1;
    tally.numbers[0] += 1;
    tally.profiles.insert((asked.l, asked.d, asked.arrangement != ALIGNED));
    model.map(|model| (model, sent.value)).ok_or_else(|| format!("  opening {asked:?} was refused with {}\n", sent.number))
}

/// An opening that mostly is not permitted.
fn refused_opening(rng: &mut Rng, pair: &mut Pair, asked: Value, most: &Sizes, tally: &mut Tally) -> Result<(), String> {
    let asked = if rng.chance(700) { make_up(rng, asked) } else { asked };
    let mut lent = lend(rng, &asked, most);
    if rng.chance(500) {
        shorten(rng, &asked, &mut lent);
    }
    tally.calls += 1;
    let (sent, _) = pair.open(asked, &lent)?;
    tally.numbers[sent.number as usize] += 1;
    Ok(())
}

/// Exactly the need of a value, or more.
fn lend(rng: &mut Rng, v: &Value, most: &Sizes) -> Sizes {
    let loose = rng.chance(500);
    let mut lent = *most;
    for (size, need) in lent.iter_mut().zip(need(v)) {
        *size = if loose { *size } else { need.min(*size) };
    }
    lent
}

/// One part is too short, mostly by one.
fn shorten(rng: &mut Rng, v: &Value, lent: &mut Sizes) {
    let part = rng.index(lent.len());
    let size = need(v)[part].min(lent[part]);
    lent[part] = match rng.below(6) {
        0 => 0,
        1 => rng.index(size + 1),
        _ => size.saturating_sub(1),
    };
}

/// A value with one field changed, or a few.
fn make_up(rng: &mut Rng, value: Value) -> Value {
    let mut v = value;
    for _ in 0..rng.pick(&[1, 1, 1, 2, 3]) {
        let matrix = v.l.wrapping_mul(v.d);
        match rng.below(13) {
            0 => v.first = v.first.wrapping_add(rng.pick(&[1, 65_535, 256, 32_768])),
            1 => v.taken = v.taken.wrapping_add(rng.pick(&[1, 65_535, 256, 32_768])),
            2 => v.arrangement = rng.pick(&[0, 1, 2, 255]),
            3 => v.l = twist(rng, v.l),
            4 => v.d = twist(rng, v.d),
            5 => v.p = if rng.chance(500) { rng.pick(&sizes()) } else { twist(rng, v.p) },
            6..=7 => v.at = matrix.wrapping_mul(3).wrapping_add(rng.pick(&[0, 0, 1, u64::MAX, u64::MAX])),
            8 => v.at = if rng.chance(500) { twist(rng, v.at) } else { rng.below(matrix.clamp(1, 100) * 3) },
            9 => (v.l, v.d) = rng.pick(&profiles()),
            10 => v.p = rng.pick(&[0, 187, 189, 8 * 188, 8 * 204, 203, 205, 392, 65_536 + 188]),
            11 => (v.l, v.d) = rng.pick(&[(1 << 32, 1 << 32), (u64::MAX, u64::MAX), (5, 21), (20, 6), (21, 4), (4, 3), (6, 17), (0, 0)]),
            _ => v = Value { first: v.first, ..Value::default() },
        }
    }
    v
}

impl Play<'_> {
    /// Until so many are taken.
    fn packets(&mut self, total: usize) -> Result<(), String> {
        while self.model.packets().len() < total {
            let offer = if self.rng.chance(self.disturb) { self.unruly_offer() } else { self.next_offer() };
            self.offer(offer)?;
        }
        Ok(())
    }

    fn stamp(&mut self) -> Stamp {
        Stamp { sequence: self.rng.next() as u16, timestamp: self.rng.next() as u32, ssrc: self.rng.next() as u32 }
    }

    /// The next packet of the stretch with the value that the last call left.
    fn next_offer(&mut self) -> Offer {
        let position = self.model.packets().len().min(self.stretch.n() - 1);
        let datagram = self.stretch.media(position, self.rng.next() as u32);
        let mut value = self.value;
        if value.arrangement != ALIGNED && self.rng.chance(30) {
            value.arrangement = self.rng.between(1, 255) as u8;
        }
        let stamps = [self.stamp(), self.stamp()];
        let lent = lend(&mut self.rng, &value, &self.most);
        Offer { value, datagram, stamps, lent, filler: self.rng.byte(), meddled: false }
    }

    /// The same with a few things changed, mostly so that it is refused.
    fn unruly_offer(&mut self) -> Offer {
        let mut offer = self.next_offer();
        if self.rng.chance(350) {
            offer.datagram = self.other_packet();
        }
        if self.rng.chance(600) {
            alter(&mut self.rng, &self.stretch, 1, &mut offer.datagram);
        }
        if self.rng.chance(350) {
            offer.value = make_up(&mut self.rng, offer.value);
        }
        if self.rng.chance(500) {
            offer.lent = lend(&mut self.rng, &offer.value, &self.most);
        }
        if self.rng.chance(200) {
            shorten(&mut self.rng, &offer.value, &mut offer.lent);
        }
        offer.meddled = self.rng.chance(150);
        offer
    }

    /// A packet that is not the next one, or not a media packet at all.
    fn other_packet(&mut self) -> Vec<u8> {
        let (next, n) = (self.model.packets().len(), self.stretch.n());
        let (l, matrix) = (self.stretch.l, self.stretch.l * self.stretch.d);
        let any = self.rng.index(n);
        let position = self.rng.pick(&[next + 1, next.saturating_sub(1), next + l, next + matrix, any]).min(n - 1);
        let ssrc = self.rng.next() as u32;
        if self.rng.chance(800) {
            return self.stretch.media(position, ssrc);
        }
        self.stretch.parity(self.rng.pick(&[0, 1]), position as i64, next as u16, 0, ssrc)
    }

    /// Sets one of the numbers of `longest`, past P or not, also one past the need.
    fn meddle(&mut self) -> (usize, u16) {
        let i = self.rng.index(self.most[3] + 1);
        let old = self.pair.longest(i);
        let p = self.value.p as u16;
        let any = self.rng.next() as u16;
        let to = self.rng.pick(&[p + 1, p + 1, p + 188, 65_535, any, p, p - 1, 0]);
        self.pair.set_longest(i, to);
        (i, old)
    }

    /// One call to both.
    fn offer(&mut self, offer: Offer) -> Result<(), String> {
        let undo = if offer.meddled { Some(self.meddle()) } else { None };
        let now = self.model.packets().len();
        let outcome = self.pair.offer(&mut self.model, &offer).map_err(|text| format!("  packet {now}\n{text}"))?;
        let sent = outcome.sent;
        self.tally.calls += 1;
        self.tally.numbers[sent.number as usize] += 1;
        if let Some((i, old)) = undo {
            self.pair.set_longest(i, old);
        }
        if sent.number != 0 {
            return Ok(());
        }
        if !outcome.own {
            self.tally.made_up += 1;
            return Ok(());
        }
        self.value = sent.value;
        self.tally.taken += 1;
        self.tally.rows += u64::from(sent.row > 0);
        self.tally.columns += u64::from(sent.column > 0);
        let number = u16::from_be_bytes([offer.datagram[2], offer.datagram[3]]);
        for ((bytes, port), stamp) in self.pair.written(&sent).into_iter().zip([3, 2]).zip(offer.stamps) {
            if !bytes.is_empty() {
                self.sent.push(Parity::new(port, now, number, stamp, bytes)?);
            }
        }
        Ok(())
    }
}

#[cfg(test)]
mod tests {
    use super::*;

    #[test]
    fn a_seed_gives_the_same_sender_again() {
        for seed in 160..180 {
            let (mut a, mut b) = (Tally::default(), Tally::default());
            run(seed, &mut a).unwrap();
            run(seed, &mut b).unwrap();
            assert_eq!(
                (a.calls, a.numbers, a.rows, a.columns, a.received.written),
                (b.calls, b.numbers, b.rows, b.columns, b.received.written)
            );
        }
    }

    #[test]
    fn a_matrix_of_the_long_ones_does_not_divide_the_numbers() {
        assert!(SMALL.iter().all(|(l, d)| 65_536 % (l * d) != 0 && MANY > 65_536 + 9 * (l * d) as usize));
    }
}
