//! Captures of real senders in their full length through a window that moves, with losses. Each packet that leaves is compared with
//! the one that was sent, and what is given up is exactly what could not be had: as long as some received parity whose members all lie
//! at or past the base lacks one packet, that one is rebuilt.

use crate::captures::Capture;
use crate::face::Receiver;
use crate::model::{two, Window};
use crate::rng::Rng;

#[derive(Default)]
pub struct Tally {
    pub passes: u64,
    pub offers: u64,
    pub moves: u64,
    pub written: u64,
    pub lost: u64,
    pub rebuilt: u64,
    /// Never arrived and not rebuilt, or arrived behind the base.
    pub given_up: u64,
    /// Passes in which packets were lost and none was given up.
    pub whole: u64,
    /// Offers behind the base, and of parity to a full table.
    pub late: u64,
    pub full: u64,
    /// Parity packets that found their whole group present, and were compared with it.
    pub compared: u64,
}

/// The window on its way. Packets are named by their distance from the first one of the capture.
struct Pass<'a> {
    capture: &'a Capture,
    receiver: Receiver,
    /// Where the base is.
    at: usize,
    arrived: Vec<bool>,
    present: Vec<bool>,
    /// The groups received, with no member behind the base.
    groups: Vec<(u8, Vec<usize>)>,
}

/// One loss pattern over the whole capture.
pub fn run(capture: &Capture, seed: u64, tally: &mut Tally) -> Result<(), String> {
    let mut rng = Rng::new(seed, 10 + 16 * u64::from(capture.first) + capture.l as u64);
    let matrix = capture.l * capture.d;
    let any = rng.between(matrix as u64, 400) as usize;
    let n = rng.pick(&[2 * matrix, 2 * matrix, 3 * matrix, matrix, 400, any]).min(400);
    let anything = 1 + rng.index(n);
    let step = rng.pick(&[matrix, matrix, matrix, 1, capture.l, n, anything]);
    let lost = capture.draw_losses(&mut rng);
    let (l, d, p, k) = (capture.l as u64, capture.d as u64, capture.p as u64, rng.pick(&[128, 128, 128, 40, 8]));
    let asked = Window { base: capture.first, ssrc: rng.next() as u32, l, d, p, n: n as u64, k, present: 0, in_use: 0 };
    let total = capture.media.len();
    // Past the last packet there are none.
    let (arrived, present) = (vec![false; total + n], vec![false; total + n]);
    let mut pass = Pass { capture, receiver: Receiver::open(asked)?, at: 0, arrived, present, groups: Vec::new() };
    let about = |text: String| format!("{}, n {n}, moved by {step}: {text}", capture.name);

    let jitter = rng.pick(&[1, 1, 1, 20, 200]);
    let mut offers: Vec<(u64, usize)> = Vec::new();
    for i in (0..capture.entries.len()).filter(|&i| !lost[i]) {
        offers.push((4 * i as u64 + rng.below(jitter), i));
        if rng.chance(10) {
            offers.push((4 * i as u64 + rng.below(400), i));
        }
    }
    offers.sort();
    let before = (tally.lost, tally.given_up);
    for (_, i) in offers {
        pass.offer(capture.entries[i].0, &capture.entries[i].1, step, tally).map_err(about)?;
    }
    while pass.at < total {
        pass.advance(step, tally).map_err(about)?;
    }
    tally.passes += 1;
    tally.whole += u64::from(tally.lost > before.0 && tally.given_up == before.1);
    Ok(())
}

impl Pass<'_> {
    /// The packet, or those of the group, that a datagram is about.
    fn members(&self, port: u8, datagram: &[u8]) -> Vec<usize> {
        let number = two(datagram, if port == 1 { 2 } else { 12 });
        let first = usize::from(number.wrapping_sub(self.capture.first));
        let (step, size) = match port {
            1 => (0, 1),
            2 => (self.capture.l, self.capture.d),
            _ => (1, self.capture.l),
        };
        (0..size).map(|j| first + j * step).collect()
    }

    /// Moves as often as the datagram needs it, then offers it.
    fn offer(&mut self, port: u8, datagram: &[u8], step: usize, tally: &mut Tally) -> Result<(), String> {
        let members = self.members(port, datagram);
        while members[members.len() - 1] >= self.at + self.receiver.window.n as usize {
            self.advance(step, tally)?;
        }
        let answer = self.receiver.offer(port, datagram);
        tally.offers += 1;
        let behind = members[0] < self.at;
        let known = if port == 1 { self.present[members[0]] } else { self.in_hand(port, &members) };
        let wanted = match (behind, known) {
            (true, _) => 13,
            (_, true) => 14,
            _ => 0,
        };
        let full = port != 1 && answer.number == 16 && answer.window.in_use == answer.window.k;
        tally.compared += u64::from(port != 1 && !behind && self.missing(&members).is_empty());
        let mut count = 0;
        if port == 1 && !behind {
            self.arrived[members[0]] = true;
        }
        if answer.number == 0 {
            if port == 1 {
                self.present[members[0]] = true;
            } else {
                self.groups.push((port, members));
            }
            count = self.peel();
        }
        tally.late += u64::from(behind);
        tally.full += u64::from(full);
        let held = self.groups.iter().filter(|(_, members)| self.missing(members).len() > 1).count() as u64;
        if (answer.number != wanted && !(full && wanted == 0))
            || answer.spoilt != 0
            || (answer.count, answer.window.in_use) != (count, held)
        {
            return Err(format!("port {port}: {answer:?}, to be {wanted}, {count} rebuilt, {held} in hand: {datagram:?}"));
        }
        Ok(())
    }

    fn missing(&self, members: &[usize]) -> Vec<usize> {
        members.iter().copied().filter(|&i| !self.present[i]).collect()
    }

    fn in_hand(&self, port: u8, members: &[usize]) -> bool {
        self.groups.iter().any(|(stream, group)| *stream == port && group == members) && self.missing(members).len() > 1
    }

    /// Has what can be had, and says how many packets that are.
    fn peel(&mut self) -> u64 {
        let mut count = 0;
        while let Some(i) = self.groups.iter().map(|(_, members)| self.missing(members)).find(|missing| missing.len() == 1) {
            self.present[i[0]] = true;
            count += 1;
        }
        let done: Vec<bool> = self.groups.iter().map(|(_, members)| self.missing(members).is_empty()).collect();
        let mut done = done.into_iter();
        self.groups.retain(|_| done.next() != Some(true));
        count
    }

    /// Moves, and looks at what leaves.
    fn advance(&mut self, by: usize, tally: &mut Tally) -> Result<(), String> {
        let ssrc = self.receiver.window.ssrc.to_be_bytes();
        let packets = self.receiver.advance(by as u64)?;
        for (i, packet) in (self.at..).zip(packets) {
            let sent = self.capture.media.get(i).filter(|_| self.present[i]);
            let wanted = sent.map(|sent| [&sent[..8], &ssrc, &sent[12..]].concat());
            if packet != wanted {
                return Err(format!("packet {i} left as {packet:?}, and it should be {wanted:?}"));
            }
            if i < self.capture.media.len() {
                tally.written += u64::from(self.present[i]);
                tally.given_up += u64::from(!self.present[i]);
                tally.lost += u64::from(!self.arrived[i]);
                tally.rebuilt += u64::from(self.present[i] && !self.arrived[i]);
            }
        }
        tally.moves += 1;
        self.at += by;
        let at = self.at;
        self.groups.retain(|(_, members)| members[0] >= at);
        if self.receiver.window.in_use != self.groups.len() as u64 {
            return Err(format!("{} records in use, and {} parity packets stay", self.receiver.window.in_use, self.groups.len()));
        }
        Ok(())
    }
}

#[cfg(test)]
mod tests {
    use super::*;
    use crate::captures::load;

    #[test]
    fn captures_pass() {
        let mut tally = Tally::default();
        for capture in &load().unwrap() {
            for seed in 0..8 {
                run(capture, seed, &mut tally).unwrap();
            }
        }
        assert_eq!(tally.passes, 40);
        assert!(tally.rebuilt > 0 && tally.given_up > 0 && tally.whole > 0);
    }
}
