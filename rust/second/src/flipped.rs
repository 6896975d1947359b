//! Parity packets of real senders with a bit changed, each bit in turn, or with their payload a unit longer or shorter, after all media of
//! their group is in (02, request 6). Both programs answer the same and leave the same bytes, and the number is the one that the
//! documents have for the field.

use crate::captures::Capture;
use crate::model::{four, two, Answer, Window};
use crate::pair::{self, Call, Pair, Sizes};
use crate::rng::Rng;

/// Elements past what is lent.
const GUARD: usize = 8;
/// Of the payload all bits of the first, the middle and the last byte are changed, and one of so many others.
const OTHERS: usize = 40;
/// All captures have transport packets of this size.
const UNIT: usize = 188;

#[derive(Default)]
pub struct Tally {
    pub packets: u64,
    pub flips: u64,
    pub numbers: [u64; 23],
    /// Packets offered with all records in use.
    pub full: u64,
    /// With another SNBase: those that found one or more missing, and those over another whole group.
    pub incomplete: u64,
    pub whole: u64,
    /// A unit longer, by zeros, and a unit shorter, where that is refused with 18.
    pub longer: u64,
    pub shorter: u64,
}

impl Tally {
    /// What has to be met, with how often it was.
    pub fn met(&self) -> Vec<(String, u64)> {
        let numbers = [0, 7, 8, 9, 10, 11, 12, 13, 15, 16, 18].into_iter().map(|number: usize| (number.to_string(), self.numbers[number]));
        let others = [
            ("all records in use", self.full),
            ("another incomplete group", self.incomplete),
            ("another whole group", self.whole),
            ("a unit longer", self.longer),
            ("a unit shorter", self.shorter),
        ];
        numbers.chain(others.into_iter().map(|(name, times)| (name.to_string(), times))).collect()
    }
}

/// A window of both programs with a packet whose whole group it has. Positions are from the base.
struct Scene<'a> {
    capture: &'a Capture,
    /// The packet of the capture at the base.
    at: usize,
    window: Window,
    pair: Pair,
    port: u8,
    datagram: Vec<u8>,
}

/// A column packet and a row packet of a capture.
pub fn run(capture: &Capture, seed: u64, tally: &mut Tally) -> Result<(), String> {
    let mut rng = Rng::new(seed, 14 + 16 * u64::from(capture.first) + capture.l as u64);
    for port in [2, 3] {
        let about = |text: String| format!("{}, port {port}: {text}", capture.name);
        let mut scene = Scene::draw(capture, &mut rng, port).map_err(about)?;
        scene.flip_all(&mut rng, tally).map_err(about)?;
        tally.packets += 1;
    }
    Ok(())
}

/// The numbers of the packets that a datagram covers, as distances from a number.
fn members(capture: &Capture, port: u8, datagram: &[u8], from: u16) -> Vec<usize> {
    let first = i64::from(two(datagram, 12)) - i64::from(from);
    let (step, size) = if port == 2 { (capture.l, capture.d) } else { (1, capture.l) };
    (0..size).map(|j| (first + (j * step) as i64).rem_euclid(65_536) as usize).collect()
}

impl<'a> Scene<'a> {
    /// A packet of the port and a window around its group. Of the other media some may be missing, and parity over them is offered
    /// too, so that some is in hand.
    fn draw(capture: &'a Capture, rng: &mut Rng, port: u8) -> Result<Scene<'a>, String> {
        let total = capture.media.len();
        let covered = |datagram: &[u8]| members(capture, port, datagram, capture.first);
        let all: Vec<&Vec<u8>> = capture.entries.iter().filter(|(on, _)| *on == port).map(|(_, datagram)| datagram).collect();
        let all: Vec<&Vec<u8>> = all.into_iter().filter(|datagram| covered(datagram).iter().all(|&i| i < total)).collect();
        let datagram = all.get(rng.index(all.len().max(1))).ok_or("no group lies in the capture")?.to_vec();
        let group = covered(&datagram);
        let (first, last) = (group[0], group[group.len() - 1]);
        let matrix = capture.l * capture.d;
        let n = (last - first + 1).max(matrix + rng.index(2 * matrix)).min(total);
        let (least, most) = ((last + 1).saturating_sub(n), first.min(total - n));
        let at = least + rng.index(most - least + 1);
        // P may be above the longest payload.
        let p = rng.pick(&[capture.p, capture.p, capture.p + UNIT]).min(7 * UNIT);
        let (l, d, k) = (capture.l as u64, capture.d as u64, rng.pick(&[128, 20, 3, 2, 1, 1]));
        let base = capture.first.wrapping_add(at as u16);
        let window = Window { base, ssrc: rng.next() as u32, l, d, p: p as u64, n: n as u64, k, present: 0, in_use: 0 };
        let (n, k) = (n + GUARD, k as usize + GUARD);
        let (media, parity) = (n * p, k * p);
        let size = Sizes { media, timestamps: n, lengths: n, marks: n, parity, records: k, out: 28 + p, slots: n * (12 + p), sizes: n };
        let pair = Pair::new(rng, size);
        let mut scene = Scene { capture, at, window, pair, port, datagram };
        scene.run(&Call::Open(window))?;
        scene.fill(rng, &group)?;
        Ok(scene)
    }

    /// Offers the media of the window, all of the group and a part of the others, and the other parity until the table is full.
    fn fill(&mut self, rng: &mut Rng, group: &[usize]) -> Result<(), String> {
        let rate = rng.pick(&[0, 20, 300, 800]);
        for i in self.at..self.at + self.window.n as usize {
            if group.contains(&i) || !rng.chance(rate) {
                self.offer(1, &self.capture.media[i])?;
            }
        }
        for (port, datagram) in self.capture.entries.iter().filter(|(port, _)| *port != 1) {
            if self.window.in_use < self.window.k && *datagram != self.datagram {
                self.offer(*port, datagram)?;
            }
        }
        Ok(())
    }

    /// A call to both programs.
    fn run(&mut self, call: &Call) -> Result<Answer, String> {
        let size = self.pair.size();
        let (n, k, p) = (self.window.n as usize, self.window.k as usize, self.window.p as usize);
        let lent = Sizes { media: n * p, timestamps: n, lengths: n, marks: n, parity: k * p, records: k, ..size };
        let answer = self.pair.run(self.window, call, lent, 0, &mut pair::Tally::default())?;
        self.window = answer.window;
        Ok(answer)
    }

    /// One of an unaltered packet, which never meets 15 or 18.
    fn offer(&mut self, port: u8, datagram: &[u8]) -> Result<(), String> {
        let answer = self.run(&on_port(port, datagram))?;
        match answer.number {
            0 | 13 | 14 | 16 if answer.spoilt == 0 => Ok(()),
            _ => Err(format!("port {port}, unaltered: {answer:?}: {datagram:?}")),
        }
    }

    fn flip_all(&mut self, rng: &mut Rng, tally: &mut Tally) -> Result<(), String> {
        tally.full += u64::from(self.window.in_use == self.window.k);
        self.flip(0, 0, tally)?;
        let end = self.datagram.len();
        for at in (0..29).chain([28 + (end - 28) / 2, end - 1]) {
            for bit in 0..8 {
                self.flip(at, 1 << bit, tally)?;
            }
        }
        for _ in 0..OTHERS {
            self.flip(28 + rng.index(end - 28), 1 << rng.below(8), tally)?;
        }
        let mut longer = self.datagram.clone();
        longer.resize(end + UNIT, 0);
        let fits = longer.len() as u64 <= 28 + self.window.p;
        self.compare(&longer, if fits { 18 } else { 9 }, tally).map_err(|text| format!("a unit longer: {text}"))?;
        let shorter = self.datagram[..end - UNIT].to_vec();
        let enough = shorter.len() > 28;
        self.compare(&shorter, if enough { 18 } else { 9 }, tally).map_err(|text| format!("a unit shorter: {text}"))?;
        tally.longer += u64::from(fits);
        tally.shorter += u64::from(enough);
        self.flip(0, 0, tally)
    }

    /// Offers the packet with a bit of a byte changed.
    fn flip(&mut self, at: usize, bit: u8, tally: &mut Tally) -> Result<(), String> {
        let mut datagram = self.datagram.clone();
        datagram[at] ^= bit;
        let wanted = self.wanted(&datagram, at, bit);
        self.compare(&datagram, wanted, tally).map_err(|text| format!("byte {at}, bit {bit:#04X}: {text}"))?;
        tally.flips += u64::from(bit != 0);
        tally.whole += u64::from(wanted == 18 && matches!(at, 12 | 13));
        Ok(())
    }

    /// Offers a packet that has to be answered with a number, and leaves the window as it was.
    fn compare(&mut self, datagram: &[u8], wanted: u32, tally: &mut Tally) -> Result<(), String> {
        let (before, window) = (self.pair.clone(), self.window);
        let missing = if wanted == 0 { self.missing(datagram) } else { 0 };
        let answer = self.run(&on_port(self.port, datagram))?;
        let right = match missing {
            0 => (answer.count, answer.spoilt, answer.window) == (0, 0, window) && self.pair.untouched(&before),
            1 => answer.count + answer.spoilt > 0,
            _ => (answer.count, answer.spoilt, answer.window) == (0, 0, Window { in_use: window.in_use + 1, ..window }),
        };
        if answer.number != wanted || !right {
            return Err(format!("{answer:?}, to be {wanted} with {missing} missing; before it {window:?}"));
        }
        tally.numbers[wanted as usize] += 1;
        tally.incomplete += u64::from(missing > 0);
        (self.pair, self.window) = (before, window);
        Ok(())
    }

    /// What the documents say of a packet with a bit of this byte changed.
    fn wanted(&self, datagram: &[u8], at: usize, bit: u8) -> u32 {
        match at {
            _ if bit == 0 => 0,
            // Version, P, X, CC and M, then the payload type.
            0 => 7,
            1 if bit == 0x80 => 7,
            1 => 8,
            // Sequence number, timestamp and SSRC are not looked at.
            2..=11 => 0,
            12..=13 => self.elsewhere(datagram),
            // E and PT recovery.
            16 if bit == 0x80 => 10,
            16 => 11,
            // The mask and SNBase ext.
            17..=19 | 27 => 10,
            // The D bit, between X, type and index; Offset and NA.
            24 if bit == 0x40 => 12,
            24 => 10,
            25..=26 => 12,
            // Length recovery, timestamp recovery, payload.
            _ => 18,
        }
    }

    /// The same for another SNBase: this depends on what the window has of that group.
    fn elsewhere(&self, datagram: &[u8]) -> u32 {
        let group = members(self.capture, self.port, datagram, self.window.base);
        if group.iter().any(|&i| i as u64 >= self.window.n) {
            return 13;
        }
        let snbase = two(datagram, 12);
        let records = (0..self.window.k as usize).map(|r| (r, self.pair.record(r)));
        let mut in_hand = records.filter(|(_, record)| (record.in_use, record.stream + 2, record.snbase) == (1, self.port, snbase));
        if let Some((r, record)) = in_hand.next() {
            let payload = &self.pair.parity()[r * self.window.p as usize..][..usize::from(record.payload_length)];
            let fields = (record.timestamp_recovery, record.length_recovery);
            return if fields == (four(datagram, 20), two(datagram, 14)) && payload == &datagram[28..] { 14 } else { 15 };
        }
        match self.missing(datagram) {
            0 if self.defined(&group) != datagram[14..] => 18,
            2.. if self.window.in_use == self.window.k => 16,
            _ => 0,
        }
    }

    /// How many of a group in the window are missing.
    fn missing(&self, datagram: &[u8]) -> usize {
        members(self.capture, self.port, datagram, self.window.base).into_iter().filter(|&i| self.pair.mark(i) == 0).count()
    }

    /// A parity packet from its length recovery on, from the captured media; but for the payloads all is as in the packet at hand.
    fn defined(&self, group: &[usize]) -> Vec<u8> {
        let media: Vec<&[u8]> = group.iter().map(|&i| &self.capture.media[self.at + i][..]).collect();
        let longest = media.iter().map(|packet| packet.len()).max().unwrap_or(12);
        let mut bytes = self.datagram[14..28].to_vec();
        bytes[..2].fill(0);
        bytes[6..10].fill(0);
        bytes.resize(14 + longest - 12, 0);
        for packet in media {
            let length = (packet.len() as u16 - 12).to_be_bytes();
            let all = length.iter().zip(0..).chain(packet[4..8].iter().zip(6..)).chain(packet[12..].iter().zip(14..));
            all.for_each(|(byte, at): (&u8, usize)| bytes[at] ^= byte);
        }
        bytes
    }
}

fn on_port(port: u8, datagram: &[u8]) -> Call {
    match port {
        1 => Call::Media(datagram.to_vec()),
        2 => Call::Column(datagram.to_vec()),
        _ => Call::Row(datagram.to_vec()),
    }
}

#[cfg(test)]
mod tests {
    use super::*;
    use crate::captures::load;

    #[test]
    fn a_bit_of_each_capture() {
        let mut tally = Tally::default();
        for capture in &load().unwrap() {
            for seed in 0..2 {
                run(capture, seed, &mut tally).unwrap();
            }
        }
        assert_eq!(tally.packets, 20);
        assert!(tally.numbers[18] > 20 * 48 && tally.numbers[0] > 20 * 80);
    }

    /// The definition over the captured media is what the senders sent.
    #[test]
    fn the_captured_packets_are_as_defined() {
        for capture in &load().unwrap() {
            for port in [2, 3] {
                let scene = Scene::draw(capture, &mut Rng::new(3, 3), port).unwrap();
                let group = members(capture, port, &scene.datagram, scene.window.base);
                assert_eq!(scene.defined(&group), scene.datagram[14..]);
            }
        }
    }
}
