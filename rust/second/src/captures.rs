//! Traffic of real senders with losses of all kinds: nothing present may differ from what was sent, nothing may be missing
//! that the received parity allows, nothing is spoilt, the parity that the library writes is the sender's, and the sender's is taken
//! where its whole group is present.

use crate::capture;
use crate::face::Receiver;
use crate::model::{Stamp, Window};
use crate::rng::Rng;

pub struct Capture {
    pub name: &'static str,
    pub l: usize,
    pub d: usize,
    pub p: usize,
    pub first: u16,
    /// In order of arrival: port (1 media, 2 column, 3 row) and datagram.
    pub entries: Vec<(u8, Vec<u8>)>,
    /// The media packets by their distance from the first number.
    pub media: Vec<Vec<u8>>,
}

#[derive(Default)]
pub struct Tally {
    pub captures: u64,
    pub patterns: u64,
    pub windows: u64,
    pub lost: u64,
    pub rebuilt: u64,
    /// Rebuilt packets that are shorter than P.
    pub short: u64,
    pub compared: u64,
    pub full: u64,
}

/// The parts of a capture.
macro_rules! parts {
    ($($name:literal),*) => { &[$(&include_bytes!(concat!("../../../captures/", $name, ".cap"))[..]),*] };
}

/// The files and their table in captures/README.md.
pub fn load() -> Result<Vec<Capture>, String> {
    Ok(vec![
        join("ff_10x10_k1", parts!("ff_10x10_k1.1", "ff_10x10_k1.2", "ff_10x10_k1.3"), 10, 10, 188, 65_500)?,
        join("ff_5x5_k4", parts!("ff_5x5_k4"), 5, 5, 752, 65_500)?,
        join("gst_4x4_k4", parts!("gst_4x4_k4"), 4, 4, 752, 65_500)?,
        join("gst_20x5_k1", parts!("gst_20x5_k1.1", "gst_20x5_k1.2", "gst_20x5_k1.3"), 20, 5, 188, 65_300)?,
        join("gst_4x4_mixed", parts!("gst_4x4_mixed"), 4, 4, 1316, 65_500)?,
    ])
}

/// The parts of a capture put together. Each has its L, D and P, and as its base the number of its own first media packet.
fn join(name: &'static str, parts: &[&[u8]], l: usize, d: usize, p: usize, first: u16) -> Result<Capture, String> {
    let mut entries = Vec::new();
    let mut media: Vec<Vec<u8>> = Vec::new();
    for part in parts {
        let content = capture::read(part).map_err(|number| format!("{name}: a part is refused with {number}"))?;
        let (asked, next) = (&content.asked, first.wrapping_add(media.len() as u16));
        if (asked.l as usize, asked.d as usize, asked.p as usize, asked.base) != (l, d, p, next) {
            return Err(format!("{name}: a part has another set-up"));
        }
        for (port, datagram) in content.entries() {
            if port == 1 {
                let number = u16::from_be_bytes([datagram[2], datagram[3]]);
                if number != first.wrapping_add(media.len() as u16) {
                    return Err(format!("{name}: media packet {} has number {number}", media.len()));
                }
                media.push(datagram.to_vec());
            }
            entries.push((port, datagram.to_vec()));
        }
    }
    Ok(Capture { name, l, d, p, first, entries, media })
}

/// A parity packet of the capture seen from a window: the positions of its group, which may lie outside.
struct Group<'a> {
    port: u8,
    datagram: &'a [u8],
    members: Vec<i64>,
    received: bool,
}

impl Capture {
    fn members(&self, port: u8, datagram: &[u8], start: usize) -> Vec<i64> {
        let number = i64::from(datagram[12]) * 256 + i64::from(datagram[13]);
        let from_first = (number - i64::from(self.first)).rem_euclid(65_536);
        let (step, size) = if port == 2 { (self.l, self.d) } else { (1, self.l) };
        (0..size).map(|j| from_first - start as i64 + (j * step) as i64).collect()
    }

    /// One loss pattern over the whole capture, in windows one after the other; the last one is moved back so that it fits.
    pub fn run(&self, seed: u64, tally: &mut Tally) -> Result<(), String> {
        let mut rng = Rng::new(seed, 5 + 16 * self.first as u64 + self.l as u64);
        let total = self.media.len();
        let least = self.l * self.d;
        let n = if rng.chance(600) { 400 } else { rng.between(least as u64, 400) as usize }.min(total);
        let lost = self.draw_losses(&mut rng);
        let anywhere = rng.index(total - n + 1);
        let mut start = rng.pick(&[0, 0, anywhere]);
        tally.patterns += 1;
        loop {
            self.window(&mut rng, start, n, &lost, tally).map_err(|text| format!("{}, window at {start} of {n}: {text}", self.name))?;
            if start + n >= total {
                return Ok(());
            }
            start = (start + n).min(total - n);
        }
    }

    /// Which entries are lost: at a rate, in bursts, media alone or parity too.
    pub fn draw_losses(&self, rng: &mut Rng) -> Vec<bool> {
        let highest = rng.pick(&[50, 150, 300]);
        let rate_of_media = rng.between(10, highest);
        let rate_of_parity = rng.pick(&[0, 0, rate_of_media, 300]);
        let bursts = rng.chance(500);
        let single = !bursts || rng.chance(300);
        // Short packets are few, and lost more often.
        let short = |port: u8, datagram: &[u8]| port == 1 && datagram.len() < 12 + self.p;
        let rate_of_short = rng.pick(&[0, 400]);
        let mut lost: Vec<bool> = self
            .entries
            .iter()
            .map(|(port, datagram)| {
                let rate = if *port == 1 { rate_of_media } else { rate_of_parity };
                single && rng.chance(rate) || short(*port, datagram) && rng.chance(rate_of_short)
            })
            .collect();
        if bursts {
            let longest = rng.pick(&[5, 15, 40]);
            let mut at = rng.index(200);
            while at < lost.len() {
                let end = (at + rng.between(1, longest) as usize).min(lost.len());
                for (i, lost) in lost.iter_mut().enumerate().take(end).skip(at) {
                    *lost |= self.entries[i].0 == 1 || rate_of_parity > 0;
                }
                at = end + rng.between(20, 300) as usize;
            }
        }
        lost
    }

    fn window(&self, rng: &mut Rng, start: usize, n: usize, lost: &[bool], tally: &mut Tally) -> Result<(), String> {
        let base = ((usize::from(self.first) + start) % 65_536) as u16;
        let k = rng.pick(&[128, 128, 128, 100, 16]);
        let (l, d, p) = (self.l as u64, self.d as u64, self.p as u64);
        let mut receiver = Receiver::open(Window { base, ssrc: rng.next() as u32, l, d, p, n: n as u64, k, present: 0, in_use: 0 })?;
        let inside = |members: &[i64]| members.iter().all(|&i| i >= 0 && i < n as i64);
        let mut groups: Vec<Group> = self
            .entries
            .iter()
            .filter(|(port, _)| *port != 1)
            .map(|(port, datagram)| Group { port: *port, datagram, members: self.members(*port, datagram, start), received: false })
            .collect();

        // What is offered, in order: the index among the media packets, or among the groups.
        let mut offers: Vec<(u64, u8, usize)> = Vec::new();
        let (mut media_so_far, mut groups_so_far) = (0, 0);
        for (i, (port, _)) in self.entries.iter().enumerate() {
            let index = if *port == 1 { &mut media_so_far } else { &mut groups_so_far };
            let near = if *port == 1 {
                *index >= start && *index < start + n
            } else {
                groups[*index].members.iter().any(|&i| i >= 0 && i < n as i64)
            };
            if near && !lost[i] {
                offers.push((i as u64 * 4, *port, *index));
                if rng.chance(20) {
                    offers.push((i as u64 * 4 + rng.below(400), *port, *index));
                }
            }
            *index += 1;
        }
        let jitter = rng.pick(&[1, 1, 40, 400, 1_000_000]);
        for offer in &mut offers {
            offer.0 += rng.below(jitter);
        }
        offers.sort();

        let mut present = vec![false; n];
        for &(_, port, index) in &offers {
            let datagram = if port == 1 { &self.media[index][..] } else { groups[index].datagram };
            let answer = receiver.offer(port, datagram);
            let fits = port == 1 || inside(&groups[index].members);
            let good = if fits { matches!(answer.number, 0 | 14) || (answer.number == 16 && port != 1) } else { answer.number == 13 };
            if !good || answer.spoilt != 0 {
                return Err(format!("port {port}, packet {index} was answered {} with {} spoilt", answer.number, answer.spoilt));
            }
            if port == 1 {
                present[index - start] = true;
            } else if answer.number == 16 {
                tally.full += 1;
            } else if fits {
                groups[index].received = true;
            }
        }
        let arrived = present.clone();
        let received = arrived.iter().filter(|&&is| is).count();

        // Peeling: as long as some received parity lacks one packet, that one can be had. A parity packet that met a full
        // table counts as not received.
        let mut changed = true;
        while changed {
            changed = false;
            for group in groups.iter().filter(|group| group.received) {
                let missing: Vec<usize> = group.members.iter().map(|&i| i as usize).filter(|&i| !present[i]).collect();
                if missing.len() == 1 {
                    present[missing[0]] = true;
                    changed = true;
                }
            }
        }
        self.compare(rng, &mut receiver, start, &present)?;
        groups.retain(|group| inside(&group.members));
        tally.compared += compare_parity(rng, &mut receiver, &groups, &present)?;
        let in_the_end = present.iter().filter(|&&is| is).count();
        tally.windows += 1;
        tally.lost += (n - received) as u64;
        tally.rebuilt += (in_the_end - received) as u64;
        let rebuilt = (0..n).filter(|&i| present[i] && !arrived[i]);
        tally.short += rebuilt.filter(|&i| self.media[start + i].len() < 12 + self.p).count() as u64;
        Ok(())
    }

    fn compare(&self, rng: &mut Rng, receiver: &mut Receiver, start: usize, present: &[bool]) -> Result<(), String> {
        // Reading in any order.
        let mut order: Vec<usize> = (0..present.len()).collect();
        rng.shuffle(&mut order);
        for i in order {
            let sent = &self.media[start + i];
            let number = u16::from_be_bytes([sent[2], sent[3]]);
            let packet = receiver.read(number);
            let ssrc = receiver.window.ssrc.to_be_bytes();
            let right = match &packet {
                Ok(packet) => present[i] && packet[..8] == sent[..8] && packet[8..12] == ssrc && packet[12..] == sent[12..],
                Err(refusal) => !present[i] && *refusal == 17,
            };
            if !right {
                return Err(format!("position {i}, number {number}, to be present {}: {packet:?}", present[i]));
            }
        }
        Ok(())
    }
}

/// The parity of groups in the window, written and taken. Answers how many were compared.
fn compare_parity(rng: &mut Rng, receiver: &mut Receiver, groups: &[Group], present: &[bool]) -> Result<u64, String> {
    let mut compared = 0;
    for group in groups {
        let datagram = group.datagram;
        let snbase = u16::from_be_bytes([datagram[12], datagram[13]]);
        let stamp = Stamp { sequence: rng.next() as u16, timestamp: rng.next() as u32, ssrc: rng.next() as u32 };
        let written = receiver.write(group.port, snbase, stamp);
        if group.members.iter().any(|&i| !present[i as usize]) {
            if written != Err(17) {
                return Err(format!("parity over a missing packet, SNBase {snbase}: {written:?}"));
            }
            continue;
        }
        // All but sequence number, timestamp and SSRC is the sender's; these three are the caller's.
        let mut wanted = datagram.to_vec();
        wanted[2..4].copy_from_slice(&stamp.sequence.to_be_bytes());
        wanted[4..8].copy_from_slice(&stamp.timestamp.to_be_bytes());
        wanted[8..12].copy_from_slice(&stamp.ssrc.to_be_bytes());
        if written.as_ref() != Ok(&wanted) {
            return Err(format!("port {}, SNBase {snbase}: written {written:?}, captured {datagram:?}", group.port));
        }
        // Offered once more, it agrees with what is held.
        let (before, answer) = (receiver.window, receiver.offer(group.port, datagram));
        if (answer.number, answer.count, answer.spoilt, answer.window) != (0, 0, 0, before) {
            return Err(format!("port {}, SNBase {snbase}, its whole group present: {answer:?}, before it {before:?}", group.port));
        }
        compared += 1;
    }
    Ok(compared)
}

#[cfg(test)]
mod tests {
    use super::*;

    #[test]
    fn the_files_are_of_the_form_and_pass() {
        let captures = load().unwrap();
        assert_eq!(captures.len(), 5);
        let mut tally = Tally::default();
        for capture in &captures {
            assert!(capture.entries.iter().any(|(port, _)| *port == 2) && capture.entries.iter().any(|(port, _)| *port == 3));
            for seed in 0..3 {
                capture.run(seed, &mut tally).unwrap();
            }
        }
        assert_eq!(tally.patterns, 15);
        assert!(tally.rebuilt > 0 && tally.compared > 0);
    }

    #[test]
    fn scattered_losses_are_all_made_good() {
        for capture in &load().unwrap() {
            let mut tally = Tally::default();
            let mut rng = Rng::new(1, 1);
            let n = capture.l * capture.d * (100 / (capture.l * capture.d));
            let mut lost = vec![false; capture.entries.len()];
            for (i, (port, _)) in capture.entries.iter().enumerate() {
                lost[i] = *port == 1 && i % 29 == 7;
            }
            capture.window(&mut rng, 0, n, &lost, &mut tally).unwrap();
            assert!(tally.lost >= 2 && tally.rebuilt == tally.lost, "{}: {} lost, {} rebuilt", capture.name, tally.lost, tally.rebuilt);
        }
    }
}
