//! What the three modes share: captures, the ports, the losses, and what the losses leave, worked out without the library.
use crate::{Outcome, PAYLOAD, TRANSPORT};
use congaveil::capture::{self, Capture, Port, ENTRIES_MAX};
use congaveil::SetUp;
use std::{collections::BTreeSet, error::Error, fs, io};

/// Columns and rows of the parity matrix.
#[derive(Clone, Copy)]
pub struct Profile {
    pub l: usize,
    pub d: usize,
}

impl Profile {
    pub fn matrix(self) -> usize {
        self.l * self.d
    }

    /// A window over so many matrices, with room for all their parity.
    pub fn matrices(self, count: usize, base: u16, ssrc: u32) -> SetUp {
        let Profile { l, d } = self;
        SetUp { base, l, d, payload: PAYLOAD, positions: count * self.matrix(), records: count * (l + d), ssrc }
    }
}

pub const PORTS: [Port; 3] = [Port::Media, Port::Column, Port::Row];

/// The UDP port, where media go to `media`.
pub fn udp(port: Port, media: u16) -> u16 {
    media + 2 * (port as u16 - Port::Media as u16)
}

/// A datagram and the port it belongs to.
#[derive(Clone)]
pub struct Entry {
    pub port: Port,
    pub datagram: Vec<u8>,
}

fn part_name(capture: &str, part: usize) -> String {
    format!("{capture}.{part}.cap")
}

/// Writes a capture, in parts of as many entries as a file may have. The base of a part is the number of its first media packet.
pub fn write_capture(capture: &str, profile: Profile, entries: &[Entry]) -> Outcome {
    for (part, entries) in (1..).zip(entries.chunks(ENTRIES_MAX)) {
        let base = entries.iter().find(|entry| entry.port == Port::Media).map_or(0, |entry| number(&entry.datagram));
        let file = capture::to_vec(&profile.matrices(4, base, 0), entries.iter().map(|entry| (entry.port, &entry.datagram[..])))?;
        fs::write(part_name(capture, part), file)?;
    }
    Ok(())
}

/// The media of a capture with payloads of several lengths: two in three are cut to one to seven transport packets, by a seed. Each
/// transport packet that is left is the one that stood there. The SSRC is 0: GStreamer's encoder takes no other.
pub fn mix(capture: &str, seed: u64, mixed: &str) -> Outcome {
    let (profile, media) = media_of_capture(capture)?;
    let mut entries = Vec::new();
    for mut datagram in media {
        datagram[8..12].fill(0);
        let drawn = random(seed, u64::from(number(&datagram)) + 200_000) as usize;
        if drawn % 3 > 0 {
            datagram.truncate(12 + TRANSPORT * (1 + drawn / 3 % (PAYLOAD / TRANSPORT)));
        }
        entries.push(Entry { port: Port::Media, datagram });
    }
    write_capture(mixed, profile, &entries)
}

/// Profile and media of a capture, in order; fails unless each number follows the one before.
pub fn media_of_capture(capture: &str) -> Result<(Profile, Vec<Vec<u8>>), Box<dyn Error>> {
    let (mut profile, mut media) = (None, Vec::new());
    for part in 1.. {
        let name = part_name(capture, part);
        let bytes = match fs::read(&name) {
            Err(e) if e.kind() == io::ErrorKind::NotFound && part > 1 => break,
            bytes => bytes.map_err(|e| format!("{name}: {e}"))?,
        };
        let part = Capture::read(&bytes).map_err(|refusal| format!("{name}: {refusal}"))?;
        let SetUp { l, d, .. } = part.set_up();
        profile.get_or_insert(Profile { l, d });
        media.extend(part.entries().filter(|(port, _)| *port == Port::Media).map(|(_, datagram)| datagram.to_vec()));
    }
    match media.windows(2).find(|pair| number(&pair[1]) != number(&pair[0]).wrapping_add(1)) {
        Some(pair) => Err(format!("the capture has {} after {}", number(&pair[1]), number(&pair[0])).into()),
        None => Ok((profile.ok_or("the capture has no part")?, media)),
    }
}

/// The sequence number of a datagram.
pub fn number(datagram: &[u8]) -> u16 {
    u16::from_be_bytes([datagram[2], datagram[3]])
}

/// The timestamp of a datagram.
pub fn timestamp(datagram: &[u8]) -> u32 {
    u32::from_be_bytes([datagram[4], datagram[5], datagram[6], datagram[7]])
}

/// The first number of a parity packet's group.
pub fn snbase(parity: &[u8]) -> u16 {
    u16::from_be_bytes([parity[12], parity[13]])
}

/// The positions of a parity packet's group, counted from `first`, as its header gives them: SNBase, Offset and NA.
pub fn group(parity: &[u8], first: u16) -> Vec<u16> {
    let (offset, na) = (parity[25] as u16, parity[26] as u16);
    (0..na).map(|j| snbase(parity).wrapping_add(j * offset).wrapping_sub(first)).collect()
}

/// Whether the packet of a position is dropped: four in a hundred singly, and a burst of L in every fifth matrix.
pub fn dropped(position: usize, profile: Profile, seed: u64) -> bool {
    let (matrix, place) = (position / profile.matrix(), position % profile.matrix());
    let start = random(seed, matrix as u64 + 100_000) as usize % (profile.matrix() - profile.l + 1);
    let burst = matrix % 5 == 1 && (start..start + profile.l).contains(&place);
    burst || random(seed, position as u64) % 100 < 4
}

/// SplitMix64: the `index`-th value of a seed.
fn random(seed: u64, index: u64) -> u64 {
    let mut z = seed.wrapping_add(index.wrapping_add(1).wrapping_mul(0x9e37_79b9_7f4a_7c15));
    z = (z ^ (z >> 30)).wrapping_mul(0xbf58_476d_1ce4_e5b9);
    z = (z ^ (z >> 27)).wrapping_mul(0x94d0_49bb_1331_11eb);
    z ^ (z >> 31)
}

/// The positions that stay missing of those lost, by the groups of the parity that was received: while a group has one missing,
/// that one comes back. Only sets of positions; the library has no part in it.
pub fn beyond_reach<T: Copy + Ord>(lost: &BTreeSet<T>, groups: &[Vec<T>]) -> BTreeSet<T> {
    let mut missing = lost.clone();
    loop {
        let before = missing.len();
        for group in groups {
            let gone: Vec<T> = group.iter().copied().filter(|p| missing.contains(p)).collect();
            if let [one] = gone[..] {
                missing.remove(&one);
            }
        }
        if missing.len() == before {
            return missing;
        }
    }
}
