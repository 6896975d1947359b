//! What a sender sends, seen from the other end: the library's own receiver takes it in, with losses, and nothing present differs from
//! what was sent; and over a window that holds them the library writes the same parity packets.

use crate::face::Receiver;
use crate::model::{two, Stamp, Window};
use crate::rng::Rng;
use crate::sender::Value;
use std::collections::BTreeSet;

/// A parity packet that was sent.
pub struct Parity {
    /// 2 column, 3 row.
    pub port: u8,
    /// The packet with which it went out, and the first member of its group.
    pub with: usize,
    pub start: usize,
    pub stamp: Stamp,
    pub bytes: Vec<u8>,
}

impl Parity {
    /// A packet that went out with packet `with`, whose number is known: a group starts fewer than 65,536 packets before.
    pub fn new(port: u8, with: usize, number: u16, stamp: Stamp, bytes: &[u8]) -> Result<Parity, String> {
        let back = usize::from(number.wrapping_sub(two(bytes, 12)));
        let start = with.checked_sub(back).ok_or("  SNBase lies before the opening\n")?;
        Ok(Parity { port, with, start, stamp, bytes: bytes.to_vec() })
    }
}

#[derive(Default)]
pub struct Tally {
    pub windows: u64,
    pub lost: u64,
    pub rebuilt: u64,
    pub written: u64,
}

/// A part of what was sent, over which a window is opened.
struct Part<'a> {
    value: &'a Value,
    start: usize,
    packets: &'a [Vec<u8>],
    /// Those whose group lies in the window.
    parity: Vec<&'a Parity>,
}

/// Up to so many packets all parity is written once more; of more than that, what lies in some windows.
const ALL: usize = 1000;

/// Windows over what was sent, and one of them with losses.
pub fn run(rng: &mut Rng, value: &Value, packets: &[Vec<u8>], sent: &[Parity], tally: &mut Tally) -> Result<(), String> {
    let n = packets.len().min(400);
    let part = |start: usize| {
        let last = |parity: &Parity| *members(value, parity).last().unwrap_or(&0);
        let parity = sent.iter().filter(|parity| parity.start >= start && last(parity) < start + n).collect();
        Part { value, start, packets: &packets[start..start + n], parity }
    };
    let mut written = BTreeSet::new();
    for start in starts(rng, packets.len(), n, value.matrix() as usize) {
        tally.windows += 1;
        part(start).write(rng, &mut written)?;
    }
    tally.written += written.len() as u64;
    if packets.len() <= ALL && written.len() != sent.len() {
        return Err(format!("  {} of {} parity packets lie in no window\n", sent.len() - written.len(), sent.len()));
    }
    part(rng.index(packets.len() - n + 1)).lose(rng, tally)
}

/// Where windows of n start. They overlap by a matrix, so that each group lies in one of them; of very many packets only some are
/// looked at, those around the 65,536th and the last ones always.
fn starts(rng: &mut Rng, total: usize, n: usize, matrix: usize) -> Vec<usize> {
    let last = total - n;
    if total <= ALL {
        return (0..last).step_by(n - matrix).chain([last]).collect();
    }
    vec![rng.index(last), rng.index(last), 65_536 - n / 2, last]
}

/// The packets of a group.
fn members(value: &Value, parity: &Parity) -> Vec<usize> {
    let (offset, na) = if parity.port == 2 { (value.l, value.d) } else { (1, value.l) };
    (0..na).map(|j| parity.start + (j * offset) as usize).collect()
}

impl Part<'_> {
    fn open(&self, rng: &mut Rng) -> Result<Receiver, String> {
        let (v, n) = (self.value, self.packets.len() as u64);
        let (base, ssrc) = (two(&self.packets[0], 2), rng.next() as u32);
        Receiver::open(Window { base, ssrc, l: v.l, d: v.d, p: v.p, n, k: 128, present: 0, in_use: 0 })
    }

    /// All media in hand, the library writes every one of the parity packets, and takes it. They are noted, by when and where they went
    /// out.
    fn write(&self, rng: &mut Rng, all: &mut BTreeSet<(usize, u8)>) -> Result<(), String> {
        let mut receiver = self.open(rng)?;
        for (i, packet) in self.packets.iter().enumerate() {
            let number = receiver.offer(1, packet).number;
            if number != 0 {
                return Err(format!("  packet {} was refused with {number} by a receiver\n", self.start + i));
            }
        }
        for parity in &self.parity {
            let snbase = two(&self.packets[parity.start - self.start], 2);
            let written = receiver.write(parity.port, snbase, parity.stamp);
            if written.as_ref() != Ok(&parity.bytes) {
                let about = format!("port {}, sent with packet {}, SNBase {snbase}", parity.port, parity.with);
                return Err(format!("  {about}: written {written:?}, sent {:?}\n", parity.bytes));
            }
            // What was sent agrees with what is held.
            let (before, answer) = (receiver.window, receiver.offer(parity.port, &parity.bytes));
            if (answer.number, answer.count, answer.spoilt, answer.window) != (0, 0, 0, before) {
                return Err(format!("  port {}, SNBase {snbase}, its whole group present: {answer:?}\n", parity.port));
            }
            all.insert((parity.with, parity.port));
        }
        Ok(())
    }

    /// Everything in the order in which it was sent, some of it lost.
    fn lose(&self, rng: &mut Rng, tally: &mut Tally) -> Result<(), String> {
        let n = self.packets.len();
        let mut present = draw_received(rng, n, self.value.l as usize);
        let rate = rng.pick(&[0, 0, 200]);
        let mut receiver = self.open(rng)?;
        let mut received: Vec<Vec<usize>> = Vec::new();
        let mut parity = self.parity.iter().peekable();
        for i in 0..n + 2 * self.value.matrix() as usize {
            if present.get(i) == Some(&true) {
                taken(&mut receiver, 1, &self.packets[i])?;
            }
            while let Some(next) = parity.next_if(|parity| parity.with == self.start + i) {
                if !rng.chance(rate) && taken(&mut receiver, next.port, &next.bytes)? {
                    received.push(members(self.value, next).iter().map(|member| member - self.start).collect());
                }
            }
        }
        let arrived = present.iter().filter(|&&is| is).count();
        peel(&mut present, &received);
        tally.lost += (n - arrived) as u64;
        tally.rebuilt += (present.iter().filter(|&&is| is).count() - arrived) as u64;
        self.compare(&mut receiver, &present)
    }

    /// Exactly those are present that have to be, and each is as it was sent.
    fn compare(&self, receiver: &mut Receiver, present: &[bool]) -> Result<(), String> {
        for (i, sent) in self.packets.iter().enumerate() {
            let mut wanted = sent.clone();
            wanted[8..12].copy_from_slice(&receiver.window.ssrc.to_be_bytes());
            let packet = receiver.read(two(sent, 2));
            let right = if present[i] { packet.as_ref() == Ok(&wanted) } else { packet == Err(17) };
            if !right {
                return Err(format!("  packet {}, to be present {}: {packet:?}, sent {sent:?}\n", self.start + i, present[i]));
            }
        }
        Ok(())
    }
}

/// Which media packets arrive: losses at a rate, or a burst of up to L.
fn draw_received(rng: &mut Rng, n: usize, l: usize) -> Vec<bool> {
    let rate = rng.pick(&[0, 20, 50, 150]);
    let mut received: Vec<bool> = (0..n).map(|_| !rng.chance(rate)).collect();
    let burst = rng.index(n);
    let end = (burst + rng.between(1, l as u64) as usize).min(n);
    received[burst..end].fill(false);
    received
}

/// Offers what was sent. False where a full table had no room for parity; a packet that was rebuilt before meets 14.
fn taken(receiver: &mut Receiver, port: u8, datagram: &[u8]) -> Result<bool, String> {
    let answer = receiver.offer(port, datagram);
    match answer.number {
        0 | 14 if answer.spoilt == 0 => Ok(true),
        16 if port != 1 => Ok(false),
        number => Err(format!("  port {port}: a receiver answered {number} with {} spoilt to {datagram:?}\n", answer.spoilt)),
    }
}

/// As long as some received parity lacks one packet, that one can be had.
fn peel(present: &mut [bool], groups: &[Vec<usize>]) {
    let mut changed = true;
    while changed {
        changed = false;
        for group in groups {
            let missing: Vec<usize> = group.iter().copied().filter(|&i| !present[i]).collect();
            if missing.len() == 1 {
                present[missing[0]] = true;
                changed = true;
            }
        }
    }
}
