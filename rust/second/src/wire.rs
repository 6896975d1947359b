//! A stretch of media packets and the datagrams that a sender makes of it.

use crate::model::COLUMN;
use crate::rng::Rng;

pub struct Stretch {
    pub base: u16,
    pub l: usize,
    pub d: usize,
    pub p: usize,
    /// The longest payload, which may be below P.
    most: usize,
    pub timestamps: Vec<u32>,
    /// One or more whole units up to P, each packet its own.
    pub payloads: Vec<Vec<u8>>,
    wild: bool,
    step: u32,
    sparse: bool,
    short: u64,
}

/// What P is made of: 188 or 204.
pub fn unit(p: usize) -> usize {
    if p % 188 == 0 {
        188
    } else {
        204
    }
}

fn draw_payload(rng: &mut Rng, unit: usize, most: usize, sparse: bool, short: u64) -> Vec<u8> {
    let units = (most / unit) as u64;
    let len = if rng.chance(short) { rng.between(1, units) as usize * unit } else { most };
    let mut bytes = vec![0; len];
    if sparse {
        bytes[rng.index(len)] = rng.byte();
    } else {
        rng.fill(&mut bytes);
    }
    bytes
}

impl Stretch {
    pub fn draw(rng: &mut Rng, base: u16, l: usize, d: usize, p: usize, n: usize) -> Stretch {
        let step = rng.pick(&[0u32, 3600, 1, 0x8000_0001]);
        let wild = rng.chance(500);
        let start = rng.next() as u32;
        let timestamps = (0..n as u32).map(|i| if wild { rng.next() as u32 } else { start.wrapping_add(i.wrapping_mul(step)) }).collect();
        // Sparse payloads are mostly zeros, so that a length is all that tells some of them apart.
        let sparse = rng.chance(150);
        let short = rng.pick(&[0, 100, 500, 1000, 1000]);
        let units = (p / unit(p)) as u64;
        let most = unit(p) * if rng.chance(250) { rng.between(1, units) } else { units } as usize;
        let payloads = (0..n).map(|_| draw_payload(rng, unit(p), most, sparse, short)).collect();
        Stretch { base, l, d, p, most, timestamps, payloads, wild, step, sparse, short }
    }

    /// The stretch of the same sender so many packets later: what both have is the same.
    pub fn advance(&mut self, rng: &mut Rng, by: usize) {
        self.base = self.base.wrapping_add(by as u16);
        for _ in 0..by {
            let last = self.timestamps[self.n() - 1];
            self.timestamps.push(if self.wild { rng.next() as u32 } else { last.wrapping_add(self.step) });
            self.payloads.push(draw_payload(rng, unit(self.p), self.most, self.sparse, self.short));
        }
        self.timestamps.drain(..by);
        self.payloads.drain(..by);
    }

    pub fn n(&self) -> usize {
        self.payloads.len()
    }

    /// The number of a position, which may lie behind the base or past the end.
    pub fn number(&self, position: i64) -> u16 {
        (i64::from(self.base) + position).rem_euclid(65_536) as u16
    }

    pub fn step(&self, stream: u8) -> usize {
        if stream == COLUMN {
            self.l
        } else {
            1
        }
    }

    pub fn size(&self, stream: u8) -> usize {
        if stream == COLUMN {
            self.d
        } else {
            self.l
        }
    }

    /// The positions that the group starting at a position covers, inside or not.
    pub fn members(&self, stream: u8, start: i64) -> Vec<i64> {
        (0..self.size(stream)).map(|j| start + (j * self.step(stream)) as i64).collect()
    }

    pub fn fits(&self, stream: u8, start: i64) -> bool {
        self.members(stream, start).iter().all(|&i| i >= 0 && i < self.n() as i64)
    }

    pub fn media(&self, position: usize, ssrc: u32) -> Vec<u8> {
        let mut bytes = vec![0x80, 33];
        bytes.extend(self.number(position as i64).to_be_bytes());
        bytes.extend(self.timestamps[position].to_be_bytes());
        bytes.extend(ssrc.to_be_bytes());
        bytes.extend(&self.payloads[position]);
        bytes
    }

    /// The parity datagram of a group, as long as the longest of it. Members outside the stretch count as zeros, so such a packet is
    /// a made-up one.
    pub fn parity(&self, stream: u8, start: i64, sequence: u16, timestamp: u32, ssrc: u32) -> Vec<u8> {
        let inside = self.members(stream, start).into_iter().filter(|&i| i >= 0 && i < self.n() as i64);
        let mut recovery: Vec<u8> = Vec::new();
        let (mut timestamps, mut lengths) = (0, 0);
        for i in inside.map(|i| i as usize) {
            timestamps ^= self.timestamps[i];
            lengths ^= self.payloads[i].len() as u16;
            recovery.resize(recovery.len().max(self.payloads[i].len()), 0);
            for (a, b) in recovery.iter_mut().zip(&self.payloads[i]) {
                *a ^= b;
            }
        }
        if recovery.is_empty() {
            recovery.resize(self.p, 0);
        }
        let odd = self.size(stream) % 2 == 1;
        let mut bytes = vec![0x80, 96];
        bytes.extend(sequence.to_be_bytes());
        bytes.extend(timestamp.to_be_bytes());
        bytes.extend(ssrc.to_be_bytes());
        bytes.extend(self.number(start).to_be_bytes());
        bytes.extend(lengths.to_be_bytes());
        bytes.push(if odd { 0x80 + 33 } else { 0x80 });
        bytes.extend([0, 0, 0]);
        bytes.extend(timestamps.to_be_bytes());
        bytes.push(if stream == COLUMN { 0 } else { 0x40 });
        bytes.push(self.step(stream) as u8);
        bytes.push(self.size(stream) as u8);
        bytes.push(0);
        bytes.extend(recovery);
        bytes
    }
}

#[cfg(test)]
mod tests {
    use super::*;

    /// What a stretch and a later one of the same sender have in common is the same, over the wrap too.
    #[test]
    fn a_later_stretch() {
        for seed in 0..20 {
            let mut rng = Rng::new(seed, 1);
            let first = Stretch::draw(&mut rng, 65_530, 4, 4, 376, 20);
            let mut later = Stretch::draw(&mut Rng::new(seed, 1), 65_530, 4, 4, 376, 20);
            later.advance(&mut rng, 7);
            assert_eq!((later.n(), later.base), (20, 1));
            assert!((0..13).all(|i| later.media(i, 5) == first.media(i + 7, 5)));
            assert_eq!(later.parity(1, 9, 1, 2, 3), first.parity(1, 16, 1, 2, 3));
            later.advance(&mut rng, 30);
            assert_eq!((later.n(), later.base), (20, 31));
        }
    }
}
