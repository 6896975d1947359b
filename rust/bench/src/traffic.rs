//! A stretch of media packets, and the datagrams of it.

pub struct Stretch {
    base: u16,
    /// P, the largest payload.
    pub payload: usize,
    /// Payloads of one transport packet up to P; else each has P bytes.
    mixed: bool,
}

impl Stretch {
    pub fn full(payload: usize) -> Stretch {
        Stretch { base: 65_500, payload, mixed: false }
    }

    pub fn mixed(payload: usize) -> Stretch {
        Stretch { base: 65_500, payload, mixed: true }
    }

    pub fn number(&self, i: usize) -> u16 {
        self.base.wrapping_add(i as u16)
    }

    pub fn stamp(&self, i: usize) -> u32 {
        3003 * i as u32
    }

    fn size(&self, i: usize) -> usize {
        let unit = if self.payload % 188 == 0 { 188 } else { 204 };
        if self.mixed {
            unit * (1 + (5 * i + 2) % (self.payload / unit))
        } else {
            self.payload
        }
    }

    pub fn payload(&self, i: usize) -> Vec<u8> {
        (0..self.size(i)).map(|j| (i * 31 + j * 7 + (i * j >> 6)) as u8).collect()
    }
}

fn rtp(kind: u8, number: u16, stamp: u32) -> Vec<u8> {
    let mut g = vec![0x80, kind];
    g.extend(number.to_be_bytes());
    g.extend(stamp.to_be_bytes());
    g.extend([0; 4]);
    g
}

pub fn media(s: &Stretch, i: usize) -> Vec<u8> {
    let mut g = rtp(33, s.number(i), s.stamp(i));
    g.extend(s.payload(i));
    g
}

/// The parity packet of the column or row of an L × D matrix that starts at a position.
pub fn parity(s: &Stretch, l: usize, d: usize, row: bool, start: usize) -> Vec<u8> {
    let (offset, na) = if row { (1, l) } else { (l, d) };
    let group: Vec<usize> = (0..na).map(|j| start + j * offset).collect();
    let odd = na % 2 == 1;
    let mut g = rtp(96, 0, 0);
    g.extend(s.number(start).to_be_bytes());
    g.extend(group.iter().fold(0, |t, i| t ^ s.size(*i) as u16).to_be_bytes());
    g.extend([0x80 | if odd { 33 } else { 0 }, 0, 0, 0]);
    g.extend(group.iter().fold(0, |t, i| t ^ s.stamp(*i)).to_be_bytes());
    g.extend([if row { 0x40 } else { 0 }, offset as u8, na as u8, 0]);
    let mut sum = vec![0; group.iter().map(|i| s.size(*i)).max().unwrap_or(0)];
    for i in group {
        sum.iter_mut().zip(s.payload(i)).for_each(|(a, b)| *a ^= b);
    }
    g.extend(sum);
    g
}
