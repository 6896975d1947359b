//! The sender of request 4 of document 02, read once more. Document 01 has the bytes and the two arrangements, 004 in its annexes A
//! and B when a column goes out.
//!
//! It keeps every packet since the opening, whole, and counts them without end. With each one it goes through the groups of the
//! arrangement and works out afresh the parity of those whose turn it is. What a card keeps in the lent room is its own affair: here
//! an opening clears the room, and the refusals look at it.

use crate::model::{four, no_if, two, Stamp, COLUMN, ROW};

/// The headers of a media and of a parity packet.
const MEDIA_HEADERS: u64 = 12;
const PARITY_HEADERS: u64 = 28;

/// The arrangement of aligned columns; any other number is the staggered one.
pub const ALIGNED: u8 = 0;

/// What a call takes and the next one is given.
#[derive(Clone, Copy, Debug, Default, PartialEq, Eq)]
pub struct Value {
    pub first: u16,
    /// Packets taken, modulo 65,536.
    pub taken: u16,
    pub arrangement: u8,
    pub l: u64,
    pub d: u64,
    pub p: u64,
    /// Packets taken, falling back by two matrices before it is three.
    pub at: u64,
}

impl Value {
    /// The packets of a matrix.
    pub fn matrix(&self) -> u64 {
        self.l * self.d
    }

    /// How many payloads the room is for, and how many numbers each of its other parts has.
    pub fn places(&self) -> u64 {
        2 * self.l + 1
    }
}

/// The lent room. Each part may be longer or shorter than the need.
pub struct Room<'a> {
    pub payloads: &'a mut [u8],
    pub timestamps: &'a mut [u32],
    pub lengths: &'a mut [u16],
    pub longest: &'a mut [u16],
}

/// What a call gives back: the bytes written to each output are 0 where nothing went out.
#[derive(Clone, Copy, Debug, PartialEq, Eq)]
pub struct Sent {
    pub number: u32,
    pub row: u64,
    pub column: u64,
    pub value: Value,
}

fn refuse(number: u32, value: Value) -> Sent {
    Sent { number, row: 0, column: 0, value }
}

// ---- refusals ----

fn check_profile(v: &Value) -> Result<(), u32> {
    no_if(v.l < 1 || v.l > 20, 1)?;
    no_if(v.d < 4 || v.d > 20, 1)?;
    no_if(v.matrix() > 100, 1)?;
    no_if(!(1..=7).any(|k| v.p == k * 188 || v.p == k * 204), 2)
}

fn check_room(v: &Value, room: &Room) -> Result<(), u32> {
    no_if((room.payloads.len() as u64) < v.places() * v.p, 4)?;
    no_if((room.timestamps.len() as u64) < v.places(), 4)?;
    no_if((room.lengths.len() as u64) < v.places(), 4)?;
    no_if((room.longest.len() as u64) < v.places(), 4)
}

/// Both outputs, whether they are used or not.
fn check_outputs(v: &Value, [row, column]: [usize; 2]) -> Result<(), u32> {
    no_if((row as u64) < PARITY_HEADERS + v.p, 4)?;
    no_if((column as u64) < PARITY_HEADERS + v.p, 4)
}

/// Counters past the profile, lengths past P.
fn check_order(v: &Value, room: &Room) -> Result<(), u32> {
    no_if(v.at >= 3 * v.matrix(), 5)?;
    no_if(room.longest.iter().take(v.places() as usize).any(|&length| u64::from(length) > v.p), 5)
}

/// Refusals 6 to 9 of a media packet.
fn check_datagram(v: &Value, datagram: &[u8]) -> Result<(), u32> {
    no_if((datagram.len() as u64) < MEDIA_HEADERS, 6)?;
    no_if(datagram[0] != 0x80, 7)?;
    no_if(datagram[1] >= 0x80, 7)?;
    no_if(datagram[1] != 33, 8)?;
    let unit = if v.p % 188 == 0 { 188 } else { 204 };
    let length = datagram.len() as u64 - MEDIA_HEADERS;
    no_if(length == 0, 9)?;
    no_if(length % unit != 0, 9)?;
    no_if(length > v.p, 9)
}

fn check_next(v: &Value, datagram: &[u8]) -> Result<(), u32> {
    let next = (u64::from(v.first) + u64::from(v.taken)) % 65_536;
    no_if(u64::from(two(datagram, 2)) != next, 13)
}

/// Whether an offer is refused, for any value at all.
pub fn judge(v: &Value, datagram: &[u8], room: &Room, outputs: [usize; 2]) -> Result<(), u32> {
    check_profile(v)?;
    check_room(v, room)?;
    check_outputs(v, outputs)?;
    check_order(v, room)?;
    check_datagram(v, datagram)?;
    check_next(v, datagram)
}

// ---- the groups of an arrangement ----

/// A group by the packets since the opening, which is followed by packet 0: its first member, and the packet with which it goes out.
#[derive(Clone, Copy, Debug, PartialEq, Eq)]
pub struct Group {
    pub stream: u8,
    pub start: u64,
    pub with: u64,
}

/// The groups that start in matrix m.
pub fn groups(v: &Value, m: u64) -> Vec<Group> {
    let mut list = Vec::new();
    if v.l >= 4 {
        list.extend((0..v.d).map(|j| row(v, m, j)));
    }
    if v.arrangement == ALIGNED {
        list.extend((0..v.l).map(|k| aligned_column(v, m, k)));
    } else {
        list.extend((0..v.l).map(|r| staggered_column(v, m, r)));
    }
    list
}

/// Rows start at the multiples of L and go out with their last member.
fn row(v: &Value, m: u64, j: u64) -> Group {
    let start = m * v.matrix() + j * v.l;
    let last = start + v.l - 1;
    Group { stream: ROW, start, with: last }
}

/// Column k of a matrix goes out k × D packets after the first of the next one.
fn aligned_column(v: &Value, m: u64, k: u64) -> Group {
    let start = m * v.matrix() + k;
    let next_matrix = (m + 1) * v.matrix();
    Group { stream: COLUMN, start, with: next_matrix + k * v.d }
}

/// The staggered column for r goes out L packets after its last member.
fn staggered_column(v: &Value, m: u64, r: u64) -> Group {
    let start = m * v.matrix() + r + v.l * (r % v.d);
    let last = start + (v.d - 1) * v.l;
    Group { stream: COLUMN, start, with: last + v.l }
}

// ---- the sender ----

pub struct Sender {
    asked: Value,
    packets: Vec<Vec<u8>>,
}

/// Opens the sender that the value names; its two counts are not looked at. None where it is refused.
pub fn open(asked: Value, room: &mut Room) -> (Sent, Option<Sender>) {
    if let Err(number) = check_profile(&asked).and_then(|()| check_room(&asked, room)) {
        return (refuse(number, Value::default()), None);
    }
    let places = asked.places() as usize;
    room.payloads[..places * asked.p as usize].fill(0);
    room.timestamps[..places].fill(0);
    room.lengths[..places].fill(0);
    room.longest[..places].fill(0);
    let sender = Sender { asked, packets: Vec::new() };
    (Sent { number: 0, row: 0, column: 0, value: sender.value() }, Some(sender))
}

impl Sender {
    /// The packets taken, as they came.
    pub fn packets(&self) -> &[Vec<u8>] {
        &self.packets
    }

    /// What the last call left.
    pub fn value(&self) -> Value {
        let count = self.packets.len() as u64;
        let matrix = self.asked.matrix();
        let at = if count < 3 * matrix { count } else { matrix + (count - matrix) % (2 * matrix) };
        Value { taken: count as u16, at, ..self.asked }
    }

    /// Takes a packet and writes the parity that goes out with it. The outputs and what the caller gives for them: row, then column.
    pub fn media(&mut self, v: Value, datagram: &[u8], room: &Room, stamps: [Stamp; 2], outputs: [&mut [u8]; 2]) -> Sent {
        let [row_out, column_out] = outputs;
        if let Err(number) = judge(&v, datagram, room, [row_out.len(), column_out.len()]) {
            return refuse(number, v);
        }
        let now = self.packets.len() as u64;
        self.packets.push(datagram.to_vec());
        let (mut row, mut column) = (0, 0);
        for group in self.due(now) {
            if group.stream == ROW {
                row = write(&self.parity(&group, stamps[0]), row_out);
            } else {
                column = write(&self.parity(&group, stamps[1]), column_out);
            }
        }
        Sent { number: 0, row, column, value: self.value() }
    }

    /// The groups that go out with a packet. They start in its matrix or one of the two before.
    fn due(&self, now: u64) -> Vec<Group> {
        let m = now / self.asked.matrix();
        let near = (m.saturating_sub(2)..=m).flat_map(|m| groups(&self.asked, m));
        near.filter(|group| group.with == now).collect()
    }

    /// The parity packet of a group: each recovery field is the exclusive-or over its members.
    fn parity(&self, group: &Group, stamp: Stamp) -> Vec<u8> {
        let v = &self.asked;
        let (offset, na) = if group.stream == COLUMN { (v.l, v.d) } else { (1, v.l) };
        let members: Vec<&[u8]> = (0..na).map(|j| &self.packets[(group.start + j * offset) as usize][..]).collect();
        let longest = members.iter().map(|member| member.len() - 12).max().unwrap_or(0);
        let mut payload = vec![0; longest];
        let (mut timestamp, mut length, mut payload_type) = (0, 0, 0);
        for member in &members {
            timestamp ^= four(member, 4);
            length ^= member.len() as u16 - 12;
            payload_type ^= member[1];
            for (recovery, byte) in payload.iter_mut().zip(&member[12..]) {
                *recovery ^= byte;
            }
        }
        let mut bytes = vec![0x80, 96];
        bytes.extend(stamp.sequence.to_be_bytes());
        bytes.extend(stamp.timestamp.to_be_bytes());
        bytes.extend(stamp.ssrc.to_be_bytes());
        bytes.extend(two(members[0], 2).to_be_bytes());
        bytes.extend(length.to_be_bytes());
        bytes.extend([0x80 | payload_type, 0, 0, 0]);
        bytes.extend(timestamp.to_be_bytes());
        bytes.extend([if group.stream == ROW { 0x40 } else { 0 }, offset as u8, na as u8, 0]);
        bytes.extend(payload);
        bytes
    }
}

/// Writes a packet to an output and no more.
fn write(bytes: &[u8], out: &mut [u8]) -> u64 {
    out[..bytes.len()].copy_from_slice(bytes);
    bytes.len() as u64
}

#[cfg(test)]
mod tests {
    use super::*;
    use crate::rng::Rng;
    use crate::traffic::profiles;
    use crate::wire::Stretch;

    fn value(l: u64, d: u64, p: u64, first: u16, arrangement: u8) -> Value {
        Value { first, arrangement, l, d, p, ..Value::default() }
    }

    /// The members of a group and the packet it goes out with, numbered from `from`.
    fn numbered(v: &Value, group: &Group, from: u64) -> (Vec<u64>, u64) {
        let (offset, na) = if group.stream == COLUMN { (v.l, v.d) } else { (1, v.l) };
        ((0..na).map(|j| from + group.start + j * offset).collect(), from + group.with)
    }

    fn columns(v: &Value, m: u64, from: u64) -> Vec<(Vec<u64>, u64)> {
        groups(v, m).iter().filter(|group| group.stream == COLUMN).map(|group| numbered(v, group, from)).collect()
    }

    /// Bench case 12: F1 and F6, each sent L packets after its last one.
    #[test]
    fn annex_a() {
        let found = columns(&value(4, 5, 188, 0, 1), 0, 1);
        assert_eq!(found[0], (vec![1, 5, 9, 13, 17], 21));
        assert_eq!(found[1], (vec![6, 10, 14, 18, 22], 26));
        assert_eq!(found[2], (vec![11, 15, 19, 23, 27], 31));
        assert_eq!(found[3], (vec![16, 20, 24, 28, 32], 36));
        assert_eq!(columns(&value(4, 5, 188, 0, 1), 1, 1)[0], (vec![21, 25, 29, 33, 37], 41));
    }

    /// Figure 5: FEC0 with 20, FEC1 with 25, FEC2 with 30, FEC3 with 35. Rows go out a packet earlier than it draws them.
    #[test]
    fn annex_b() {
        let v = value(4, 5, 188, 0, ALIGNED);
        let found = columns(&v, 0, 0);
        assert_eq!(found[0], (vec![0, 4, 8, 12, 16], 20));
        assert_eq!(found[1], (vec![1, 5, 9, 13, 17], 25));
        assert_eq!(found[2], (vec![2, 6, 10, 14, 18], 30));
        assert_eq!(found[3], (vec![3, 7, 11, 15, 19], 35));
        let rows: Vec<(Vec<u64>, u64)> =
            groups(&v, 0).iter().filter(|group| group.stream == ROW).map(|group| numbered(&v, group, 0)).collect();
        assert_eq!(rows[0], (vec![0, 1, 2, 3], 3));
        assert_eq!(rows.iter().map(|row| row.1).collect::<Vec<u64>>(), [3, 7, 11, 15, 19]);
        assert_eq!(columns(&v, 1, 0)[3], (vec![23, 27, 31, 35, 39], 55));
    }

    #[test]
    fn wide_and_low_starts_again_in_the_first_row() {
        let starts: Vec<u64> = columns(&value(6, 4, 188, 0, 1), 0, 0).iter().map(|column| column.0[0]).collect();
        assert_eq!(starts, [0, 7, 14, 21, 4, 11]);
    }

    /// A packet has one row and one column at most, all members are there by then, and no more than 2 × L columns are begun and not
    /// yet sent; nothing that goes out is missed by looking at three matrices.
    #[test]
    fn every_profile_fits_the_room() {
        for (l, d) in profiles() {
            for arrangement in [ALIGNED, 1] {
                let v = value(l, d, 188, 0, arrangement);
                let all: Vec<Group> = (0..8).flat_map(|m| groups(&v, m)).collect();
                let sender = Sender { asked: v, packets: Vec::new() };
                for now in 0..6 * v.matrix() {
                    let due: Vec<Group> = all.iter().filter(|group| group.with == now).copied().collect();
                    assert_eq!(sender.due(now), due);
                    assert!([ROW, COLUMN].iter().all(|&stream| due.iter().filter(|group| group.stream == stream).count() <= 1));
                    assert!(due.iter().all(|group| numbered(&v, group, 0).0.iter().all(|&member| member <= now)));
                    let begun = |group: &&Group| group.stream == COLUMN && group.start <= now && now < group.with;
                    assert!(all.iter().filter(begun).count() as u64 <= 2 * l);
                }
            }
        }
    }

    #[test]
    fn the_count_stays_below_three_matrices() {
        let mut sender = Sender { asked: value(1, 4, 188, 65_535, 0), packets: Vec::new() };
        let mut found = Vec::new();
        for _ in 0..22 {
            found.push(sender.value().at);
            sender.packets.push(Vec::new());
        }
        assert_eq!(found[..14], [0, 1, 2, 3, 4, 5, 6, 7, 8, 9, 10, 11, 4, 5]);
        assert_eq!(found[18..], [10, 11, 4, 5]);
    }

    /// What goes out is the datagram that a stretch of the same packets has for the group.
    #[test]
    fn packets_are_those_of_the_stretch() {
        let (mut payloads, mut timestamps, mut lengths, mut longest) = (vec![9; 9 * 564], [9; 9], [9; 9], [9; 9]);
        let mut room = Room { payloads: &mut payloads, timestamps: &mut timestamps, lengths: &mut lengths, longest: &mut longest };
        let stretch = Stretch::draw(&mut Rng::new(3, 1), 65_530, 4, 5, 564, 60);
        let mut sender = open(value(4, 5, 564, 65_530, 1), &mut room).1.unwrap();
        let stamps = [Stamp { sequence: 1, timestamp: 2, ssrc: 3 }, Stamp { sequence: 4, timestamp: 5, ssrc: 6 }];
        for now in 0..60 {
            let (mut row, mut column) = (vec![0xEE; 600], vec![0xEE; 600]);
            let (value, packet) = (sender.value(), stretch.media(now, 7));
            let sent = sender.media(value, &packet, &room, stamps, [&mut row, &mut column]);
            assert_eq!((sent.number, sent.row != 0), (0, now % 4 == 3));
            for (written, out, stream) in [(sent.row, row, ROW), (sent.column, column, COLUMN)] {
                let end = written as usize;
                assert!(out[end..].iter().all(|&byte| byte == 0xEE));
                if end > 0 {
                    let start = if stream == ROW { now - 3 } else { now - 20 };
                    let stamp = stamps[usize::from(1 - stream)];
                    assert_eq!(out[..end], stretch.parity(stream, start as i64, stamp.sequence, stamp.timestamp, stamp.ssrc));
                }
            }
        }
        assert_eq!((sender.packets().len(), room.payloads[0], room.longest[8]), (60, 0, 0));
    }

    #[test]
    fn the_first_refusal_that_applies() {
        let (mut payloads, mut timestamps, mut lengths, mut longest) = (vec![0; 9 * 188], [0; 9], [0; 9], [0; 9]);
        let room = Room { payloads: &mut payloads, timestamps: &mut timestamps, lengths: &mut lengths, longest: &mut longest };
        let packet = Stretch::draw(&mut Rng::new(3, 1), 7, 4, 4, 188, 1).media(0, 0);
        let v = value(4, 4, 188, 7, 0);
        let number = |v: &Value, datagram: &[u8], room: &Room, out: usize| judge(v, datagram, room, [216, out]).err().unwrap_or(0);
        assert_eq!(number(&v, &packet, &room, 216), 0);
        assert_eq!(number(&Value { l: u64::MAX, d: u64::MAX, p: 0, ..v }, &[], &room, 0), 1);
        assert_eq!(number(&Value { p: 189, at: 48, ..v }, &[], &room, 0), 2);
        assert_eq!(number(&Value { at: 48, ..v }, &[], &room, 215), 4);
        assert_eq!(number(&Value { at: 48, ..v }, &[], &room, 216), 5);
        assert_eq!(number(&Value { at: 47, ..v }, &[], &room, 216), 6);
        assert_eq!(number(&Value { taken: 1, ..v }, &packet[..199], &room, 216), 9);
        assert_eq!(number(&Value { taken: 1, ..v }, &packet, &room, 216), 13);
        room.longest[8] = 189;
        assert_eq!(number(&v, &packet, &room, 216), 5);
    }
}
