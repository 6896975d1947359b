//! The second program: document 01 and requests 1 and 6 of document 02 read once more and written down in the plainest way. Request 5
//! has a file of its own, moving.rs.
//!
//! Nothing here is clever. Every call looks at everything afresh, all arithmetic is in 64 bits, and a group is a list of
//! numbers. Judging only reads the store; a call writes to it after the last refusal has been ruled out.

/// The stream number of a column, as the D bit has it.
pub const COLUMN: u8 = 0;
/// The stream number of a row.
pub const ROW: u8 = 1;

/// The window value: the set-up numbers and the two counts.
#[derive(Clone, Copy, Debug, Default, PartialEq, Eq)]
pub struct Window {
    pub base: u16,
    pub ssrc: u32,
    pub l: u64,
    pub d: u64,
    pub p: u64,
    pub n: u64,
    pub k: u64,
    pub present: u64,
    pub in_use: u64,
}

/// A parity packet in hand, but for its payload.
#[derive(Clone, Copy, Debug, Default, PartialEq, Eq)]
pub struct Record {
    pub stream: u8,
    pub snbase: u16,
    pub timestamp_recovery: u32,
    pub length_recovery: u16,
    pub payload_length: u16,
    pub in_use: u8,
}

/// The lent store. Each part may be longer or shorter than the window needs.
pub struct Store<'a> {
    pub media: &'a mut [u8],
    pub timestamps: &'a mut [u32],
    pub lengths: &'a mut [u16],
    pub marks: &'a mut [u8],
    pub parity: &'a mut [u8],
    pub records: &'a mut [Record],
}

/// A store of its own, full of old bytes.
pub struct Held {
    pub media: Vec<u8>,
    pub timestamps: Vec<u32>,
    pub lengths: Vec<u16>,
    pub marks: Vec<u8>,
    pub parity: Vec<u8>,
    pub records: Vec<Record>,
}

impl Held {
    pub fn new(n: usize, k: usize, p: usize) -> Held {
        Held {
            media: vec![9; n * p],
            timestamps: vec![9; n],
            lengths: vec![9; n],
            marks: vec![9; n],
            parity: vec![9; k * p],
            records: vec![Record { stream: 9, snbase: 9, timestamp_recovery: 9, length_recovery: 9, payload_length: 9, in_use: 9 }; k],
        }
    }

    pub fn lend(&mut self) -> Store<'_> {
        Store {
            media: &mut self.media,
            timestamps: &mut self.timestamps,
            lengths: &mut self.lengths,
            marks: &mut self.marks,
            parity: &mut self.parity,
            records: &mut self.records,
        }
    }
}

/// What every call gives back.
#[derive(Clone, Copy, Debug, PartialEq, Eq)]
pub struct Answer {
    pub number: u32,
    pub count: u64,
    pub spoilt: u64,
    pub window: Window,
}

/// What the sender of a parity packet chooses freely.
#[derive(Clone, Copy, Debug)]
pub struct Stamp {
    pub sequence: u16,
    pub timestamp: u32,
    pub ssrc: u32,
}

pub fn refuse(number: u32, window: Window) -> Answer {
    Answer { number, count: 0, spoilt: 0, window }
}

/// A refusal if the condition holds. Chained with `?`, the first that applies is given.
pub fn no_if(condition: bool, number: u32) -> Result<(), u32> {
    if condition {
        Err(number)
    } else {
        Ok(())
    }
}

// ---- numbers, positions and groups ----

/// The distance of a number ahead of the base, with 16-bit wrap.
pub fn position(w: &Window, number: u16) -> u64 {
    (u64::from(number) + 65_536 - u64::from(w.base)) % 65_536
}

fn offset(w: &Window, stream: u8) -> u64 {
    if stream == COLUMN {
        w.l
    } else {
        1
    }
}

fn na(w: &Window, stream: u8) -> u64 {
    if stream == COLUMN {
        w.d
    } else {
        w.l
    }
}

/// The numbers of a group.
pub fn group(w: &Window, stream: u8, snbase: u16) -> Vec<u16> {
    (0..na(w, stream)).map(|j| ((u64::from(snbase) + j * offset(w, stream)) % 65_536) as u16).collect()
}

/// The positions of a group, if all of them are in the window.
fn places(w: &Window, stream: u8, snbase: u16) -> Option<Vec<usize>> {
    let positions: Vec<u64> = group(w, stream, snbase).into_iter().map(|number| position(w, number)).collect();
    if positions.iter().all(|&i| i < w.n) {
        Some(positions.into_iter().map(|i| i as usize).collect())
    } else {
        None
    }
}

/// Whether none, one (and which) or more of a group are missing (02, request 3).
#[derive(Clone, Copy, Debug, PartialEq)]
enum Missing {
    None,
    One(usize),
    More,
}

/// Goes through the members in their order and stops at the second that is missing. Answers what it found, and how many members
/// it visited: up to that one, or all.
fn look(s: &Store, places: &[usize]) -> (Missing, usize) {
    let mut found = Missing::None;
    for (j, &i) in places.iter().enumerate() {
        if s.marks[i] == 0 {
            match found {
                Missing::None => found = Missing::One(i),
                _ => return (Missing::More, j + 1),
            }
        }
    }
    (found, places.len())
}

fn missing(s: &Store, places: &[usize]) -> Missing {
    look(s, places).0
}

/// The transport packets that P is made of: no P is a multiple of both sizes.
fn unit(w: &Window) -> u64 {
    if w.p % 188 == 0 {
        188
    } else {
        204
    }
}

/// A payload is one or more whole units up to P.
fn good_length(w: &Window, length: u64) -> bool {
    length > 0 && length % unit(w) == 0 && length <= w.p
}

/// The payload at an index with its true length. What stands past that is not looked at.
fn payload<'a>(part: &'a [u8], w: &Window, index: usize, length: u16) -> &'a [u8] {
    &part[index * w.p as usize..][..usize::from(length)]
}

/// All P bytes at an index.
fn place_mut<'a>(part: &'a mut [u8], w: &Window, index: usize) -> &'a mut [u8] {
    &mut part[index * w.p as usize..(index + 1) * w.p as usize]
}

/// Stores a payload with zeros up to P.
fn keep(part: &mut [u8], w: &Window, index: usize, bytes: &[u8]) {
    let place = place_mut(part, w, index);
    place.fill(0);
    place[..bytes.len()].copy_from_slice(bytes);
}

/// A shorter payload counts as zero-padded.
fn xor_into(target: &mut [u8], other: &[u8]) {
    for (a, b) in target.iter_mut().zip(other) {
        *a ^= b;
    }
}

// ---- refusals 1 to 5 ----

pub fn check_numbers(w: &Window) -> Result<(), u32> {
    no_if(w.l < 1 || w.l > 20 || w.d < 4 || w.d > 20 || w.l * w.d > 100, 1)?;
    no_if(!(1..=7).any(|k| w.p == k * 188 || w.p == k * 204), 2)?;
    no_if(w.n < w.l * w.d || w.n > 400 || w.k < 1 || w.k > 128, 3)
}

pub fn check_room(w: &Window, s: &Store) -> Result<(), u32> {
    no_if((s.media.len() as u64) < w.n * w.p, 4)?;
    no_if((s.timestamps.len() as u64) < w.n, 4)?;
    no_if((s.lengths.len() as u64) < w.n, 4)?;
    no_if((s.marks.len() as u64) < w.n, 4)?;
    no_if((s.parity.len() as u64) < w.k * w.p, 4)?;
    no_if((s.records.len() as u64) < w.k, 4)
}

pub fn check_order(w: &Window, s: &Store) -> Result<(), u32> {
    let marks = &s.marks[..w.n as usize];
    let records = &s.records[..w.k as usize];
    no_if(marks.iter().any(|&mark| mark > 1), 5)?;
    no_if(marks.iter().zip(s.lengths.iter()).any(|(&mark, &length)| mark == 1 && !good_length(w, u64::from(length))), 5)?;
    no_if(records.iter().any(|record| record.in_use > 1), 5)?;
    for (i, record) in records.iter().enumerate() {
        if record.in_use == 0 {
            continue;
        }
        no_if(record.stream != COLUMN && record.stream != ROW, 5)?;
        no_if(record.stream == ROW && w.l < 4, 5)?;
        no_if(!good_length(w, u64::from(record.payload_length)), 5)?;
        match places(w, record.stream, record.snbase) {
            None => return Err(5),
            Some(places) => no_if(missing(s, &places) != Missing::More, 5)?,
        }
        for other in &records[..i] {
            no_if(other.in_use == 1 && other.stream == record.stream && other.snbase == record.snbase, 5)?;
        }
    }
    no_if(w.present != marks.iter().filter(|&&mark| mark == 1).count() as u64, 5)?;
    no_if(w.in_use != records.iter().filter(|record| record.in_use == 1).count() as u64, 5)
}

/// Refusals 1 to 5, with the length of the output and its need where the call has one.
fn check_store(w: &Window, s: &Store, output: Option<(usize, u64)>) -> Result<(), u32> {
    check_numbers(w)?;
    check_room(w, s)?;
    if let Some((len, headers)) = output {
        no_if((len as u64) < headers + w.p, 4)?;
    }
    check_order(w, s)
}

// ---- opening ----

/// Opens the window that the value names; its two counts are not looked at.
pub fn open(asked: Window, s: &mut Store) -> Answer {
    if let Err(number) = check_numbers(&asked).and_then(|()| check_room(&asked, s)) {
        return refuse(number, Window::default());
    }
    let (n, k, p) = (asked.n as usize, asked.k as usize, asked.p as usize);
    s.media[..n * p].fill(0);
    s.timestamps[..n].fill(0);
    s.lengths[..n].fill(0);
    s.marks[..n].fill(0);
    s.parity[..k * p].fill(0);
    s.records[..k].fill(Record::default());
    Answer { number: 0, count: 0, spoilt: 0, window: Window { present: 0, in_use: 0, ..asked } }
}

// ---- the datagrams ----

pub fn two(datagram: &[u8], at: usize) -> u16 {
    u16::from_be_bytes([datagram[at], datagram[at + 1]])
}

pub fn four(datagram: &[u8], at: usize) -> u32 {
    u32::from_be_bytes([datagram[at], datagram[at + 1], datagram[at + 2], datagram[at + 3]])
}

/// Refusals 6 to 9. The first byte is version (2 bits), P, X and CC (4 bits); the second is M and the payload type.
fn check_rtp(w: &Window, datagram: &[u8], headers: u64, payload_type: u8) -> Result<(), u32> {
    let len = datagram.len() as u64;
    no_if(len < headers, 6)?;
    no_if(datagram[0] >> 6 != 2, 7)?;
    no_if(datagram[0] & 0x3F != 0, 7)?;
    no_if(datagram[1] & 0x80 != 0, 7)?;
    no_if(datagram[1] & 0x7F != payload_type, 8)?;
    no_if(!good_length(w, len - headers), 9)
}

fn judge_media(w: &Window, datagram: &[u8], s: &Store) -> Result<usize, u32> {
    check_store(w, s, None)?;
    check_rtp(w, datagram, 12, 33)?;
    let i = position(w, two(datagram, 2));
    no_if(i >= w.n, 13)?;
    let i = i as usize;
    if s.marks[i] == 1 {
        let same = s.timestamps[i] == four(datagram, 4) && payload(s.media, w, i, s.lengths[i]) == &datagram[12..];
        return Err(if same { 14 } else { 15 });
    }
    Ok(i)
}

/// Answers the positions of the packet's group.
fn judge_parity(w: &Window, stream: u8, datagram: &[u8], s: &Store) -> Result<Vec<usize>, u32> {
    check_store(w, s, None)?;
    check_rtp(w, datagram, 28, 96)?;
    let header = &datagram[12..28];
    no_if(header[4] & 0x80 == 0, 10)?;
    no_if(header[5] != 0 || header[6] != 0 || header[7] != 0, 10)?;
    no_if(header[12] & 0x80 != 0, 10)?;
    no_if(header[12] & 0x3F != 0, 10)?;
    no_if(header[15] != 0, 10)?;
    let odd = na(w, stream) % 2 == 1;
    no_if(header[4] & 0x7F != if odd { 33 } else { 0 }, 11)?;
    no_if((header[12] >> 6) & 1 != stream, 12)?;
    no_if(u64::from(header[13]) != offset(w, stream), 12)?;
    no_if(u64::from(header[14]) != na(w, stream), 12)?;
    no_if(stream == ROW && w.l < 4, 12)?;
    let snbase = two(header, 0);
    let places = places(w, stream, snbase).ok_or(13u32)?;
    for (i, record) in s.records[..w.k as usize].iter().enumerate() {
        if record.in_use == 1 && record.stream == stream && record.snbase == snbase {
            let same = record.timestamp_recovery == four(header, 8)
                && record.length_recovery == two(header, 2)
                && payload(s.parity, w, i, record.payload_length) == &datagram[28..];
            return Err(if same { 14 } else { 15 });
        }
    }
    no_if(missing(s, &places) == Missing::None && lies(w, &places, datagram, s), 18)?;
    let free = s.records[..w.k as usize].iter().any(|record| record.in_use == 0);
    no_if(missing(s, &places) == Missing::More && !free, 16)?;
    Ok(places)
}

/// Whether a parity packet whose whole group is present differs from the definition in a recovery field or in the length of its
/// payload (02, request 6). PT recovery is not asked again: 11 let nothing else pass.
fn lies(w: &Window, places: &[usize], datagram: &[u8], s: &Store) -> bool {
    let members: Vec<&[u8]> = places.iter().map(|&i| payload(s.media, w, i, s.lengths[i])).collect();
    let longest = members.iter().map(|member| member.len()).max().unwrap_or(0);
    let timestamp = places.iter().fold(0, |sum, &i| sum ^ s.timestamps[i]);
    let length = places.iter().fold(0, |sum, &i| sum ^ s.lengths[i]);
    let byte = |j: usize| members.iter().fold(0u8, |sum, member| sum ^ member.get(j).unwrap_or(&0));
    four(datagram, 20) != timestamp
        || two(datagram, 14) != length
        || datagram.len() != 28 + longest
        || (0..longest).any(|j| datagram[28 + j] != byte(j))
}

// ---- rebuilding ----

/// The recovery fields of a parity packet, the payload with its true length.
struct Recovery {
    timestamp: u32,
    length: u16,
    payload: Vec<u8>,
}

/// Rebuilds position `lost` of a group from its recovery fields and all the others. False where it is spoilt: what comes out
/// cannot be a packet, and nothing is written.
fn rebuild(w: &Window, s: &mut Store, places: &[usize], lost: usize, recovery: &Recovery) -> bool {
    let (mut timestamp, mut length) = (recovery.timestamp, recovery.length);
    let mut bytes = recovery.payload.clone();
    bytes.resize(w.p as usize, 0);
    for &i in places {
        if i != lost {
            timestamp ^= s.timestamps[i];
            length ^= s.lengths[i];
            xor_into(&mut bytes, payload(s.media, w, i, s.lengths[i]));
        }
    }
    let end = usize::from(length);
    if end == 0 || u64::from(length) % unit(w) != 0 || end > recovery.payload.len() || bytes[end..].iter().any(|&byte| byte != 0) {
        return false;
    }
    s.timestamps[lost] = timestamp;
    s.lengths[lost] = length;
    keep(s.media, w, lost, &bytes[..end]);
    s.marks[lost] = 1;
    true
}

pub fn release(w: &Window, s: &mut Store, i: usize) {
    s.records[i] = Record::default();
    place_mut(s.parity, w, i).fill(0);
}

/// Releases what is spent, lets the first of those that are ready rebuild, and begins again. One that is spoilt is released.
/// Answers how many packets were rebuilt, and how many were spoilt.
fn settle(w: &Window, s: &mut Store) -> (u64, u64) {
    let mut first: Option<(u64, u8, usize, usize)> = None;
    for i in 0..w.k as usize {
        let record = s.records[i];
        if record.in_use == 0 {
            continue;
        }
        let places = places(w, record.stream, record.snbase).expect("a record in order");
        match missing(s, &places) {
            Missing::None => release(w, s, i),
            Missing::One(lost) => {
                let candidate = (position(w, record.snbase), record.stream, i, lost);
                if first.is_none() || candidate < first.unwrap() {
                    first = Some(candidate);
                }
            }
            Missing::More => {}
        }
    }
    match first {
        None => (0, 0),
        Some((_, stream, i, lost)) => {
            let record = s.records[i];
            let places = places(w, stream, record.snbase).expect("a record in order");
            let bytes = payload(s.parity, w, i, record.payload_length).to_vec();
            let recovery = Recovery { timestamp: record.timestamp_recovery, length: record.length_recovery, payload: bytes };
            let good = rebuild(w, s, &places, lost, &recovery);
            if !good {
                release(w, s, i);
            }
            let (rebuilt, spoilt) = settle(w, s);
            (rebuilt + u64::from(good), spoilt + u64::from(!good))
        }
    }
}

/// The next window value has its counts from the marks and records themselves.
pub fn recount(w: Window, s: &Store) -> Window {
    let present = s.marks[..w.n as usize].iter().filter(|&&mark| mark == 1).count() as u64;
    let in_use = s.records[..w.k as usize].iter().filter(|record| record.in_use == 1).count() as u64;
    Window { present, in_use, ..w }
}

// ---- the three offers ----

pub fn media(w: Window, datagram: &[u8], s: &mut Store) -> Answer {
    let i = match judge_media(&w, datagram, s) {
        Err(number) => return refuse(number, w),
        Ok(i) => i,
    };
    s.timestamps[i] = four(datagram, 4);
    s.lengths[i] = (datagram.len() - 12) as u16;
    keep(s.media, &w, i, &datagram[12..]);
    s.marks[i] = 1;
    let (count, spoilt) = settle(&w, s);
    Answer { number: 0, count, spoilt, window: recount(w, s) }
}

pub fn column(w: Window, datagram: &[u8], s: &mut Store) -> Answer {
    parity(w, COLUMN, datagram, s)
}

pub fn row(w: Window, datagram: &[u8], s: &mut Store) -> Answer {
    parity(w, ROW, datagram, s)
}

fn parity(w: Window, stream: u8, datagram: &[u8], s: &mut Store) -> Answer {
    let places = match judge_parity(&w, stream, datagram, s) {
        Err(number) => return refuse(number, w),
        Ok(places) => places,
    };
    let recovery = Recovery { timestamp: four(datagram, 20), length: two(datagram, 14), payload: datagram[28..].to_vec() };
    let lost = missing(s, &places);
    let (mut count, mut spoilt) = (0, 0);
    if let Missing::One(lost) = lost {
        if rebuild(&w, s, &places, lost, &recovery) {
            count = 1;
        } else {
            spoilt = 1;
        }
    }
    if lost == Missing::More {
        let free = (0..w.k as usize).find(|&i| s.records[i].in_use == 0).expect("16 is ruled out");
        s.records[free] = Record {
            stream,
            snbase: two(datagram, 12),
            timestamp_recovery: recovery.timestamp,
            length_recovery: recovery.length,
            payload_length: recovery.payload.len() as u16,
            in_use: 1,
        };
        keep(s.parity, &w, free, &recovery.payload);
    }
    let more = settle(&w, s);
    Answer { number: 0, count: count + more.0, spoilt: spoilt + more.1, window: recount(w, s) }
}

// ---- reading out and writing parity ----

fn rtp_header(payload_type: u8, stamp: Stamp) -> Vec<u8> {
    let mut bytes = vec![0x80, payload_type];
    bytes.extend(stamp.sequence.to_be_bytes());
    bytes.extend(stamp.timestamp.to_be_bytes());
    bytes.extend(stamp.ssrc.to_be_bytes());
    bytes
}

pub fn read(w: Window, number: u16, s: &Store, out: &mut [u8]) -> Answer {
    match read_bytes(&w, number, s, out.len()) {
        Err(number) => refuse(number, w),
        Ok(bytes) => hand_out(w, &bytes, out),
    }
}

fn hand_out(w: Window, bytes: &[u8], out: &mut [u8]) -> Answer {
    out[..bytes.len()].copy_from_slice(bytes);
    Answer { number: 0, count: bytes.len() as u64, spoilt: 0, window: w }
}

fn read_bytes(w: &Window, number: u16, s: &Store, out_len: usize) -> Result<Vec<u8>, u32> {
    check_store(w, s, Some((out_len, 12)))?;
    let i = position(w, number);
    no_if(i >= w.n, 13)?;
    let i = i as usize;
    no_if(s.marks[i] == 0, 17)?;
    let mut bytes = rtp_header(33, Stamp { sequence: number, timestamp: s.timestamps[i], ssrc: w.ssrc });
    bytes.extend(payload(s.media, w, i, s.lengths[i]));
    Ok(bytes)
}

pub fn write_column(w: Window, snbase: u16, stamp: Stamp, s: &Store, out: &mut [u8]) -> Answer {
    write_parity(w, COLUMN, snbase, stamp, s, out)
}

pub fn write_row(w: Window, snbase: u16, stamp: Stamp, s: &Store, out: &mut [u8]) -> Answer {
    write_parity(w, ROW, snbase, stamp, s, out)
}

fn write_parity(w: Window, stream: u8, snbase: u16, stamp: Stamp, s: &Store, out: &mut [u8]) -> Answer {
    match parity_bytes(&w, stream, snbase, stamp, s, out.len()) {
        Err(number) => refuse(number, w),
        Ok(bytes) => hand_out(w, &bytes, out),
    }
}

fn parity_bytes(w: &Window, stream: u8, snbase: u16, stamp: Stamp, s: &Store, out_len: usize) -> Result<Vec<u8>, u32> {
    check_store(w, s, Some((out_len, 28)))?;
    no_if(stream == ROW && w.l < 4, 12)?;
    let places = places(w, stream, snbase).ok_or(13u32)?;
    no_if(missing(s, &places) != Missing::None, 17)?;
    let (mut length, mut payload_type, mut timestamp) = (0u16, 0u8, 0u32);
    let longest = places.iter().map(|&i| s.lengths[i]).max().unwrap_or(0);
    let mut recovery = vec![0; usize::from(longest)];
    for &i in &places {
        length ^= s.lengths[i];
        payload_type ^= 33;
        timestamp ^= s.timestamps[i];
        xor_into(&mut recovery, payload(s.media, w, i, s.lengths[i]));
    }
    let mut bytes = rtp_header(96, stamp);
    bytes.extend(snbase.to_be_bytes());
    bytes.extend(length.to_be_bytes());
    bytes.push(0x80 | payload_type);
    bytes.extend([0, 0, 0]);
    bytes.extend(timestamp.to_be_bytes());
    bytes.push(stream << 6);
    bytes.push(offset(w, stream) as u8);
    bytes.push(na(w, stream) as u8);
    bytes.push(0);
    bytes.extend(recovery);
    Ok(bytes)
}

#[cfg(test)]
mod tests {
    use super::*;

    fn asked(base: u16, l: u64, d: u64, p: u64, n: u64, k: u64) -> Window {
        Window { base, ssrc: 1, l, d, p, n, k, present: 0, in_use: 0 }
    }

    fn packet(number: u16, timestamp: u32, p: usize) -> Vec<u8> {
        let mut bytes = rtp_header(33, Stamp { sequence: number, timestamp, ssrc: 77 });
        bytes.extend((0..p).map(|i| (i as u32).wrapping_mul(timestamp) as u8));
        bytes
    }

    #[test]
    fn bench_cases_1_and_2() {
        let try_open = |l, d, p| open(asked(0, l, d, p, 100, 1), &mut Held::new(100, 1, 1632).lend()).number;
        assert_eq!([try_open(20, 5, 188), try_open(1, 4, 188)], [0, 0]);
        assert_eq!([try_open(20, 6, 188), try_open(21, 4, 188), try_open(4, 3, 188)], [1, 1, 1]);
        assert_eq!([188, 1316, 204, 1428].map(|p| try_open(4, 4, p)), [0; 4]);
        assert_eq!([0, 187, 1504, 1632].map(|p| try_open(4, 4, p)), [2; 4]);
    }

    #[test]
    fn bench_cases_3_to_6() {
        let w = asked(65_530, 4, 4, 188, 16, 8);
        assert_eq!((position(&w, 0), position(&w, 9)), (6, 15));
        assert_eq!(group(&w, COLUMN, 65_530), [65_530, 65_534, 2, 6]);
        assert_eq!([65_533, 65_534, 65_529].map(|snbase| places(&w, COLUMN, snbase).is_some()), [true, false, false]);
        assert_eq!([6, 7].map(|snbase| places(&w, ROW, snbase).is_some()), [true, false]);
    }

    #[test]
    fn bench_cases_7_and_9() {
        let mut held = Held::new(16, 8, 188);
        let mut w = open(asked(65_530, 4, 4, 188, 16, 8), &mut held.lend()).window;
        for (j, number) in [65_530u16, 65_534, 2, 6].into_iter().enumerate() {
            w = media(w, &packet(number, 1000 * (j as u32 + 1), 188), &mut held.lend()).window;
        }
        let mut out = vec![0xEE; 300];
        let answer = write_column(w, 65_530, Stamp { sequence: 7, timestamp: 0, ssrc: 0 }, &held.lend(), &mut out);
        assert_eq!((answer.number, answer.count, answer.window), (0, 216, w));
        assert_eq!(out[..12], [0x80, 0x60, 0, 7, 0, 0, 0, 0, 0, 0, 0, 0]);
        assert_eq!(out[12..28], [0xFF, 0xFA, 0, 0, 0x80, 0, 0, 0, 0, 0, 0, 0x20, 0, 4, 4, 0]);
        assert!(out[216..].iter().all(|&byte| byte == 0xEE));
        // The same parity and three of the four give the fourth back.
        let mut other = Held::new(16, 8, 188);
        let mut v = open(asked(65_530, 4, 4, 188, 16, 8), &mut other.lend()).window;
        v = column(v, &out[..216], &mut other.lend()).window;
        assert_eq!((v.present, v.in_use), (0, 1));
        for (j, number) in [65_530u16, 65_534, 2].into_iter().enumerate() {
            v = media(v, &packet(number, 1000 * (j as u32 + 1), 188), &mut other.lend()).window;
        }
        assert_eq!((v.present, v.in_use, other.timestamps[12]), (4, 0, 4000));
        assert_eq!(media(v, &packet(6, 4000, 188), &mut other.lend()).number, 14);
        assert_eq!(media(v, &packet(6, 4001, 188), &mut other.lend()).number, 15);
    }

    #[test]
    fn bench_case_8() {
        let mut held = Held::new(20, 1, 1316);
        let mut w = open(asked(0, 4, 5, 1316, 20, 1), &mut held.lend()).window;
        for number in 0..20 {
            w = media(w, &packet(number, 5, 1316), &mut held.lend()).window;
        }
        let mut out = vec![0; 1344];
        assert_eq!(write_column(w, 0, Stamp { sequence: 0, timestamp: 0, ssrc: 0 }, &held.lend(), &mut out).number, 0);
        assert_eq!(out[14..17], [0x05, 0x24, 0xA1]);
    }

    #[test]
    fn bench_cases_10_and_11() {
        let mut whole = Held::new(16, 8, 188);
        let mut w = open(asked(65_530, 4, 4, 188, 16, 8), &mut whole.lend()).window;
        let sent: Vec<Vec<u8>> = (0..16u16).map(|i| packet(65_530u16.wrapping_add(i), 3 + 7 * u32::from(i), 188)).collect();
        for packet in &sent {
            w = media(w, packet, &mut whole.lend()).window;
        }
        let mut held = Held::new(16, 8, 188);
        let mut v = open(asked(65_530, 4, 4, 188, 16, 8), &mut held.lend()).window;
        let stamp = Stamp { sequence: 1, timestamp: 2, ssrc: 3 };
        for i in 0..4u16 {
            let mut out = vec![0; 216];
            write_column(w, 65_530u16.wrapping_add(i), stamp, &whole.lend(), &mut out);
            v = column(v, &out, &mut held.lend()).window;
            write_row(w, 65_530u16.wrapping_add(4 * i), stamp, &whole.lend(), &mut out);
            v = row(v, &out, &mut held.lend()).window;
        }
        for (i, packet) in sent.iter().enumerate() {
            if ![0, 1, 4, 5].contains(&i) {
                v = media(v, packet, &mut held.lend()).window;
            }
        }
        assert_eq!((v.present, v.in_use), (12, 4));
        let answer = media(v, &sent[5], &mut held.lend());
        assert_eq!((answer.number, answer.count, answer.window.present, answer.window.in_use), (0, 3, 16, 0));
        assert_eq!(held.media, whole.media);
        assert_eq!(held.timestamps, whole.timestamps);
    }

    #[test]
    fn huge_window_values_are_refused_and_do_not_overflow() {
        let mut held = Held::new(16, 8, 188);
        let w = open(asked(0, 4, 4, 188, 16, 8), &mut held.lend()).window;
        let huge = u64::MAX;
        let number = |w| media(w, &[], &mut Held::new(16, 8, 188).lend()).number;
        assert_eq!(number(Window { l: huge, d: huge, ..w }), 1);
        assert_eq!(number(Window { l: 1 << 32, d: 1 << 32, ..w }), 1);
        assert_eq!(number(Window { p: huge, ..w }), 2);
        assert_eq!(number(Window { n: huge, ..w }), 3);
        assert_eq!(number(Window { k: huge, ..w }), 3);
        assert_eq!(media(Window { present: huge, ..w }, &[], &mut held.lend()).number, 5);
        assert_eq!(media(Window { in_use: huge, ..w }, &[], &mut held.lend()).number, 5);
        assert_eq!(media(w, &[], &mut held.lend()).number, 6);
        assert_eq!(media(Window::default(), &[], &mut held.lend()).number, 1);
    }

    #[test]
    fn of_a_free_record_only_the_mark_counts() {
        let mut held = Held::new(16, 8, 188);
        let w = open(asked(0, 4, 4, 188, 16, 8), &mut held.lend()).window;
        held.records[3] = Record { stream: 200, snbase: 60_000, timestamp_recovery: 1, length_recovery: 2, payload_length: 3, in_use: 0 };
        held.timestamps[2] = 5;
        held.lengths[2] = 6;
        assert_eq!(media(w, &packet(0, 1, 188), &mut held.lend()).number, 0);
        assert_eq!(held.records[3].stream, 200);
        assert_eq!((held.timestamps[2], held.lengths[2]), (5, 6));
    }

    #[test]
    fn a_look_stops_at_the_second_missing() {
        let mut held = Held::new(16, 8, 188);
        for na in 1..=10 {
            let places: Vec<usize> = (0..na).map(|j| (7 * j + 3) % 16).collect();
            for pattern in 0..1u32 << na {
                held.marks.fill(1);
                let lost: Vec<usize> = (0..na).filter(|j| pattern >> j & 1 == 1).collect();
                lost.iter().for_each(|&j| held.marks[places[j]] = 0);
                let expected = match lost[..] {
                    [] => (Missing::None, na),
                    [j] => (Missing::One(places[j]), na),
                    [_, j, ..] => (Missing::More, j + 1),
                };
                assert_eq!(look(&held.lend(), &places), expected);
            }
        }
    }

    /// A row of four with 1, 3, 2 and 2 units of 188, and its parity; the first is missing.
    fn mixed() -> (Window, Held, Vec<Vec<u8>>, Vec<u8>) {
        let sent: Vec<Vec<u8>> =
            [1, 3, 2, 2].iter().enumerate().map(|(i, units)| packet(i as u16, 11 + 3 * i as u32, units * 188)).collect();
        let mut whole = Held::new(16, 8, 752);
        let mut w = open(asked(0, 4, 4, 752, 16, 8), &mut whole.lend()).window;
        for packet in &sent {
            w = media(w, packet, &mut whole.lend()).window;
        }
        let mut row = vec![0xEE; 28 + 752];
        let answer = write_row(w, 0, Stamp { sequence: 1, timestamp: 2, ssrc: 3 }, &whole.lend(), &mut row);
        assert_eq!((answer.number, answer.count), (0, 28 + 564));
        assert!(row[28 + 564..].iter().all(|&byte| byte == 0xEE));
        row.truncate(28 + 564);
        assert_eq!(u16::from_be_bytes([row[14], row[15]]), 188 ^ 564);
        let mut held = Held::new(16, 8, 752);
        let mut v = open(asked(0, 4, 4, 752, 16, 8), &mut held.lend()).window;
        for packet in &sent[1..] {
            v = media(v, packet, &mut held.lend()).window;
        }
        (v, held, sent, row)
    }

    #[test]
    fn a_short_packet_comes_back_with_its_length() {
        let (v, mut held, sent, parity) = mixed();
        let answer = row(v, &parity, &mut held.lend());
        assert_eq!((answer.number, answer.count, answer.spoilt, answer.window.in_use), (0, 1, 0, 0));
        assert_eq!((held.lengths[0], held.timestamps[0]), (188, 11));
        assert!(held.media[188..752].iter().all(|&byte| byte == 0));
        let mut out = vec![0xEE; 12 + 752];
        assert_eq!(read(answer.window, 0, &held.lend(), &mut out).count, 200);
        assert_eq!((&out[12..200], out[200]), (&sent[0][12..], 0xEE));
        // Other bytes past a kept length count as zero, and stay.
        held.media[188..752].fill(7);
        assert_eq!(media(answer.window, &sent[0], &mut held.lend()).number, 14);
        let mut again = vec![0; 28 + 752];
        let written = write_row(answer.window, 0, Stamp { sequence: 1, timestamp: 2, ssrc: 3 }, &held.lend(), &mut again);
        assert_eq!((written.count, &again[..28 + 564]), (28 + 564, &parity[..]));
        assert!(held.media[188..752].iter().all(|&byte| byte == 7));
        // The same bytes and a length that differs.
        let mut longer = sent[0].clone();
        longer.extend([0; 188]);
        assert_eq!(media(answer.window, &longer, &mut held.lend()).number, 15);
        held.lengths[0] = 0;
        assert_eq!(media(answer.window, &sent[0], &mut held.lend()).number, 5);
    }

    /// Each way to be spoilt, offered: answered 0 with one spoilt, and nothing has changed.
    #[test]
    fn spoilt_when_it_is_offered() {
        let length = |datagram: &mut Vec<u8>, by: u16| {
            let old = u16::from_be_bytes([datagram[14], datagram[15]]);
            datagram[14..16].copy_from_slice(&(old ^ by).to_be_bytes());
        };
        let mut lies: Vec<Vec<u8>> = Vec::new();
        let (v, held, sent, good) = mixed();
        lies.extend((0..4).map(|_| good.clone()));
        length(&mut lies[0], 188); // zero
        length(&mut lies[1], 188 ^ 189); // not in units
        length(&mut lies[2], 188 ^ 752); // above the payload
        lies[3][28 + 563] ^= 1; // a byte past it
        lies.push(good[..28 + 376].to_vec()); // the others are longer than the parity: the last unit of packet 1 is left over
        for lie in lies {
            let (_, mut store, ..) = mixed();
            store.media[..752].fill(0x77);
            store.timestamps[0] = 5;
            store.lengths[0] = 6;
            let answer = row(v, &lie, &mut store.lend());
            assert_eq!((answer.number, answer.count, answer.spoilt, answer.window), (0, 0, 1, v));
            assert!(store.media[..752].iter().all(|&byte| byte == 0x77));
            assert_eq!((store.timestamps[0], store.lengths[0], store.marks[0]), (5, 6, 0));
            assert_eq!((&store.media[752..], &store.records, &store.parity), (&held.media[752..], &held.records, &held.parity));
        }
        // Longer than the longest, with zeros: that is no lie about the packet.
        let (_, mut store, ..) = mixed();
        let mut longer = good;
        longer.extend([0; 188]);
        let answer = row(v, &longer, &mut store.lend());
        assert_eq!((answer.number, answer.count, answer.spoilt, store.lengths[0]), (0, 1, 0, 188));
        assert_eq!(store.media[..188], sent[0][12..]);
    }

    /// In hand: the spoilt one is released, and the next one that is ready has its turn.
    #[test]
    fn spoilt_in_hand() {
        let (v, mut held, sent, good) = mixed();
        let w = open(v, &mut held.lend()).window;
        let mut lie = good.clone();
        lie[28] ^= 1;
        lie[15] ^= 188;
        // A column that lies, over 0, 4, 8 and 12, and the row over 0 to 3.
        let mut column_parity = lie.clone();
        column_parity[24..27].copy_from_slice(&[0, 4, 4]);
        let mut v = column(w, &column_parity, &mut held.lend()).window;
        v = row(v, &good, &mut held.lend()).window;
        for i in [4u16, 8, 12] {
            v = media(v, &packet(i, 3, 188), &mut held.lend()).window;
            assert_eq!(v.in_use, if i == 12 { 1 } else { 2 });
        }
        assert_eq!((v.present, held.records[0], held.marks[0]), (3, Record::default(), 0));
        for packet in &sent[1..] {
            v = media(v, packet, &mut held.lend()).window;
        }
        assert_eq!((v.present, v.in_use, held.lengths[0]), (7, 0, 188));
    }

    #[test]
    fn kept_lengths_out_of_order() {
        let (v, mut held, sent, good) = mixed();
        let w = open(v, &mut held.lend()).window;
        let v = row(w, &good, &mut held.lend()).window;
        let v = media(v, &sent[1], &mut held.lend()).window;
        let number = |held: &mut Held| read(v, 1, &held.lend(), &mut [0; 764]).number;
        for bad in [0, 1, 187, 189, 204, 940, 65_535] {
            let kept = std::mem::replace(&mut held.lengths[1], bad);
            assert_eq!(number(&mut held), 5);
            held.lengths[1] = kept;
            let kept = std::mem::replace(&mut held.records[0].payload_length, bad);
            assert_eq!(number(&mut held), 5);
            held.records[0].payload_length = kept;
            // Of a missing position, of a free record, and of the length recovery nothing is asked.
            held.lengths[2] = bad;
            held.records[1].payload_length = bad;
            held.records[0].length_recovery = bad;
            assert_eq!(number(&mut held), 0);
        }
    }

    /// The packets of a window at the wrap, of one to four units each, with their window. Position 9 has old bytes past its length.
    fn whole(k: u64) -> (Window, Held, Vec<Vec<u8>>) {
        let sent: Vec<Vec<u8>> =
            (0..20u16).map(|i| packet(65_530u16.wrapping_add(i), 1001 * u32::from(i) + 5, 188 * (1 + usize::from(i * i) % 3))).collect();
        let mut held = Held::new(20, k as usize, 752);
        let mut w = open(asked(65_530, 4, 4, 752, 20, k), &mut held.lend()).window;
        for packet in &sent {
            w = media(w, packet, &mut held.lend()).window;
        }
        assert_eq!((w.present, held.lengths[9]), (20, 188));
        held.media[9 * 752 + 188..10 * 752].fill(0x5C);
        (w, held, sent)
    }

    /// The exclusive-or of what was sent at these positions, put together by hand.
    fn true_parity(sent: &[Vec<u8>], stream: u8, first: usize) -> Vec<u8> {
        let step = if stream == COLUMN { 4 } else { 1 };
        let members: Vec<&Vec<u8>> = (0..4).map(|j| &sent[first + j * step]).collect();
        let longest = members.iter().map(|member| member.len()).max().unwrap() - 12;
        let mut bytes = vec![0x80, 96, 1, 2, 3, 4, 5, 6, 7, 8, 9, 10];
        bytes.extend(&members[0][2..4]);
        bytes.extend([0, 0, 0x80, 0, 0, 0, 0, 0, 0, 0, stream << 6, step as u8, 4, 0]);
        bytes.resize(28 + longest, 0);
        for member in members {
            let length = (member.len() as u16 - 12).to_be_bytes();
            xor_into(&mut bytes[14..16], &length);
            xor_into(&mut bytes[20..24], &member[4..8]);
            xor_into(&mut bytes[28..], &member[12..]);
        }
        bytes
    }

    /// Every group of the window, as (stream, first position).
    fn all_groups() -> impl Iterator<Item = (u8, usize)> {
        (0..8).map(|first| (COLUMN, first)).chain((0..17).map(|first| (ROW, first)))
    }

    /// Offers a packet that may alter nothing, and answers the number.
    fn unmoved(w: Window, stream: u8, datagram: &[u8], held: &mut Held) -> u32 {
        let (marks, timestamps, lengths) = (held.marks.clone(), held.timestamps.clone(), held.lengths.clone());
        let (bytes, parity_bytes, records) = (held.media.clone(), held.parity.clone(), held.records.clone());
        let answer = parity(w, stream, datagram, &mut held.lend());
        assert_eq!((answer.count, answer.spoilt, answer.window), (0, 0, w));
        assert_eq!((&held.marks, &held.timestamps, &held.lengths), (&marks, &timestamps, &lengths));
        assert!(held.media == bytes && held.parity == parity_bytes && held.records == records);
        answer.number
    }

    /// On a group that is wholly present a true packet is taken and one with a bit changed is not, whatever field it is in.
    #[test]
    fn a_lie_in_each_field() {
        let (w, mut held, sent) = whole(3);
        for (stream, first) in all_groups() {
            let good = true_parity(&sent, stream, first);
            assert_eq!(unmoved(w, stream, &good, &mut held), 0);
            let last = good.len() - 1;
            for (from, to, number) in [(14, 16, 18), (20, 24, 18), (28, 29, 18), (last, last + 1, 18), (16, 17, 11), (2, 12, 0)] {
                for bit in 8 * from..8 * to {
                    let mut lie = good.clone();
                    lie[bit / 8] ^= 1 << (bit % 8);
                    // The top bit of byte 16 is E.
                    let number = if bit == 16 * 8 + 7 { 10 } else { number };
                    assert_eq!(unmoved(w, stream, &lie, &mut held), number, "bit {bit} of the group at {first}");
                }
            }
        }
    }

    /// The payload is as long as the longest of the group: neither longer by zeros, nor shorter by them.
    #[test]
    fn a_lie_of_the_length() {
        let (w, mut held, sent) = whole(3);
        for (stream, first) in all_groups() {
            let mut longer = true_parity(&sent, stream, first);
            longer.extend([0; 188]);
            assert_eq!(unmoved(w, stream, &longer, &mut held), 18);
            longer[28..].fill(0);
            assert_eq!(unmoved(w, stream, &longer, &mut held), 18);
        }
        // Two that are the longest end in the same unit, so that the cut bytes are zeros.
        let mut sent: Vec<Vec<u8>> = sent;
        sent[3].truncate(200);
        sent[3].resize(12 + 752, 0x42);
        sent[2].resize(12 + 752, 0x42);
        let mut held = Held::new(20, 3, 752);
        let mut w = open(w, &mut held.lend()).window;
        for packet in &sent {
            w = media(w, packet, &mut held.lend()).window;
        }
        let good = true_parity(&sent, ROW, 0);
        assert!(good.len() == 28 + 752 && good[28 + 564..].iter().all(|&byte| byte == 0));
        assert_eq!(unmoved(w, ROW, &good, &mut held), 0);
        assert_eq!(unmoved(w, ROW, &good[..28 + 564], &mut held), 18);
        // Not in units is 9, whatever else.
        assert_eq!(unmoved(w, ROW, &good[..28 + 563], &mut held), 9);
    }

    /// With one missing nothing is compared: it is rebuilt as the lie has it, and then a true packet over it meets 18, the lie is taken,
    /// and the packet itself meets 15.
    #[test]
    fn after_one_lie() {
        let (_, _, sent) = whole(3);
        let mut held = Held::new(20, 3, 752);
        let mut w = open(asked(65_530, 4, 4, 752, 20, 3), &mut held.lend()).window;
        for packet in sent.iter().take(6).chain(&sent[7..]) {
            w = media(w, packet, &mut held.lend()).window;
        }
        let mut lie = true_parity(&sent, ROW, 5);
        lie[28] ^= 0x10;
        let answer = row(w, &lie, &mut held.lend());
        assert_eq!((answer.number, answer.count, answer.spoilt, answer.window.present), (0, 1, 0, 20));
        let w = answer.window;
        assert_eq!(held.media[6 * 752], sent[6][12] ^ 0x10);
        for (stream, first) in [(COLUMN, 2), (COLUMN, 6), (ROW, 3), (ROW, 4), (ROW, 5), (ROW, 6)] {
            assert_eq!(unmoved(w, stream, &true_parity(&sent, stream, first), &mut held), 18);
        }
        assert_eq!(unmoved(w, ROW, &true_parity(&sent, ROW, 7), &mut held), 0);
        assert_eq!(unmoved(w, ROW, &lie, &mut held), 0);
        assert_eq!(media(w, &sent[6], &mut held.lend()).number, 15);
    }

    /// The order of the refusals: 13 and those before it come first, and a full table is not asked where the group is whole.
    #[test]
    fn lies_and_a_full_table() {
        let (_, _, sent) = whole(1);
        let mut held = Held::new(20, 1, 752);
        let mut w = open(asked(65_530, 4, 4, 752, 20, 1), &mut held.lend()).window;
        for packet in &sent[..14] {
            w = media(w, packet, &mut held.lend()).window;
        }
        // Positions 14 to 19 are missing. The row at 13 lies and is held unread.
        let mut lie = true_parity(&sent, ROW, 13);
        lie[28] ^= 1;
        w = row(w, &lie, &mut held.lend()).window;
        assert_eq!((w.present, w.in_use), (14, 1));
        assert_eq!(unmoved(w, ROW, &lie, &mut held), 14);
        assert_eq!(unmoved(w, ROW, &true_parity(&sent, ROW, 13), &mut held), 15);
        assert_eq!(unmoved(w, ROW, &true_parity(&sent, ROW, 14), &mut held), 16);
        let mut whole_and_lying = true_parity(&sent, ROW, 10);
        assert_eq!(unmoved(w, ROW, &whole_and_lying, &mut held), 0);
        whole_and_lying[20] ^= 1;
        assert_eq!(unmoved(w, ROW, &whole_and_lying, &mut held), 18);
        // Its SNBase before the base, and NA of another profile.
        whole_and_lying[12..14].copy_from_slice(&65_529u16.to_be_bytes());
        assert_eq!(unmoved(w, ROW, &whole_and_lying, &mut held), 13);
        whole_and_lying[26] = 6;
        assert_eq!(unmoved(w, ROW, &whole_and_lying, &mut held), 12);
        // One missing: rebuilt unread, also with all records in use.
        let mut one = true_parity(&sent, ROW, 11);
        one[20] ^= 1;
        let answer = row(w, &one, &mut held.lend());
        assert_eq!((answer.number, answer.count, answer.window.in_use), (0, 1, 1));
    }

    /// Two rows in hand, of which the second lies. The first rebuilds what both lack, and the second is released unread.
    #[test]
    fn parity_in_hand_is_not_compared() {
        let (w, mut held, sent) = whole(2);
        let mut w = open(w, &mut held.lend()).window;
        for i in (0..20).filter(|i| ![3, 4].contains(i)) {
            w = media(w, &sent[i], &mut held.lend()).window;
        }
        let mut lie = true_parity(&sent, ROW, 2);
        lie[28] ^= 1;
        for datagram in [&true_parity(&sent, ROW, 1), &lie] {
            w = row(w, datagram, &mut held.lend()).window;
        }
        assert_eq!((w.present, w.in_use), (18, 2));
        let answer = media(w, &sent[3], &mut held.lend());
        assert_eq!((answer.number, answer.count, answer.spoilt), (0, 1, 0));
        assert_eq!((answer.window.present, answer.window.in_use, &held.parity), (20, 0, &vec![0; 2 * 752]));
        assert_eq!(unmoved(answer.window, ROW, &lie, &mut held), 18);
        assert_eq!(unmoved(answer.window, ROW, &true_parity(&sent, ROW, 2), &mut held), 0);
    }
}
