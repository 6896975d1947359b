//! The library's C face, as include/congaveil.h declares it, and thin safe wrappers around the fourteen calls.

use crate::capture::Content;
use crate::model::{Answer, Record, Stamp, Window};
use crate::sender::{Room, Sent, Value};

#[repr(C)]
#[derive(Clone, Copy)]
struct CWindow {
    base: u16,
    ssrc: u32,
    l: usize,
    d: usize,
    p: usize,
    n: usize,
    k: usize,
    present: usize,
    in_use: usize,
}

#[repr(C)]
struct CRecord {
    stream: u8,
    in_use: u8,
    snbase: u16,
    timestamp_recovery: u32,
    length_recovery: u16,
    payload_length: u16,
}

#[repr(C)]
struct CAnswer {
    number: u32,
    count: usize,
    spoilt: usize,
    window: CWindow,
}

/// What the header of a capture file says.
#[repr(C)]
#[derive(Clone, Copy, Debug, Default, PartialEq, Eq)]
pub struct Header {
    pub number: u32,
    pub base: u16,
    pub count: usize,
    pub l: usize,
    pub d: usize,
    pub p: usize,
    pub n: usize,
    pub k: usize,
}

/// A line of its table of contents.
#[repr(C)]
#[derive(Clone, Copy, Debug, Default, PartialEq, Eq)]
pub struct Entry {
    pub number: u32,
    pub port: u8,
    pub start: usize,
    pub length: usize,
}

/// Where the reading of a file stands. All zeros at the start.
#[repr(C)]
#[derive(Clone, Copy, Debug, Default, PartialEq, Eq)]
pub struct Reader {
    pub stage: u32,
    pub left: u32,
    pub next: u32,
    pub sum: u32,
    pub at: u32,
    pub size: u32,
}

/// The stage of a reader that refuses whatever follows.
pub const REFUSED: u32 = 3;

#[repr(C)]
#[derive(Clone, Copy, Debug)]
pub struct Reading {
    pub number: u32,
    pub reader: Reader,
}

#[repr(C)]
#[derive(Clone, Copy, Debug, PartialEq, Eq)]
pub struct Written {
    pub number: u32,
    pub count: usize,
}

#[repr(C)]
#[derive(Clone, Copy)]
struct CSender {
    first: u16,
    taken: u16,
    arrangement: u8,
    l: usize,
    d: usize,
    p: usize,
    at: usize,
}

/// What a parity packet takes from the caller.
#[repr(C)]
struct COuter {
    sequence: u16,
    timestamp: u32,
    ssrc: u32,
}

#[repr(C)]
struct CSent {
    number: u32,
    row: usize,
    column: usize,
    sender: CSender,
}

/// A record as the bytes it is lent in.
#[repr(C, align(4))]
#[derive(Clone, Copy, Debug, PartialEq, Eq)]
pub struct RawRecord(pub [u8; RECORD]);

/// The bytes of a record.
pub const RECORD: usize = 12;

// C's order and no gap: the fields stand at 0, 1, 2, 4, 8 and 10.
const _: () = assert!(std::mem::size_of::<CRecord>() == RECORD && std::mem::align_of::<CRecord>() == 4);
const _: () = assert!(std::mem::size_of::<RawRecord>() == RECORD && std::mem::size_of::<CAnswer>() == 88);
const _: () = assert!(std::mem::size_of::<Header>() == 56 && std::mem::size_of::<Entry>() == 24);
const _: () = assert!(std::mem::size_of::<Reader>() == 24 && std::mem::size_of::<Reading>() == 28 && std::mem::size_of::<Written>() == 16);
const _: () = assert!(std::mem::size_of::<CSender>() == 40 && std::mem::size_of::<COuter>() == 12 && std::mem::size_of::<CSent>() == 64);

impl RawRecord {
    pub fn set(&mut self, record: Record) {
        self.0[0] = record.stream;
        self.0[1] = record.in_use;
        self.0[2..4].copy_from_slice(&record.snbase.to_ne_bytes());
        self.0[4..8].copy_from_slice(&record.timestamp_recovery.to_ne_bytes());
        self.0[8..10].copy_from_slice(&record.length_recovery.to_ne_bytes());
        self.0[10..12].copy_from_slice(&record.payload_length.to_ne_bytes());
    }

    pub fn get(&self) -> Record {
        let b = &self.0;
        Record {
            stream: b[0],
            in_use: b[1],
            snbase: u16::from_ne_bytes([b[2], b[3]]),
            timestamp_recovery: u32::from_ne_bytes([b[4], b[5], b[6], b[7]]),
            length_recovery: u16::from_ne_bytes([b[8], b[9]]),
            payload_length: u16::from_ne_bytes([b[10], b[11]]),
        }
    }
}

/// Declares a call with the six parts of the store between what comes before and what comes after.
macro_rules! declare {
    ($name:ident, [$($before:ident: $b:ty),*], $bytes:ty, $words:ty, $halves:ty, $records:ty, [$($after:ident: $a:ty),*]) => {
        extern "C" {
            fn $name(
                $($before: $b,)*
                media: $bytes, media_len: usize, timestamps: $words, timestamps_len: usize,
                lengths: $halves, lengths_len: usize, marks: $bytes, marks_len: usize, parity: $bytes, parity_len: usize,
                records: $records, records_len: usize
                $(, $after: $a)*
            ) -> CAnswer;
        }
    };
}

declare!(cgv_open, [base: u16, l: usize, d: usize, p: usize, n: usize, k: usize, ssrc: u32], *mut u8, *mut u32, *mut u16, *mut CRecord, []);
declare!(cgv_media, [w: CWindow, datagram: *const u8, len: usize], *mut u8, *mut u32, *mut u16, *mut CRecord, []);
declare!(cgv_column, [w: CWindow, datagram: *const u8, len: usize], *mut u8, *mut u32, *mut u16, *mut CRecord, []);
declare!(cgv_row, [w: CWindow, datagram: *const u8, len: usize], *mut u8, *mut u32, *mut u16, *mut CRecord, []);
declare!(cgv_read, [w: CWindow, number: u16], *const u8, *const u32, *const u16, *const CRecord, [out: *mut u8, out_len: usize]);
declare!(
    cgv_write_column,
    [w: CWindow, snbase: u16, sequence: u16, timestamp: u32, ssrc: u32],
    *const u8,
    *const u32,
    *const u16,
    *const CRecord,
    [out: *mut u8, out_len: usize]
);
declare!(
    cgv_write_row,
    [w: CWindow, snbase: u16, sequence: u16, timestamp: u32, ssrc: u32],
    *const u8,
    *const u32,
    *const u16,
    *const CRecord,
    [out: *mut u8, out_len: usize]
);

declare!(
    cgv_move,
    [w: CWindow, by: usize],
    *mut u8,
    *mut u32,
    *mut u16,
    *mut CRecord,
    [out: *mut u8, out_len: usize, sizes: *mut u16, sizes_len: usize]
);

extern "C" {
    fn cgv_capture_read(r: Reader, piece: *const u8, len: usize) -> Reading;
    fn cgv_capture_header(front: *const u8, len: usize) -> Header;
    fn cgv_capture_entry(front: *const u8, len: usize, i: usize) -> Entry;
    fn cgv_capture_write(
        base: u16,
        l: usize,
        d: usize,
        p: usize,
        n: usize,
        k: usize,
        ports: *const u8,
        ports_len: usize,
        lengths: *const u16,
        lengths_len: usize,
        bodies: *const u8,
        bodies_len: usize,
        out: *mut u8,
        out_len: usize,
    ) -> Written;
    fn cgv_sender_open(
        first: u16,
        arrangement: u8,
        l: usize,
        d: usize,
        p: usize,
        payloads: *mut u8,
        payloads_len: usize,
        timestamps: *mut u32,
        timestamps_len: usize,
        lengths: *mut u16,
        lengths_len: usize,
        longest: *mut u16,
        longest_len: usize,
    ) -> CSent;
    fn cgv_sender_media(
        s: CSender,
        datagram: *const u8,
        len: usize,
        row: COuter,
        column: COuter,
        payloads: *mut u8,
        payloads_len: usize,
        timestamps: *mut u32,
        timestamps_len: usize,
        lengths: *mut u16,
        lengths_len: usize,
        longest: *mut u16,
        longest_len: usize,
        row_out: *mut u8,
        row_out_len: usize,
        column_out: *mut u8,
        column_out_len: usize,
    ) -> CSent;
}

/// The lent store. A slice's pointer is valid and not null also where it is empty.
pub struct Lent<'a> {
    pub media: &'a mut [u8],
    pub timestamps: &'a mut [u32],
    pub lengths: &'a mut [u16],
    pub marks: &'a mut [u8],
    pub parity: &'a mut [u8],
    pub records: &'a mut [RawRecord],
}

fn to_c(w: &Window) -> CWindow {
    CWindow {
        base: w.base,
        ssrc: w.ssrc,
        l: w.l as usize,
        d: w.d as usize,
        p: w.p as usize,
        n: w.n as usize,
        k: w.k as usize,
        present: w.present as usize,
        in_use: w.in_use as usize,
    }
}

fn from_c(answer: CAnswer) -> Answer {
    let w = answer.window;
    Answer {
        number: answer.number,
        count: answer.count as u64,
        spoilt: answer.spoilt as u64,
        window: Window {
            base: w.base,
            ssrc: w.ssrc,
            l: w.l as u64,
            d: w.d as u64,
            p: w.p as u64,
            n: w.n as u64,
            k: w.k as u64,
            present: w.present as u64,
            in_use: w.in_use as u64,
        },
    }
}

/// Calls with the six parts. Pointers and lengths come from slices that are borrowed for the call and do not overlap.
macro_rules! with_store {
    ($name:ident, [$($before:expr),*], $s:expr, mut $(, $after:expr)*) => {
        from_c(unsafe {
            $name($($before,)* $s.media.as_mut_ptr(), $s.media.len(), $s.timestamps.as_mut_ptr(), $s.timestamps.len(),
                $s.lengths.as_mut_ptr(), $s.lengths.len(), $s.marks.as_mut_ptr(), $s.marks.len(), $s.parity.as_mut_ptr(), $s.parity.len(),
                $s.records.as_mut_ptr().cast(), $s.records.len() $(, $after)*)
        })
    };
    ($name:ident, [$($before:expr),*], $s:expr, $out:expr) => {
        from_c(unsafe {
            $name($($before,)* $s.media.as_ptr(), $s.media.len(), $s.timestamps.as_ptr(), $s.timestamps.len(),
                $s.lengths.as_ptr(), $s.lengths.len(), $s.marks.as_ptr(), $s.marks.len(), $s.parity.as_ptr(), $s.parity.len(),
                $s.records.as_ptr().cast(), $s.records.len(), $out.as_mut_ptr(), $out.len())
        })
    };
}

/// Opens the window that the value names; its two counts are not passed.
pub fn open(asked: Window, s: &mut Lent) -> Answer {
    let w = to_c(&asked);
    with_store!(cgv_open, [w.base, w.l, w.d, w.p, w.n, w.k, w.ssrc], s, mut)
}

pub fn media(w: Window, datagram: &[u8], s: &mut Lent) -> Answer {
    with_store!(cgv_media, [to_c(&w), datagram.as_ptr(), datagram.len()], s, mut)
}

pub fn column(w: Window, datagram: &[u8], s: &mut Lent) -> Answer {
    with_store!(cgv_column, [to_c(&w), datagram.as_ptr(), datagram.len()], s, mut)
}

pub fn row(w: Window, datagram: &[u8], s: &mut Lent) -> Answer {
    with_store!(cgv_row, [to_c(&w), datagram.as_ptr(), datagram.len()], s, mut)
}

pub fn read(w: Window, number: u16, s: &Lent, out: &mut [u8]) -> Answer {
    with_store!(cgv_read, [to_c(&w), number], s, out)
}

pub fn write_column(w: Window, snbase: u16, stamp: Stamp, s: &Lent, out: &mut [u8]) -> Answer {
    with_store!(cgv_write_column, [to_c(&w), snbase, stamp.sequence, stamp.timestamp, stamp.ssrc], s, out)
}

pub fn write_row(w: Window, snbase: u16, stamp: Stamp, s: &Lent, out: &mut [u8]) -> Answer {
    with_store!(cgv_write_row, [to_c(&w), snbase, stamp.sequence, stamp.timestamp, stamp.ssrc], s, out)
}

/// Advances the base; named so because `move` is a word of Rust's.
pub fn advance(w: Window, by: u64, s: &mut Lent, out: &mut [u8], sizes: &mut [u16]) -> Answer {
    with_store!(cgv_move, [to_c(&w), by as usize], s, mut, out.as_mut_ptr(), out.len(), sizes.as_mut_ptr(), sizes.len())
}

/// A further piece of a capture file.
pub fn capture_read(r: Reader, piece: &[u8]) -> Reading {
    unsafe { cgv_capture_read(r, piece.as_ptr(), piece.len()) }
}

/// The header, from the front of a file.
pub fn capture_header(front: &[u8]) -> Header {
    unsafe { cgv_capture_header(front.as_ptr(), front.len()) }
}

/// Entry i, from the front of a file.
pub fn capture_entry(front: &[u8], i: usize) -> Entry {
    unsafe { cgv_capture_entry(front.as_ptr(), front.len(), i) }
}

pub fn capture_write(c: &Content, out: &mut [u8]) -> Written {
    let w = to_c(&c.asked);
    let (ports, lengths, bodies) = (&c.ports, &c.lengths, &c.bodies);
    unsafe {
        cgv_capture_write(
            w.base,
            w.l,
            w.d,
            w.p,
            w.n,
            w.k,
            ports.as_ptr(),
            ports.len(),
            lengths.as_ptr(),
            lengths.len(),
            bodies.as_ptr(),
            bodies.len(),
            out.as_mut_ptr(),
            out.len(),
        )
    }
}

fn outer(stamp: Stamp) -> COuter {
    COuter { sequence: stamp.sequence, timestamp: stamp.timestamp, ssrc: stamp.ssrc }
}

fn sent(answer: CSent) -> Sent {
    let s = answer.sender;
    let value =
        Value { first: s.first, taken: s.taken, arrangement: s.arrangement, l: s.l as u64, d: s.d as u64, p: s.p as u64, at: s.at as u64 };
    Sent { number: answer.number, row: answer.row as u64, column: answer.column as u64, value }
}

/// Calls with the four parts of a sender's room between what comes before and what comes after.
macro_rules! with_room {
    ($name:ident, [$($before:expr),*], $room:expr, [$($after:expr),*]) => {
        sent(unsafe {
            $name($($before,)* $room.payloads.as_mut_ptr(), $room.payloads.len(), $room.timestamps.as_mut_ptr(), $room.timestamps.len(),
                $room.lengths.as_mut_ptr(), $room.lengths.len(), $room.longest.as_mut_ptr(), $room.longest.len() $(, $after)*)
        })
    };
}

/// Opens the sender that the value names; its two counts are not passed.
pub fn sender_open(asked: Value, room: &mut Room) -> Sent {
    let (l, d, p) = (asked.l as usize, asked.d as usize, asked.p as usize);
    with_room!(cgv_sender_open, [asked.first, asked.arrangement, l, d, p], room, [])
}

/// Offers a packet to a sender. What the caller gives and the outputs: row, then column.
pub fn sender_media(v: Value, datagram: &[u8], room: &mut Room, stamps: [Stamp; 2], outputs: [&mut [u8]; 2]) -> Sent {
    let (first, taken, arrangement) = (v.first, v.taken, v.arrangement);
    let s = CSender { first, taken, arrangement, l: v.l as usize, d: v.d as usize, p: v.p as usize, at: v.at as usize };
    let [row, column] = stamps.map(outer);
    let [row_out, column_out] = outputs;
    with_room!(
        cgv_sender_media,
        [s, datagram.as_ptr(), datagram.len(), row, column],
        room,
        [row_out.as_mut_ptr(), row_out.len(), column_out.as_mut_ptr(), column_out.len()]
    )
}

/// What was lent to a call that may not change it, looked at anew.
pub fn anew<T>(lent: &[T]) -> &[T] {
    unsafe { std::ptr::read_volatile(&lent) }
}

/// A window of the library with a store of its own, for the parts that look at the library alone.
#[derive(Clone)]
pub struct Receiver {
    pub window: Window,
    pub media: Vec<u8>,
    pub timestamps: Vec<u32>,
    pub lengths: Vec<u16>,
    pub marks: Vec<u8>,
    pub parity: Vec<u8>,
    pub records: Vec<RawRecord>,
}

impl Receiver {
    /// Opens a window in a store full of old bytes.
    pub fn open(asked: Window) -> Result<Receiver, String> {
        let (n, k, p) = (asked.n as usize, asked.k as usize, asked.p as usize);
        let mut receiver = Receiver {
            window: asked,
            media: vec![0xA5; n * p],
            timestamps: vec![0xA5A5; n],
            lengths: vec![0xA5A5; n],
            marks: vec![0xA5; n],
            parity: vec![0xA5; k * p],
            records: vec![RawRecord([0xA5; RECORD]); k],
        };
        let answer = open(asked, &mut receiver.lend());
        if answer.number != 0 {
            return Err(format!("opening {asked:?} was refused with {}", answer.number));
        }
        receiver.window = answer.window;
        Ok(receiver)
    }

    fn lend(&mut self) -> Lent<'_> {
        Lent {
            media: &mut self.media,
            timestamps: &mut self.timestamps,
            lengths: &mut self.lengths,
            marks: &mut self.marks,
            parity: &mut self.parity,
            records: &mut self.records,
        }
    }

    /// Offers a datagram on a port: 1 media, 2 column parity, 3 row parity.
    pub fn offer(&mut self, port: u8, datagram: &[u8]) -> Answer {
        let w = self.window;
        let answer = match port {
            1 => media(w, datagram, &mut self.lend()),
            2 => column(w, datagram, &mut self.lend()),
            _ => row(w, datagram, &mut self.lend()),
        };
        self.window = answer.window;
        answer
    }

    /// Advances the base: the packets that left, nothing where one was lost, or what was wrong.
    pub fn advance(&mut self, by: u64) -> Result<Vec<Option<Vec<u8>>>, String> {
        let w = self.window;
        let mut out = vec![0x5A; by as usize * (12 + w.p as usize)];
        let mut sizes = vec![0x5A5A; by as usize];
        let answer = advance(w, by, &mut self.lend(), &mut out, &mut sizes);
        self.window = answer.window;
        if answer.number != 0 || answer.spoilt != 0 || answer.window.base != w.base.wrapping_add(by as u16) {
            return Err(format!("moving by {by} was answered {answer:?}, before it {w:?}"));
        }
        slots(answer.count, &out, &sizes)
    }

    /// A packet as it is read out, or the number of the refusal.
    pub fn read(&mut self, number: u16) -> Result<Vec<u8>, u32> {
        let w = self.window;
        let mut out = vec![0x5A; 12 + w.p as usize];
        let answer = read(w, number, &self.lend(), &mut out);
        written(answer, out)
    }

    /// The parity packet of a group, on port 2 or 3, or the number of the refusal.
    pub fn write(&mut self, port: u8, snbase: u16, stamp: Stamp) -> Result<Vec<u8>, u32> {
        let w = self.window;
        let mut out = vec![0x5A; 28 + w.p as usize];
        let answer = match port {
            2 => write_column(w, snbase, stamp, &self.lend(), &mut out),
            _ => write_row(w, snbase, stamp, &self.lend(), &mut out),
        };
        written(answer, out)
    }
}

/// The packets that left, each with the length given for it, and nothing where it is 0. In a slot, zeros follow the packet.
fn slots(count: u64, out: &[u8], sizes: &[u16]) -> Result<Vec<Option<Vec<u8>>>, String> {
    let slot = out.len() / sizes.len();
    let mut packets = Vec::new();
    for (bytes, &size) in out.chunks(slot).zip(sizes) {
        let (packet, rest) = bytes.split_at(usize::from(size).min(slot));
        if usize::from(size) > slot || rest.iter().any(|&byte| byte != 0) {
            return Err(format!("slot {} has size {size}, or bytes past it", packets.len()));
        }
        packets.push(if size == 0 { None } else { Some(packet.to_vec()) });
    }
    if count != packets.iter().flatten().count() as u64 {
        return Err(format!("{count} packets are counted, and the slots have others"));
    }
    Ok(packets)
}

/// As many bytes as the answer says. Past them the output is as it was, or more is given than any packet has.
fn written(answer: Answer, mut out: Vec<u8>) -> Result<Vec<u8>, u32> {
    if answer.number != 0 {
        return Err(answer.number);
    }
    let count = answer.count as usize;
    if count <= out.len() && out[count..].iter().all(|&byte| byte == 0x5A) {
        out.truncate(count);
    } else {
        out.push(0);
    }
    Ok(out)
}
