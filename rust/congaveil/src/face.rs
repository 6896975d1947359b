//! The C face, as include/congaveil.h declares it. Every use of it is in `Receiver`, in `Sender` and in `capture`.
use crate::{Outer, Record};
use core::mem::size_of;

/// A window value: what a window was opened with, and how many packets are present and records in use.
#[repr(C)]
#[derive(Clone, Copy, Debug, Default, PartialEq, Eq)]
pub struct Window {
    /// Sequence number of position 0.
    pub base: u16,
    /// The SSRC of packets that are read out.
    pub ssrc: u32,
    /// Columns of the parity matrix.
    pub l: usize,
    /// Rows of the parity matrix.
    pub d: usize,
    /// Payload bytes of a media packet at most.
    pub p: usize,
    /// Positions.
    pub n: usize,
    /// Records: room for parity packets in hand.
    pub k: usize,
    /// Packets present.
    pub present: usize,
    /// Records in use.
    pub in_use: usize,
}

// The layout that the library was compiled for; the order of the fields is the header's.
const _: () = assert!(size_of::<usize>() == 8 && size_of::<Window>() == 64 && size_of::<Record>() == 12 && size_of::<Answer>() == 88);

#[repr(C)]
pub struct Answer {
    pub number: u32,
    pub count: usize,
    pub spoilt: usize,
    pub window: Window,
}

/// A sender value: what a sender was opened with, and where it stands.
#[repr(C)]
#[derive(Clone, Copy, Debug, Default, PartialEq, Eq)]
pub struct SenderValue {
    /// Sequence number of the first media packet.
    pub first: u16,
    /// Media packets taken in, modulo 65,536.
    pub taken: u16,
    /// 0 aligned, any other number staggered.
    pub arrangement: u8,
    /// Columns of the parity matrix.
    pub l: usize,
    /// Rows of the parity matrix.
    pub d: usize,
    /// Payload bytes of a media packet at most.
    pub p: usize,
    /// Where in the arrangement it stands, below 3 × L × D.
    pub at: usize,
}

#[repr(C)]
pub struct Sent {
    pub number: u32,
    pub row: usize,
    pub column: usize,
    pub sender: SenderValue,
}

const _: () = assert!(size_of::<SenderValue>() == 40 && size_of::<Outer>() == 12 && size_of::<Sent>() == 64);

/// What the header of a capture file says.
#[repr(C)]
pub struct Capture {
    pub number: u32,
    pub base: u16,
    pub count: usize,
    pub l: usize,
    pub d: usize,
    pub p: usize,
    pub n: usize,
    pub k: usize,
}

/// An entry of a capture file.
#[repr(C)]
pub struct Entry {
    pub number: u32,
    pub port: u8,
    pub start: usize,
    pub length: usize,
}

/// Where the reading of a capture file stands. It starts from zeros.
#[repr(C)]
#[derive(Clone, Copy, Debug, Default, PartialEq, Eq)]
pub struct Reader {
    pub stage: u32,
    left: u32,
    next: u32,
    sum: u32,
    at: u32,
    size: u32,
}

/// The stage of a reader that no further piece helps.
pub const REFUSED: u32 = 3;

#[repr(C)]
pub struct Reading {
    pub number: u32,
    pub reader: Reader,
}

#[repr(C)]
pub struct Written {
    pub number: u32,
    pub count: usize,
}

const _: () = assert!(
    size_of::<Capture>() == 56
        && size_of::<Entry>() == 24
        && size_of::<Reader>() == 24
        && size_of::<Reading>() == 28
        && size_of::<Written>() == 16
);

/// An offer: window value, datagram, and the store, each part with its length.
pub type Offer = unsafe extern "C" fn(
    w: Window,
    datagram: *const u8,
    len: usize,
    media: *mut u8,
    media_len: usize,
    timestamps: *mut u32,
    timestamps_len: usize,
    lengths: *mut u16,
    lengths_len: usize,
    marks: *mut u8,
    marks_len: usize,
    parity: *mut u8,
    parity_len: usize,
    records: *mut Record,
    records_len: usize,
) -> Answer;

/// Writing parity: window value, SNBase, the caller's header fields, the store, and the output.
pub type Write = unsafe extern "C" fn(
    w: Window,
    snbase: u16,
    sequence: u16,
    timestamp: u32,
    ssrc: u32,
    media: *const u8,
    media_len: usize,
    timestamps: *const u32,
    timestamps_len: usize,
    lengths: *const u16,
    lengths_len: usize,
    marks: *const u8,
    marks_len: usize,
    parity: *const u8,
    parity_len: usize,
    records: *const Record,
    records_len: usize,
    out: *mut u8,
    out_len: usize,
) -> Answer;

macro_rules! offers {
    ($($name:ident),*) => { $(
        pub fn $name(
            w: Window, datagram: *const u8, len: usize,
            media: *mut u8, media_len: usize, timestamps: *mut u32, timestamps_len: usize, lengths: *mut u16, lengths_len: usize,
            marks: *mut u8, marks_len: usize, parity: *mut u8, parity_len: usize, records: *mut Record, records_len: usize,
        ) -> Answer;
    )* };
}

macro_rules! writes {
    ($($name:ident),*) => { $(
        pub fn $name(
            w: Window, snbase: u16, sequence: u16, timestamp: u32, ssrc: u32,
            media: *const u8, media_len: usize, timestamps: *const u32, timestamps_len: usize, lengths: *const u16, lengths_len: usize,
            marks: *const u8, marks_len: usize, parity: *const u8, parity_len: usize, records: *const Record, records_len: usize,
            out: *mut u8, out_len: usize,
        ) -> Answer;
    )* };
}

extern "C" {
    pub fn cgv_open(
        base: u16,
        l: usize,
        d: usize,
        p: usize,
        n: usize,
        k: usize,
        ssrc: u32,
        media: *mut u8,
        media_len: usize,
        timestamps: *mut u32,
        timestamps_len: usize,
        lengths: *mut u16,
        lengths_len: usize,
        marks: *mut u8,
        marks_len: usize,
        parity: *mut u8,
        parity_len: usize,
        records: *mut Record,
        records_len: usize,
    ) -> Answer;

    pub fn cgv_move(
        w: Window,
        by: usize,
        media: *mut u8,
        media_len: usize,
        timestamps: *mut u32,
        timestamps_len: usize,
        lengths: *mut u16,
        lengths_len: usize,
        marks: *mut u8,
        marks_len: usize,
        parity: *mut u8,
        parity_len: usize,
        records: *mut Record,
        records_len: usize,
        out: *mut u8,
        out_len: usize,
        sizes: *mut u16,
        sizes_len: usize,
    ) -> Answer;

    pub fn cgv_read(
        w: Window,
        number: u16,
        media: *const u8,
        media_len: usize,
        timestamps: *const u32,
        timestamps_len: usize,
        lengths: *const u16,
        lengths_len: usize,
        marks: *const u8,
        marks_len: usize,
        parity: *const u8,
        parity_len: usize,
        records: *const Record,
        records_len: usize,
        out: *mut u8,
        out_len: usize,
    ) -> Answer;
}

extern "C" {
    pub fn cgv_sender_open(
        first: u16,
        arrangement: u8,
        l: usize,
        d: usize,
        p: usize,
        payloads: *mut u8,
        payloads_len: usize,
        timestamps: *mut u32,
        timestamps_len: usize,
        lengths: *mut u16,
        lengths_len: usize,
        longest: *mut u16,
        longest_len: usize,
    ) -> Sent;

    pub fn cgv_sender_media(
        s: SenderValue,
        datagram: *const u8,
        len: usize,
        row: Outer,
        column: Outer,
        payloads: *mut u8,
        payloads_len: usize,
        timestamps: *mut u32,
        timestamps_len: usize,
        lengths: *mut u16,
        lengths_len: usize,
        longest: *mut u16,
        longest_len: usize,
        row_out: *mut u8,
        row_out_len: usize,
        column_out: *mut u8,
        column_out_len: usize,
    ) -> Sent;
}

extern "C" {
    pub fn cgv_capture_read(r: Reader, piece: *const u8, len: usize) -> Reading;
    pub fn cgv_capture_header(front: *const u8, len: usize) -> Capture;
    pub fn cgv_capture_entry(front: *const u8, len: usize, i: usize) -> Entry;
    pub fn cgv_capture_write(
        base: u16,
        l: usize,
        d: usize,
        p: usize,
        n: usize,
        k: usize,
        ports: *const u8,
        ports_len: usize,
        lengths: *const u16,
        lengths_len: usize,
        bodies: *const u8,
        bodies_len: usize,
        out: *mut u8,
        out_len: usize,
    ) -> Written;
}

extern "C" {
    offers!(cgv_media, cgv_column, cgv_row);
    writes!(cgv_write_column, cgv_write_row);
}
