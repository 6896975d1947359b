#[cfg(feature = "std")]
use crate::SetUp;
#[cfg(feature = "std")]
use std::{vec, vec::Vec};

/// A parity packet in hand; its payload stands at the same index of the parity part.
#[repr(C)]
#[derive(Clone, Copy, Debug, Default, PartialEq, Eq)]
pub struct Record {
    /// 0 a column, 1 a row.
    pub stream: u8,
    /// 1, or 0 where the record is free.
    pub in_use: u8,
    /// The first number of its group.
    pub snbase: u16,
    /// The exclusive-or of the group's timestamps.
    pub timestamp_recovery: u32,
    /// The exclusive-or of the lengths of the group's payloads.
    pub length_recovery: u16,
    /// The bytes of its own payload.
    pub payload_length: u16,
}

/// A store that is lent: n × P bytes of media, n timestamps, n lengths, n marks, K × P bytes of parity and K records, or more.
#[derive(Debug)]
pub struct Lent<'a> {
    /// The payload of position i stands at i × P, with zeros up to P.
    pub media: &'a mut [u8],
    /// The RTP timestamps of the positions.
    pub timestamps: &'a mut [u32],
    /// The payload bytes of the positions.
    pub lengths: &'a mut [u16],
    /// 1 where the packet of a position is present, 0 where it is missing.
    pub marks: &'a mut [u8],
    /// The payload of record j stands at j × P, with zeros up to P.
    pub parity: &'a mut [u8],
    /// The parity packets in hand.
    pub records: &'a mut [Record],
}

/// The parts of a store, to be read.
#[derive(Clone, Copy, Debug)]
pub struct Shown<'a> {
    pub media: &'a [u8],
    pub timestamps: &'a [u32],
    pub lengths: &'a [u16],
    pub marks: &'a [u8],
    pub parity: &'a [u8],
    pub records: &'a [Record],
}

/// A store of its own.
#[cfg(feature = "std")]
#[derive(Clone, Debug, Default, PartialEq, Eq)]
pub struct Owned {
    media: Vec<u8>,
    timestamps: Vec<u32>,
    lengths: Vec<u16>,
    marks: Vec<u8>,
    parity: Vec<u8>,
    records: Vec<Record>,
}

#[cfg(feature = "std")]
impl Owned {
    /// As much as a window of this set-up needs, which is permitted: at most 400 × 1,428 and 128 × 1,428 bytes.
    pub(crate) fn of(set_up: &SetUp) -> Self {
        let SetUp { payload: p, positions: n, records: k, .. } = *set_up;
        Owned {
            media: vec![0; n * p],
            timestamps: vec![0; n],
            lengths: vec![0; n],
            marks: vec![0; n],
            parity: vec![0; k * p],
            records: vec![Record::default(); k],
        }
    }
}

mod sealed {
    pub trait Sealed {}
    #[cfg(feature = "std")]
    impl Sealed for super::Owned {}
    impl Sealed for super::Lent<'_> {}
}

/// What a receiver is kept in. Only `Owned` and [`Lent`] are stores: a receiver counts on the same parts at every call.
pub trait Store: sealed::Sealed {
    #[doc(hidden)]
    fn lent(&mut self) -> Lent<'_>;
    #[doc(hidden)]
    fn shown(&self) -> Shown<'_>;
}

#[cfg(feature = "std")]
impl Store for Owned {
    fn lent(&mut self) -> Lent<'_> {
        Lent {
            media: &mut self.media,
            timestamps: &mut self.timestamps,
            lengths: &mut self.lengths,
            marks: &mut self.marks,
            parity: &mut self.parity,
            records: &mut self.records,
        }
    }
    fn shown(&self) -> Shown<'_> {
        Shown {
            media: &self.media,
            timestamps: &self.timestamps,
            lengths: &self.lengths,
            marks: &self.marks,
            parity: &self.parity,
            records: &self.records,
        }
    }
}

impl Store for Lent<'_> {
    fn lent(&mut self) -> Lent<'_> {
        Lent {
            media: self.media,
            timestamps: self.timestamps,
            lengths: self.lengths,
            marks: self.marks,
            parity: self.parity,
            records: self.records,
        }
    }
    fn shown(&self) -> Shown<'_> {
        Shown {
            media: self.media,
            timestamps: self.timestamps,
            lengths: self.lengths,
            marks: self.marks,
            parity: self.parity,
            records: self.records,
        }
    }
}
