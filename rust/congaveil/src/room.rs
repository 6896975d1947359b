#[cfg(feature = "std")]
use crate::{SenderSetUp, PARITY_HEADER};
#[cfg(feature = "std")]
use std::{vec, vec::Vec};

/// How many elements a sender of L columns needs in each part of its room, 2 × L + 1; of the payloads so many times P bytes.
#[must_use]
pub const fn room_for(l: usize) -> usize {
    l.saturating_mul(2).saturating_add(1)
}

/// A room that is lent: [`room_for`] L payloads of P bytes, as many timestamps, lengths and longest lengths, and two outputs of 28 + P
/// bytes; or more.
#[derive(Debug)]
pub struct LentRoom<'a> {
    /// The exclusive-or of the payloads of a group so far.
    pub payloads: &'a mut [u8],
    /// That of its timestamps.
    pub timestamps: &'a mut [u32],
    /// That of its payload lengths.
    pub lengths: &'a mut [u16],
    /// The longest payload of the group so far.
    pub longest: &'a mut [u16],
    /// Where row packets are written.
    pub row: &'a mut [u8],
    /// Where column packets are written.
    pub column: &'a mut [u8],
}

/// A room of its own.
#[cfg(feature = "std")]
#[derive(Clone, Debug, Default, PartialEq, Eq)]
pub struct OwnedRoom {
    payloads: Vec<u8>,
    timestamps: Vec<u32>,
    lengths: Vec<u16>,
    longest: Vec<u16>,
    row: Vec<u8>,
    column: Vec<u8>,
}

#[cfg(feature = "std")]
impl OwnedRoom {
    /// As much as a sender of this set-up needs, which is permitted: at most 41 × 1,428 bytes and two outputs.
    pub(crate) fn of(set_up: &SenderSetUp) -> Self {
        let (n, p) = (room_for(set_up.l), set_up.payload);
        OwnedRoom {
            payloads: vec![0; n * p],
            timestamps: vec![0; n],
            lengths: vec![0; n],
            longest: vec![0; n],
            row: vec![0; PARITY_HEADER + p],
            column: vec![0; PARITY_HEADER + p],
        }
    }
}

mod sealed {
    pub trait Sealed {}
    #[cfg(feature = "std")]
    impl Sealed for super::OwnedRoom {}
    impl Sealed for super::LentRoom<'_> {}
}

/// What a sender is kept in. Only `OwnedRoom` and [`LentRoom`] are rooms: a sender counts on the same parts at every call.
pub trait Room: sealed::Sealed {
    #[doc(hidden)]
    fn lent(&mut self) -> LentRoom<'_>;
}

#[cfg(feature = "std")]
impl Room for OwnedRoom {
    fn lent(&mut self) -> LentRoom<'_> {
        LentRoom {
            payloads: &mut self.payloads,
            timestamps: &mut self.timestamps,
            lengths: &mut self.lengths,
            longest: &mut self.longest,
            row: &mut self.row,
            column: &mut self.column,
        }
    }
}

impl Room for LentRoom<'_> {
    fn lent(&mut self) -> LentRoom<'_> {
        LentRoom {
            payloads: self.payloads,
            timestamps: self.timestamps,
            lengths: self.lengths,
            longest: self.longest,
            row: self.row,
            column: self.column,
        }
    }
}
