//! For routing: the numbers of a datagram that was not offered yet.
use crate::{MEDIA_HEADER, PARITY_HEADER};

fn number_at(datagram: &[u8], header: usize, at: usize) -> Option<u16> {
    if datagram.len() < header {
        return None;
    }
    Some(u16::from_be_bytes([*datagram.get(at)?, *datagram.get(at + 1)?]))
}

/// The sequence number of a media datagram, or `None` where it is too short to have one. Nothing else of it is looked at.
#[must_use]
pub fn media_number(datagram: &[u8]) -> Option<u16> {
    number_at(datagram, MEDIA_HEADER, 2)
}

/// The SNBase of a parity datagram, the first number of its group, or `None` where it is too short to have one. Nothing
/// else of it is looked at.
#[must_use]
pub fn parity_snbase(datagram: &[u8]) -> Option<u16> {
    number_at(datagram, PARITY_HEADER, MEDIA_HEADER)
}
