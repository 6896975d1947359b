//! Capture files: what a card saw, to be replayed elsewhere. A file has the set-up of a window, and up to 512 datagrams in the
//! order in which they came, each with its port. `include/congaveil.h` draws it; one content has one file.
//!
//! ```
//! # #[cfg(feature = "std")]
//! # fn main() -> Result<(), congaveil::Refusal> {
//! use congaveil::capture::{self, Capture, Port};
//! use congaveil::{Receiver, Refusal, SetUp};
//!
//! // Saving: what came in, and on which port.
//! let set_up = SetUp { base: 65_530, l: 4, d: 4, payload: 188, positions: 16, records: 8, ssrc: 0 };
//! let file = capture::to_vec(&set_up, [(Port::Media, &[0xab, 0xcd][..])])?;
//!
//! // Replaying a file that is in memory.
//! let capture = Capture::read(&file)?;
//! let mut receiver = Receiver::open(capture.set_up())?;
//! for (port, datagram) in capture.entries() {
//!     let answer = match port {
//!         Port::Media => receiver.media(datagram),
//!         Port::Column => receiver.column(datagram),
//!         Port::Row => receiver.row(datagram),
//!     };
//!     assert_eq!(answer, Err(Refusal::ShortDatagram));
//! }
//!
//! // Judging a file that comes in pieces, cut anywhere.
//! let mut reader = capture::Reader::new();
//! for piece in file.chunks(5) {
//!     reader.read(piece);
//! }
//! assert!(reader.whole());
//! # Ok(())
//! # }
//! # #[cfg(not(feature = "std"))]
//! # fn main() {}
//! ```
use crate::{face, Refusal, SetUp};
#[cfg(feature = "std")]
use std::{vec, vec::Vec};

/// The most entries that a file may have.
pub const ENTRIES_MAX: usize = 512;
/// The most bytes that the body of an entry may have.
pub const BODY_MAX: usize = 1500;
/// The bytes of a header.
pub const HEADER: usize = 12;
/// The bytes of an entry in the table.
pub const LINE: usize = 8;
/// The bytes of header and table at most: what [`header`] and [`entry`] need of a file.
pub const FRONT_MAX: usize = HEADER + ENTRIES_MAX * LINE;
/// The bytes of a file at most.
pub const FILE_MAX: usize = FRONT_MAX + ENTRIES_MAX * BODY_MAX;

/// Where a datagram came in.
#[derive(Clone, Copy, Debug, PartialEq, Eq, Hash)]
#[repr(u8)]
pub enum Port {
    /// The media port.
    Media = 1,
    /// The column parity port, two ports higher.
    Column = 2,
    /// The row parity port, four ports higher.
    Row = 3,
}

/// What the header of a file says.
#[derive(Clone, Copy, Debug, PartialEq, Eq)]
pub struct Header {
    /// How many entries there are.
    pub entries: usize,
    /// The window to replay it in, which an opening has yet to judge. A file has no SSRC: it is 0.
    pub set_up: SetUp,
}

/// A line of the table: an entry's port, and where its body lies.
#[derive(Clone, Copy, Debug, PartialEq, Eq)]
pub struct Entry {
    /// Where it came in.
    pub port: Port,
    /// Where its body starts, counted from the file's first byte.
    pub start: usize,
    /// The bytes of its body.
    pub length: usize,
}

/// The header of a file, from its first 12 bytes or more. Nothing but the count is judged.
///
/// # Errors
///
/// Refusal 21, where there are fewer bytes or more than 512 entries.
pub fn header(front: &[u8]) -> Result<Header, Refusal> {
    // SAFETY: the front is a borrowed slice, so valid for its length until it returns.
    let face::Capture { number, base, count, l, d, p, n, k } = unsafe { face::cgv_capture_header(front.as_ptr(), front.len()) };
    let set_up = SetUp { base, l, d, payload: p, positions: n, records: k, ssrc: 0 };
    Refusal::check(number, Header { entries: count, set_up })
}

/// An entry, counted from 0, from the first bytes of a file up to the end of the entry's line or further. It is right in a file that
/// a [`Reader`] found whole; in another one start and length may be anything.
///
/// # Errors
///
/// Refusal 21, where the header is refused, the file has no such entry, the front ends before its line does, or its port is none.
pub fn entry(front: &[u8], index: usize) -> Result<Entry, Refusal> {
    // SAFETY: as in `header`.
    let face::Entry { number, port, start, length } = unsafe { face::cgv_capture_entry(front.as_ptr(), front.len(), index) };
    let port = match Refusal::check(number, port)? {
        1 => Port::Media,
        2 => Port::Column,
        3 => Port::Row,
        _ => return Err(Refusal::BadCapture),
    };
    Ok(Entry { port, start, length })
}

/// The reading of a file in pieces, cut anywhere, that judges whether it is a proper one.
#[derive(Clone, Copy, Debug, Default, PartialEq, Eq)]
pub struct Reader {
    whole: bool,
    at: face::Reader,
}

impl Reader {
    /// A reader that has read nothing.
    #[must_use]
    pub fn new() -> Self {
        Reader::default()
    }

    /// Reads on.
    pub fn read(&mut self, piece: &[u8]) {
        // SAFETY: as in `header`.
        let reading = unsafe { face::cgv_capture_read(self.at, piece.as_ptr(), piece.len()) };
        *self = Reader { whole: reading.number == 0, at: reading.reader };
    }

    /// Whether all that was read up to now is a whole file.
    #[must_use]
    pub fn whole(&self) -> bool {
        self.whole
    }

    /// Whether what was read cannot be the start of a file: no further piece helps.
    #[must_use]
    pub fn refused(&self) -> bool {
        self.at.stage == face::REFUSED
    }
}

/// A whole file in memory.
#[derive(Clone, Copy, Debug, PartialEq, Eq)]
pub struct Capture<'a> {
    file: &'a [u8],
    header: Header,
}

impl<'a> Capture<'a> {
    /// Judges a file.
    ///
    /// # Errors
    ///
    /// Refusal 21, where it is not a proper one.
    pub fn read(file: &'a [u8]) -> Result<Self, Refusal> {
        let mut reader = Reader::new();
        reader.read(file);
        match reader.whole() {
            true => Ok(Capture { file, header: header(file)? }),
            false => Err(Refusal::BadCapture),
        }
    }

    /// What its header says.
    #[must_use]
    pub fn header(&self) -> &Header {
        &self.header
    }

    /// The window to replay it in, which an opening has yet to judge. A file has no SSRC: it is 0.
    #[must_use]
    pub fn set_up(&self) -> SetUp {
        self.header.set_up
    }

    /// Port and datagram of each entry, in order.
    #[must_use]
    pub fn entries(&self) -> Entries<'a> {
        Entries { file: self.file, next: 0, end: self.header.entries }
    }
}

impl<'a> IntoIterator for &Capture<'a> {
    type Item = (Port, &'a [u8]);
    type IntoIter = Entries<'a>;

    fn into_iter(self) -> Entries<'a> {
        self.entries()
    }
}

/// The entries of a file: [`Capture::entries`].
#[derive(Clone, Debug)]
pub struct Entries<'a> {
    file: &'a [u8],
    next: usize,
    end: usize,
}

impl<'a> Iterator for Entries<'a> {
    type Item = (Port, &'a [u8]);

    fn next(&mut self) -> Option<Self::Item> {
        if self.next >= self.end {
            return None;
        }
        let Entry { port, start, length } = entry(self.file, self.next).ok()?;
        self.next = self.next.wrapping_add(1);
        Some((port, self.file.get(start..start.checked_add(length)?)?))
    }

    fn size_hint(&self) -> (usize, Option<usize>) {
        let left = self.end.saturating_sub(self.next);
        (left, Some(left))
    }
}

impl ExactSizeIterator for Entries<'_> {}

/// Writes a file: entry i has the i-th port and, as its body, the next of the bodies' bytes, as many as the i-th length says. Answers
/// how many bytes; the rest of the output stays as it is. A file has no SSRC: that of the set-up is left out.
///
/// # Errors
///
/// Refusal 21 for what is not the content of a file: ports and lengths of different number, or more than 512; a length above 1,500;
/// bodies longer or shorter than the lengths together; L or D above 255; P, n or K above 65,535. Then 4 for an output that is too
/// short. Nothing is written then.
pub fn write(set_up: &SetUp, ports: &[Port], lengths: &[u16], bodies: &[u8], out: &mut [u8]) -> Result<usize, Refusal> {
    let SetUp { base, l, d, payload: p, positions: n, records: k, ssrc: _ } = *set_up;
    // SAFETY: all are borrowed slices, so valid for their lengths and the output apart from the others, until it returns; a port
    // is a byte.
    let written = unsafe {
        face::cgv_capture_write(
            base,
            l,
            d,
            p,
            n,
            k,
            ports.as_ptr().cast(),
            ports.len(),
            lengths.as_ptr(),
            lengths.len(),
            bodies.as_ptr(),
            bodies.len(),
            out.as_mut_ptr(),
            out.len(),
        )
    };
    Refusal::check(written.number, written.count)
}

/// The file of some entries, each a port and a datagram. A file has no SSRC: that of the set-up is left out.
///
/// # Errors
///
/// Refusal 21 for more than 512 entries, a datagram above 1,500 bytes, L or D above 255, P, n or K above 65,535.
#[cfg(feature = "std")]
pub fn to_vec<'a>(set_up: &SetUp, entries: impl IntoIterator<Item = (Port, &'a [u8])>) -> Result<Vec<u8>, Refusal> {
    let (mut ports, mut lengths, mut bodies) = (Vec::new(), Vec::new(), Vec::new());
    // No more is taken in than the call needs to refuse it.
    for (port, body) in entries.into_iter().take(ENTRIES_MAX + 1) {
        let body = body.get(..=BODY_MAX).unwrap_or(body);
        ports.push(port);
        lengths.push(body.len() as u16);
        bodies.extend(body);
    }
    let mut out = vec![0; HEADER + LINE * ports.len() + bodies.len()];
    write(set_up, &ports, &lengths, &bodies, &mut out)?;
    Ok(out)
}
