use crate::{capture::Port, face, media_number, parity_snbase, Refusal, Store, Window, MEDIA_HEADER};
#[cfg(feature = "std")]
use crate::{Owned, PAYLOAD_MAX};
#[cfg(feature = "std")]
use std::{vec, vec::Vec};

/// A call with the six parts of a store lent between its other arguments: to be written (`as_mut_ptr`) or only read (`as_ptr`).
macro_rules! lend {
    ($call:expr, [$($before:expr),*], $store:expr, $pointer:ident, [$($after:expr),*]) => {
        $call(
            $($before,)*
            $store.media.$pointer(),
            $store.media.len(),
            $store.timestamps.$pointer(),
            $store.timestamps.len(),
            $store.lengths.$pointer(),
            $store.lengths.len(),
            $store.marks.$pointer(),
            $store.marks.len(),
            $store.parity.$pointer(),
            $store.parity.len(),
            $store.records.$pointer(),
            $store.records.len(),
            $($after),*
        )
    };
}

/// What a window is opened with.
#[derive(Clone, Copy, Debug, PartialEq, Eq)]
pub struct SetUp {
    /// Sequence number of position 0: any.
    pub base: u16,
    /// Columns of the parity matrix, 1 to 20. Rows carry parity only where this is 4 or more.
    pub l: usize,
    /// Rows of the parity matrix, 4 to 20; l × d is at most 100.
    pub d: usize,
    /// P, the payload bytes of a media packet at most: 1 to 7 transport packets of 188 or of 204 bytes. A payload is one or more
    /// of these, each packet its own number of them.
    pub payload: usize,
    /// Positions, l × d to 400.
    pub positions: usize,
    /// Room for parity packets in hand, 1 to 128.
    pub records: usize,
    /// The SSRC of packets that are read out.
    pub ssrc: u32,
}

/// The header fields of a parity packet that are the sender's own.
#[repr(C)]
#[derive(Clone, Copy, Debug, Default, PartialEq, Eq)]
pub struct Outer {
    /// The RTP sequence number.
    pub sequence: u16,
    /// The RTP timestamp.
    pub timestamp: u32,
    /// The SSRC of the parity stream.
    pub ssrc: u32,
}

/// What an offer did that was taken in.
#[derive(Clone, Copy, Debug, Default, PartialEq, Eq)]
pub struct Taken {
    /// Packets that were rebuilt.
    pub rebuilt: usize,
    /// Parity packets that were released because the packet that they gave cannot be right: without a byte, not whole transport
    /// packets, longer than the parity, or with bytes past its end. Unaltered traffic never shows one.
    pub spoilt: usize,
}

/// A packet that is present, where it lies in the store.
#[derive(Clone, Copy, Debug, PartialEq, Eq)]
pub struct Packet<'a> {
    /// Its sequence number.
    pub number: u16,
    /// Its RTP timestamp.
    pub timestamp: u32,
    /// Its payload, at its true length.
    pub payload: &'a [u8],
}

/// Bytes that a move by so many positions needs of its output, in a window of payloads up to `p`.
#[must_use]
pub const fn move_room(by: usize, p: usize) -> usize {
    by.saturating_mul(MEDIA_HEADER.saturating_add(p))
}

/// A packet that left the window.
#[derive(Clone, Copy, Debug, PartialEq, Eq)]
pub struct Left<'a> {
    /// Its sequence number.
    pub number: u16,
    /// Its datagram, [`MEDIA_HEADER`] and its payload, or `None` where it was missing: it is given up.
    pub datagram: Option<&'a [u8]>,
}

/// The packets that left the window in a move, in order: [`Receiver::advance`].
#[derive(Clone, Debug)]
pub struct Leaving<'a> {
    /// The number of the next one, the room of each, what is there of them, and their lengths.
    number: u16,
    slot: usize,
    out: &'a [u8],
    sizes: &'a [u16],
    handed_out: usize,
}

impl Leaving<'_> {
    /// How many packets were present when they left, of all that did.
    #[must_use]
    pub fn handed_out(&self) -> usize {
        self.handed_out
    }
}

impl<'a> Iterator for Leaving<'a> {
    type Item = Left<'a>;

    fn next(&mut self) -> Option<Left<'a>> {
        let (size, sizes) = self.sizes.split_first()?;
        let (number, packet) = (self.number, self.out.get(..self.slot).unwrap_or(&[]));
        self.sizes = sizes;
        self.out = self.out.get(self.slot..).unwrap_or(&[]);
        self.number = number.wrapping_add(1);
        Some(Left { number, datagram: if *size == 0 { None } else { packet.get(..usize::from(*size)) } })
    }

    fn size_hint(&self) -> (usize, Option<usize>) {
        (self.sizes.len(), Some(self.sizes.len()))
    }
}

impl ExactSizeIterator for Leaving<'_> {
    fn len(&self) -> usize {
        self.sizes.len()
    }
}

/// A window over consecutive packets, and the store that it is kept in: its own ([`Owned`]) or a lent one
/// ([`Lent`](crate::Lent)).
#[cfg(feature = "std")]
#[derive(Clone, Debug)]
pub struct Receiver<S: Store = Owned> {
    window: Window,
    store: S,
}

/// A window over consecutive packets, and the store that it is kept in, a lent one ([`Lent`](crate::Lent)).
#[cfg(not(feature = "std"))]
#[derive(Clone, Debug)]
pub struct Receiver<S: Store> {
    window: Window,
    store: S,
}

#[cfg(feature = "std")]
impl Receiver<Owned> {
    /// Opens a window with a store of its own.
    ///
    /// # Errors
    ///
    /// Refusals 1 to 3, for a set-up that is not permitted.
    pub fn open(set_up: SetUp) -> Result<Self, Refusal> {
        // An empty store is refused by number 4, after 1 to 3: so nothing is made for a set-up that is not permitted.
        match Receiver::open_in(set_up, Owned::default()) {
            Err(Refusal::ShortBuffer) => Receiver::open_in(set_up, Owned::of(&set_up)),
            other => other,
        }
    }
}

impl<S: Store> Receiver<S> {
    /// Opens a window in a store, which may be larger than it needs; what is past the need is never touched.
    ///
    /// # Errors
    ///
    /// Refusals 1 to 3 for a set-up that is not permitted, and 4 for a store that is too short.
    pub fn open_in(set_up: SetUp, mut store: S) -> Result<Self, Refusal> {
        let SetUp { base, l, d, payload: p, positions: n, records: k, ssrc } = set_up;
        let s = store.lent();
        // SAFETY: the parts are borrowed slices, so valid for their lengths and apart from each other, until it returns.
        let answer = unsafe { lend!(face::cgv_open, [base, l, d, p, n, k, ssrc], s, as_mut_ptr, []) };
        Refusal::check(answer.number, Receiver { window: answer.window, store })
    }

    /// Offers a datagram of the media port. Answers how many packets were rebuilt, and how many parity packets were spoilt.
    ///
    /// # Errors
    ///
    /// Refusals 1 to 9 and 13 to 15. On media, 15 ([`Refusal::Differs`]) is the alarm.
    pub fn media(&mut self, datagram: &[u8]) -> Result<Taken, Refusal> {
        self.offer(face::cgv_media, datagram)
    }

    /// Offers a datagram of the column parity port. Answers how many packets were rebuilt, and how many parity packets were spoilt.
    ///
    /// # Errors
    ///
    /// Refusals 1 to 16 and 18.
    pub fn column(&mut self, datagram: &[u8]) -> Result<Taken, Refusal> {
        self.offer(face::cgv_column, datagram)
    }

    /// Offers a datagram of the row parity port. Answers how many packets were rebuilt, and how many parity packets were spoilt.
    ///
    /// # Errors
    ///
    /// Refusals 1 to 16 and 18.
    pub fn row(&mut self, datagram: &[u8]) -> Result<Taken, Refusal> {
        self.offer(face::cgv_row, datagram)
    }

    /// Whether the window has to move on for a datagram of a port: its number, or that of the last packet of its group, is past the
    /// window's end by less than n. Not where refusals 6 to 8 are its answer; nothing else of it is looked at.
    #[must_use]
    pub fn ahead(&self, port: Port, datagram: &[u8]) -> bool {
        let Window { l, d, n, .. } = self.window;
        let (kind, first, further) = match port {
            Port::Media => (33, media_number(datagram), 0),
            Port::Column => (96, parity_snbase(datagram), d.wrapping_sub(1).wrapping_mul(l)),
            Port::Row => (96, parity_snbase(datagram), l.wrapping_sub(1)),
        };
        let past = first.and_then(|first| self.position(first.wrapping_add(further as u16)).checked_sub(n));
        datagram.starts_with(&[0x80, kind]) && past.map_or(false, |past| past < n)
    }

    /// Moves the window on by 1 to n positions. The packets that leave are written to `out`, which has room for [`move_room`] bytes, and
    /// their lengths to `sizes`; what these have past that stays as it is. The iterator walks them. The other positions move down, and
    /// as many new ones at the end are missing. Parity in hand with a member behind the new base is released.
    ///
    /// # Errors
    ///
    /// Refusals 1 to 3, 22 where `by` is not from 1 to n, 4 also where `out` or `sizes` has too little room, and 5.
    pub fn advance<'o>(&mut self, by: usize, out: &'o mut [u8], sizes: &'o mut [u16]) -> Result<Leaving<'o>, Refusal> {
        let number = self.window.base;
        let s = self.store.lent();
        let lent = (out.as_mut_ptr(), out.len(), sizes.as_mut_ptr(), sizes.len());
        // SAFETY: as in `open_in`; the outputs are borrowed apart from the store and from each other.
        let answer = unsafe { lend!(face::cgv_move, [self.window, by], s, as_mut_ptr, [lent.0, lent.1, lent.2, lent.3]) };
        self.window = answer.window;
        let (slot, sizes) = (move_room(1, self.window.p), sizes.get(..by).unwrap_or(&[]));
        Refusal::check(answer.number, Leaving { number, slot, out, sizes, handed_out: answer.count })
    }

    /// Writes the packet of a number as a datagram: [`MEDIA_HEADER`](crate::MEDIA_HEADER) and its payload. Answers how many bytes;
    /// there has to be room for the largest packet, and the rest of it stays as it is.
    ///
    /// # Errors
    ///
    /// Refusals 1 to 5, 13 and 17.
    pub fn read(&self, number: u16, out: &mut [u8]) -> Result<usize, Refusal> {
        let s = self.store.shown();
        // SAFETY: as in `open_in`; the store is borrowed shared, and the call only reads it.
        let answer = unsafe { lend!(face::cgv_read, [self.window, number], s, as_ptr, [out.as_mut_ptr(), out.len()]) };
        Refusal::check(answer.number, answer.count)
    }

    /// Writes the parity datagram of the column that starts at a number: [`PARITY_HEADER`](crate::PARITY_HEADER) and as many bytes
    /// as the longest payload of the group. Answers how many bytes; there has to be room for the largest packet.
    ///
    /// # Errors
    ///
    /// Refusals 1 to 5, 13 and 17.
    pub fn write_column(&self, snbase: u16, outer: Outer, out: &mut [u8]) -> Result<usize, Refusal> {
        self.write(face::cgv_write_column, snbase, outer, out)
    }

    /// Writes the parity datagram of the row that starts at a number: [`PARITY_HEADER`](crate::PARITY_HEADER) and as many bytes
    /// as the longest payload of the group. Answers how many bytes; there has to be room for the largest packet.
    ///
    /// # Errors
    ///
    /// Refusals 1 to 5, 12 where L < 4, 13 and 17.
    pub fn write_row(&self, snbase: u16, outer: Outer, out: &mut [u8]) -> Result<usize, Refusal> {
        self.write(face::cgv_write_row, snbase, outer, out)
    }

    /// The window value: base, n, P and what else the window was opened with.
    #[must_use]
    pub fn window(&self) -> &Window {
        &self.window
    }

    /// The position of a number: its distance ahead of the base, counted with wrap. It is in the window where that is below n.
    #[must_use]
    pub fn position(&self, number: u16) -> usize {
        usize::from(number.wrapping_sub(self.window.base))
    }

    /// Whether a number is in the window and its packet present.
    #[must_use]
    pub fn has(&self, number: u16) -> bool {
        self.marked(self.position(number))
    }

    /// The payload of a number where it lies in the store, at its true length, or `None` where its packet is missing or not of the
    /// window. A move puts it elsewhere.
    #[must_use]
    pub fn payload(&self, number: u16) -> Option<&[u8]> {
        self.packet_at(self.position(number)).map(|packet| packet.payload)
    }

    /// The packets that are present, in order of position.
    pub fn packets(&self) -> impl Iterator<Item = Packet<'_>> + '_ {
        (0..self.store.shown().marks.len().min(self.window.n)).filter_map(move |position| self.packet_at(position))
    }

    /// The numbers of the window whose packets are missing, in order.
    pub fn missing(&self) -> impl Iterator<Item = u16> + '_ {
        let (base, marks) = (self.window.base, self.store.shown().marks);
        let missing = move |position: &usize| marks.get(*position) == Some(&0);
        (0..marks.len().min(self.window.n)).filter(missing).map(move |position| base.wrapping_add(position as u16))
    }

    /// How many packets are present.
    #[must_use]
    pub fn present(&self) -> usize {
        self.window.present
    }

    /// How many parity packets are in hand.
    #[must_use]
    pub fn in_hand(&self) -> usize {
        self.window.in_use
    }

    /// The window value and the store, apart.
    #[must_use]
    pub fn into_parts(self) -> (Window, S) {
        (self.window, self.store)
    }

    /// A window value and a store put together again. The next call judges them: a value that was made up, a store that is
    /// too short or that was changed meanwhile, meets its refusal (1 to 5).
    #[must_use]
    pub fn from_parts(window: Window, store: S) -> Self {
        Receiver { window, store }
    }

    /// Whether a position is in the window and its packet present.
    pub(crate) fn marked(&self, position: usize) -> bool {
        position < self.window.n && self.store.shown().marks.get(position) == Some(&1)
    }

    /// The packet of a position, if it is present. A window value that was made up may name any size.
    pub(crate) fn packet_at(&self, position: usize) -> Option<Packet<'_>> {
        if !self.marked(position) {
            return None;
        }
        let s = self.store.shown();
        let start = position.checked_mul(self.window.p)?;
        let place = s.media.get(start..start.checked_add(self.window.p)?)?;
        let length = usize::from(*s.lengths.get(position)?);
        Some(Packet {
            number: self.window.base.wrapping_add(position as u16),
            timestamp: *s.timestamps.get(position)?,
            payload: place.get(..length).unwrap_or(place),
        })
    }

    fn offer(&mut self, call: face::Offer, datagram: &[u8]) -> Result<Taken, Refusal> {
        let s = self.store.lent();
        // SAFETY: as in `open_in`; the datagram is borrowed apart from the store.
        let answer = unsafe { lend!(call, [self.window, datagram.as_ptr(), datagram.len()], s, as_mut_ptr, []) };
        self.window = answer.window;
        Refusal::check(answer.number, Taken { rebuilt: answer.count, spoilt: answer.spoilt })
    }

    fn write(&self, call: face::Write, snbase: u16, outer: Outer, out: &mut [u8]) -> Result<usize, Refusal> {
        let s = self.store.shown();
        // SAFETY: as in `read`.
        let Outer { sequence, timestamp, ssrc } = outer;
        let answer = unsafe { lend!(call, [self.window, snbase, sequence, timestamp, ssrc], s, as_ptr, [out.as_mut_ptr(), out.len()]) };
        Refusal::check(answer.number, answer.count)
    }
}

#[cfg(feature = "std")]
impl<S: Store> Receiver<S> {
    /// The packet of a number, as a datagram.
    ///
    /// # Errors
    ///
    /// Refusals 1 to 5, 13 and 17.
    pub fn packet(&self, number: u16) -> Result<Vec<u8>, Refusal> {
        // The call is asked first, with room for the largest packet: a window value that was made up may name any size.
        let mut out = [0; MEDIA_HEADER + PAYLOAD_MAX];
        let len = self.read(number, &mut out)?;
        Ok(out.iter().take(len).copied().collect())
    }

    /// Moves the window on as [`advance`](Receiver::advance) does: the numbers of the packets that leave, in order, and their datagrams
    /// where they are present.
    ///
    /// # Errors
    ///
    /// Refusals 1 to 3, 22 where `by` is not from 1 to n, 4 for a store that is too short, and 5.
    pub fn advance_to_vec(&mut self, by: usize) -> Result<Vec<(u16, Option<Vec<u8>>)>, Refusal> {
        // No room at all is refused by number 4, after 1 to 3 and 22: so none is made for sizes that are not permitted.
        match self.advance(by, &mut [], &mut []) {
            Err(Refusal::ShortBuffer) => {}
            other => return other.map(|_| Vec::new()),
        }
        let (mut out, mut sizes) = (vec![0; move_room(by, self.window.p)], vec![0; by]);
        let left = self.advance(by, &mut out, &mut sizes)?;
        Ok(left.map(|left| (left.number, left.datagram.map(Vec::from))).collect())
    }
}
