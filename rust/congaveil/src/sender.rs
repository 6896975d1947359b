#[cfg(feature = "std")]
use crate::OwnedRoom;
use crate::{face, LentRoom, Outer, Refusal, Room, SenderValue};

/// Which packets a column has.
#[derive(Clone, Copy, Debug, Default, PartialEq, Eq, Hash)]
#[repr(u8)]
pub enum Arrangement {
    /// The columns of a matrix start at its first L packets. They go out one by one, D packets apart, while the next matrix goes by.
    #[default]
    Aligned = 0,
    /// Column r starts in row r modulo D, so that columns end at different times. Each goes out L packets after its last member.
    Staggered = 1,
}

/// What is a parity stream's own.
#[derive(Clone, Copy, Debug, Default, PartialEq, Eq)]
pub struct ParityStream {
    /// The RTP sequence number of its next packet: any to begin with. The sender counts it on.
    pub sequence: u16,
    /// Its SSRC.
    pub ssrc: u32,
}

impl ParityStream {
    fn outer(self, timestamp: u32) -> Outer {
        Outer { sequence: self.sequence, timestamp, ssrc: self.ssrc }
    }

    /// Counts a packet that was written, if one was.
    fn count(&mut self, written: usize) {
        self.sequence = self.sequence.wrapping_add(u16::from(written > 0));
    }
}

/// The two parity streams of a sender.
#[derive(Clone, Copy, Debug, Default, PartialEq, Eq)]
pub struct ParityStreams {
    /// Row parity: it goes to the UDP port four above that of the media.
    pub row: ParityStream,
    /// Column parity: it goes to the UDP port two above that of the media.
    pub column: ParityStream,
}

/// What a sender is opened with.
#[derive(Clone, Copy, Debug, PartialEq, Eq)]
pub struct SenderSetUp {
    /// Sequence number of the first media packet: any.
    pub first: u16,
    /// Which packets a column has.
    pub arrangement: Arrangement,
    /// Columns of the parity matrix, 1 to 20. There are rows only where this is 4 or more.
    pub l: usize,
    /// Rows of the parity matrix, 4 to 20; l × d is at most 100.
    pub d: usize,
    /// P, the payload bytes of a media packet at most: 1 to 7 transport packets of 188 or of 204 bytes. A payload is one or more
    /// of these, each packet its own number of them.
    pub payload: usize,
    /// First numbers and SSRC of the parity packets.
    pub streams: ParityStreams,
}

/// The parity packets that go out with a media packet, whole datagrams, where the sender wrote them.
#[derive(Clone, Copy, Debug, Default, PartialEq, Eq)]
pub struct Sent<'a> {
    /// A row packet, for the port four above that of the media.
    pub row: Option<&'a [u8]>,
    /// A column packet, for the port two above that of the media.
    pub column: Option<&'a [u8]>,
}

/// Running parity over media packets that are sent, in room for 2 × L + 1 payloads, of its own ([`OwnedRoom`]) or lent
/// ([`LentRoom`]). It takes media packets one by one, in order, and gives the parity packets that go out with each.
///
/// A row goes out with its last member, where L is at least 4. A staggered column goes out L packets after its last member; aligned
/// column k (from 0) with packet k × D of the next matrix, L + k × (D − 1) packets after its last member. Columns that are not out when
/// the media end do not go out.
///
/// ```
/// # #[cfg(feature = "std")]
/// # fn main() -> Result<(), congaveil::Refusal> {
/// use congaveil::{Arrangement, ParityStreams, Receiver, Refusal, Sender, SenderSetUp, SetUp};
///
/// let streams = ParityStreams::default();
/// let set_up = SenderSetUp { first: 65_530, arrangement: Arrangement::Aligned, l: 4, d: 4, payload: 188, streams };
/// let mut sender = Sender::open(set_up)?;
/// # let set_up = SetUp { base: 65_530, l: 4, d: 4, payload: 188, positions: 32, records: 16, ssrc: 1 };
/// # let mut receiver = Receiver::open(set_up)?;
///
/// let (mut rows, mut columns) = (0, 0);
/// for i in 0..32u16 {
///     let mut datagram = vec![0x80, 33];
///     datagram.extend(65_530u16.wrapping_add(i).to_be_bytes());
///     datagram.extend([0; 8]); // timestamp and SSRC
///     datagram.extend([i as u8; 188]);
///
///     let sent = sender.media(&datagram, 0)?;
///     // The media packet goes to its port; parity, where there is some, to the port two or four above.
///     if i != 5 { // lost on the line
///         receiver.media(&datagram)?;
///     }
///     if let Some(column) = sent.column {
///         receiver.column(column)?;
///         columns += 1;
///     }
///     if let Some(row) = sent.row {
///         receiver.row(row)?;
///         rows += 1;
///     }
/// }
/// assert_eq!((rows, columns), (8, 4)); // the second matrix's columns go out with the third
/// assert_eq!(receiver.payload(65_535), Some(&[5; 188][..])); // rebuilt
/// # Ok(())
/// # }
/// # #[cfg(not(feature = "std"))]
/// # fn main() {}
/// ```
#[cfg(feature = "std")]
#[derive(Clone, Debug)]
pub struct Sender<R: Room = OwnedRoom> {
    value: SenderValue,
    streams: ParityStreams,
    room: R,
}

/// Running parity over media packets that are sent, in lent room ([`LentRoom`]) for 2 × L + 1 payloads. It takes media packets one by
/// one, in order, and gives the parity packets that go out with each.
#[cfg(not(feature = "std"))]
#[derive(Clone, Debug)]
pub struct Sender<R: Room> {
    value: SenderValue,
    streams: ParityStreams,
    room: R,
}

#[cfg(feature = "std")]
impl Sender<OwnedRoom> {
    /// Opens a sender with a room of its own.
    ///
    /// # Errors
    ///
    /// Refusals 1 and 2, for a set-up that is not permitted.
    pub fn open(set_up: SenderSetUp) -> Result<Self, Refusal> {
        // An empty room is refused by number 4, after 1 and 2: so nothing is made for a set-up that is not permitted.
        match Sender::open_in(set_up, OwnedRoom::default()) {
            Err(Refusal::ShortBuffer) => Sender::open_in(set_up, OwnedRoom::of(&set_up)),
            other => other,
        }
    }
}

/// A call with the four parts of a room lent between its other arguments.
macro_rules! lend {
    ($call:expr, [$($before:expr),*], $room:expr, [$($after:expr),*]) => {
        $call(
            $($before,)*
            $room.payloads.as_mut_ptr(),
            $room.payloads.len(),
            $room.timestamps.as_mut_ptr(),
            $room.timestamps.len(),
            $room.lengths.as_mut_ptr(),
            $room.lengths.len(),
            $room.longest.as_mut_ptr(),
            $room.longest.len(),
            $($after),*
        )
    };
}

/// The value of a sender that is opened in a room.
fn opened(first: u16, arrangement: u8, l: usize, d: usize, p: usize, room: LentRoom) -> Result<SenderValue, Refusal> {
    // SAFETY: the parts are borrowed slices, so valid for their lengths and apart from each other, until it returns.
    let answer = unsafe { lend!(face::cgv_sender_open, [first, arrangement, l, d, p], room, []) };
    Refusal::check(answer.number, answer.sender)
}

/// The packet at the front of an output, if one was written.
fn packet(out: &[u8], written: usize) -> Option<&[u8]> {
    match written {
        0 => None,
        written => out.get(..written),
    }
}

impl<R: Room> Sender<R> {
    /// Opens a sender in a room, which may be larger than it needs; what is past the need is never touched. The outputs are judged when
    /// the first packet is offered.
    ///
    /// # Errors
    ///
    /// Refusals 1 and 2 for a set-up that is not permitted, and 4 for a room that is too short.
    pub fn open_in(set_up: SenderSetUp, mut room: R) -> Result<Self, Refusal> {
        let SenderSetUp { first, arrangement, l, d, payload, streams } = set_up;
        let value = opened(first, arrangement as u8, l, d, payload, room.lent())?;
        Ok(Sender { value, streams, room })
    }

    /// Opens again in the same room, at another number, as after a gap in the media. The parity streams number on; groups that were
    /// not whole are given up.
    ///
    /// # Errors
    ///
    /// Refusals 1, 2 and 4, where the sender was put together from parts that no opening made. The sender stays as it is then.
    pub fn reopen(&mut self, first: u16) -> Result<(), Refusal> {
        let SenderValue { arrangement, l, d, p, .. } = self.value;
        self.value = opened(first, arrangement, l, d, p, self.room.lent())?;
        Ok(())
    }

    /// Takes the next media packet in, and gives the parity packets that go out with it. They have this timestamp: that of the moment
    /// of sending, in practice the media packet's.
    ///
    /// # Errors
    ///
    /// Refusals 1, 2, 4 to 9, and 13 where its number is not the next one. A refusal changes nothing, and a sender does not
    /// resynchronise: after a gap, [`reopen`](Sender::reopen).
    pub fn media(&mut self, datagram: &[u8], timestamp: u32) -> Result<Sent<'_>, Refusal> {
        let (row, column) = (self.streams.row.outer(timestamp), self.streams.column.outer(timestamp));
        let room = self.room.lent();
        let outputs = (room.row, room.column);
        // SAFETY: as in `opened`; the datagram is borrowed apart from the room.
        let answer = unsafe {
            lend!(
                face::cgv_sender_media,
                [self.value, datagram.as_ptr(), datagram.len(), row, column],
                room,
                [outputs.0.as_mut_ptr(), outputs.0.len(), outputs.1.as_mut_ptr(), outputs.1.len()]
            )
        };
        self.value = answer.sender;
        self.streams.row.count(answer.row);
        self.streams.column.count(answer.column);
        Refusal::check(answer.number, Sent { row: packet(outputs.0, answer.row), column: packet(outputs.1, answer.column) })
    }

    /// The number that the next media packet has to have.
    #[must_use]
    pub fn next_number(&self) -> u16 {
        self.value.first.wrapping_add(self.value.taken)
    }

    /// The sender value: L, D, P and what else it was opened with, and where it stands.
    #[must_use]
    pub fn value(&self) -> &SenderValue {
        &self.value
    }

    /// The parity streams, with the numbers of their next packets.
    #[must_use]
    pub fn streams(&self) -> &ParityStreams {
        &self.streams
    }

    /// The sender value, the parity streams and the room, apart.
    #[must_use]
    pub fn into_parts(self) -> (SenderValue, ParityStreams, R) {
        (self.value, self.streams, self.room)
    }

    /// A sender put together again. The next call judges it: a value that was made up, a room that is too short or that was changed
    /// meanwhile, meets its refusal (1, 2, 4 or 5).
    #[must_use]
    pub fn from_parts(value: SenderValue, streams: ParityStreams, room: R) -> Self {
        Sender { value, streams, room }
    }
}
