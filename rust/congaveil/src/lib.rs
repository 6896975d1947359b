//! Congaveil rebuilds lost RTP packets of live video from row and column parity (Pro-MPEG Code of Practice 3,
//! SMPTE 2022-1). This crate is the safe face of a library whose every call is proved, for every input, to do what its
//! definition says: answer, next window value and every byte that was lent. The face itself is not proved; it is tested.
//!
//! A [`Receiver`] is a window over consecutive packets. Offer it every datagram that arrives, on the port that it came
//! in on; it answers how many packets the datagram let it rebuild, or why it refused the datagram. A refusal
//! changes nothing. Payloads have one or more whole transport packets, each its own number of them, up to the window's size.
//!
//! ```
//! # #[cfg(feature = "std")]
//! # fn main() -> Result<(), congaveil::Refusal> {
//! use congaveil::{Receiver, Refusal, SetUp, Taken};
//!
//! let set_up = SetUp { base: 65_530, l: 4, d: 4, payload: 1316, positions: 16, records: 8, ssrc: 1 };
//! let mut receiver = Receiver::open(set_up)?;
//!
//! // A media packet: RTP version 2, payload type 33, number 65,530, timestamp 1,000, and two transport packets.
//! let mut datagram = vec![0x80, 33, 0xff, 0xfa, 0, 0, 0x03, 0xe8, 0, 0, 0, 9];
//! datagram.extend([7; 2 * 188]);
//!
//! assert_eq!(receiver.media(&datagram), Ok(Taken { rebuilt: 0, spoilt: 0 })); // taken in; nothing to rebuild
//! assert_eq!(receiver.media(&datagram), Err(Refusal::Repeat));
//! assert_eq!(receiver.payload(65_530), Some(&datagram[12..])); // where it lies in the store
//! assert_eq!(receiver.packet(65_530)?[12..], datagram[12..]); // a datagram of its own
//! assert_eq!(receiver.missing().next(), Some(65_531));
//! # Ok(())
//! # }
//! # #[cfg(not(feature = "std"))]
//! # fn main() {}
//! ```
//!
//! The window moves with the stream: [`Receiver::advance`] takes its base on, and hands out the packets that it leaves behind. A window
//! that goes on for ever:
//!
//! ```
//! # #[cfg(feature = "std")]
//! # fn main() -> Result<(), congaveil::Refusal> {
//! use congaveil::{capture::Port, move_room, Receiver, Refusal, SetUp};
//!
//! const BY: usize = 16; // L × D, a matrix at a time
//! let set_up = SetUp { base: 65_530, l: 4, d: 4, payload: 188, positions: 48, records: 24, ssrc: 1 };
//! let mut receiver = Receiver::open(set_up)?;
//! let (mut out, mut sizes) = (vec![0; move_room(BY, 188)], [0; BY]);
//!
//! # let (mut handed_out, mut given_up) = (0, 0);
//! # let stream = (0..200u16).filter(|i| *i != 7).map(|i| {
//! #     let mut datagram = vec![0x80, 33, 0, 0, 0, 0, 0, 0, 0, 0, 0, 0];
//! #     datagram[2..4].copy_from_slice(&65_530u16.wrapping_add(i).to_be_bytes());
//! #     datagram.resize(200, 7);
//! #     datagram
//! # });
//! for datagram in stream {
//!     while receiver.ahead(Port::Media, &datagram) { // and so for the two parity ports
//!         for left in receiver.advance(BY, &mut out, &mut sizes)? {
//!             match left.datagram {
//!                 Some(datagram) => println!("{} goes on, {} bytes", left.number, datagram.len()),
//!                 None => println!("{} is given up", left.number),
//!             }
//! #           handed_out += usize::from(left.datagram.is_some());
//! #           given_up += usize::from(left.datagram.is_none());
//!         }
//!     }
//!     receiver.media(&datagram)?;
//! }
//! # assert_eq!((handed_out, given_up, receiver.window().base), (159, 1, 65_530u16.wrapping_add(160)));
//! assert_eq!(receiver.advance(0, &mut out, &mut sizes).err(), Some(Refusal::BadMove));
//! # Ok(())
//! # }
//! # #[cfg(not(feature = "std"))]
//! # fn main() {}
//! ```
//!
//! When: for a packet ahead of the window, and also for parity with a member there. The last packet of a row may be lost, and then the
//! row's parity is the first to speak of it; a window that moves for media alone refuses that parity with `Outside`. A number that is n
//! positions or more past the window's end may be forged: where the stream itself has jumped so far, open again.
//!
//! How large: 2 × L × D positions where the window moves by 1, or by L × D from a base at which a matrix starts; 2 × L × D and as many
//! again as it moves by, from any base. Senders put a matrix's column parity on the line while the next matrix goes by, and parity that
//! has a member behind the base is of no use any more: in hand it is released, and later it meets `Outside`, as packets do.
//!
//! A [`Desk`] beside the receiver tells which packets were rebuilt, and counts for the operator. [`capture`] saves what came in to a
//! file, and reads such files.
//!
//! A [`Sender`] is the other end: it takes the media packets that are sent, in order, and gives the row and column packets that go out
//! with each. It keeps running parity, and no packet.
//!
//! # What to do with an answer
//!
//! - [`Taken`] has the packets rebuilt, and the parity packets that were spoilt: what they gave cannot be right. They are
//!   released, and the packet stays missing unless other parity gives it. Unaltered traffic never shows one: parity was
//!   damaged or forged, or a media packet of its group was, which may have gone to air.
//! - [`Outside`](Refusal::Outside), [`Repeat`](Refusal::Repeat) and [`Full`](Refusal::Full) are routine: behind the window or
//!   ahead of it, already there, no room for it now. A sender's `Outside` is a gap in what is to be sent: [`Sender::reopen`].
//! - [`Differs`](Refusal::Differs) on media is **the alarm**: a packet already marked present differs from the one that
//!   arrived. One of the two is wrong, and the one in the store may have gone to air.
//! - [`Contradicts`](Refusal::Contradicts) is of parity whose group is present and gives another parity packet: it is wrong, or a packet
//!   of its group is, which may have gone to air. Unaltered traffic never meets it; after one wrong packet, true parity may.
//! - Refusals 6 to 12 are of a datagram of another kind, port or profile, or of a damaged one; 1 to 5 are a fault in the
//!   card: set-up, buffers, or a store or room that somebody changed; so is 22, a move by 0 or by more positions than there are. 21 is
//!   of a capture file alone.
//!
//! # Without std
//!
//! `default-features = false` leaves `std` out, and with it `Owned`, `OwnedRoom`, `Receiver::open`, `Receiver::packet`, `Receiver::advance_to_vec`,
//! `Sender::open` and `capture::to_vec`; everything else works over a [`Lent`] store and a [`LentRoom`]. Nothing is allocated then.
//!
//! # Threads
//!
//! Calls that take `&self` (`read`, `payload`, `write_column`, ..) may run side by side on one receiver; those that take
//! `&mut self` are alone on it. There is no state beside the receivers and senders.
//!
//! # Linking
//!
//! The build script looks for `libcongaveil.a` in the folder that `CONGAVEIL_LIB_DIR` names, an absolute path, or in
//! `target/staticlib` of the repository, where `tools/library` puts it. It is compiled for x86-64.
#![no_std]
#![deny(missing_docs)]

#[cfg(feature = "std")]
extern crate std;

pub mod capture;
mod datagram;
mod desk;
mod face;
mod receiver;
mod refusal;
mod room;
mod sender;
mod store;

pub use datagram::{media_number, parity_snbase};
pub use desk::{Counters, Desk, How, Rebuilt};
pub use face::{SenderValue, Window};
pub use receiver::{move_room, Leaving, Left, Outer, Packet, Receiver, SetUp, Taken};
pub use refusal::Refusal;
#[cfg(feature = "std")]
pub use room::OwnedRoom;
pub use room::{room_for, LentRoom, Room};
pub use sender::{Arrangement, ParityStream, ParityStreams, Sender, SenderSetUp, Sent};
#[cfg(feature = "std")]
pub use store::Owned;
pub use store::{Lent, Record, Store};

/// Bytes before the payload of a media datagram.
pub const MEDIA_HEADER: usize = 12;
/// Bytes before the payload of a parity datagram.
pub const PARITY_HEADER: usize = 28;
/// The most columns of a parity matrix.
pub const L_MAX: usize = 20;
/// The fewest rows of a parity matrix.
pub const D_MIN: usize = 4;
/// The most rows of a parity matrix.
pub const D_MAX: usize = 20;
/// The most packets of a parity matrix, L × D.
pub const MATRIX_MAX: usize = 100;
/// The largest payload: 7 transport packets of 204 bytes.
pub const PAYLOAD_MAX: usize = 7 * 204;
/// The most positions that a window may have.
pub const POSITIONS_MAX: usize = 400;
/// The most records that a window may have.
pub const RECORDS_MAX: usize = 128;
/// The size of a table of answers by their number: above every number of this library. The calls of a receiver answer 0, 1 to 18 and 22, a
/// sender some of these; 19 and 20 are not used, and 21 is of capture files alone.
pub const NUMBERS: usize = 23;
