use core::fmt;

/// Why a call was refused: the first reason that applies, in this order; but 18 comes before 16, and 21 of a capture file and 22 of a move
/// come before 4. Its number is that of documents 01 and 02.
#[derive(Clone, Copy, Debug, PartialEq, Eq, Hash)]
#[repr(u32)]
pub enum Refusal {
    /// Not 1 ≤ L ≤ 20, 4 ≤ D ≤ 20, L × D ≤ 100.
    BadProfile = 1,
    /// P not k × 188 or k × 204, k from 1 to 7.
    BadPayloadSize = 2,
    /// Not L × D ≤ n ≤ 400, 1 ≤ K ≤ 128.
    BadRoom = 3,
    /// A lent part or the output is shorter than its need.
    ShortBuffer = 4,
    /// The store, or a sender's room, is not one that the calls left.
    Disorder = 5,
    /// Under 12 bytes (media) or 28 (parity).
    ShortDatagram = 6,
    /// Version not 2, or padding, extension, CSRC or marker set.
    BadRtpHeader = 7,
    /// Not 33 (media) or 96 (parity).
    BadPayloadType = 8,
    /// Payload part not one or more whole transport packets up to P.
    BadLength = 9,
    /// E not 1, or mask, X, type, index or SNBase ext not 0.
    BadFecHeader = 10,
    /// PT recovery not the profile's.
    BadRecovery = 11,
    /// Wrong port, Offset or NA, or a row where L < 4.
    BadShape = 12,
    /// A number or a member of the group is not in the window. Routine. Of a sender: the number is not the next one.
    Outside = 13,
    /// Already held, the same. Routine.
    Repeat = 14,
    /// Already held, with a difference. On media, the alarm: what is marked present is not what arrived.
    Differs = 15,
    /// Two or more are missing and every record is in use. Routine.
    Full = 16,
    /// Reading a missing packet, or writing parity over one.
    Missing = 17,
    /// Parity other than its group gives, all of which is present: it is wrong, or a packet of its group is.
    Contradicts = 18,
    /// Not a proper capture file, or not the content of one.
    BadCapture = 21,
    /// A window moved by 0 positions, or by more than it has.
    BadMove = 22,
}

impl Refusal {
    /// The number of the refusal: 1 to 18, 21 or 22.
    #[must_use]
    pub fn number(self) -> u32 {
        self as u32
    }

    /// What an answer of this number says, or its refusal.
    pub(crate) fn check<T>(number: u32, says: T) -> Result<T, Refusal> {
        Err(match number {
            0 => return Ok(says),
            1 => Refusal::BadProfile,
            2 => Refusal::BadPayloadSize,
            3 => Refusal::BadRoom,
            4 => Refusal::ShortBuffer,
            5 => Refusal::Disorder,
            6 => Refusal::ShortDatagram,
            7 => Refusal::BadRtpHeader,
            8 => Refusal::BadPayloadType,
            9 => Refusal::BadLength,
            10 => Refusal::BadFecHeader,
            11 => Refusal::BadRecovery,
            12 => Refusal::BadShape,
            13 => Refusal::Outside,
            14 => Refusal::Repeat,
            15 => Refusal::Differs,
            16 => Refusal::Full,
            17 => Refusal::Missing,
            18 => Refusal::Contradicts,
            21 => Refusal::BadCapture,
            _ => Refusal::BadMove, // 22, the last
        })
    }
}

impl fmt::Display for Refusal {
    fn fmt(&self, f: &mut fmt::Formatter) -> fmt::Result {
        f.write_str(match self {
            Refusal::BadProfile => "L, D or L x D past its bound",
            Refusal::BadPayloadSize => "payload size not permitted",
            Refusal::BadRoom => "position count or parity room not permitted",
            Refusal::ShortBuffer => "a lent buffer is too short",
            Refusal::Disorder => "store not in order",
            Refusal::ShortDatagram => "datagram shorter than its headers",
            Refusal::BadRtpHeader => "RTP version not 2, or padding, extension, CSRC or marker set",
            Refusal::BadPayloadType => "payload type not that of the port",
            Refusal::BadLength => "payload not whole transport packets up to the window's size",
            Refusal::BadFecHeader => "parity header: E, mask, X, type, index or SNBase ext",
            Refusal::BadRecovery => "payload type recovery not the profile's",
            Refusal::BadShape => "parity not of this port and profile",
            Refusal::Outside => "outside the window, or not the next number",
            Refusal::Repeat => "already held",
            Refusal::Differs => "already held, and different",
            Refusal::Full => "no record is free",
            Refusal::Missing => "packet missing",
            Refusal::Contradicts => "parity contradicts its group, all of which is present",
            Refusal::BadCapture => "not a proper capture file",
            Refusal::BadMove => "window moved by no position, or by more than it has",
        })
    }
}

#[cfg(feature = "std")]
impl std::error::Error for Refusal {}
