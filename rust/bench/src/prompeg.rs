//! Running parity as FFmpeg keeps it, in C: `prompeg.c` says how.
use std::ffi::c_int;

/// The functions of one build of `prompeg.c`.
pub struct Build {
    open: unsafe extern "C" fn(c_int, c_int, c_int),
    bitstring: unsafe extern "C" fn(*const u8, *mut u8),
    xor: unsafe extern "C" fn(*const u8, *const u8, c_int) -> c_int,
    write: unsafe extern "C" fn(*const u8) -> c_int,
    packet: unsafe extern "C" fn(c_int) -> *const u8,
}

macro_rules! build {
    ($which:ident, $open:ident, $bitstring:ident, $xor:ident, $write:ident, $packet:ident) => {
        extern "C" {
            fn $open(columns: c_int, rows: c_int, payload: c_int);
            fn $bitstring(buf: *const u8, b: *mut u8);
            fn $xor(buf: *const u8, bitstring: *const u8, writes: c_int) -> c_int;
            fn $write(buf: *const u8) -> c_int;
            fn $packet(row: c_int) -> *const u8;
        }
        pub static $which: Build = Build { open: $open, bitstring: $bitstring, xor: $xor, write: $write, packet: $packet };
    };
}

// As FFmpeg builds it, and with vectors.
build!(FFMPEG, prompeg_open, prompeg_bitstring, prompeg_xor, prompeg_write, prompeg_packet);
build!(VECTORS, vectors_open, vectors_bitstring, vectors_xor, vectors_write, vectors_packet);

/// Parity packets that FFmpeg sends with a media packet.
pub struct Sent {
    pub row: bool,
    pub column: bool,
}

/// The one prompeg of a build: its state is static. All its media have the payload that it was opened with.
pub struct Prompeg {
    build: &'static Build,
    payload: usize,
}

impl Prompeg {
    pub fn open(build: &'static Build, l: usize, d: usize, payload: usize) -> Self {
        assert!((1..=20).contains(&l) && (4..=20).contains(&d) && payload <= 1428);
        // SAFETY: the numbers are within its arrays; the bench has one thread.
        unsafe { (build.open)(l as c_int, d as c_int, payload as c_int) };
        Prompeg { build, payload }
    }

    /// The bitstring of a media packet.
    pub fn bitstring(&self, datagram: &[u8]) -> Vec<u8> {
        assert_eq!(datagram.len(), 12 + self.payload);
        let mut bitstring = vec![0; 8 + self.payload];
        // SAFETY: it reads 12 + P bytes and writes 8 + P.
        unsafe { (self.build.bitstring)(datagram.as_ptr(), bitstring.as_mut_ptr()) };
        bitstring
    }

    /// Takes a packet into its row and its column, and does nothing else.
    pub fn xor(&mut self, datagram: &[u8], bitstring: &[u8]) {
        assert!(datagram.len() == 12 + self.payload && bitstring.len() == 8 + self.payload);
        // SAFETY: it reads the header of the one and 8 + P bytes of the other.
        unsafe { (self.build.xor)(datagram.as_ptr(), bitstring.as_ptr(), 0) };
    }

    /// Takes a packet in and writes the parity packets that go out.
    pub fn write(&mut self, datagram: &[u8]) -> Sent {
        assert_eq!(datagram.len(), 12 + self.payload);
        // SAFETY: it reads 12 + P bytes.
        let sent = unsafe { (self.build.write)(datagram.as_ptr()) };
        Sent { row: sent & 2 != 0, column: sent & 1 != 0 }
    }

    /// The parity header and payload of the last packet of a stream.
    pub fn last(&self, row: bool) -> &[u8] {
        // SAFETY: it is a static array of 28 + 1,428 bytes, and nothing writes it while this is borrowed.
        unsafe { &std::slice::from_raw_parts((self.build.packet)(row as c_int), 28 + self.payload)[12..] }
    }
}
