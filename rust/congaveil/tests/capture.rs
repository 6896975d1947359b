//! Capture files through the safe face: the request's example, what is refused of a file and of a content, pieces, and what the
//! lines of Rust add to the calls.
use congaveil::capture::{self, Capture, Entry, Header, Port, Reader, BODY_MAX, ENTRIES_MAX, FILE_MAX, FRONT_MAX};
use congaveil::{Receiver, Refusal, SetUp, Taken};

const SET_UP: SetUp = SetUp { base: 65_530, l: 4, d: 4, payload: 188, positions: 16, records: 8, ssrc: 0 };
const EXAMPLE: [u8; 22] = [0, 1, 4, 4, 0, 188, 0xff, 0xfa, 0, 16, 0, 8, 1, 0, 0, 2, 0, 0, 0, 20, 0xab, 0xcd];
const REFUSED: Refusal = Refusal::BadCapture;

/// A file that is read in pieces of this size.
fn read_by(file: &[u8], size: usize) -> Reader {
    let mut reader = Reader::new();
    for piece in file.chunks(size) {
        reader.read(piece);
    }
    reader
}

#[test]
fn the_example() {
    assert_eq!(capture::to_vec(&SET_UP, [(Port::Media, &EXAMPLE[20..])]), Ok(EXAMPLE.to_vec()));
    let capture = Capture::read(&EXAMPLE).unwrap();
    assert_eq!(capture.header(), &Header { entries: 1, set_up: SET_UP });
    assert_eq!((capture.set_up(), capture.entries().len()), (SET_UP, 1));
    assert!(capture.into_iter().eq([(Port::Media, &[0xab, 0xcd][..])]));
    assert_eq!(capture::header(&EXAMPLE[..12]), Ok(*capture.header()));
    assert_eq!(capture::entry(&EXAMPLE[..20], 0), Ok(Entry { port: Port::Media, start: 20, length: 2 }));
    let mut receiver = Receiver::open(capture.set_up()).unwrap();
    for (_, datagram) in capture.entries() {
        assert_eq!(receiver.media(datagram), Err(Refusal::ShortDatagram));
    }
}

/// Cut anywhere, with a byte more, and with each byte another one, in one piece and in several.
#[test]
fn not_whole() {
    for len in 0..EXAMPLE.len() {
        assert_eq!(Capture::read(&EXAMPLE[..len]), Err(REFUSED), "{len} bytes");
        let reader = read_by(&EXAMPLE[..len], 5);
        assert_eq!((reader.whole(), reader.refused()), (false, false), "{len} bytes");
    }
    for size in 1..=EXAMPLE.len() {
        let mut reader = read_by(&EXAMPLE, size);
        assert!(reader.whole() && !reader.refused());
        reader.read(&[]);
        assert!(reader.whole());
        reader.read(&[0]);
        assert!(!reader.whole() && reader.refused());
        reader.read(&EXAMPLE);
        assert!(!reader.whole() && reader.refused());
    }
    for at in (0..EXAMPLE.len()).filter(|at| *at < 2 || (12..20).contains(at)) {
        let mut file = EXAMPLE;
        file[at] ^= 4;
        assert_eq!(Capture::read(&file), Err(REFUSED), "byte {at}");
        assert!(!read_by(&file, 3).whole());
    }
}

/// The front of a file that nobody has judged: a port that is none is refused, start and length are what stands there.
#[test]
fn fronts() {
    for len in 0..12 {
        assert_eq!(capture::header(&EXAMPLE[..len]), Err(REFUSED));
    }
    assert_eq!(capture::header(&[2, 1, 4, 4, 0, 188, 0, 0, 0, 16, 0, 8]), Err(REFUSED));
    assert_eq!(capture::header(&[2, 0, 4, 5, 0, 188, 0, 1, 0, 16, 0, 8]).map(|header| (header.entries, header.set_up.d)), Ok((512, 5)));
    assert_eq!(capture::entry(&EXAMPLE[..19], 0), Err(REFUSED));
    for index in [1, 2, usize::MAX / 8, usize::MAX] {
        assert_eq!(capture::entry(&EXAMPLE, index), Err(REFUSED));
    }
    let mut file = EXAMPLE;
    for port in 0..=255 {
        file[12] = port;
        assert_eq!(capture::entry(&file, 0).map(|entry| entry.port as u8), if (1..=3).contains(&port) { Ok(port) } else { Err(REFUSED) });
    }
    file[12] = 3;
    file[14..20].fill(0xff);
    assert_eq!(capture::entry(&file, 0), Ok(Entry { port: Port::Row, start: 0xffff_ffff, length: 0xffff }));
}

/// Each limit of a content from both sides.
#[test]
fn contents() {
    let (ports, lengths, bodies) = ([Port::Media, Port::Row], [3, 0], [7; 3]);
    let mut out = [0xa5; 40];
    assert_eq!(capture::write(&SET_UP, &ports, &lengths, &bodies, &mut out), Ok(31));
    assert!(out[31..].iter().all(|byte| *byte == 0xa5));
    let file = out;
    assert!(Capture::read(&file[..31]).unwrap().entries().eq([(Port::Media, &[7; 3][..]), (Port::Row, &[])]));
    out.fill(0xa5);
    assert_eq!(capture::write(&SET_UP, &ports, &lengths, &bodies, &mut out[..30]), Err(Refusal::ShortBuffer));
    for len in [0, 40] {
        let out = &mut out[..len];
        assert_eq!(capture::write(&SET_UP, &ports[1..], &lengths, &bodies, out), Err(REFUSED));
        assert_eq!(capture::write(&SET_UP, &ports, &lengths[..1], &bodies, out), Err(REFUSED));
        assert_eq!(capture::write(&SET_UP, &ports, &lengths, &bodies[1..], out), Err(REFUSED));
        assert_eq!(capture::write(&SET_UP, &ports, &[2, 0], &bodies, out), Err(REFUSED));
        assert_eq!(capture::write(&SetUp { l: 256, ..SET_UP }, &ports, &lengths, &bodies, out), Err(REFUSED));
        assert_eq!(capture::write(&SetUp { d: 256, ..SET_UP }, &ports, &lengths, &bodies, out), Err(REFUSED));
        assert_eq!(capture::write(&SetUp { payload: 65_536, ..SET_UP }, &ports, &lengths, &bodies, out), Err(REFUSED));
        assert_eq!(capture::write(&SetUp { positions: 65_536, ..SET_UP }, &ports, &lengths, &bodies, out), Err(REFUSED));
        assert_eq!(capture::write(&SetUp { records: usize::MAX, ..SET_UP }, &ports, &lengths, &bodies, out), Err(REFUSED));
    }
    assert_eq!(out, [0xa5; 40]);
    let most = SetUp { base: 0, l: 255, d: 255, payload: 65_535, positions: 65_535, records: 65_535, ssrc: 9 };
    let file = capture::to_vec(&most, []).unwrap();
    assert_eq!(Capture::read(&file).unwrap().header(), &Header { entries: 0, set_up: SetUp { ssrc: 0, ..most } });
}

/// The largest file, and what is one more; endless entries and endless bodies are refused too.
#[test]
fn the_largest() {
    let body = [9; BODY_MAX + 1];
    let ports = [Port::Media, Port::Column, Port::Row].into_iter().cycle();
    let entries = || ports.clone().map(|port| (port, &body[..BODY_MAX]));
    let file = capture::to_vec(&SET_UP, entries().take(ENTRIES_MAX)).unwrap();
    assert_eq!((file.len(), FRONT_MAX), (FILE_MAX, 4108));
    let capture = Capture::read(&file).unwrap();
    assert_eq!(capture.entries().len(), ENTRIES_MAX);
    assert!(capture.entries().eq(entries().take(ENTRIES_MAX)));
    assert_eq!(capture::entry(&file[..FRONT_MAX], 511).map(|entry| entry.start), Ok(FILE_MAX - BODY_MAX));
    assert!(read_by(&file, 4096).whole() && !read_by(&file[1..], 4096).whole());
    assert_eq!(capture::to_vec(&SET_UP, entries().take(ENTRIES_MAX + 1)), Err(REFUSED));
    assert_eq!(capture::to_vec(&SET_UP, entries()), Err(REFUSED));
    assert_eq!(capture::to_vec(&SET_UP, [(Port::Row, &body[..])]), Err(REFUSED));
    // Lengths that a 16-bit number would cut to a small one.
    for len in [65_536, 65_538, 1 << 20] {
        assert_eq!(capture::to_vec(&SET_UP, [(Port::Row, &vec![0; len][..])]), Err(REFUSED));
    }
}

/// A packet saved and replayed is taken in.
#[test]
fn replayed() {
    let mut datagram = vec![0x80, 33, 0xff, 0xfa, 0, 0, 0, 9, 0, 0, 0, 0];
    datagram.resize(200, 5);
    let file = capture::to_vec(&SET_UP, [(Port::Media, &datagram[..])]).unwrap();
    let capture = Capture::read(&file).unwrap();
    let mut receiver = Receiver::open(SetUp { ssrc: 7, ..capture.set_up() }).unwrap();
    for (_, datagram) in &capture {
        assert_eq!(receiver.media(datagram), Ok(Taken::default()));
    }
    assert_eq!(receiver.payload(65_530), Some(&datagram[12..]));
}
