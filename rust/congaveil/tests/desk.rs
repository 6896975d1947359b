//! The desk: which packets were rebuilt, and the counters, over a capture of GStreamer without a loss and over packets made
//! here; and what is read where it lies in the store.
use congaveil::capture::{Capture, Port};
use congaveil::{media_number, parity_snbase, Counters, Desk, How, Lent, Packet, Receiver, Record, Refusal, SetUp, Taken, Window};

const BASE: u16 = 65_530;
const SET_UP: SetUp = SetUp { base: BASE, l: 4, d: 4, payload: 188, positions: 16, records: 8, ssrc: 7 };

/// An offer that was taken in and rebuilt so many, with nothing spoilt.
fn taken(rebuilt: usize) -> Result<Taken, Refusal> {
    Ok(Taken { rebuilt, spoilt: 0 })
}

fn at(position: u16) -> u16 {
    BASE.wrapping_add(position)
}

/// A packet whose payload is one byte over and over, so that parity is the exclusive-or of these.
fn media(number: u16, byte: u8) -> Vec<u8> {
    let mut g = vec![0x80, 33, (number >> 8) as u8, number as u8, 0, 0, 0, 9, 0, 0, 0, 0];
    g.resize(200, byte);
    g
}

fn byte_of(number: u16) -> u8 {
    (number as u8).wrapping_mul(7).wrapping_add(1)
}

fn parity(row: bool, start: u16) -> Vec<u8> {
    let offset = if row { 1 } else { 4 };
    let sum = (0..4).fold(0, |sum, j| sum ^ byte_of(start.wrapping_add(j * offset)));
    let mut g = vec![0; 28];
    g[..2].copy_from_slice(&[0x80, 96]);
    g[12..14].copy_from_slice(&start.to_be_bytes());
    g[16] = 0x80;
    g[24..27].copy_from_slice(&[if row { 0x40 } else { 0 }, offset as u8, 4]);
    g.resize(216, sum);
    g
}

/// A capture file, and a receiver with all the room that there can be, at its base.
fn capture(file: &[u8]) -> (Capture<'_>, Receiver) {
    let capture = Capture::read(file).unwrap();
    let receiver = Receiver::open(SetUp { positions: 400, records: 128, ..capture.set_up() }).unwrap();
    (capture, receiver)
}

fn offer(desk: &mut Desk, r: &mut Receiver, port: Port, datagram: &[u8]) {
    let _ = match port {
        Port::Media => desk.media(r, datagram),
        Port::Column => desk.column(r, datagram),
        Port::Row => desk.row(r, datagram),
    };
}

fn numbers(desk: &mut Desk, receiver: &Receiver) -> Vec<u16> {
    desk.rebuilt(receiver).map(|packet| packet.number).collect()
}

/// GStreamer sends a row's parity before the row's last packet: nothing is lost, and still packets are rebuilt, each refused
/// with 14 when it arrives. None of them is recovered.
#[test]
fn without_a_loss() {
    let (capture, mut r) = capture(include_bytes!("../../../captures/gst_4x4_k4.cap"));
    let (mut desk, mut told) = (Desk::new(), 0);
    desk.begin(&r);
    for (port, datagram) in &capture {
        offer(&mut desk, &mut r, port, datagram);
        told += desk.rebuilt(&r).filter(|packet| r.payload(packet.number) == Some(packet.payload)).count() as u64;
    }
    let offered = capture.entries().filter(|(port, _)| *port == Port::Media).count() as u64;
    let c = desk.counters();
    assert!(told > 0);
    assert_eq!((c.rebuilt, c.late, c.recovered()), (told, told, 0));
    assert_eq!((c.refused_with(Refusal::Repeat), c.refused(), c.alarms), (told, told, 0));
    assert_eq!((c.received, c.missing(), r.present() as u64), (offered, 400 - offered, offered));
}

/// The same with payloads of several lengths: each packet that is told has its own.
#[test]
fn of_mixed_lengths() {
    let (capture, mut r) = capture(include_bytes!("../../../captures/gst_4x4_mixed.cap"));
    let (mut desk, mut told) = (Desk::new(), vec![]);
    desk.begin(&r);
    for (port, datagram) in &capture {
        offer(&mut desk, &mut r, port, datagram);
        told.extend(desk.rebuilt(&r).map(|packet| (packet.number, packet.payload.to_vec())));
    }
    let sent: Vec<&[u8]> = capture.entries().filter(|(port, _)| *port == Port::Media).map(|(_, datagram)| &datagram[12..]).collect();
    assert_eq!((told.len() as u64, desk.counters().spoilt), (desk.counters().rebuilt, 0));
    for (number, payload) in &told {
        assert_eq!(payload[..], *sent[r.position(*number)]);
    }
    assert!(told.iter().any(|(_, payload)| payload.len() < 1316));
    assert!(r.packets().map(|packet| packet.payload).eq(sent));
}

/// Parity that gives a packet which cannot be right, or contradicts its group, is counted, and nothing is told.
#[test]
fn spoilt() {
    let mut r = Receiver::open(SET_UP).unwrap();
    let mut desk = Desk::new();
    desk.begin(&r);
    for i in (1..16).filter(|i| *i != 4) {
        assert_eq!(desk.media(&mut r, &media(at(i), byte_of(at(i)))), taken(0));
    }
    let (mut row, mut column) = (parity(true, at(0)), parity(false, at(0)));
    row[15] = 1;
    column[14..16].copy_from_slice(&188u16.to_be_bytes());
    assert_eq!(desk.row(&mut r, &row), Ok(Taken { rebuilt: 0, spoilt: 1 }));
    assert_eq!(desk.column(&mut r, &column), taken(0));
    assert_eq!((r.in_hand(), desk.counters().spoilt), (1, 1));
    assert_eq!(desk.media(&mut r, &media(at(4), byte_of(at(4)))), Ok(Taken { rebuilt: 0, spoilt: 1 }));
    assert_eq!((r.in_hand(), numbers(&mut desk, &r), r.missing().collect::<Vec<_>>()), (0, vec![], vec![at(0)]));
    let mut row = parity(true, at(4));
    assert_eq!(desk.row(&mut r, &row), taken(0));
    row[215] ^= 1;
    assert_eq!(desk.row(&mut r, &row), Err(Refusal::Contradicts));
    assert_eq!(desk.counters().refused_with(Refusal::Contradicts), 1);
    let line = "received 15, recovered 0, late 0, missing 1, given up 0, alarms 0, spoilt 2, refused 1 (no. 18: 1)";
    assert_eq!(desk.counters().to_string(), line);
    let mut sum = *desk.counters();
    sum += sum;
    assert_eq!(sum.spoilt, 4);
}

/// Case 11 of the bench with a desk: four lost, three rebuilt at a stroke; then late ones, a repeat, and the alarm.
#[test]
fn at_a_stroke() {
    let mut r = Receiver::open(SET_UP).unwrap();
    let mut desk = Desk::default();
    desk.begin(&r);
    for i in (0..16).filter(|i| ![0, 1, 4, 5].contains(i)) {
        assert_eq!(desk.media(&mut r, &media(at(i), byte_of(at(i)))), taken(0));
    }
    for i in 0..2 {
        assert_eq!(desk.column(&mut r, &parity(false, at(i))), taken(0));
        assert_eq!(desk.row(&mut r, &parity(true, at(4 * i))), taken(0));
    }
    assert_eq!((desk.counters().answers[0], numbers(&mut desk, &r)), (16, vec![]));
    assert_eq!(desk.media(&mut r, &media(at(5), byte_of(at(5)))), taken(3));
    assert_eq!(desk.how(&r, at(1)), How::Rebuilt);
    let payload = [byte_of(at(0)); 188];
    assert_eq!(desk.rebuilt(&r).next(), Some(Packet { number: at(0), timestamp: 9, payload: &payload }));
    assert_eq!(desk.media(&mut r, &media(at(1), byte_of(at(1)))), Err(Refusal::Repeat)); // before it is told
    assert_eq!(numbers(&mut desk, &r), [at(4)]);
    assert_eq!(numbers(&mut desk, &r), []);
    assert_eq!((desk.counters().rebuilt, desk.counters().late, desk.counters().recovered()), (3, 1, 2));
    for again in [1, 3] {
        assert_eq!(desk.media(&mut r, &media(at(again), byte_of(at(again)))), Err(Refusal::Repeat));
        assert_eq!((desk.counters().late, desk.counters().received), (1, 14));
    }
    assert_eq!(desk.media(&mut r, &media(at(0), 0)), Err(Refusal::Differs));
    assert_eq!((desk.counters().alarms, desk.counters().late), (1, 2));
    assert_eq!(desk.media(&mut r, &media(at(3), 0)), Err(Refusal::Differs));
    assert_eq!(desk.column(&mut r, &parity(false, at(5))), Err(Refusal::Outside));
    assert_eq!(desk.media(&mut r, &[0; 11]), Err(Refusal::ShortDatagram));
    let how = |position| desk.how(&r, at(position));
    assert_eq!([how(0), how(3), how(4), how(16)], [How::Late, How::Arrived, How::Rebuilt, How::Missing]);
    let line = "received 15, recovered 1, late 2, missing 0, given up 0, alarms 2, spoilt 0, refused 7 (no. 6: 1, no. 13: 1, no. 14: 3, no. 15: 2)";
    assert_eq!(desk.counters().to_string(), line);
    let mut sum = *desk.counters();
    sum += *desk.counters();
    assert_eq!((sum.positions, sum.received, sum.rebuilt, sum.late, sum.alarms, sum.answers[14]), (32, 30, 6, 4, 4, 6));
    let r = Receiver::open(SET_UP).unwrap(); // the next window: the counters go on
    desk.begin(&r);
    assert_eq!((numbers(&mut desk, &r), desk.counters().missing()), (vec![], 16));
    assert_eq!(Counters::default().to_string(), "received 0, recovered 0, late 0, missing 0, given up 0, alarms 0, spoilt 0, refused 0");
}

/// A window of two matrices that moves on: what left is handed out or given up, what was rebuilt and not told leaves untold, and how the
/// others came moves down with them.
#[test]
fn moved_on() {
    let mut r = Receiver::open(SetUp { positions: 32, ..SET_UP }).unwrap();
    let (mut desk, mut out, mut sizes) = (Desk::new(), [0; 10 * 200], [0; 10]);
    desk.begin(&r);
    for i in (0..16).filter(|i| ![0, 1, 5, 10, 13].contains(i)) {
        assert_eq!(desk.media(&mut r, &media(at(i), byte_of(at(i)))), taken(0));
    }
    for (row, start) in [(true, 4), (false, 0), (true, 0), (true, 12)] {
        offer(&mut desk, &mut r, if row { Port::Row } else { Port::Column }, &parity(row, at(start)));
    }
    assert_eq!((desk.counters().rebuilt, desk.rebuilt(&r).next().map(|packet| packet.number)), (4, Some(at(0))));
    assert_eq!(desk.advance(&mut r, 0, &mut out, &mut sizes).err(), Some(Refusal::BadMove));
    assert_eq!((desk.counters().refused_with(Refusal::BadMove), desk.counters().positions), (1, 32));
    let left: Vec<(u16, Option<usize>)> =
        desk.advance(&mut r, 2, &mut out, &mut sizes).unwrap().map(|left| (left.number, left.datagram.map(<[u8]>::len))).collect();
    assert_eq!(left, [(at(0), Some(200)), (at(1), Some(200))]);
    assert_eq!((desk.counters().handed_out, desk.counters().given_up, desk.counters().positions), (2, 0, 34));
    assert_eq!([5, 4, 1].map(|i| desk.how(&r, at(i))), [How::Rebuilt, How::Arrived, How::Missing]);
    assert_eq!(desk.media(&mut r, &media(at(1), byte_of(at(1)))), Err(Refusal::Outside));
    assert_eq!(desk.rebuilt(&r).next().map(|packet| packet.number), Some(at(5)));
    assert_eq!(desk.media(&mut r, &media(at(5), byte_of(at(5)))), Err(Refusal::Repeat));
    assert_eq!(desk.advance(&mut r, 10, &mut out, &mut sizes).unwrap().handed_out(), 9);
    assert_eq!((desk.counters().handed_out, desk.counters().given_up), (11, 1));
    assert_eq!(numbers(&mut desk, &r), [at(13)]); // not told while 5 was the last; 10 left, and is not told
    assert_eq!(desk.advance(&mut r, 4, &mut out, &mut sizes).unwrap().handed_out(), 4);
    assert_eq!((numbers(&mut desk, &r), desk.counters().missing()), (vec![], 32));
    assert!((16..48).all(|i| desk.how(&r, at(i)) == How::Missing));
    assert_eq!(desk.advance(&mut r, 4, &mut out[..799], &mut sizes).err(), Some(Refusal::ShortBuffer));
    let line = "received 12, recovered 3, late 1, missing 32, given up 1, alarms 0, spoilt 0, refused 4 (no. 4: 1, no. 13: 1, no. 14: 1, no. 22: 1)";
    assert_eq!(desk.counters().to_string(), line);
    let mut sum = *desk.counters();
    sum += sum;
    assert_eq!((sum.handed_out, sum.given_up), (30, 2));
    // The last position is one that came; after a move it is a new one, and what is rebuilt there is told.
    assert_eq!(desk.media(&mut r, &media(at(47), byte_of(at(47)))), taken(0));
    assert_eq!(desk.advance(&mut r, 4, &mut out, &mut sizes).unwrap().handed_out(), 0);
    for i in 48..51 {
        assert_eq!(desk.media(&mut r, &media(at(i), byte_of(at(i)))), taken(0));
    }
    assert_eq!((desk.how(&r, at(47)), desk.how(&r, at(51))), (How::Arrived, How::Missing));
    assert_eq!((desk.row(&mut r, &parity(true, at(48))), numbers(&mut desk, &r)), (taken(1), vec![at(51)]));
}

/// What is read where it lies, and the numbers of a datagram for routing.
#[test]
fn in_place() {
    let mut r = Receiver::open(SET_UP).unwrap();
    assert_eq!(r.packets().next(), None);
    for i in [8, 2] {
        r.media(&media(at(i), i as u8)).unwrap();
    }
    assert_eq!(r.payload(at(8)), Some(&[8; 188][..]));
    assert_eq!((r.payload(at(3)), r.payload(at(16)), r.payload(BASE.wrapping_sub(1))), (None, None, None));
    let found: Vec<(u16, u32, u8)> = r.packets().map(|p| (p.number, p.timestamp, p.payload[187])).collect();
    assert_eq!(found, [(at(2), 9, 2), (at(8), 9, 8)]);
    assert_eq!((r.window().base, r.window().n, r.window().p, r.position(at(8)), r.position(BASE - 1)), (BASE, 16, 188, 8, 65_535));
    let g = media(0x1234, 0);
    assert_eq!((media_number(&g[..11]), media_number(&g[..12])), (None, Some(0x1234)));
    let g = parity(true, 0x1234);
    assert_eq!((parity_snbase(&g[..27]), parity_snbase(&g[..28])), (None, Some(0x1234)));
}

/// Windows that were made up, and counters at their edge: nothing panics and every walk ends.
#[test]
fn made_up() {
    let sizes = [0, 1, 15, 16, 17, 399, 400, 401, 65_536, 1 << 46, usize::MAX];
    for n in sizes {
        for p in sizes {
            let (mut media_part, mut timestamps, mut lengths, mut marks) = (vec![1; 16 * 188], [1; 15], [u16::MAX; 14], [1; 16]);
            let (mut parity_part, mut records) = ([1; 8 * 188], [Record::default(); 8]);
            let lent = Lent {
                media: &mut media_part,
                timestamps: &mut timestamps,
                lengths: &mut lengths,
                marks: &mut marks,
                parity: &mut parity_part,
                records: &mut records,
            };
            let window = Window { base: BASE, ssrc: 0, l: 4, d: 4, p, n, k: 8, present: usize::MAX, in_use: usize::MAX };
            let mut r = Receiver::from_parts(window, lent);
            let mut desk = Desk::new();
            desk.begin(&r);
            assert!(desk.media(&mut r, &media(BASE, 1)).is_err());
            assert!(desk.advance(&mut r, n, &mut [0; 3200], &mut [0; 16]).is_err());
            assert!(r.packets().count() <= 16);
            for number in 0..=u16::MAX {
                let _ = (r.payload(number), desk.how(&r, number));
            }
            assert_eq!(desk.rebuilt(&r).count(), 0);
        }
    }
    let most = u64::MAX;
    let mut c = Counters {
        positions: most,
        received: most,
        rebuilt: most,
        late: most,
        alarms: most,
        spoilt: most,
        handed_out: most,
        given_up: most,
        answers: [most; 23],
    };
    c += c;
    assert_eq!((c.recovered(), c.missing(), c.positions), (0, 2, most - 1)); // sums wrap
    assert!(c.to_string().len() < 1024); // the room that the C header names
}

/// A desk that was begun with one window and is asked about another, which has packets marked that it never saw.
#[test]
fn another_window() {
    let mut r = Receiver::open(SET_UP).unwrap();
    let mut desk = Desk::new();
    desk.begin(&r);
    for i in (0..16).filter(|i| *i != 3) {
        desk.media(&mut r, &media(at(i), byte_of(at(i)))).unwrap();
    }
    assert_eq!(desk.row(&mut r, &parity(true, at(0))), taken(1));
    let other = Receiver::open(SetUp { l: 1, positions: 4, ..SET_UP }).unwrap();
    assert_eq!(numbers(&mut desk, &other), []);
}
