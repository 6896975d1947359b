//! Every number of document 01, 18 and 22 is reached through the safe face; a refusal changes nothing; nothing is touched past the need.
use congaveil::capture::Port;
use congaveil::{move_room, Lent, Outer, Receiver, Record, Refusal, SetUp, Taken, Window, MEDIA_HEADER, PARITY_HEADER};

const P: usize = 188;
const BASE: u16 = 65_530;
const SET_UP: SetUp = SetUp { base: BASE, l: 4, d: 4, payload: P, positions: 16, records: 8, ssrc: 7 };

/// An offer that was taken in and rebuilt so many, with nothing spoilt.
fn taken(rebuilt: usize) -> Result<Taken, Refusal> {
    Ok(Taken { rebuilt, spoilt: 0 })
}

fn stamp(number: u16) -> u32 {
    3000 * u32::from(number) + 5
}

fn byte(number: u16, i: usize) -> u8 {
    (usize::from(number) * 31 + i * 7 + usize::from(number >> 5)) as u8
}

fn rtp(kind: u8, number: u16, time: u32, ssrc: u32) -> Vec<u8> {
    let mut g = vec![0x80, kind];
    g.extend(number.to_be_bytes());
    g.extend(time.to_be_bytes());
    g.extend(ssrc.to_be_bytes());
    g
}

fn media(number: u16, ssrc: u32) -> Vec<u8> {
    let mut g = rtp(33, number, stamp(number), ssrc);
    g.extend((0..P).map(|i| byte(number, i)));
    g
}

fn parity(row: bool, start: u16) -> Vec<u8> {
    let offset = if row { 1 } else { 4 };
    let group: Vec<u16> = (0..4).map(|j| start.wrapping_add(j * offset)).collect();
    let mut g = rtp(96, 1, 2, 3);
    g.extend(start.to_be_bytes());
    g.extend([0, 0, 0x80, 0, 0, 0]);
    g.extend(group.iter().fold(0, |t, n| t ^ stamp(*n)).to_be_bytes());
    g.extend([if row { 0x40 } else { 0 }, offset as u8, 4, 0]);
    g.extend((0..P).map(|i| group.iter().fold(0, |b, n| b ^ byte(*n, i))));
    g
}

fn with(mut g: Vec<u8>, at: usize, value: u8) -> Vec<u8> {
    g[at] = value;
    g
}

fn open(set_up: SetUp) -> Receiver {
    Receiver::open(set_up).unwrap()
}

#[test]
fn openings() {
    let refused = |set_up| Receiver::open(set_up).err();
    assert_eq!(refused(SetUp { l: 21, ..SET_UP }), Some(Refusal::BadProfile));
    assert_eq!(refused(SetUp { l: usize::MAX, d: usize::MAX, ..SET_UP }), Some(Refusal::BadProfile));
    assert_eq!(refused(SetUp { payload: 187, ..SET_UP }), Some(Refusal::BadPayloadSize));
    assert_eq!(refused(SetUp { positions: 15, ..SET_UP }), Some(Refusal::BadRoom));
    assert_eq!(refused(SetUp { positions: usize::MAX, records: usize::MAX, ..SET_UP }), Some(Refusal::BadRoom));
    assert_eq!(refused(SET_UP), None);
}

#[test]
fn media_offers() {
    let mut r = open(SET_UP);
    let good = media(BASE, 1);
    assert_eq!(r.media(&good[..11]), Err(Refusal::ShortDatagram));
    assert_eq!(r.media(&[]), Err(Refusal::ShortDatagram));
    assert_eq!(r.media(&with(good.clone(), 0, 0x40)), Err(Refusal::BadRtpHeader));
    assert_eq!(r.media(&with(good.clone(), 1, 96)), Err(Refusal::BadPayloadType));
    assert_eq!(r.media(&good[..MEDIA_HEADER + P - 1]), Err(Refusal::BadLength));
    assert_eq!(r.media(&media(BASE.wrapping_sub(1), 1)), Err(Refusal::Outside));
    assert_eq!(r.present(), 0);
    assert_eq!(r.media(&good), taken(0));
    assert_eq!(r.media(&good), Err(Refusal::Repeat));
    assert_eq!(r.media(&with(good, 12, 0)), Err(Refusal::Differs));
    assert_eq!(r.packet(BASE), Ok(media(BASE, 7)));
    assert_eq!(r.packet(BASE.wrapping_add(1)), Err(Refusal::Missing));
    assert_eq!(r.packet(BASE.wrapping_add(16)), Err(Refusal::Outside));
    assert_eq!(r.read(BASE, &mut [0; MEDIA_HEADER + P - 1]), Err(Refusal::ShortBuffer));
}

#[test]
fn parity_offers() {
    let mut r = open(SetUp { records: 1, ..SET_UP });
    let column = parity(false, BASE);
    assert_eq!(r.column(&column[..PARITY_HEADER - 1]), Err(Refusal::ShortDatagram));
    assert_eq!(r.column(&with(column.clone(), 16, 0)), Err(Refusal::BadFecHeader));
    assert_eq!(r.column(&with(column.clone(), 16, 0x80 | 33)), Err(Refusal::BadRecovery));
    assert_eq!(r.row(&column), Err(Refusal::BadShape));
    assert_eq!(r.column(&parity(false, BASE.wrapping_add(4))), Err(Refusal::Outside));
    assert_eq!(r.row(&parity(true, BASE)), taken(0));
    assert_eq!(r.in_hand(), 1);
    assert_eq!(r.row(&parity(true, BASE)), Err(Refusal::Repeat));
    assert_eq!(r.row(&with(parity(true, BASE), 20, 0xff)), Err(Refusal::Differs));
    assert_eq!(r.column(&column), Err(Refusal::Full));
}

/// Parity over a whole group is the one that the group gives, but for the fields that nobody looks at; then a lie that rebuilds, after which
/// true parity and the true packet are refused.
#[test]
fn parity_that_lies() {
    let mut r = open(SET_UP);
    let at = |i: u16| BASE.wrapping_add(i);
    for i in 1..16 {
        assert_eq!(r.media(&media(at(i), 1)), taken(0));
    }
    let before = format!("{r:?}");
    for (row, start) in [(false, at(1)), (true, at(3)), (true, at(12))] {
        let good = parity(row, start);
        let turned = |i: usize| with(good.clone(), i, good[i] ^ 1);
        let mut offer = |g: &[u8]| if row { r.row(g) } else { r.column(g) };
        for i in [14, 15, 20, 23, PARITY_HEADER, PARITY_HEADER + P / 2, PARITY_HEADER + P - 1] {
            assert_eq!(offer(&turned(i)), Err(Refusal::Contradicts), "byte {i}");
        }
        for i in [2, 3, 4, 7, 8, 11] {
            assert_eq!(offer(&turned(i)), taken(0), "byte {i}");
        }
        assert_eq!(offer(&good), taken(0));
    }
    assert_eq!(format!("{r:?}"), before);
    let good = parity(false, at(0));
    assert_eq!(r.column(&with(good.clone(), PARITY_HEADER, good[PARITY_HEADER] ^ 1)), taken(1));
    assert_eq!(r.row(&parity(true, at(0))), Err(Refusal::Contradicts));
    assert_eq!(r.media(&media(at(0), 1)), Err(Refusal::Differs));
}

#[test]
fn three_at_a_stroke() {
    let mut r = open(SET_UP);
    let at = |i: u16| BASE.wrapping_add(i);
    for i in (0..16).filter(|i| ![0, 1, 4, 5].contains(i)) {
        assert_eq!(r.media(&media(at(i), 1)), taken(0));
    }
    for i in [0, 1] {
        assert_eq!(r.column(&parity(false, at(i))), taken(0));
        assert_eq!(r.row(&parity(true, at(4 * i))), taken(0));
    }
    assert_eq!(r.missing().collect::<Vec<_>>(), [at(0), at(1), at(4), at(5)]);
    let mut out = [0xA5; PARITY_HEADER + P + 1];
    assert_eq!(r.write_row(at(0), Outer::default(), &mut out), Err(Refusal::Missing));
    assert_eq!(out, [0xA5; PARITY_HEADER + P + 1]);
    assert_eq!(r.media(&media(at(5), 1)), taken(3));
    assert_eq!((r.present(), r.in_hand(), r.missing().count()), (16, 0, 0));
    for i in 0..16 {
        assert_eq!(r.packet(at(i)), Ok(media(at(i), 7)));
    }
    let outer = Outer { sequence: 1, timestamp: 2, ssrc: 3 };
    assert_eq!(r.write_row(at(1), outer, &mut out), Ok(PARITY_HEADER + P));
    assert_eq!((&out[..PARITY_HEADER + P], out[PARITY_HEADER + P]), (&parity(true, at(1))[..], 0xA5));
    assert_eq!(r.write_column(at(2), outer, &mut out), Ok(PARITY_HEADER + P));
    assert_eq!((&out[..PARITY_HEADER + P], out[PARITY_HEADER + P]), (&parity(false, at(2))[..], 0xA5));
}

/// A store of the card's own, longer than needed and full of old bytes, that is looked at between the calls.
#[test]
fn a_lent_store() {
    let old = Record { stream: 9, snbase: 9, timestamp_recovery: 9, length_recovery: 9, payload_length: 9, in_use: 9 };
    let (mut media_part, mut timestamps, mut lengths, mut marks) = (vec![9; 16 * P + 3], [9; 17], [9; 20], [9; 18]);
    let (mut parity_part, mut records) = (vec![9; 8 * P + 1], [old; 9]);
    {
        let lent = Lent {
            media: &mut media_part,
            timestamps: &mut timestamps,
            lengths: &mut lengths,
            marks: &mut marks,
            parity: &mut parity_part,
            records: &mut records,
        };
        let mut r = Receiver::open_in(SET_UP, lent).unwrap();
        assert_eq!(r.row(&parity(true, BASE)), taken(0));
        assert_eq!(r.media(&media(BASE, 1)), taken(0));
    }
    assert_eq!(
        (&media_part[16 * P..], timestamps[16], &lengths[16..], &marks[16..], parity_part[8 * P], records[8]),
        (&[9; 3][..], 9, &[9; 4][..], &[9; 2][..], 9, old)
    );
    let time = (0..4).fold(0, |t, i| t ^ stamp(BASE.wrapping_add(i)));
    let held = Record { stream: 1, snbase: BASE, timestamp_recovery: time, length_recovery: 0, payload_length: P as u16, in_use: 1 };
    assert_eq!((records[0], lengths[..2].to_vec()), (held, vec![P as u16, 0]));
    let short = Lent {
        media: &mut media_part,
        timestamps: &mut timestamps,
        lengths: &mut lengths,
        marks: &mut marks,
        parity: &mut parity_part,
        records: &mut records[..7],
    };
    assert_eq!(Receiver::open_in(SET_UP, short).err(), Some(Refusal::ShortBuffer));
}

/// A store that was changed from outside, and a window value that was made up.
#[test]
fn parts() {
    let mut marks = [0; 16];
    let (mut media_part, mut timestamps, mut lengths) = (vec![0; 16 * P], [0; 16], [0; 16]);
    let (mut parity_part, mut records) = (vec![0; 8 * P], [Record::default(); 8]);
    let lent = Lent {
        media: &mut media_part,
        timestamps: &mut timestamps,
        lengths: &mut lengths,
        marks: &mut marks,
        parity: &mut parity_part,
        records: &mut records,
    };
    let (window, lent) = Receiver::open_in(SET_UP, lent).unwrap().into_parts();
    lent.marks[3] = 2;
    let mut r = Receiver::from_parts(window, lent);
    assert_eq!(r.media(&media(BASE, 1)), Err(Refusal::Disorder));
    let (_, lent) = r.into_parts();
    lent.marks[3] = 0;
    let mut r = Receiver::from_parts(Window::default(), lent);
    assert_eq!(r.media(&media(BASE, 1)), Err(Refusal::BadProfile));
    assert_eq!((r.has(BASE), r.missing().count()), (false, 0));
    let (_, lent) = r.into_parts();
    assert_eq!(Receiver::from_parts(window, lent).media(&media(BASE, 1)), taken(0));
}

/// A row of four whose payloads have one, two, three and one transport packets, in a window of three; each of them in turn is rebuilt at
/// its length, and a lie about it is spoilt.
#[test]
fn lengths() {
    let units = [1, 2, 3, 1];
    let set_up = SetUp { payload: 3 * P, ..SET_UP };
    let at = |i: usize| BASE.wrapping_add(i as u16);
    let sent: Vec<Vec<u8>> = (0..4)
        .map(|i| {
            let mut g = rtp(33, at(i), stamp(at(i)), 7);
            g.extend((0..units[i] * P).map(|j| byte(at(i), j)));
            g
        })
        .collect();
    let mut sender = open(set_up);
    for g in &sent {
        assert_eq!(sender.media(g), taken(0));
    }
    for i in 0..4 {
        assert_eq!((sender.packet(at(i)), sender.payload(at(i))), (Ok(sent[i].clone()), Some(&sent[i][12..])));
    }
    let mut row = [0xA5; PARITY_HEADER + 3 * P];
    assert_eq!(sender.write_row(BASE, Outer::default(), &mut row[1..]), Err(Refusal::ShortBuffer));
    assert_eq!(sender.write_row(BASE, Outer::default(), &mut row), Ok(PARITY_HEADER + 3 * P));
    assert_eq!(u16::from_be_bytes([row[14], row[15]]) as usize, (2 * P) ^ (3 * P));
    for lost in 0..4 {
        let mut r = open(set_up);
        for (_, g) in sent.iter().enumerate().filter(|(i, _)| *i != lost) {
            assert_eq!(r.media(g), taken(0));
        }
        for (at_byte, by) in [(15, 1), (14, 0x80), (16 + 12 + 3 * P - 1, 1)] {
            let lie = with(row.to_vec(), at_byte, row[at_byte] ^ by);
            // The last byte belongs to the packet of three transport packets: there it is no lie that shows.
            if units[lost] < 3 || at_byte < 16 {
                assert_eq!(r.row(&lie), Ok(Taken { rebuilt: 0, spoilt: 1 }));
            }
        }
        assert_eq!((r.present(), r.in_hand(), r.payload(at(lost))), (3, 0, None));
        assert_eq!(r.row(&row), taken(1));
        assert_eq!((r.payload(at(lost)), r.packet(at(lost))), (Some(&sent[lost][12..]), Ok(sent[lost].clone())));
        let longer: Vec<u8> = sent[lost].iter().copied().chain([0; P]).collect();
        assert_eq!(r.media(&longer), Err(if units[lost] < 3 { Refusal::Differs } else { Refusal::BadLength }));
        assert_eq!(r.media(&sent[lost]), Err(Refusal::Repeat));
    }
}

/// The numbers and packets of the first so many positions.
fn first(r: &Receiver, by: usize) -> Vec<(u16, Option<Vec<u8>>)> {
    (0..by).map(|i| r.window().base.wrapping_add(i as u16)).map(|number| (number, r.packet(number).ok())).collect()
}

/// Moves on, into outputs with a little more room: what left is what could be read before, with zeros behind it, and nothing is touched
/// past that. The others are read under their numbers as before, and the new ones are missing.
fn moves(r: &mut Receiver, by: usize) -> usize {
    let (n, before) = (r.window().n, first(r, r.window().n));
    let (slot, mut again) = (move_room(1, P), r.clone());
    let (mut out, mut sizes) = (vec![0xA5; move_room(by, P) + 3], vec![9; by + 2]);
    let left = r.advance(by, &mut out, &mut sizes).unwrap();
    assert_eq!((left.len(), left.handed_out()), (by, before[..by].iter().filter(|(_, packet)| packet.is_some()).count()));
    assert!(left.map(|left| (left.number, left.datagram.map(<[u8]>::to_vec))).eq(before[..by].iter().cloned()));
    assert_eq!((&out[by * slot..], &sizes[by..]), (&[0xA5; 3][..], &[9; 2][..]));
    for ((slot, size), (_, packet)) in out.chunks(slot).zip(&sizes).zip(&before[..by]) {
        let packet = packet.as_deref().unwrap_or(&[]);
        assert_eq!((slot.starts_with(packet), usize::from(*size)), (true, packet.len()));
        assert!(slot[packet.len()..].iter().all(|byte| *byte == 0));
    }
    assert_eq!(first(r, n - by), before[by..]);
    assert!(first(r, n)[n - by..].iter().all(|(_, packet)| packet.is_none()));
    assert_eq!(again.advance_to_vec(by).unwrap(), before[..by]);
    assert_eq!((again.window(), first(&again, n)), (r.window(), first(r, n)));
    r.in_hand()
}

#[test]
fn moving() {
    let mut r = open(SetUp { positions: 32, ..SET_UP });
    let at = |i: u16| BASE.wrapping_add(i);
    for i in (0..32).filter(|i| ![0, 1, 5, 20, 21, 22].contains(i)) {
        assert_eq!(r.media(&media(at(i), 1)), taken(0));
    }
    assert_eq!([r.row(&parity(true, at(0))), r.row(&parity(true, at(20))), r.column(&parity(false, at(1)))], [taken(0); 3]);
    for by in [0, 33, usize::MAX] {
        assert_eq!(r.advance(by, &mut [], &mut []).err(), Some(Refusal::BadMove));
        assert_eq!(r.advance_to_vec(by), Err(Refusal::BadMove));
    }
    assert_eq!(r.advance(2, &mut vec![0; move_room(2, P) - 1], &mut [0; 2]).err(), Some(Refusal::ShortBuffer));
    assert_eq!(r.advance(2, &mut vec![0; move_room(2, P)], &mut [0; 1]).err(), Some(Refusal::ShortBuffer));
    assert_eq!((r.window().base, r.present(), r.in_hand()), (BASE, 26, 3));
    assert_eq!([moves(&mut r, 1), moves(&mut r, 1), moves(&mut r, 3)], [2, 1, 1]);
    assert_eq!(r.media(&media(at(4), 1)), Err(Refusal::Outside));
    assert_eq!(r.row(&parity(true, at(4))), Err(Refusal::Outside));
    assert_eq!([r.media(&media(at(36), 1)), r.media(&media(at(20), 1)), r.media(&media(at(21), 1))], [taken(0), taken(0), taken(1)]);
    assert_eq!(r.packet(at(22)), Ok(media(at(22), 7)));
    assert_eq!([moves(&mut r, 31), moves(&mut r, 32), moves(&mut r, 32)], [0; 3]);
    assert_eq!((r.window().base, r.present()), (at(5 + 31 + 64), 0));
    assert_eq!((move_room(0, 188), move_room(2, 188), move_room(usize::MAX, usize::MAX)), (0, 400, usize::MAX));
}

/// Which datagrams a window moves on for: 16 positions from 65,530 to 9, and as many from 10 to 25.
#[test]
fn ahead() {
    let r = open(SET_UP);
    let at = |i: u16| BASE.wrapping_add(i);
    for (i, is) in [(0, false), (15, false), (16, true), (31, true), (32, false), (65_535, false)] {
        assert_eq!(r.ahead(Port::Media, &media(at(i), 1)), is, "media {i}");
        assert_eq!(r.ahead(Port::Row, &parity(true, at(i.wrapping_sub(3)))), is, "the row that ends with {i}");
        assert_eq!(r.ahead(Port::Column, &parity(false, at(i.wrapping_sub(12)))), is, "the column that ends with {i}");
    }
    let (g, row) = (media(at(16), 1), parity(true, at(16)));
    assert!(
        !r.ahead(Port::Media, &g[..11])
            && r.ahead(Port::Media, &g[..12])
            && !r.ahead(Port::Row, &row[..27])
            && r.ahead(Port::Row, &row[..28])
    );
    assert!(!r.ahead(Port::Row, &g) && !r.ahead(Port::Media, &row));
    for byte in [0, 1] {
        assert!(!r.ahead(Port::Media, &with(g.clone(), byte, 0x90)) && !r.ahead(Port::Row, &with(row.clone(), byte, 0x90)));
    }
    let none = Receiver::from_parts(Window::default(), r.into_parts().1);
    assert!(!none.ahead(Port::Media, &g) && !none.ahead(Port::Column, &row));
}

/// The limits are those that opening keeps to.
#[test]
fn limits() {
    use congaveil::{D_MAX, D_MIN, L_MAX, MATRIX_MAX, PAYLOAD_MAX, POSITIONS_MAX, RECORDS_MAX};
    let opens = |l, d, payload, positions, records| Receiver::open(SetUp { l, d, payload, positions, records, ..SET_UP }).err();
    assert_eq!(opens(L_MAX, MATRIX_MAX / L_MAX, PAYLOAD_MAX, POSITIONS_MAX, RECORDS_MAX), None);
    assert_eq!(opens(1, D_MIN, P, D_MIN, 1), None);
    assert_eq!(opens(1, D_MAX, P, D_MAX, 1), None);
    assert_eq!(opens(L_MAX + 1, D_MIN, P, POSITIONS_MAX, 1), Some(Refusal::BadProfile));
    assert_eq!(opens(1, D_MIN - 1, P, POSITIONS_MAX, 1), Some(Refusal::BadProfile));
    assert_eq!(opens(1, D_MAX + 1, P, POSITIONS_MAX, 1), Some(Refusal::BadProfile));
    assert_eq!(opens(MATRIX_MAX / D_MAX + 1, D_MAX, P, POSITIONS_MAX, 1), Some(Refusal::BadProfile));
    assert_eq!(opens(4, 4, PAYLOAD_MAX + 204, POSITIONS_MAX, 1), Some(Refusal::BadPayloadSize));
    assert_eq!(opens(4, 4, P, POSITIONS_MAX + 1, 1), Some(Refusal::BadRoom));
    assert_eq!(opens(4, 4, P, POSITIONS_MAX, RECORDS_MAX + 1), Some(Refusal::BadRoom));
}

/// Each has its number and its words.
#[test]
fn words() {
    use Refusal::*;
    let all = [
        BadProfile,
        BadPayloadSize,
        BadRoom,
        ShortBuffer,
        Disorder,
        ShortDatagram,
        BadRtpHeader,
        BadPayloadType,
        BadLength,
        BadFecHeader,
        BadRecovery,
        BadShape,
        Outside,
        Repeat,
        Differs,
        Full,
        Missing,
        Contradicts,
    ];
    for (i, refusal) in all.iter().enumerate() {
        assert_eq!(refusal.number(), i as u32 + 1);
        assert!(!refusal.to_string().is_empty());
    }
    assert_eq!((BadCapture.number(), BadCapture.to_string()), (21, "not a proper capture file".into()));
    assert_eq!((BadMove.number(), BadMove.to_string()), (22, "window moved by no position, or by more than it has".into()));
    assert_eq!(BadMove.number() as usize + 1, congaveil::NUMBERS);
    assert_eq!(BadLength.to_string(), "payload not whole transport packets up to the window's size");
    assert_eq!(BadRecovery.to_string(), "payload type recovery not the profile's");
    assert_eq!(Contradicts.to_string(), "parity contradicts its group, all of which is present");
}
