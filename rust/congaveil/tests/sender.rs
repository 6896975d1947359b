//! The sender through the safe face: each packet that it gives is the one that a receiver with the whole group writes, at the moment
//! that the arrangement says; what it protects comes back; every refusal of it is reached and changes nothing; nothing is touched past
//! the need.
use congaveil::{room_for, Arrangement, LentRoom, Outer, ParityStream, ParityStreams, Receiver, Refusal, Sender, SenderSetUp, SenderValue};
use congaveil::{SetUp, Taken, MEDIA_HEADER, PARITY_HEADER};
use Arrangement::{Aligned, Staggered};

const P: usize = 3 * 188;
const FIRST: u16 = 65_400;
const STREAMS: ParityStreams =
    ParityStreams { row: ParityStream { sequence: 65_534, ssrc: 8 }, column: ParityStream { sequence: 65_535, ssrc: 9 } };
const SET_UP: SenderSetUp = SenderSetUp { first: FIRST, arrangement: Aligned, l: 4, d: 5, payload: P, streams: STREAMS };

fn number(i: usize) -> u16 {
    FIRST.wrapping_add(i as u16)
}

fn stamp(i: usize) -> u32 {
    (3003 * i as u32).wrapping_add(0xffff_0000)
}

/// A media packet of one to three transport packets, four in turn of one length.
fn media(i: usize) -> Vec<u8> {
    let mut g = vec![0x80, 33];
    g.extend(number(i).to_be_bytes());
    g.extend(stamp(i).to_be_bytes());
    g.extend([0, 0, 0, 7]);
    g.extend((0..188 * (1 + i / 4 % 3)).map(|j| (i * 31 + j * 7 + i * j / 64) as u8));
    g
}

/// A room with old bytes in it, and some to spare.
#[derive(Clone, PartialEq, Debug)]
struct Parts {
    payloads: Vec<u8>,
    timestamps: Vec<u32>,
    lengths: Vec<u16>,
    longest: Vec<u16>,
    row: Vec<u8>,
    column: Vec<u8>,
}

impl Parts {
    fn new(l: usize, p: usize, spare: usize) -> Self {
        let n = room_for(l) + spare;
        Parts {
            payloads: vec![0xA5; room_for(l) * p + spare],
            timestamps: vec![0xA5; n],
            lengths: vec![0xA5; n],
            longest: vec![0xA5; n],
            row: vec![0xA5; PARITY_HEADER + p + spare],
            column: vec![0xA5; PARITY_HEADER + p + spare],
        }
    }

    fn lend(&mut self) -> LentRoom<'_> {
        LentRoom {
            payloads: &mut self.payloads,
            timestamps: &mut self.timestamps,
            lengths: &mut self.lengths,
            longest: &mut self.longest,
            row: &mut self.row,
            column: &mut self.column,
        }
    }
}

/// The SNBase positions of the row and of the column that go out with packet i.
fn due(l: usize, d: usize, arrangement: Arrangement, i: usize) -> (Option<usize>, Option<usize>) {
    let (matrix, r) = (l * d, i % l);
    let row = if l >= 4 && r == l - 1 { Some(i - r) } else { None };
    let column = match arrangement {
        Aligned if i >= matrix && i % matrix % d == 0 => Some(i / matrix * matrix - matrix + i % matrix / d),
        Aligned => None,
        // L packets after its last one is where the next column of that place starts.
        Staggered if i >= matrix && (i / l) % d == r % d => Some(i - matrix),
        Staggered => None,
    };
    (row, column)
}

/// What a receiver that holds all packets writes for a group.
fn written(all: &Receiver, start: Option<usize>, row: bool, outer: Outer) -> Option<Vec<u8>> {
    let mut out = vec![0; PARITY_HEADER + P];
    let snbase = number(start?);
    let length = if row { all.write_row(snbase, outer, &mut out) } else { all.write_column(snbase, outer, &mut out) };
    out.truncate(length.unwrap());
    Some(out)
}

/// Two hundred packets, or four matrices where that is more, through a sender, beside a receiver that holds them all.
fn same_as_written(l: usize, d: usize, arrangement: Arrangement) {
    let n = (4 * l * d).clamp(200, 400);
    let mut all = Receiver::open(SetUp { base: FIRST, l, d, payload: P, positions: n, records: 1, ssrc: 0 }).unwrap();
    (0..n).for_each(|i| assert_eq!(all.media(&media(i)), Ok(Taken::default())));
    let mut sender = Sender::open(SenderSetUp { arrangement, l, d, ..SET_UP }).unwrap();
    let (mut rows, mut columns) = (0u16, 0u16);
    for i in 0..n {
        assert_eq!(sender.next_number(), number(i));
        let (row, column) = due(l, d, arrangement, i);
        let outer = |stream: ParityStream, sent: u16| Outer {
            sequence: stream.sequence.wrapping_add(sent),
            timestamp: 77 + i as u32,
            ssrc: stream.ssrc,
        };
        let must = (written(&all, row, true, outer(STREAMS.row, rows)), written(&all, column, false, outer(STREAMS.column, columns)));
        let sent = sender.media(&media(i), 77 + i as u32).unwrap();
        assert_eq!(sent.row, must.0.as_deref(), "row with packet {i} of {l} x {d}, {arrangement:?}");
        assert_eq!(sent.column, must.1.as_deref(), "column with packet {i} of {l} x {d}, {arrangement:?}");
        rows += row.is_some() as u16;
        columns += column.is_some() as u16;
    }
    assert!(columns as usize >= 2 * l - 1 && (rows > 0) == (l >= 4), "{rows} rows and {columns} columns of {l} x {d}, {arrangement:?}");
    assert_eq!(sender.streams().row.sequence, STREAMS.row.sequence.wrapping_add(rows));
    assert_eq!(sender.streams().column.sequence, STREAMS.column.sequence.wrapping_add(columns));
}

#[test]
fn every_packet_is_that_of_its_group() {
    for (l, d) in [(4, 5), (1, 4), (1, 20), (3, 7), (4, 4), (5, 5), (7, 4), (10, 10), (20, 5), (5, 20)] {
        same_as_written(l, d, Aligned);
        same_as_written(l, d, Staggered);
    }
}

/// 004's annex A numbers its packets from 1: at 4 × 5 the first columns are 1, 5, 9, 13, 17 and 6, 10, 14, 18, 22, and each goes out four
/// packets after its last.
#[test]
fn annex_a() {
    let mut sender = Sender::open(SenderSetUp { first: 1, arrangement: Staggered, ..SET_UP }).unwrap();
    let mut out = Vec::new();
    for i in 1..=40u16 {
        let mut g = media(0);
        g[2..4].copy_from_slice(&i.to_be_bytes());
        if let Some(column) = sender.media(&g, 0).unwrap().column {
            out.push((i, u16::from_be_bytes([column[12], column[13]]), column[25], column[26]));
        }
    }
    assert_eq!(out, [(21, 1, 4, 5), (26, 6, 4, 5), (31, 11, 4, 5), (36, 16, 4, 5)]);
}

/// Four matrices across the wrap, of which one packet is lost in the first and a burst of L in the second: all come back, at their length.
fn round_trip(l: usize, d: usize, arrangement: Arrangement) {
    let (matrix, n) = (l * d, 4 * l * d);
    let mut sender = Sender::open(SenderSetUp { arrangement, l, d, ..SET_UP }).unwrap();
    let set_up = SetUp { base: FIRST, l, d, payload: P, positions: n, records: 4 * (l + d), ssrc: 7 };
    let mut receiver = Receiver::open(set_up).unwrap();
    let lost = |i: usize| i < 2 * matrix && (i == 5 || (matrix + 2..matrix + 2 + l).contains(&i));
    let (mut rebuilt, mut gone) = (0, 0);
    for i in 0..n {
        let g = media(i);
        let sent = sender.media(&g, stamp(i)).unwrap();
        if lost(i) {
            gone += 1;
        } else {
            rebuilt += receiver.media(&g).unwrap().rebuilt;
        }
        rebuilt += sent.column.map_or(0, |column| receiver.column(column).unwrap().rebuilt);
        rebuilt += sent.row.map_or(0, |row| receiver.row(row).unwrap().rebuilt);
    }
    assert_eq!((gone, rebuilt, receiver.present()), (l + 1, l + 1, n), "{l} x {d}, {arrangement:?}");
    (0..n).for_each(|i| assert_eq!(receiver.packet(number(i)), Ok(media(i))));
}

#[test]
fn losses_come_back() {
    for (l, d) in [(4, 5), (5, 5), (10, 10), (8, 12), (6, 4)] {
        round_trip(l, d, Aligned);
        round_trip(l, d, Staggered);
    }
}

#[test]
fn openings() {
    let refused = |set_up| Sender::open(set_up).err();
    assert_eq!(refused(SenderSetUp { l: 21, ..SET_UP }), Some(Refusal::BadProfile));
    assert_eq!(refused(SenderSetUp { l: 0, ..SET_UP }), Some(Refusal::BadProfile));
    assert_eq!(refused(SenderSetUp { d: 3, ..SET_UP }), Some(Refusal::BadProfile));
    assert_eq!(refused(SenderSetUp { l: usize::MAX, d: usize::MAX, payload: usize::MAX, ..SET_UP }), Some(Refusal::BadProfile));
    assert_eq!(refused(SenderSetUp { payload: 0, ..SET_UP }), Some(Refusal::BadPayloadSize));
    assert_eq!(refused(SenderSetUp { payload: usize::MAX, ..SET_UP }), Some(Refusal::BadPayloadSize));
    assert_eq!(refused(SenderSetUp { payload: 1428, l: 20, ..SET_UP }), None);
    assert_eq!((room_for(0), room_for(20), room_for(usize::MAX)), (1, 41, usize::MAX));
}

/// The lent room: all that is needed is cleared, what is past it stays, and a part that is one short is refused and stays whole.
#[test]
fn a_lent_room() {
    let old = Parts::new(4, P, 3);
    let mut parts = old.clone();
    let sender = Sender::open_in(SET_UP, parts.lend()).unwrap();
    let value = SenderValue { first: FIRST, taken: 0, arrangement: 0, l: 4, d: 5, p: P, at: 0 };
    assert_eq!((*sender.value(), *sender.streams()), (value, STREAMS));
    drop(sender);
    assert!(parts.payloads[..9 * P].iter().all(|byte| *byte == 0) && parts.payloads[9 * P..] == [0xA5; 3]);
    assert_eq!((&parts.timestamps[..9], &parts.timestamps[9..]), (&[0; 9][..], &[0xA5; 3][..]));
    assert_eq!((&parts.lengths[..9], &parts.longest[..9]), (&[0; 9][..], &[0; 9][..]));
    assert_eq!((&parts.lengths[9..], &parts.longest[9..]), (&[0xA5; 3][..], &[0xA5; 3][..]));
    assert_eq!((&parts.row, &parts.column), (&old.row, &old.column));
    for part in 0..6 {
        let mut parts = Parts::new(4, P, 0);
        match part {
            0 => drop(parts.payloads.pop()),
            1 => drop(parts.timestamps.pop()),
            2 => drop(parts.lengths.pop()),
            3 => drop(parts.longest.pop()),
            4 => drop(parts.row.pop()),
            _ => drop(parts.column.pop()),
        }
        let before = parts.clone();
        if part < 4 {
            assert_eq!(Sender::open_in(SET_UP, parts.lend()).err(), Some(Refusal::ShortBuffer));
            assert_eq!(parts, before);
        }
        // Of an output that is short the first offer is refused, also where nothing goes out.
        parts.longest.fill(0);
        let before = parts.clone();
        let mut sender = Sender::from_parts(value, STREAMS, parts.lend());
        assert_eq!(sender.media(&media(0), 0), Err(Refusal::ShortBuffer));
        assert_eq!((*sender.value(), *sender.streams()), (value, STREAMS));
        assert_eq!(parts, before);
    }
}

/// A sender that has taken 23 packets of 4 × 5: the next one ends a row, and no column is due.
fn running(parts: &mut Parts) -> SenderValue {
    let mut sender = Sender::open_in(SET_UP, parts.lend()).unwrap();
    (0..23).for_each(|i| assert!(sender.media(&media(i), 0).is_ok()));
    *sender.value()
}

/// A sender value and a datagram for each way that an offer is refused, where this value and this datagram are good.
fn bad_offers(value: SenderValue, good: &[u8]) -> Vec<(SenderValue, Vec<u8>, Refusal)> {
    let with = |at: usize, byte: u8| {
        let mut g = good.to_vec();
        g[at] = byte;
        g
    };
    let longer: Vec<u8> = good.iter().copied().chain([0; P]).collect();
    vec![
        (SenderValue { l: 21, ..value }, good.to_vec(), Refusal::BadProfile),
        (SenderValue { d: usize::MAX, ..value }, good.to_vec(), Refusal::BadProfile),
        (SenderValue { p: 187, ..value }, good.to_vec(), Refusal::BadPayloadSize),
        (SenderValue { p: 7 * 204, ..value }, good.to_vec(), Refusal::ShortBuffer),
        (SenderValue { l: 5, ..value }, good.to_vec(), Refusal::ShortBuffer),
        (SenderValue { at: 3 * 4 * 5, ..value }, good.to_vec(), Refusal::Disorder),
        (SenderValue { at: usize::MAX, ..value }, good.to_vec(), Refusal::Disorder),
        (SenderValue { p: 188, ..value }, good.to_vec(), Refusal::Disorder),
        (value, good[..11].to_vec(), Refusal::ShortDatagram),
        (value, Vec::new(), Refusal::ShortDatagram),
        (value, with(0, 0x40), Refusal::BadRtpHeader),
        (value, with(1, 33 | 0x80), Refusal::BadRtpHeader),
        (value, with(1, 96), Refusal::BadPayloadType),
        (value, good[..MEDIA_HEADER].to_vec(), Refusal::BadLength),
        (value, good[..good.len() - 1].to_vec(), Refusal::BadLength),
        (value, longer, Refusal::BadLength),
        (value, media(22), Refusal::Outside),
        (value, media(24), Refusal::Outside),
        (SenderValue { taken: 22, ..value }, good.to_vec(), Refusal::Outside),
    ]
}

/// Every refusal of an offer; value, streams and all that was lent stay as they were, and the sender goes on afterwards.
#[test]
fn refusals() {
    let mut parts = Parts::new(4, P, 2);
    let value = running(&mut parts);
    let good = media(23);
    let before = parts.clone();
    for (value, datagram, refusal) in bad_offers(value, &good) {
        let mut sender = Sender::from_parts(value, STREAMS, parts.lend());
        assert_eq!(sender.media(&datagram, 5), Err(refusal), "{value:?}");
        assert_eq!((*sender.value(), *sender.streams()), (value, STREAMS));
        assert_eq!(parts, before, "{value:?}, {refusal}");
    }
    let mut sender = Sender::from_parts(value, STREAMS, parts.lend());
    assert_eq!(sender.media(&good, 5).map(|sent| (sent.row.is_some(), sent.column)), Ok((true, None)));
}

/// A longest length past P is 5 in each place of the room, and not past the room.
#[test]
fn changed_lengths() {
    let mut parts = Parts::new(4, P, 2);
    let value = running(&mut parts);
    for place in 0..11 {
        let old = parts.longest[place];
        parts.longest[place] = P as u16 + 1;
        let before = parts.clone();
        let mut sender = Sender::from_parts(value, STREAMS, parts.lend());
        if place < 9 {
            assert_eq!(sender.media(&media(23), 0), Err(Refusal::Disorder));
            assert_eq!(parts, before);
            parts.longest[place] = old;
        }
    }
    let mut sender = Sender::from_parts(value, STREAMS, parts.lend());
    assert!(sender.media(&media(23), 0).is_ok());
    assert_eq!(parts.longest[9..], [P as u16 + 1; 2]);
}

/// Of the outputs only the bytes of a packet are written, and nothing where none goes out.
#[test]
fn outputs() {
    let mut parts = Parts::new(4, P, 3);
    let mut value = Sender::open_in(SET_UP, parts.lend()).unwrap().into_parts().0;
    let (mut short, mut unused) = (0, 0);
    for i in 0..60 {
        parts.row.fill(0xA5);
        parts.column.fill(0xA5);
        let mut sender = Sender::from_parts(value, STREAMS, parts.lend());
        let sent = sender.media(&media(i), 0).unwrap();
        let lengths = (sent.row.map_or(0, <[u8]>::len), sent.column.map_or(0, <[u8]>::len));
        value = *sender.value();
        for (out, length) in [(&parts.row, lengths.0), (&parts.column, lengths.1)] {
            assert!(out[length..].iter().all(|byte| *byte == 0xA5), "packet {i}");
            short += (length > 0 && length < PARITY_HEADER + P) as usize;
            unused += (length == 0) as usize;
        }
    }
    assert!(unused > 60 && short > 0, "{unused} {short}");
}

/// Values that were made up, every field at its edges in all combinations: each call ends with an answer, and one that is refused alters
/// nothing.
#[test]
fn made_up() {
    let edges = [0, 1, 4, 5, 20, 59, 60, 188, P, 1 << 46, usize::MAX];
    let before = {
        let mut parts = Parts::new(4, P, 0);
        running(&mut parts);
        parts
    };
    let (mut taken, mut refused) = (0, 0);
    for choice in 0..edges.len().pow(4) {
        let edge = |place: u32| edges[choice / edges.len().pow(place) % edges.len()];
        let value = SenderValue { first: FIRST, taken: 23, arrangement: choice as u8, l: edge(0), d: edge(1), p: edge(2), at: edge(3) };
        let mut parts = before.clone();
        let mut sender = Sender::from_parts(value, STREAMS, parts.lend());
        let answer = sender.media(&media(23), 0).map(|_| ());
        if answer.is_ok() {
            taken += 1;
            assert_eq!(sender.value().taken, 24);
            continue;
        }
        refused += 1;
        assert_eq!((*sender.value(), *sender.streams()), (value, STREAMS));
        assert_eq!(parts, before, "{value:?}");
        let mut sender = Sender::from_parts(value, STREAMS, parts.lend());
        if sender.reopen(3).is_err() {
            assert_eq!(*sender.value(), value);
            assert_eq!(parts, before, "{value:?}");
        }
    }
    assert!(taken > 20 && refused > 10_000, "{taken} {refused}");
}

/// After a gap: 13, nothing changed; opened again at the number that is there, parity starts afresh and its streams number on.
#[test]
fn a_gap() {
    let mut sender = Sender::open(SET_UP).unwrap();
    (0..4).for_each(|i| assert_eq!(sender.media(&media(i), 0).map(|sent| sent.row.is_some()), Ok(i == 3)));
    assert_eq!(sender.media(&media(5), 0), Err(Refusal::Outside));
    assert_eq!(sender.media(&media(3), 0), Err(Refusal::Outside));
    assert_eq!(sender.next_number(), number(4));
    assert_eq!(sender.reopen(number(6)), Ok(()));
    assert_eq!(*sender.value(), SenderValue { first: number(6), taken: 0, arrangement: 0, l: 4, d: 5, p: P, at: 0 });
    (6..9).for_each(|i| assert_eq!(sender.media(&media(i), 0).map(|sent| sent.row), Ok(None)));
    let row = sender.media(&media(9), 3).unwrap().row.unwrap();
    assert_eq!(row[2..4], 65_535u16.to_be_bytes());
    assert_eq!(row[4..12], [0, 0, 0, 3, 0, 0, 0, 8]);
    assert_eq!(row[12..14], number(6).to_be_bytes());
    assert_eq!(sender.streams().row.sequence, 0);
}
