//! A lent store and a lent room, with the crate's features as they are chosen: also without std.
use congaveil::{move_room, Desk, How, Lent, Outer, Receiver, Record, Refusal, SetUp, Taken, PARITY_HEADER};
use congaveil::{room_for, Arrangement, LentRoom, ParityStream, ParityStreams, Sender, SenderSetUp};

const SET_UP: SetUp = SetUp { base: 65_534, l: 4, d: 4, payload: 188, positions: 16, records: 8, ssrc: 7 };

#[test]
fn a_row_across_the_wrap() {
    let (mut media, mut timestamps, mut lengths, mut marks) = ([0; 16 * 188], [0; 16], [0; 16], [0; 16]);
    let (mut parity, mut records) = ([0; 8 * 188], [Record::default(); 8]);
    let lent = Lent {
        media: &mut media,
        timestamps: &mut timestamps,
        lengths: &mut lengths,
        marks: &mut marks,
        parity: &mut parity,
        records: &mut records,
    };
    let mut sender = Receiver::open_in(SET_UP, lent).unwrap();
    let mut packets = [[0; 200]; 4];
    for (i, packet) in (0u8..).zip(&mut packets) {
        packet[..8].copy_from_slice(&[0x80, 33, 0xff, 0xfe, 0, 0, 0, i]);
        packet[2..4].copy_from_slice(&65_534u16.wrapping_add(i.into()).to_be_bytes());
        packet[12..].fill(i + 1);
        assert_eq!(sender.media(packet), Ok(Taken::default()));
    }
    let mut row = [0; PARITY_HEADER + 188];
    assert_eq!(sender.write_row(65_534, Outer::default(), &mut row), Ok(row.len()));

    let (_, lent) = sender.into_parts();
    let mut receiver = Receiver::open_in(SET_UP, lent).unwrap();
    let mut desk = Desk::new();
    desk.begin(&receiver);
    for packet in [&packets[0], &packets[1], &packets[3]] {
        assert_eq!(desk.media(&mut receiver, packet), Ok(Taken::default()));
    }
    assert_eq!(receiver.read(0, &mut row), Err(Refusal::Missing));
    assert_eq!(desk.row(&mut receiver, &row), Ok(Taken { rebuilt: 1, spoilt: 0 }));
    assert_eq!(desk.rebuilt(&receiver).map(|packet| (packet.number, packet.timestamp, packet.payload[0])).next(), Some((0, 2, 3)));
    assert_eq!((desk.how(&receiver, 0), receiver.payload(0)), (How::Rebuilt, Some(&[3; 188][..])));
    assert_eq!(desk.counters().recovered(), 1);

    let (mut out, mut sizes) = ([9; move_room(3, 188) + 1], [9; 4]);
    assert_eq!(desk.advance(&mut receiver, 17, &mut out, &mut sizes).err(), Some(Refusal::BadMove));
    let left = desk.advance(&mut receiver, 3, &mut out, &mut sizes).unwrap();
    assert_eq!((left.len(), left.handed_out()), (3, 3));
    for (i, left) in (0u8..).zip(left) {
        let datagram = left.datagram.unwrap();
        assert_eq!((left.number, datagram.len(), datagram[7], datagram[199]), (65_534u16.wrapping_add(i.into()), 200, i, i + 1));
    }
    assert_eq!((out[600], sizes, receiver.window().base, receiver.present()), (9, [200, 200, 200, 9], 1, 1));
    assert_eq!(receiver.payload(1), Some(&[4; 188][..]));
    let mut last = receiver.advance(16, &mut [9; move_room(16, 188)], &mut [9; 16]).map(|left| left.handed_out());
    assert_eq!((last, receiver.present()), (Ok(1), 0));
    last = receiver.advance(16, &mut [9; move_room(16, 188) - 1], &mut [9; 16]).map(|left| left.handed_out());
    assert_eq!(last, Err(Refusal::ShortBuffer));
}

/// A sender in arrays: the row that goes out with its last packet, and nothing with the others.
#[test]
fn a_row_that_is_sent() {
    let (mut payloads, mut timestamps) = ([9; room_for(4) * 188], [9; room_for(4)]);
    let (mut lengths, mut longest) = ([9; room_for(4)], [9; room_for(4)]);
    let (mut row, mut column) = ([9; PARITY_HEADER + 188], [9; PARITY_HEADER + 188]);
    let room = LentRoom {
        payloads: &mut payloads,
        timestamps: &mut timestamps,
        lengths: &mut lengths,
        longest: &mut longest,
        row: &mut row,
        column: &mut column,
    };
    let streams = ParityStreams { row: ParityStream { sequence: 65_535, ssrc: 1 }, column: ParityStream::default() };
    let set_up = SenderSetUp { first: 65_534, arrangement: Arrangement::Aligned, l: 4, d: 4, payload: 188, streams };
    let mut sender = Sender::open_in(set_up, room).unwrap();
    for i in 0..4u8 {
        let mut packet = [i + 1; 200];
        packet[..12].copy_from_slice(&[0x80, 33, 0, 0, 0, 0, 0, i, 0, 0, 0, 0]);
        packet[2..4].copy_from_slice(&sender.next_number().to_be_bytes());
        let sent = sender.media(&packet, 3).unwrap();
        assert_eq!((sent.row.is_some(), sent.column), (i == 3, None));
        if let Some(row) = sent.row {
            assert_eq!(row[..12], [0x80, 96, 0xff, 0xff, 0, 0, 0, 3, 0, 0, 0, 1]);
            assert_eq!(row[12..28], [0xff, 0xfe, 0, 0, 0x80, 0, 0, 0, 0, 0, 0, 0, 0x40, 1, 4, 0]);
            assert_eq!(row[28..], [1 ^ 2 ^ 3 ^ 4; 188]);
        }
    }
    assert_eq!((sender.next_number(), sender.streams().row.sequence), (2, 0));
    assert_eq!(column, [9; PARITY_HEADER + 188]);
}

/// Calls that only read run side by side on one receiver.
#[test]
fn readers_side_by_side() {
    let (mut media, mut timestamps, mut lengths, mut marks) = ([5; 16 * 188], [0; 16], [0; 16], [0; 16]);
    let (mut parity, mut records) = ([0; 8 * 188], [Record::default(); 8]);
    let lent = Lent {
        media: &mut media,
        timestamps: &mut timestamps,
        lengths: &mut lengths,
        marks: &mut marks,
        parity: &mut parity,
        records: &mut records,
    };
    let (window, lent) = Receiver::open_in(SET_UP, lent).unwrap().into_parts();
    lent.marks.fill(1);
    lent.lengths.fill(188);
    let receiver = Receiver::from_parts(congaveil::Window { present: 16, ..window }, lent);
    let read = || {
        let mut out = [0; PARITY_HEADER + 188];
        for _ in 0..200 {
            for number in (0..16).map(|i| 65_534u16.wrapping_add(i)) {
                assert_eq!(receiver.read(number, &mut out), Ok(200));
                assert!(receiver.payload(number).is_some());
            }
            assert_eq!(receiver.write_column(65_535, Outer::default(), &mut out), Ok(out.len()));
            assert_eq!(receiver.write_row(65_535, Outer::default(), &mut out), Ok(out.len()));
        }
    };
    std::thread::scope(|threads| {
        for _ in 0..4 {
            threads.spawn(read);
        }
    });
}
