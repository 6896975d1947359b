//! A card without std, heap or panic: the crate with a lent store and a desk, and with a lent room, every function of it called with
//! what the compiler cannot foresee. The handler of panics needs a symbol that nobody defines, so the program links only if no way to a
//! panic is left. tests/bare.c calls it.
#![no_std]

use congaveil::capture::{self, Capture, Port, Reader};
use congaveil::{
    media_number, move_room, parity_snbase, Counters, Desk, How, Lent, Outer, Receiver, Record, Refusal, SetUp, Taken, Window,
};
use congaveil::{room_for, Arrangement, LentRoom, ParityStream, ParityStreams, Sender, SenderSetUp, SenderValue};
use core::fmt::Write;

extern "C" {
    fn a_way_to_a_panic_is_left() -> !;
}

#[panic_handler]
fn panic(_: &core::panic::PanicInfo) -> ! {
    unsafe { a_way_to_a_panic_is_left() }
}

/// A line of text in a buffer of the card's own; what does not fit is left out.
struct Line<'a> {
    out: &'a mut [u8],
    len: usize,
}

impl Write for Line<'_> {
    fn write_str(&mut self, words: &str) -> core::fmt::Result {
        for (to, from) in self.out.iter_mut().skip(self.len).zip(words.bytes()) {
            *to = from;
        }
        self.len = self.len.saturating_add(words.len());
        Ok(())
    }
}

/// What a card in C lends: arrays of its own, and a window value that may be made up.
#[repr(C)]
pub struct Card {
    media: [u8; 16 * 188],
    timestamps: [u32; 16],
    lengths: [u16; 16],
    marks: [u8; 16],
    parity: [u8; 8 * 188],
    records: [Record; 8],
    datagram: [u8; 216],
    len: usize,
    line: [u8; 256],
}

/// A capture file that a card in C has, and room for another one.
#[repr(C)]
pub struct File {
    bytes: [u8; 64],
    len: usize,
    again: [u8; 64],
}

/// What a card in C lends to send: a room of its own, the outputs, and a datagram.
#[repr(C)]
pub struct Link {
    payloads: [u8; room_for(4) * 188],
    timestamps: [u32; room_for(4)],
    lengths: [u16; room_for(4)],
    longest: [u16; room_for(4)],
    row: [u8; 216],
    column: [u8; 216],
    datagram: [u8; 200],
    len: usize,
}

fn negative(refusal: Refusal) -> i32 {
    (refusal.number() as i32).wrapping_neg()
}

/// Opens with any numbers, or takes any window value, and calls everything; how many packets were rebuilt, or the last refusal
/// as a negative number.
#[no_mangle]
pub extern "C" fn bare_card(card: &mut Card, set_up: &[usize; 6], made_up: &Window, opens: bool, number: u16) -> i32 {
    let Card { media, timestamps, lengths, marks, parity, records, datagram, len, line } = card;
    let lent = Lent { media, timestamps, lengths, marks, parity, records };
    let datagram = datagram.get(..*len).unwrap_or(&[]);
    let [base, l, d, payload, positions, room] = *set_up;
    let mut receiver = if opens {
        match Receiver::open_in(SetUp { base: base as u16, l, d, payload, positions, records: room, ssrc: 1 }, lent) {
            Ok(receiver) => receiver,
            Err(refusal) => return negative(refusal),
        }
    } else {
        Receiver::from_parts(*made_up, lent)
    };
    let mut desk = Desk::new();
    desk.begin(&receiver);
    let none = Ok(Taken::default());
    let mut answers = [desk.media(&mut receiver, datagram), desk.column(&mut receiver, datagram), desk.row(&mut receiver, datagram), none];
    let mut out = [0; 216];
    let _ = receiver.read(number, &mut out);
    let _ = receiver.write_column(number, Outer::default(), &mut out);
    answers[3] = receiver.write_row(number, Outer::default(), &mut out).map(|_| Taken::default());
    let (told, rest) = desk
        .rebuilt(&receiver)
        .fold((0, 0usize), |(told, sum), p| (i32::wrapping_add(told, 1), p.payload.len() ^ sum ^ usize::from(p.number)));
    let ahead = [Port::Media, Port::Column, Port::Row].iter().fold(false, |ahead, port| ahead ^ receiver.ahead(*port, datagram));
    let here = receiver.packets().fold(0, |sum, p| sum ^ p.payload.len() ^ p.timestamp as usize);
    let seen = receiver.payload(number).map_or(0, <[u8]>::len) ^ receiver.missing().fold(0, |sum, number| sum ^ usize::from(number));
    let numbers = media_number(datagram).unwrap_or(0) ^ parity_snbase(datagram).unwrap_or(0);
    let mut sum = Counters::default();
    sum += *desk.counters();
    let counted = sum.recovered() ^ sum.missing() ^ sum.refused() ^ sum.refused_with(Refusal::Outside);
    let how = desk.how(&receiver, number) == How::Rebuilt || receiver.has(number) || receiver.position(number) == receiver.window().n;
    let _ = write!(Line { out: line, len: 0 }, "{sum}");
    let mut sizes = [0; 1];
    let left = match desk.advance(&mut receiver, usize::from(number), &mut out, &mut sizes) {
        Ok(left) => {
            left.len() ^ left.handed_out() ^ left.fold(0, |sum, one| sum ^ one.datagram.map_or(0, <[u8]>::len) ^ usize::from(one.number))
        }
        Err(refusal) => refusal.number() as usize ^ move_room(receiver.window().n, usize::from(number)),
    };
    let busy = receiver.present() ^ receiver.in_hand() ^ receiver.into_parts().0.k;
    // Written where the compiler may not leave it out, and so nothing above either.
    let mut kept = (rest, here, seen, numbers, counted, how, busy, left, ahead);
    unsafe { core::ptr::write_volatile(&mut kept, kept) };
    answers.iter().fold(told, |last, answer| answer.map_or_else(negative, |_| last))
}

/// Reads a file whole and in two pieces, and writes its first four entries into another one; how many bytes that has, or the refusal
/// as a negative number.
#[no_mangle]
pub extern "C" fn bare_capture(file: &mut File, cut: usize, index: usize) -> i32 {
    let bytes = file.bytes.get(..file.len).unwrap_or(&[]);
    let mut reader = Reader::new();
    reader.read(bytes.get(..cut).unwrap_or(&[]));
    reader.read(bytes.get(cut..).unwrap_or(bytes));
    let (mut ports, mut lengths, mut bodies, mut len) = ([Port::Media; 4], [0; 4], [0; 64], 0usize);
    let front = capture::header(bytes).map_or(0, |header| header.entries) ^ capture::entry(bytes, index).map_or(0, |entry| entry.start);
    let mut kept = (front, reader.whole(), reader.refused());
    unsafe { core::ptr::write_volatile(&mut kept, kept) };
    let capture = match Capture::read(bytes) {
        Ok(capture) => capture,
        Err(refusal) => return negative(refusal),
    };
    let count = capture.header().entries.min(capture.entries().len()).min(4);
    for (((port, body), to), length) in capture.entries().zip(&mut ports).zip(&mut lengths) {
        *to = port;
        *length = body.len() as u16;
        for (to, from) in bodies.iter_mut().skip(len).zip(body) {
            *to = *from;
        }
        len = len.saturating_add(body.len());
    }
    let (ports, lengths) = (ports.get(..count).unwrap_or(&[]), lengths.get(..count).unwrap_or(&[]));
    let written = capture::write(&capture.set_up(), ports, lengths, bodies.get(..len).unwrap_or(&[]), &mut file.again);
    written.map_or_else(negative, |len| len as i32)
}

/// Moves a window that may be made up on by any number; how many bytes left it, or the refusal as a negative number.
#[no_mangle]
pub extern "C" fn bare_move(card: &mut Card, window: &mut Window, by: usize, out: &mut [u8; 400], sizes: &mut [u16; 2]) -> i32 {
    let Card { media, timestamps, lengths, marks, parity, records, .. } = card;
    let mut receiver = Receiver::from_parts(*window, Lent { media, timestamps, lengths, marks, parity, records });
    let mut desk = Desk::new();
    let answer = desk.advance(&mut receiver, by, out, sizes);
    let bytes = answer.map(|left| left.fold(0usize, |sum, one| sum.wrapping_add(one.datagram.map_or(0, <[u8]>::len))));
    *window = *receiver.window();
    bytes.map_or_else(negative, |bytes| bytes as i32)
}

/// Opens a sender with any numbers, or takes any sender value, and offers a datagram, changing its number, four times; how many bytes went
/// out as parity, or the last refusal as a negative number.
#[no_mangle]
pub extern "C" fn bare_sender(link: &mut Link, set_up: &[usize; 5], made_up: &SenderValue, opens: bool, number: u16) -> i32 {
    let Link { payloads, timestamps, lengths, longest, row, column, datagram, len } = link;
    let room = LentRoom { payloads, timestamps, lengths, longest, row, column };
    let [first, staggered, l, d, payload] = *set_up;
    let arrangement = if staggered == 0 { Arrangement::Aligned } else { Arrangement::Staggered };
    let streams = ParityStreams { row: ParityStream { sequence: number, ssrc: 1 }, column: ParityStream::default() };
    let mut sender = if opens {
        match Sender::open_in(SenderSetUp { first: first as u16, arrangement, l, d, payload, streams }, room) {
            Ok(sender) => sender,
            Err(refusal) => return negative(refusal),
        }
    } else {
        Sender::from_parts(*made_up, streams, room)
    };
    let (mut out, mut refused) = (0usize, None);
    for _ in 0..4 {
        for (to, from) in datagram.iter_mut().skip(2).zip(sender.next_number().to_be_bytes()) {
            *to = from;
        }
        match sender.media(datagram.get(..*len).unwrap_or(&[]), number.into()) {
            Ok(sent) => out = out.wrapping_add(sent.row.map_or(0, <[u8]>::len)).wrapping_add(sent.column.map_or(0, <[u8]>::len)),
            Err(refusal) => refused = Some(refusal),
        }
    }
    refused = sender.reopen(number).err().or(refused);
    let kept_streams = *sender.streams();
    let mut kept = (sender.value().at, kept_streams.row.sequence, sender.into_parts().0.l, room_for(l));
    unsafe { core::ptr::write_volatile(&mut kept, kept) };
    refused.map_or(out as i32, negative)
}
