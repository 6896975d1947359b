//! A card in Rust: opens a window at the first media packet of a capture, feeds it the whole capture with losses, and moves the window
//! on with the stream, a matrix at a time. Prints of each L × D packets that leave how many were lost on the line, rebuilt and given up,
//! then the totals.
//!
//!     cargo run --example card -- [TIMES] FILE [FILE ..]
//!
//! FILE is a capture file, or the parts of a capture in their order. L, D and the largest payload are those of the file; the window has
//! three matrices, wherever in one the capture starts. The captures here have 136 to 1,056 media packets; TIMES plays one over and over,
//! the numbers of packets and groups going on, so that thousands go through one window. Lost here: of each 200 packets those from 8 to 12,
//! of each 1,000 a burst of 16 from 40 on, and every 17th. Exits with 1 where a file is at fault or the window cannot be opened, with 2
//! where the arguments are.
use congaveil::capture::{Capture, Port, Reader, FILE_MAX};
use congaveil::{media_number, move_room, Desk, How, Receiver, SetUp, MATRIX_MAX, PAYLOAD_MAX};
use std::{env, fs::File, io, io::Read, io::Write, process::ExitCode};

/// A window, once there is one, where what leaves it is written, and what is counted. Places are counted from the first media packet on:
/// how many have left the window, and the end of what was sent.
struct Card {
    receiver: Option<Receiver>,
    out: Vec<u8>,
    sizes: Vec<u16>,
    desk: Desk,
    left_behind: usize,
    end: usize,
    rebuilt: usize,
    given_up: usize,
    bytes: usize,
    text: String,
}

/// A file in memory, up to the byte at which a longer one is refused.
fn load(file: &str) -> io::Result<Vec<u8>> {
    let mut bytes = Vec::new();
    File::open(file)?.take(FILE_MAX as u64 + 1).read_to_end(&mut bytes)?;
    Ok(bytes)
}

/// Judges a file. Where it is refused, it is read once more, byte by byte, to say where.
fn judge(bytes: &[u8]) -> Result<Capture<'_>, String> {
    Capture::read(bytes).map_err(|refusal| {
        let mut reader = Reader::new();
        let wrong = bytes.chunks(1).position(|byte| {
            reader.read(byte);
            reader.refused()
        });
        let place = wrong.map_or(format!("cut short at byte {}", bytes.len()), |at| format!("wrong at byte {at}"));
        format!("{refusal} ({}): {place}", refusal.number())
    })
}

fn lost(place: usize) -> bool {
    (8..13).contains(&(place % 200)) || (40..56).contains(&(place % 1000)) || place % 17 == 16
}

/// The datagram with its number, or the first number of its group, further on, where it has room for one.
fn renumbered(port: Port, datagram: &[u8], further: usize) -> Vec<u8> {
    let (mut copy, at) = (datagram.to_vec(), if port == Port::Media { 2 } else { 12 });
    if let Some([high, low]) = copy.get_mut(at..at + 2) {
        let number = u16::from_be_bytes([*high, *low]).wrapping_add(further as u16).to_be_bytes();
        (*high, *low) = (number[0], number[1]);
    }
    copy
}

impl Card {
    fn new() -> Self {
        Card {
            receiver: None,
            out: vec![0; move_room(MATRIX_MAX, PAYLOAD_MAX)],
            sizes: vec![0; MATRIX_MAX],
            desk: Desk::new(),
            left_behind: 0,
            end: 0,
            rebuilt: 0,
            given_up: 0,
            bytes: 0,
            text: String::new(),
        }
    }

    /// Opens the window at a media packet's number.
    fn open(&mut self, base: u16, of_file: SetUp) -> Result<(), String> {
        let SetUp { l, d, payload, .. } = of_file;
        let set_up = SetUp { base, positions: 3 * l * d, records: 3 * (l + d), ssrc: 1, ..of_file };
        let receiver = Receiver::open(set_up).map_err(|e| format!("no window for L {l}, D {d}, payload {payload}: {e}"))?;
        self.desk.begin(&receiver);
        self.text += &format!("a window of {} positions from {base}, which moves by {}\n", receiver.window().n, l * d);
        self.receiver = Some(receiver);
        Ok(())
    }

    /// Moves the window on, and says what became of the packets that leave it.
    fn move_on(&mut self, by: usize) -> Result<(), String> {
        let Card { receiver, desk, out, sizes, text, .. } = self;
        let receiver = receiver.as_mut().ok_or("no window is open")?;
        let first = receiver.window().base;
        let leaving = (0..by).map(|i| first.wrapping_add(i as u16));
        let back = leaving.filter(|number| desk.how(receiver, *number) == How::Rebuilt).count();
        let left = desk.advance(receiver, by, out, sizes).map_err(|e| format!("the window does not move by {by}: {e}"))?;
        let gone = by - left.handed_out();
        let last = first.wrapping_add((by - 1) as u16);
        *text += &format!("{first} to {last}: lost {}, rebuilt {back}, given up {gone}", back + gone);
        *text += if gone > 0 { ":" } else { "" };
        for left in left {
            match left.datagram {
                Some(datagram) => self.bytes += datagram.len(), // a card sends the packet on from here
                None => *text += &format!(" {}", left.number),
            }
        }
        text.push('\n');
        self.left_behind += by;
        self.rebuilt += back;
        self.given_up += gone;
        Ok(())
    }

    /// Offers a datagram, by the port that it came in on; what is refused is counted by its number.
    fn offer(&mut self, port: Port, datagram: &[u8]) -> Result<(), String> {
        while let Some(receiver) = &self.receiver {
            if !receiver.ahead(port, datagram) {
                break;
            }
            self.move_on(receiver.window().l * receiver.window().d)?;
        }
        if let Card { receiver: Some(receiver), desk, .. } = self {
            let _ = match port {
                Port::Media => desk.media(receiver, datagram),
                Port::Column => desk.column(receiver, datagram),
                Port::Row => desk.row(receiver, datagram),
            };
        }
        Ok(())
    }

    /// Feeds a file, less what is lost, with numbers that are so much further on. There is no window before the first media packet.
    fn feed(&mut self, capture: Capture, further: usize) -> Result<(), String> {
        let of_file = capture.set_up();
        let window = self.receiver.as_ref().map(|receiver| *receiver.window());
        if window.map_or(false, |w| (w.l, w.d, w.p) != (of_file.l, of_file.d, of_file.payload)) {
            return Err("L, D or P is not that of the parts before".into());
        }
        for (port, datagram) in capture.entries() {
            let datagram = renumbered(port, datagram, further);
            let number = if port == Port::Media { media_number(&datagram) } else { None };
            if let (None, Some(base)) = (&self.receiver, number) {
                self.open(base, of_file)?;
            }
            if let (Some(receiver), Some(number)) = (&self.receiver, number) {
                let position = receiver.position(number);
                if position < 2 * receiver.window().n {
                    let place = self.left_behind + position;
                    self.end = self.end.max(place + 1);
                    if lost(place) {
                        continue;
                    }
                }
            }
            self.offer(port, &datagram)?;
        }
        Ok(())
    }

    /// The stream is over: what is left of it leaves.
    fn finish(&mut self) -> Result<(), String> {
        while let (Some(receiver), true) = (&self.receiver, self.left_behind < self.end) {
            self.move_on((self.end - self.left_behind).min(receiver.window().l * receiver.window().d))?;
        }
        Ok(())
    }
}

fn run(files: &[String], times: usize) -> Result<(), String> {
    let mut card = Card::new();
    for _ in 0..times {
        let further = card.end;
        for file in files {
            let fed = load(file).map_err(|e| e.to_string()).and_then(|bytes| card.feed(judge(&bytes)?, further));
            fed.map_err(|what| format!("{file}: {what}"))?;
        }
    }
    if card.receiver.is_none() {
        return Err(format!("{}: no media packet in it", files[0]));
    }
    card.finish().map_err(|what| format!("{}: {what}", files[0]))?;
    let Card { end, rebuilt, given_up, bytes, text, .. } = &card;
    let total =
        format!("{end} packets sent: lost {}, rebuilt {rebuilt}, given up {given_up}; {bytes} bytes handed out", rebuilt + given_up);
    writeln!(io::stdout(), "{text}{total}\n{}", card.desk.counters()).map_err(|e| e.to_string())
}

/// How many times over, where the first of several arguments is a number.
fn times_over(arguments: &[String]) -> Option<usize> {
    match arguments {
        [first, _, ..] if first.starts_with(|c: char| ('1'..='9').contains(&c)) => first.parse().ok().filter(|times| *times <= 1000),
        _ => None,
    }
}

fn main() -> ExitCode {
    let arguments: Vec<String> = env::args().skip(1).collect();
    let times = times_over(&arguments);
    let files = &arguments[usize::from(times.is_some())..];
    if files.is_empty() {
        eprintln!("usage: card [TIMES] FILE [FILE ..]");
        return ExitCode::from(2);
    }
    match run(files, times.unwrap_or(1)) {
        Ok(()) => ExitCode::SUCCESS,
        Err(e) => {
            let _ = writeln!(io::stderr(), "card: {e}");
            ExitCode::FAILURE
        }
    }
}
