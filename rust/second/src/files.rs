//! Capture files through both programs, a content at a time: the file that is written, what is said of it piece by piece, its
//! header and entries, and contents and files with a breach. All of it is drawn from the seed.

use crate::capture::{self, front, Content, BODY, BREACH, ENTRIES, HEADER, LINE};
use crate::face::{self, Entry, Header, Reader, Reading, Written, REFUSED};
use crate::model::{four, two, Window};
use crate::pair::{first_difference, hex};
use crate::rng::Rng;
use std::fmt::{Arguments, Debug};

/// What a proper content can have at a limit.
const LIMITS: [&str; 4] = ["no entries", "512 entries", "an empty body", "a body of 1,500 bytes"];

/// The ways in which a content is not proper. The first ones have a file, which is not proper either.
const IMPROPER: [&str; 12] = [
    "513 entries",
    "port 0",
    "port 4",
    "a body of 1,501 bytes",
    "ports and lengths of different number",
    "bodies too short",
    "bodies too long",
    "L of 256",
    "D of 256",
    "P of 65,536",
    "n of 65,536",
    "K of 65,536",
];

/// The ways in which a file is broken.
pub const BROKEN: [&str; 14] = [
    IMPROPER[0],
    IMPROPER[1],
    IMPROPER[2],
    IMPROPER[3],
    "another count",
    "a byte for the zero",
    "another length",
    "another start",
    "a gap",
    "an overlap",
    "two entries swapped",
    "cut",
    "bytes after the end",
    "random bytes",
];

/// Files up to this many bytes are read byte by byte, cut everywhere, and changed at every byte.
const SMALL: usize = 160;
/// Files from this many bytes on have one turn of everything.
const LARGE: usize = 100_000;

/// What was met so far.
#[derive(Default)]
pub struct Tally {
    pub contents: u64,
    pub limits: [u64; LIMITS.len()],
    /// Contents refused with 21, and outputs refused with 4.
    pub improper: [u64; IMPROPER.len()],
    pub short: u64,
    /// Files refused with 21, all files read, and their pieces.
    pub broken: [u64; BROKEN.len()],
    pub files: u64,
    pub pieces: u64,
    /// Headers and entries compared, and those of them refused.
    pub fronts: u64,
    pub no_fronts: u64,
    /// Readers that no reading has, refused.
    pub made_up: u64,
}

impl Tally {
    /// All that has to be met, by what became of it, with how often it was.
    pub fn met(&self) -> [(&'static str, Vec<(&'static str, u64)>); 3] {
        let limits = LIMITS.into_iter().zip(self.limits).collect();
        let unwritten = IMPROPER.into_iter().zip(self.improper).chain([("a short output", self.short)]);
        let others = [("a header or an entry", self.no_fronts), ("a made-up reader", self.made_up)];
        let unread = BROKEN.into_iter().zip(self.broken).chain(others);
        [("written and read", limits), ("not written", unwritten.collect()), ("not read", unread.collect())]
    }
}

struct Play<'a> {
    rng: Rng,
    tally: &'a mut Tally,
}

/// Runs the content of a seed. The error says how the programs differ.
pub fn run(seed: u64, tally: &mut Tally) -> Result<(), String> {
    let mut rng = Rng::new(seed, 6);
    let content = draw(&mut rng);
    tally.contents += 1;
    for (i, met) in at_limits(&content).into_iter().enumerate() {
        tally.limits[i] += u64::from(met);
    }
    Play { rng, tally }.whole(&content)
}

fn at_limits(c: &Content) -> [bool; LIMITS.len()] {
    [c.ports.is_empty(), c.ports.len() == ENTRIES, c.lengths.contains(&0), c.lengths.contains(&(BODY as u16))]
}

// ---- contents ----

/// A proper content.
fn draw(rng: &mut Rng) -> Content {
    let (count, longest) = match rng.below(1000) {
        0..=24 => (ENTRIES, BODY),
        25..=64 => (ENTRIES - rng.index(2), 12),
        65..=124 => (rng.between(1, 5) as usize, BODY),
        125..=174 => (0, 0),
        175..=224 => (rng.between(1, 60) as usize, BODY),
        _ => (rng.between(1, 6) as usize, 12),
    };
    let all_longest = longest == BODY && rng.chance(if count == ENTRIES { 900 } else { 100 });
    let mut content = Content { asked: draw_numbers(rng), ..Content::default() };
    for _ in 0..count {
        let any = rng.index(longest + 1);
        let length = if all_longest { longest } else { rng.pick(&[0, 1, any, any, longest, longest.saturating_sub(1)]) };
        push(rng, &mut content, length);
    }
    content
}

/// The header's numbers, each anywhere in its bytes and often at an end.
fn draw_numbers(rng: &mut Rng) -> Window {
    let mut below = |bound: u64| {
        let any = rng.below(bound);
        rng.pick(&[any, any, 0, 1, 4, bound - 1])
    };
    let (l, d, base) = (below(256), below(256), below(65_536) as u16);
    Window { base, l, d, p: below(65_536), n: below(65_536), k: below(65_536), ..Window::default() }
}

/// One entry more, with a body of this length.
fn push(rng: &mut Rng, c: &mut Content, length: usize) {
    let end = c.bodies.len();
    c.bodies.resize(end + length, 0);
    rng.fill(&mut c.bodies[end..]);
    c.ports.push(rng.between(1, 3) as u8);
    c.lengths.push(length as u16);
}

/// A number that its bytes in the header cannot hold; some would fit if they were cut off.
fn past(rng: &mut Rng, bound: u64, old: u64) -> u64 {
    rng.pick(&[bound, bound, bound + 1, bound + old, 1 << 32, (1 << 32) + old, (1 << 63) + old, u64::MAX])
}

/// The same content, or with one entry more where all bodies are empty.
fn with_a_body(rng: &mut Rng, good: &Content) -> Content {
    let mut c = good.clone();
    if c.bodies.is_empty() {
        push(rng, &mut c, 3);
    }
    c
}

/// A content with this breach.
fn improper(rng: &mut Rng, good: &Content, kind: &str) -> Content {
    let mut c = with_a_body(rng, good);
    let i = rng.index(c.ports.len());
    let more = rng.pick(&[1, 1, 2, 40]);
    match kind {
        "513 entries" => {
            let count = rng.pick(&[513, 513, 513, 514, 600, 1024, 65_536, 65_536 + good.ports.len()]);
            c.ports.resize(count, 1);
            c.lengths.resize(count, 0);
        }
        "port 0" => c.ports[i] = 0,
        "port 4" => c.ports[i] = rng.pick(&[4, 4, 5, 128 + c.ports[i], 255]),
        "a body of 1,501 bytes" => {
            let length = rng.pick(&[1501, 1501, 1501, 1502, 2048, 65_535]);
            c.bodies.resize(c.bodies.len() + length - usize::from(c.lengths[i]), 0xB0);
            c.lengths[i] = length as u16;
        }
        "ports and lengths of different number" => match rng.below(3) {
            0 => c.ports.push(1),
            1 => c.lengths.push(0),
            _ => c.ports.truncate(i),
        },
        "bodies too short" => c.bodies.truncate(c.bodies.len().saturating_sub(more)),
        "bodies too long" => c.bodies.resize(c.bodies.len() + more, 0),
        "L of 256" => c.asked.l = past(rng, 256, c.asked.l),
        "D of 256" => c.asked.d = past(rng, 256, c.asked.d),
        "P of 65,536" => c.asked.p = past(rng, 65_536, c.asked.p),
        "n of 65,536" => c.asked.n = past(rng, 65_536, c.asked.n),
        _ => c.asked.k = past(rng, 65_536, c.asked.k),
    }
    c
}

// ---- files ----

/// Adds to the starts in these lines of the table.
fn move_starts(file: &mut [u8], lines: std::ops::Range<usize>, by: i64) {
    for at in lines.map(|i| front(i) + 4) {
        let start = i64::from(four(file, at)) + by;
        file[at..at + 4].copy_from_slice(&(start as u32).to_be_bytes());
    }
}

/// Puts another number in place of the two bytes at an index.
fn other_number(rng: &mut Rng, file: &mut [u8], at: usize) {
    let old = two(file, at);
    let new = rng.pick(&[old.wrapping_add(1), old.wrapping_sub(1), old.swap_bytes(), old ^ 256, 0, 512, 513, 1500, 1501, 65_535]);
    file[at..at + 2].copy_from_slice(&new.to_be_bytes());
}

/// A start that is counted in another way, of one line or of all.
fn other_start(rng: &mut Rng, file: &mut [u8], i: usize, count: usize) {
    let (bodies, start) = (front(count) as i64, i64::from(four(file, front(i) + 4)));
    let swapped = i64::from((start as u32).swap_bytes()) - start;
    let by = rng.pick(&[1, -1, -bodies, -(HEADER as i64), 65_536, 1 << 31, -start, swapped, LINE as i64]);
    let lines = if rng.chance(500) { i..i + 1 } else { 0..count };
    move_starts(file, lines, by);
}

/// A file with this breach, or mostly so: some of them leave a proper one.
pub fn broken(rng: &mut Rng, good: &Content, kind: &str) -> Vec<u8> {
    if IMPROPER.contains(&kind) {
        return capture::write(&improper(rng, good, kind));
    }
    let c = with_a_body(rng, good);
    let mut file = capture::write(&c);
    let (count, end) = (c.ports.len(), file.len());
    let (i, j) = (rng.index(count), rng.index(count));
    let before_body = four(&file, front(i) + 4) as usize;
    let by = rng.pick(&[1, 1, 2, 8, 12, 40]);
    match kind {
        "another count" => other_number(rng, &mut file, 0),
        "a byte for the zero" => file[front(i) + 1] = rng.pick(&[1, 2, 128, 255]),
        "another length" => other_number(rng, &mut file, front(i) + 2),
        "another start" => other_start(rng, &mut file, i, count),
        "a gap" => {
            move_starts(&mut file, i..count, by as i64);
            file.splice(before_body..before_body, vec![0; by]);
        }
        "an overlap" => {
            let by = by.min(before_body - front(count));
            move_starts(&mut file, i..count, -(by as i64));
            file.drain(before_body - by..before_body);
        }
        "two entries swapped" => (0..LINE).for_each(|at| file.swap(front(i) + at, front(j) + at)),
        "cut" => {
            let part = rng.pick(&[HEADER, front(count), end]);
            let anywhere = rng.index(part);
            file.truncate(rng.pick(&[anywhere, anywhere, part - 1]));
        }
        "bytes after the end" => file.resize(end + by, rng.byte()),
        _ => {
            let from = rng.pick(&[0, 0, 1, 2, HEADER, front(count)]);
            file.resize(from + rng.index(end), 0);
            rng.fill(&mut file[from..]);
        }
    }
    file
}

/// Where the pieces of a file end: some are empty, many are short, and there are not too many of them.
fn ends(rng: &mut Rng, len: usize) -> Vec<usize> {
    let mut ends = Vec::new();
    let mut at = 0;
    while at < len && ends.len() < 60 {
        at += rng.pick(&[0, 1, 1, 2, 8, 12, 100, len]).min(len - at);
        at = rng.between(ends.last().copied().unwrap_or(0) as u64, at as u64) as usize;
        ends.push(at);
    }
    ends.push(len);
    ends
}

/// The number of a model's answer.
fn number<T>(answer: &Result<T, u32>) -> u32 {
    answer.as_ref().err().copied().unwrap_or(0)
}

/// A difference in a file, of which the first bytes are shown.
fn differ(what: Arguments, file: &[u8], model: impl Debug, library: impl Debug) -> String {
    let head = hex(&file[..file.len().min(60)]);
    format!("{what}\n  model   {model:?}\n  library {library:?}\n  {} bytes: {head} ...", file.len())
}

impl Play<'_> {
    fn whole(&mut self, content: &Content) -> Result<(), String> {
        let file = capture::write(content);
        let turns = if file.len() < LARGE { 3 } else { 1 };
        for _ in 0..turns {
            let kind = self.rng.index(IMPROPER.len());
            let bad = improper(&mut self.rng, content, IMPROPER[kind]);
            self.write_both(content)?;
            self.tally.improper[kind] += u64::from(self.write_both(&bad)? == BREACH);
            let kind = self.rng.index(BROKEN.len());
            let bad = broken(&mut self.rng, content, BROKEN[kind]);
            self.read_both(&file)?;
            self.tally.broken[kind] += u64::from(self.read_both(&bad)? == BREACH);
            self.fronts(&file)?;
            self.fronts(&bad)?;
            self.make_up(&file)?;
        }
        if file.len() <= SMALL {
            self.every_byte(&file)?;
        }
        Ok(())
    }

    /// Writes a content with both and answers the number that both answered.
    fn write_both(&mut self, content: &Content) -> Result<u32, String> {
        let need = front(content.ports.len()) + content.bodies.len();
        let lent = match self.rng.below(8) {
            0..=2 => need,
            3..=4 => need - 1,
            5 => self.rng.index(need),
            _ => need + self.rng.between(1, 40) as usize,
        };
        let mut old = vec![0; need + 64];
        self.rng.fill(&mut old);
        let mut out = [old.clone(), old];
        let ours = capture::write_to(content, &mut out[0][..lent]);
        let ours = Written { number: number(&ours), count: ours.unwrap_or(0) };
        let given = content.clone();
        let theirs = face::capture_write(&given, &mut out[1][..lent]);
        let mut faults = Vec::new();
        if ours != theirs {
            faults.push("the answers differ".to_string());
        }
        if face::anew(&given.ports) != content.ports
            || face::anew(&given.lengths) != content.lengths
            || face::anew(&given.bodies) != content.bodies
        {
            faults.push("the library changed a list".to_string());
        }
        first_difference("output", &out, &mut faults);
        if faults.is_empty() {
            self.tally.short += u64::from(ours.number == 4);
            return Ok(ours.number);
        }
        let numbers = (content.asked, content.ports.len(), content.lengths.len(), content.bodies.len());
        Err(format!("writing {numbers:?} to {lent} bytes\n  model   {ours:?}\n  library {theirs:?}\n  {}", faults.join("\n  ")))
    }

    /// Reads a file whole and in pieces and answers the number that both gave in the end.
    fn read_both(&mut self, file: &[u8]) -> Result<u32, String> {
        self.read_pieces(file, &[file.len()])?;
        let ends = ends(&mut self.rng, file.len());
        self.read_pieces(file, &ends)?;
        if file.len() <= SMALL {
            let single: Vec<usize> = (1..=file.len()).collect();
            self.read_pieces(file, &single)?;
        }
        Ok(number(&capture::read(file)))
    }

    /// Every prefix of a file is a file to be judged: the number after a piece is that of all that was read so far.
    fn read_pieces(&mut self, file: &[u8], ends: &[usize]) -> Result<(), String> {
        let given = file.to_vec();
        let (mut reader, mut from) = (Reader::default(), 0);
        for &end in ends {
            let reading = self.step(reader, &given[from..end])?;
            let ours = number(&capture::read(&file[..end]));
            if reading.number != ours {
                return Err(differ(format_args!("reading the bytes {from} to {end}, the pieces ending at {ends:?}"), file, ours, reading));
            }
            (reader, from) = (reading.reader, end);
        }
        if face::anew(&given) != file {
            return Err(format!("reading changed a file of {} bytes, the pieces ending at {ends:?}", file.len()));
        }
        self.tally.files += 1;
        // What follows a refusal does not matter.
        for _ in 0..2 {
            let again = &file[..self.rng.index(file.len() + 1)];
            reader = if reader.stage == REFUSED { self.step(reader, again)?.reader } else { reader };
        }
        Ok(())
    }

    /// One piece. Whatever the reader, the number is 0 or 21, and once refused is always refused.
    fn step(&mut self, reader: Reader, piece: &[u8]) -> Result<Reading, String> {
        let reading = face::capture_read(reader, piece);
        self.tally.pieces += 1;
        let refused = reading.reader.stage == REFUSED;
        if ![0, BREACH].contains(&reading.number) || refused && reading.number == 0 || reader.stage == REFUSED && !refused {
            return Err(format!("a piece of {} bytes to {reader:?} gives {reading:?}", piece.len()));
        }
        Ok(reading)
    }

    /// The header and every entry, and some past, from a front that is just long enough, a byte too short, and the whole file.
    fn fronts(&mut self, file: &[u8]) -> Result<(), String> {
        for len in [0, HEADER - 1, HEADER, self.rng.index(HEADER), file.len()] {
            self.header(&file[..len.min(file.len())])?;
        }
        let count = if file.len() < 2 { 0 } else { usize::from(two(file, 0)) };
        let past = [count, count + 1, usize::MAX, usize::MAX / LINE, 65_536, 1 << 32];
        for i in (0..count.min(ENTRIES)).chain(past) {
            let end = front(i.min(ENTRIES + 1) + 1);
            for len in [end - 1, end, file.len()] {
                self.entry(&file[..len.min(file.len())], i)?;
            }
        }
        Ok(())
    }

    fn header(&mut self, front: &[u8]) -> Result<(), String> {
        let ours = match capture::header(front) {
            Err(number) => Header { number, ..Header::default() },
            Ok((count, w)) => {
                let [l, d, p, n, k] = [w.l, w.d, w.p, w.n, w.k].map(|number| number as usize);
                Header { number: 0, base: w.base, count, l, d, p, n, k }
            }
        };
        self.same(front, ours.number, ours, face::capture_header(front), format_args!("the header"))
    }

    fn entry(&mut self, front: &[u8], i: usize) -> Result<(), String> {
        let ours = match capture::line(front, i) {
            Err(number) => Entry { number, ..Entry::default() },
            Ok(line) => Entry { number: 0, port: line.port, start: line.start, length: line.length },
        };
        self.same(front, ours.number, ours, face::capture_entry(front, i), format_args!("entry {i}"))
    }

    fn same<T: PartialEq + Debug>(&mut self, front: &[u8], number: u32, ours: T, theirs: T, what: Arguments) -> Result<(), String> {
        self.tally.fronts += 1;
        self.tally.no_fronts += u64::from(number != 0);
        if ours == theirs {
            Ok(())
        } else {
            Err(differ(what, front, ours, theirs))
        }
    }

    /// A reader that no reading has, mostly one that was altered.
    fn make_up(&mut self, file: &[u8]) -> Result<(), String> {
        let (from, to) = (self.rng.index(file.len() + 1), self.rng.index(file.len() + 1));
        let mut reader = self.step(Reader::default(), &file[..from])?.reader;
        for _ in 0..self.rng.pick(&[1, 1, 2, 6]) {
            let field = match self.rng.below(6) {
                0 => &mut reader.stage,
                1 => &mut reader.left,
                2 => &mut reader.next,
                3 => &mut reader.sum,
                4 => &mut reader.at,
                _ => &mut reader.size,
            };
            let near = [field.wrapping_add(1), field.wrapping_sub(1), self.rng.below(4) as u32, self.rng.next() as u32];
            let limits = [0, 8, 12, 20, 512, 513, 1500, 1501, 4108, 65_536, 772_108, 772_109, 1 << 31, u32::MAX - 1, u32::MAX];
            *field = if self.rng.chance(500) { self.rng.pick(&near) } else { self.rng.pick(&limits) };
        }
        let mut number = 0;
        for piece in [&file[from.min(to)..to.max(from)], &file[from..], &[], file] {
            let reading = self.step(reader, piece)?;
            (reader, number) = (reading.reader, reading.number);
        }
        self.tally.made_up += u64::from(number == BREACH);
        Ok(())
    }

    /// A small file, cut at every length, and with every byte set to other values.
    fn every_byte(&mut self, file: &[u8]) -> Result<(), String> {
        let mut changed = file.to_vec();
        for at in 0..file.len() {
            self.read_pieces(&file[..at], &[at])?;
            for to in [0, 1, file[at].wrapping_add(1), file[at].wrapping_sub(1), file[at] ^ 128, self.rng.byte()] {
                changed[at] = to;
                self.read_pieces(&changed, &[file.len()])?;
            }
            changed[at] = file[at];
        }
        Ok(())
    }
}

#[cfg(test)]
mod tests {
    use super::*;

    #[test]
    fn what_is_drawn_is_proper_and_what_is_broken_mostly_is_not() {
        let mut rng = Rng::new(1, 1);
        for _ in 0..20 {
            let good = draw(&mut rng);
            assert_eq!(capture::read(&capture::write(&good)), Ok(good.clone()));
            for kind in IMPROPER {
                assert_eq!(capture::write_to(&improper(&mut rng, &good, kind), &mut []), Err(BREACH), "{kind}");
            }
        }
        let good = Content { ports: vec![1, 2], lengths: vec![2, 3], bodies: vec![1, 2, 3, 4, 5], ..Content::default() };
        for kind in BROKEN {
            let refused = (0..20).filter(|_| capture::read(&broken(&mut rng, &good, kind)).is_err()).count();
            assert!(refused >= 5, "{kind}: {refused} of 20");
        }
    }

    #[test]
    fn pieces_cover_the_file() {
        let mut rng = Rng::new(2, 1);
        for len in [0, 1, 12, 22, 4000, 772_108] {
            let ends = ends(&mut rng, len);
            assert!(ends.windows(2).all(|pair| pair[0] <= pair[1]) && ends.last() == Some(&len) && ends.len() <= 61);
        }
    }

    #[test]
    fn a_seed_gives_the_same_files_again() {
        let (mut a, mut b) = (Tally::default(), Tally::default());
        for seed in 0..30 {
            run(seed, &mut a).unwrap();
            run(seed, &mut b).unwrap();
        }
        assert_eq!((a.met(), a.files, a.pieces, a.fronts), (b.met(), b.files, b.pieces, b.fronts));
    }
}
