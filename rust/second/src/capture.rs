//! Request 2 of document 02 read once more: a capture file, written and read, and the text of its replay.
//!
//! A file is a header of 12 bytes (entry count, L, D, P, base, n, K), a table of contents of 8 bytes an entry (port, a zero,
//! length, start), and the bodies in table order, no gaps, nothing after. All of it is big-endian, and start counts from the
//! file's first byte. A reader takes the fields out of the file where they stand; it has the whole of it at hand.

use crate::model::{check_numbers, column, four, media, no_if, open, row, two, Held, Window};

/// The bytes of the header, and of a line of the table.
pub const HEADER: usize = 12;
pub const LINE: usize = 8;

/// The entries of a file, the bytes of a body, and those of the payloads that the program has room for, at most.
pub const ENTRIES: usize = 512;
pub const BODY: usize = 1500;
pub const ROOM: u64 = 40_960;

/// The refusal of any breach.
pub const BREACH: u32 = 21;

/// A content, proper or not: the opening that the header asks for, and the entries, of which entry i has port `ports[i]` and the
/// next `lengths[i]` bytes of `bodies`.
#[derive(Clone, Debug, Default, PartialEq, Eq)]
pub struct Content {
    /// Its SSRC and its counts have no place in a file.
    pub asked: Window,
    pub ports: Vec<u8>,
    pub lengths: Vec<u16>,
    pub bodies: Vec<u8>,
}

impl Content {
    /// Port and body of each entry, of a proper content.
    pub fn entries(&self) -> Vec<(u8, &[u8])> {
        let mut rest = &self.bodies[..];
        let cut = |(&port, &length): (&u8, &u16)| {
            let (body, after) = rest.split_at(usize::from(length));
            rest = after;
            (port, body)
        };
        self.ports.iter().zip(&self.lengths).map(cut).collect()
    }
}

/// What a line of the table says.
#[derive(Clone, Copy, Debug, PartialEq, Eq)]
pub struct Line {
    pub port: u8,
    pub start: usize,
    pub length: usize,
}

/// Where the first body of so many entries stands.
pub fn front(count: usize) -> usize {
    HEADER + LINE * count
}

fn check_entry(port: u8, length: usize) -> Result<(), u32> {
    no_if(!(1..=3).contains(&port), BREACH)?;
    no_if(length > BODY, BREACH)
}

// ---- the writer ----

fn check_content(c: &Content) -> Result<(), u32> {
    no_if(c.ports.len() != c.lengths.len(), BREACH)?;
    no_if(c.lengths.len() > ENTRIES, BREACH)?;
    for (&port, &length) in c.ports.iter().zip(&c.lengths) {
        check_entry(port, usize::from(length))?;
    }
    no_if(c.bodies.len() != c.lengths.iter().map(|&length| usize::from(length)).sum(), BREACH)?;
    // One byte of the header each, and two.
    no_if(c.asked.l > 255 || c.asked.d > 255, BREACH)?;
    no_if(c.asked.p > 65_535 || c.asked.n > 65_535 || c.asked.k > 65_535, BREACH)
}

/// The file of a content. Nothing is judged here, so that files past the limits can be had too.
pub fn write(c: &Content) -> Vec<u8> {
    let w = &c.asked;
    let mut bytes = Vec::new();
    bytes.extend((c.ports.len() as u16).to_be_bytes());
    bytes.extend([w.l as u8, w.d as u8]);
    for number in [w.p as u16, w.base, w.n as u16, w.k as u16] {
        bytes.extend(number.to_be_bytes());
    }
    let mut start = front(c.ports.len());
    for (&port, &length) in c.ports.iter().zip(&c.lengths) {
        bytes.extend([port, 0]);
        bytes.extend(length.to_be_bytes());
        bytes.extend((start as u32).to_be_bytes());
        start += usize::from(length);
    }
    bytes.extend(&c.bodies);
    bytes
}

/// Writes the file of a content to a lent output and answers its length: 21 where the content is not proper, then 4 where the
/// output is too short.
pub fn write_to(c: &Content, out: &mut [u8]) -> Result<usize, u32> {
    check_content(c)?;
    let file = write(c);
    no_if(out.len() < file.len(), 4)?;
    out[..file.len()].copy_from_slice(&file);
    Ok(file.len())
}

// ---- the reader ----

/// The entry count and the opening that the header asks for.
pub fn header(bytes: &[u8]) -> Result<(usize, Window), u32> {
    no_if(bytes.len() < HEADER, BREACH)?;
    let count = usize::from(two(bytes, 0));
    no_if(count > ENTRIES, BREACH)?;
    let asked = Window {
        l: u64::from(bytes[2]),
        d: u64::from(bytes[3]),
        p: u64::from(two(bytes, 4)),
        base: two(bytes, 6),
        n: u64::from(two(bytes, 8)),
        k: u64::from(two(bytes, 10)),
        ..Window::default()
    };
    Ok((count, asked))
}

/// Line i of the table as it stands there, and nothing of it is judged.
pub fn line(bytes: &[u8], i: usize) -> Result<Line, u32> {
    let (count, _) = header(bytes)?;
    no_if(i >= count, BREACH)?;
    no_if(bytes.len() < front(i + 1), BREACH)?;
    let line = &bytes[front(i)..];
    Ok(Line { port: line[0], start: four(line, 4) as usize, length: usize::from(two(line, 2)) })
}

/// The content of a file: 21 where the bytes are not a whole capture file.
pub fn read(bytes: &[u8]) -> Result<Content, u32> {
    let (count, asked) = header(bytes)?;
    let mut content = Content { asked, ..Content::default() };
    let mut end = front(count);
    for i in 0..count {
        let Line { port, start, length } = line(bytes, i)?;
        check_entry(port, length)?;
        no_if(bytes[front(i) + 1] != 0, BREACH)?;
        no_if(start != end, BREACH)?;
        end += length;
        content.ports.push(port);
        content.lengths.push(length as u16);
    }
    no_if(bytes.len() != end, BREACH)?;
    // In table order, no gaps, nothing after: all that follows the table is the bodies.
    content.bodies = bytes[front(count)..].to_vec();
    Ok(content)
}

// ---- the replay ----

/// The text that the program prints for a file: 21, the number of a refused opening, or "too big" alone; else a line an offer
/// with answer and rebuilt count, and the total.
pub fn replay(bytes: &[u8]) -> String {
    match read(bytes).and_then(|content| check_numbers(&content.asked).map(|()| content)) {
        Err(number) => format!("{number}\n"),
        Ok(content) if (content.asked.n + content.asked.k) * content.asked.p > ROOM => "too big\n".to_string(),
        Ok(content) => offer_all(&content),
    }
}

/// Each entry in order to the port that it names, in a window whose numbers are good.
fn offer_all(content: &Content) -> String {
    let asked = content.asked;
    let mut held = Held::new(asked.n as usize, asked.k as usize, asked.p as usize);
    let mut w = open(asked, &mut held.lend()).window;
    let mut text = String::new();
    for (port, body) in content.entries() {
        let offer = [media, column, row][usize::from(port) - 1];
        let answer = offer(w, body, &mut held.lend());
        w = answer.window;
        text += &format!("{} {}\n", answer.number, answer.count);
    }
    text + &format!("present {} of {}\n", w.present, w.n)
}

#[cfg(test)]
mod tests {
    use super::*;
    use crate::rng::Rng;
    use crate::wire::Stretch;

    /// The request's example.
    const EXAMPLE: [u8; 22] = [0, 1, 4, 4, 0, 0xBC, 0xFF, 0xFA, 0, 0x10, 0, 8, 1, 0, 0, 2, 0, 0, 0, 0x14, 0xAB, 0xCD];

    fn example() -> Content {
        let asked = Window { base: 65_530, l: 4, d: 4, p: 188, n: 16, k: 8, ..Window::default() };
        Content { asked, ports: vec![1], lengths: vec![2], bodies: vec![0xAB, 0xCD] }
    }

    #[test]
    fn the_example_of_the_request() {
        assert_eq!(read(&EXAMPLE), Ok(example()));
        assert_eq!(write(&example()), EXAMPLE);
        assert_eq!(replay(&EXAMPLE), "6 0\npresent 0 of 16\n");
    }

    #[test]
    fn one_content_has_one_file() {
        // Whatever byte of the example is changed: another content, whose file this is, or a breach.
        for at in 0..EXAMPLE.len() {
            for to in 0..=255 {
                let mut file = EXAMPLE.to_vec();
                file[at] = to;
                match read(&file) {
                    Ok(content) => assert_eq!(write(&content), file),
                    Err(number) => assert_eq!((number, at < 2 || (12..20).contains(&at)), (21, true)),
                }
            }
        }
        for cut in 0..EXAMPLE.len() {
            assert_eq!(read(&EXAMPLE[..cut]), Err(21));
        }
        assert_eq!(read(&[&EXAMPLE[..], &[0]].concat()), Err(21));
    }

    #[test]
    fn both_sides_of_the_limits() {
        let many = |count: usize, length: u16| Content {
            ports: vec![3; count],
            lengths: vec![length; count],
            bodies: vec![7; count * usize::from(length)],
            ..example()
        };
        let both = |c: &Content| (write_to(c, &mut vec![0; 800_000]), read(&write(c)).map(|content| content == *c));
        for (content, length) in [(many(0, 0), 12), (many(1, 0), 20), (many(512, 1500), 772_108)] {
            assert_eq!(both(&content), (Ok(length), Ok(true)));
        }
        for content in [many(513, 0), many(1, 1501)] {
            assert_eq!(both(&content), (Err(21), Err(21)));
        }
        for (port, good) in [(0, false), (1, true), (3, true), (4, false), (255, false)] {
            let content = Content { ports: vec![port], ..example() };
            assert_eq!((write_to(&content, &mut [0; 22]).is_ok(), read(&write(&content)).is_ok()), (good, good));
        }
    }

    #[test]
    fn contents_that_have_no_file() {
        let out = &mut [0xEE; 30];
        let good = example();
        for bad in [
            Content { ports: vec![1, 1], ..good.clone() },
            Content { lengths: vec![2, 0], ..good.clone() },
            Content { lengths: vec![1], ..good.clone() },
            Content { lengths: vec![3], ..good.clone() },
            Content { asked: Window { l: 256, ..good.asked }, ..good.clone() },
            Content { asked: Window { d: 256, ..good.asked }, ..good.clone() },
            Content { asked: Window { p: 65_536, ..good.asked }, ..good.clone() },
            Content { asked: Window { n: 65_536, ..good.asked }, ..good.clone() },
            Content { asked: Window { k: u64::MAX, ..good.asked }, ..good.clone() },
        ] {
            assert_eq!(write_to(&bad, &mut out[..0]), Err(21));
            assert_eq!(write_to(&bad, out), Err(21));
        }
        assert_eq!(write_to(&good, &mut out[..21]), Err(4));
        assert_eq!(out, &[0xEE; 30]);
        assert_eq!(write_to(&good, out), Ok(22));
        assert_eq!((&out[..22], &out[22..]), (&EXAMPLE[..], &[0xEE; 8][..]));
    }

    #[test]
    fn a_gap_has_its_starts_and_is_refused() {
        let two = Content { ports: vec![1, 2], lengths: vec![2, 2], bodies: vec![1, 2, 3, 4], ..example() };
        let mut file = write(&two);
        assert_eq!((four(&file, 16), four(&file, 24)), (28, 30));
        file[27] += 1;
        file.insert(30, 0);
        assert_eq!(read(&file), Err(21));
        assert_eq!(line(&file, 1), Ok(Line { port: 2, start: 31, length: 2 }));
        assert_eq!([line(&file, 2), line(&file[..27], 1), line(&file, usize::MAX)], [Err(21); 3]);
        assert_eq!(line(&file[..28], 1), line(&file, 1));
    }

    #[test]
    fn what_is_printed_alone() {
        let printed =
            |l, d, p, n, k| replay(&write(&Content { asked: Window { base: 7, l, d, p, n, k, ..Window::default() }, ..example() }));
        assert_eq!(printed(4, 3, 0, 0, 0), "1\n");
        assert_eq!(printed(255, 255, 188, 16, 8), "1\n");
        assert_eq!(printed(4, 4, 187, 0, 0), "2\n");
        assert_eq!(printed(4, 4, 1316, 65_535, 8), "3\n");
        assert_eq!(printed(4, 4, 1316, 16, 0), "3\n");
        assert_eq!(printed(4, 4, 1316, 23, 9), "too big\n");
        assert_eq!(printed(4, 4, 1316, 23, 8), "6 0\npresent 0 of 23\n");
        assert_eq!(replay(&[]), "21\n");
        assert_eq!(replay(&EXAMPLE[..21]), "21\n");
    }

    #[test]
    fn bench_cases_10_and_11() {
        let stretch = Stretch::draw(&mut Rng::new(1, 1), 65_530, 4, 4, 188, 16);
        let mut content = Content { ports: Vec::new(), lengths: Vec::new(), bodies: Vec::new(), ..example() };
        let mut offer = |port: u8, body: Vec<u8>| {
            content.ports.push(port);
            content.lengths.push(body.len() as u16);
            content.bodies.extend(body);
        };
        for i in (0..16).filter(|i| ![0, 1, 4, 5].contains(i)) {
            offer(1, stretch.media(i, 9));
        }
        for i in 0..4 {
            offer(2, stretch.parity(0, i, 0, 0, 0));
            offer(3, stretch.parity(1, 4 * i, 0, 0, 0));
        }
        offer(1, stretch.media(5, 9));
        offer(1, stretch.media(0, 9));
        assert_eq!(replay(&write(&content)), "0 0\n".repeat(20) + "0 3\n14 0\npresent 16 of 16\n");
    }
}
