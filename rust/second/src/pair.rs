//! Both programs side by side: the same call with the same lent bytes goes to each, and all that they give back is compared.

use crate::face::{self, RawRecord, RECORD};
use crate::lies::{Lies, Whole};
use crate::model::{self, Answer, Record, Stamp, Window, COLUMN, ROW};
use crate::moving;
use crate::rng::Rng;
use std::collections::BTreeMap;

#[derive(Clone, Debug)]
pub enum Call {
    Open(Window),
    Media(Vec<u8>),
    Column(Vec<u8>),
    Row(Vec<u8>),
    Read(u16),
    WriteColumn(u16, Stamp),
    WriteRow(u16, Stamp),
    /// By so many positions.
    Move(u64),
}

/// How much of each part is lent, in elements.
#[derive(Clone, Copy, Debug)]
pub struct Sizes {
    pub media: usize,
    pub timestamps: usize,
    pub lengths: usize,
    pub marks: usize,
    pub parity: usize,
    pub records: usize,
    pub out: usize,
    /// Of a move: the output, in bytes, and the numbers beside it.
    pub slots: usize,
    pub sizes: usize,
}

/// What was met so far.
#[derive(Default)]
pub struct Tally {
    pub windows: u64,
    pub calls: u64,
    /// By the number answered; 19 to 21 are no number of these calls.
    pub numbers: [u64; 23],
    pub rebuilt: u64,
    pub spoilt: Spoilt,
    pub moves: Moves,
    pub lies: Lies,
    pub profiles: std::collections::BTreeSet<(u64, u64)>,
}

impl Tally {
    fn count_offer(&mut self, media: bool, before: Window, answer: Answer) {
        self.rebuilt += answer.count;
        self.spoilt.count(media, before, answer);
    }
}

/// How spoilt rebuilds were met.
#[derive(Clone, Copy, Debug, Default, PartialEq, Eq)]
pub struct Spoilt {
    /// Parity packets that were released or not held because of it.
    pub all: u64,
    /// Offers of a parity packet that was spoilt itself.
    pub offered: u64,
    /// Offers in which parity in hand was spoilt.
    pub in_hand: u64,
    /// Offers in which some were spoilt and packets were rebuilt.
    pub passed: u64,
    /// Offers in which two or more were spoilt.
    pub several: u64,
}

impl Spoilt {
    /// Counts an offer that was taken in; a parity packet that is offered is spoilt itself where none in hand was.
    fn count(&mut self, media: bool, before: Window, answer: Answer) {
        if answer.spoilt == 0 {
            return;
        }
        self.all += answer.spoilt;
        if media || answer.window.in_use < before.in_use {
            self.in_hand += 1;
        } else {
            self.offered += 1;
        }
        self.passed += u64::from(answer.count > 0);
        self.several += u64::from(answer.spoilt > 1);
    }
}

/// How moves were met.
#[derive(Clone, Debug, Default, PartialEq, Eq)]
pub struct Moves {
    pub done: u64,
    pub written: u64,
    pub lost: u64,
    pub released: u64,
    pub kept: u64,
    /// How often each kind was met.
    pub kinds: BTreeMap<&'static str, u64>,
}

/// The kinds of moves, done and refused, that a run has to meet.
pub const KINDS: [&str; 21] = [
    "by 1",
    "by L x D",
    "by n",
    "by another number",
    "over the wrap",
    "records released",
    "records kept",
    "both",
    "old bytes moved",
    "longer outputs",
    "refused with 1",
    "refused with 2",
    "refused with 3",
    "refused with 4",
    "refused with 5",
    "22 for 0",
    "22 for n + 1",
    "22 for a number past 65,535",
    "22 with short outputs",
    "output short by a byte",
    "sizes short by one",
];

impl Moves {
    fn met(&mut self, kind: &'static str, is: bool) {
        if is {
            *self.kinds.entry(kind).or_default() += 1;
        }
    }

    /// Counts a move by its answer; `old` says whether a missing position that stayed had old bytes.
    fn count(&mut self, w: Window, by: u64, lent: Sizes, old: bool, answer: Answer) {
        let (out, sizes) = (lent.slots as u64, lent.sizes as u64);
        let need = || by * (12 + w.p);
        match answer.number {
            0 => {
                let (released, kept) = (w.in_use - answer.window.in_use, answer.window.in_use);
                self.done += 1;
                self.written += answer.count;
                self.lost += by - answer.count;
                self.released += released;
                self.kept += kept;
                self.met("by 1", by == 1);
                self.met("by L x D", by == w.l * w.d);
                self.met("by n", by == w.n);
                self.met("by another number", by != 1 && by != w.l * w.d && by != w.n);
                self.met("over the wrap", answer.window.base < w.base);
                self.met("records released", released > 0);
                self.met("records kept", kept > 0);
                self.met("both", released > 0 && kept > 0);
                self.met("old bytes moved", old);
                self.met("longer outputs", out > need() && sizes > by);
            }
            22 => {
                self.met("22 for 0", by == 0);
                self.met("22 for n + 1", by == w.n + 1);
                self.met("22 for a number past 65,535", by > 65_535);
                self.met("22 with short outputs", out / (12 + w.p) < by || sizes < by);
            }
            4 => {
                self.met("refused with 4", true);
                self.met("output short by a byte", out + 1 == need() && sizes >= by);
                self.met("sizes short by one", out >= need() && sizes + 1 == by);
            }
            1 => self.met("refused with 1", true),
            2 => self.met("refused with 2", true),
            3 => self.met("refused with 3", true),
            _ => self.met("refused with 5", true),
        }
    }
}

/// One store for each program. The parts are longer than what is lent, so that bytes past a lent part are compared too.
#[derive(Clone)]
pub struct Pair {
    media: [Vec<u8>; 2],
    timestamps: [Vec<u32>; 2],
    lengths: [Vec<u16>; 2],
    marks: [Vec<u8>; 2],
    parity: [Vec<u8>; 2],
    records: Vec<Record>,
    raw: Vec<RawRecord>,
    raw_before: Vec<RawRecord>,
    out: [Vec<u8>; 2],
    slots: [Vec<u8>; 2],
    sizes: [Vec<u16>; 2],
}

impl Pair {
    /// Stores of these sizes, full of the same random bytes.
    pub fn new(rng: &mut Rng, size: Sizes) -> Pair {
        let mut media = vec![0; size.media];
        let mut parity = vec![0; size.parity];
        rng.fill(&mut media);
        rng.fill(&mut parity);
        let timestamps: Vec<u32> = (0..size.timestamps).map(|_| rng.next() as u32).collect();
        let lengths: Vec<u16> = (0..size.lengths).map(|_| rng.next() as u16).collect();
        let marks: Vec<u8> = (0..size.marks).map(|_| rng.pick(&[0, 1, 1, 2, 255])).collect();
        let mut raw = vec![RawRecord([0; RECORD]); size.records];
        for record in &mut raw {
            rng.fill(&mut record.0);
        }
        let records = raw.iter().map(RawRecord::get).collect();
        Pair {
            media: [media.clone(), media],
            timestamps: [timestamps.clone(), timestamps],
            lengths: [lengths.clone(), lengths],
            marks: [marks.clone(), marks],
            parity: [parity.clone(), parity],
            records,
            raw_before: raw.clone(),
            raw,
            out: [vec![0; size.out], vec![0; size.out]],
            slots: [vec![0; size.slots], vec![0; size.slots]],
            sizes: [vec![0; size.sizes], vec![0; size.sizes]],
        }
    }

    pub fn size(&self) -> Sizes {
        Sizes {
            media: self.media[0].len(),
            timestamps: self.timestamps[0].len(),
            lengths: self.lengths[0].len(),
            marks: self.marks[0].len(),
            parity: self.parity[0].len(),
            records: self.records.len(),
            out: self.out[0].len(),
            slots: self.slots[0].len(),
            sizes: self.sizes[0].len(),
        }
    }

    pub fn mark(&self, i: usize) -> u8 {
        self.marks[0][i]
    }

    pub fn record(&self, i: usize) -> Record {
        self.records[i]
    }

    pub fn timestamp(&self, i: usize) -> u32 {
        self.timestamps[0][i]
    }

    pub fn length(&self, i: usize) -> u16 {
        self.lengths[0][i]
    }

    pub fn media(&self) -> &[u8] {
        &self.media[0]
    }

    pub fn parity(&self) -> &[u8] {
        &self.parity[0]
    }

    /// Whether both stores are still what they were.
    pub fn untouched(&self, before: &Pair) -> bool {
        (&self.media, &self.timestamps, &self.lengths) == (&before.media, &before.timestamps, &before.lengths)
            && (&self.marks, &self.parity, &self.records) == (&before.marks, &before.parity, &before.records)
            && self.raw == before.raw
    }

    pub fn set_mark(&mut self, i: usize, to: u8) {
        self.marks.iter_mut().for_each(|part| part[i] = to);
    }

    pub fn set_timestamp(&mut self, i: usize, to: u32) {
        self.timestamps.iter_mut().for_each(|part| part[i] = to);
    }

    pub fn set_length(&mut self, i: usize, to: u16) {
        self.lengths.iter_mut().for_each(|part| part[i] = to);
    }

    pub fn set_media(&mut self, at: usize, to: &[u8]) {
        self.media.iter_mut().for_each(|part| part[at..at + to.len()].copy_from_slice(to));
    }

    pub fn set_parity(&mut self, at: usize, to: &[u8]) {
        self.parity.iter_mut().for_each(|part| part[at..at + to.len()].copy_from_slice(to));
    }

    pub fn set_record(&mut self, i: usize, to: Record) {
        self.records[i] = to;
        self.raw[i].set(to);
    }

    /// Makes a call to both, counts it, and answers what both answered, or a text that says how they differ.
    pub fn run(&mut self, w: Window, call: &Call, lent: Sizes, filler: u8, tally: &mut Tally) -> Result<Answer, String> {
        self.raw_before.copy_from_slice(&self.raw);
        let writes_out = matches!(call, Call::Read(_) | Call::WriteColumn(..) | Call::WriteRow(..));
        if writes_out {
            self.out.iter_mut().for_each(|out| out.fill(filler));
        }
        let by = if let Call::Move(by) = call { Some(*by) } else { None };
        let old_bytes = by.map_or(false, |by| self.old_bytes(&w, by, &lent));
        if by.is_some() {
            self.noise(filler);
        }
        let ours = self.run_model(w, call, lent);
        let (theirs, datagram_kept) = self.run_product(w, call, lent);
        tally.calls += 1;
        if ours == theirs && (ours.number as usize) < tally.numbers.len() {
            tally.numbers[ours.number as usize] += 1;
            match call {
                Call::Move(by) => tally.moves.count(w, *by, lent, old_bytes, ours),
                Call::Media(_) | Call::Open(_) => tally.count_offer(true, w, ours),
                Call::Column(datagram) => self.count_parity(w, COLUMN, datagram, ours, tally),
                Call::Row(datagram) => self.count_parity(w, ROW, datagram, ours, tally),
                _ => {}
            }
        }
        let mut faults = Vec::new();
        if ours != theirs {
            faults.push("the answers differ".to_string());
        }
        if !datagram_kept {
            faults.push("the library changed the datagram".to_string());
        }
        first_difference("media", &self.media, &mut faults);
        first_difference("timestamps", &self.timestamps, &mut faults);
        first_difference("lengths", &self.lengths, &mut faults);
        first_difference("marks", &self.marks, &mut faults);
        first_difference("parity", &self.parity, &mut faults);
        first_difference("output", &self.out, &mut faults);
        if by.is_some() {
            first_difference("slots", &self.slots, &mut faults);
            first_difference("sizes", &self.sizes, &mut faults);
        }
        for i in 0..self.records.len() {
            if self.records[i] != self.raw[i].get() {
                faults.push(format!("record {i}: model {:?}, library {:?}", self.records[i], self.raw[i].get()));
            }
            // Where nothing may be written, the bytes are looked at as well.
            let untouchable = ours.number != 0 || writes_out || i as u64 >= ours.window.k;
            if untouchable && self.raw[i] != self.raw_before[i] {
                faults.push(format!("record {i}: the library wrote to it, was {:?}, is {:?}", self.raw_before[i].0, self.raw[i].0));
            }
        }
        if faults.is_empty() {
            return Ok(ours);
        }
        let mut text = format!("  call    {}\n  window  {w:?}\n  lent    {lent:?}\n", short(call));
        text += &format!("  model   {ours:?}\n  library {theirs:?}\n");
        for fault in faults.iter().take(12) {
            text += &format!("  {fault}\n");
        }
        Err(text)
    }

    /// Counts an offer of parity, and one that altered nothing again if its whole group is present.
    fn count_parity(&mut self, w: Window, stream: u8, datagram: &[u8], answer: Answer, tally: &mut Tally) {
        tally.count_offer(false, w, answer);
        if !matches!(answer.number, 0 | 11 | 18) || (answer.count, answer.spoilt, answer.window) != (0, 0, w) {
            return;
        }
        let snbase = model::two(datagram, 12);
        if let Some(defined) = self.defined(w, stream, snbase, Stamp { sequence: 0, timestamp: 0, ssrc: 0 }) {
            let places: Vec<usize> =
                model::group(&w, stream, snbase).into_iter().map(|number| model::position(&w, number) as usize).collect();
            let length = |i: usize| usize::from(self.lengths[0][i]);
            let past = |i: usize| &self.media[0][i * w.p as usize..(i + 1) * w.p as usize][length(i)..];
            let mixed = places.iter().any(|&i| length(i) != length(places[0]));
            let old_bytes = places.iter().any(|&i| past(i).iter().any(|&byte| byte != 0));
            tally.lies.count(w, stream, datagram, &Whole { defined, mixed, old_bytes }, answer);
        }
    }

    /// The parity packet of a group that is wholly present, as the store has it.
    pub fn defined(&mut self, w: Window, stream: u8, snbase: u16, stamp: Stamp) -> Option<Vec<u8>> {
        let mut out = vec![0; 28 + w.p.min(1428) as usize];
        let s = model::Store {
            media: &mut self.media[0],
            timestamps: &mut self.timestamps[0],
            lengths: &mut self.lengths[0],
            marks: &mut self.marks[0],
            parity: &mut self.parity[0],
            records: &mut self.records,
        };
        let write = if stream == COLUMN { model::write_column } else { model::write_row };
        let answer = write(w, snbase, stamp, &s, &mut out);
        out.truncate(answer.count as usize);
        Some(out).filter(|_| answer.number == 0)
    }

    /// Fills both outputs of a move with the same noise.
    fn noise(&mut self, seed: u8) {
        let mut rng = Rng::new(u64::from(seed), 13);
        rng.fill(&mut self.slots[0]);
        self.sizes[0].fill_with(|| rng.next() as u16);
        let [slots, same_slots] = &mut self.slots;
        same_slots.copy_from_slice(slots);
        let [sizes, same_sizes] = &mut self.sizes;
        same_sizes.copy_from_slice(sizes);
    }

    /// Whether a missing position that a move would keep has bytes other than zeros.
    fn old_bytes(&self, w: &Window, by: u64, lent: &Sizes) -> bool {
        let (n, p) = (w.n.min(lent.marks as u64), w.p.min(1428) as usize);
        (by.min(n) as usize..n as usize).any(|i| {
            let payload = self.media[0].get(i * p..(i + 1) * p);
            self.marks[0][i] == 0 && payload.map_or(false, |payload| payload.iter().any(|&byte| byte != 0))
        })
    }

    fn run_model(&mut self, w: Window, call: &Call, lent: Sizes) -> Answer {
        let mut s = model::Store {
            media: &mut self.media[0][..lent.media],
            timestamps: &mut self.timestamps[0][..lent.timestamps],
            lengths: &mut self.lengths[0][..lent.lengths],
            marks: &mut self.marks[0][..lent.marks],
            parity: &mut self.parity[0][..lent.parity],
            records: &mut self.records[..lent.records],
        };
        let out = &mut self.out[0][..lent.out];
        match call {
            Call::Open(asked) => model::open(*asked, &mut s),
            Call::Media(datagram) => model::media(w, datagram, &mut s),
            Call::Column(datagram) => model::column(w, datagram, &mut s),
            Call::Row(datagram) => model::row(w, datagram, &mut s),
            Call::Read(number) => model::read(w, *number, &s, out),
            Call::WriteColumn(snbase, stamp) => model::write_column(w, *snbase, *stamp, &s, out),
            Call::WriteRow(snbase, stamp) => model::write_row(w, *snbase, *stamp, &s, out),
            Call::Move(by) => moving::advance(w, *by, &mut s, &mut self.slots[0][..lent.slots], &mut self.sizes[0][..lent.sizes]),
        }
    }

    fn run_product(&mut self, w: Window, call: &Call, lent: Sizes) -> (Answer, bool) {
        let mut s = face::Lent {
            media: &mut self.media[1][..lent.media],
            timestamps: &mut self.timestamps[1][..lent.timestamps],
            lengths: &mut self.lengths[1][..lent.lengths],
            marks: &mut self.marks[1][..lent.marks],
            parity: &mut self.parity[1][..lent.parity],
            records: &mut self.raw[..lent.records],
        };
        let out = &mut self.out[1][..lent.out];
        let answer = match call {
            Call::Open(asked) => face::open(*asked, &mut s),
            Call::Media(datagram) | Call::Column(datagram) | Call::Row(datagram) => {
                let lent = datagram.clone();
                let answer = match call {
                    Call::Media(_) => face::media(w, &lent, &mut s),
                    Call::Column(_) => face::column(w, &lent, &mut s),
                    _ => face::row(w, &lent, &mut s),
                };
                return (answer, face::anew(&lent) == &datagram[..]);
            }
            Call::Read(number) => face::read(w, *number, &s, out),
            Call::WriteColumn(snbase, stamp) => face::write_column(w, *snbase, *stamp, &s, out),
            Call::WriteRow(snbase, stamp) => face::write_row(w, *snbase, *stamp, &s, out),
            Call::Move(by) => face::advance(w, *by, &mut s, &mut self.slots[1][..lent.slots], &mut self.sizes[1][..lent.sizes]),
        };
        (answer, true)
    }
}

pub fn first_difference<T: PartialEq + std::fmt::Debug>(name: &str, parts: &[Vec<T>; 2], faults: &mut Vec<String>) {
    if parts[0] != parts[1] {
        let i = (0..parts[0].len()).find(|&i| parts[0][i] != parts[1][i]).unwrap();
        let how_many = (0..parts[0].len()).filter(|&i| parts[0][i] != parts[1][i]).count();
        faults.push(format!("{name}: {how_many} differ, first at {i}: model {:?}, library {:?}", parts[0][i], parts[1][i]));
    }
}

pub fn hex(bytes: &[u8]) -> String {
    let digits: Vec<String> = bytes.iter().map(|byte| format!("{byte:02X}")).collect();
    digits.join(" ")
}

/// A call in one line, of a datagram its length and headers.
fn short(call: &Call) -> String {
    let bytes = |name: &str, datagram: &[u8]| format!("{name}, {} bytes: {} ...", datagram.len(), hex(&datagram[..datagram.len().min(28)]));
    match call {
        Call::Media(datagram) => bytes("media", datagram),
        Call::Column(datagram) => bytes("column", datagram),
        Call::Row(datagram) => bytes("row", datagram),
        other => format!("{other:?}"),
    }
}
