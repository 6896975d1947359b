//! Window values that were made up: every safe function ends with an answer, none panics, none makes room for what a window
//! claims before a call has judged it, and a refusal alters nothing that was lent.
use congaveil::capture::Port;
use congaveil::{Lent, Outer, Receiver, Record, Refusal, SetUp, Window};

const P: usize = 188;
const SET_UP: SetUp = SetUp { base: 65_530, l: 4, d: 4, payload: P, positions: 16, records: 8, ssrc: 7 };

/// A store of the card's own, with old bytes in it.
#[derive(Clone, PartialEq, Debug)]
struct Parts {
    media: Vec<u8>,
    timestamps: Vec<u32>,
    lengths: Vec<u16>,
    marks: Vec<u8>,
    parity: Vec<u8>,
    records: Vec<Record>,
}

impl Parts {
    fn new(mark: u8) -> Self {
        Parts {
            media: vec![3; 16 * P],
            timestamps: vec![3; 16],
            lengths: vec![P as u16; 16],
            marks: vec![mark; 16],
            parity: vec![3; 8 * P],
            records: vec![Record::default(); 8],
        }
    }
    fn lend(&mut self) -> Lent<'_> {
        Lent {
            media: &mut self.media,
            timestamps: &mut self.timestamps,
            lengths: &mut self.lengths,
            marks: &mut self.marks,
            parity: &mut self.parity,
            records: &mut self.records,
        }
    }
}

/// Calls every safe function; the refusal that all eight calls agree on, or None where they do not.
fn every_call(window: Window, parts: &mut Parts) -> Option<Refusal> {
    let mut receiver = Receiver::from_parts(window, parts.lend());
    let mut datagram = [0x80; 300];
    datagram[1] = 33;
    let (mut out, mut sizes) = ([0; 28 + P], [0; 1]);
    let mut answers = vec![receiver.packet(3).map(|packet| packet.len())];
    answers.push(receiver.read(3, &mut out));
    answers.push(receiver.write_column(3, Outer::default(), &mut out));
    answers.push(receiver.write_row(3, Outer::default(), &mut out));
    answers.push(receiver.media(&datagram).map(|taken| taken.rebuilt));
    answers.push(receiver.column(&datagram).map(|taken| taken.rebuilt));
    answers.push(receiver.row(&datagram).map(|taken| taken.rebuilt));
    answers.push(receiver.advance(1, &mut out, &mut sizes).map(|left| left.filter(|left| left.datagram.is_some()).count()));
    answers.push(receiver.advance_to_vec(1).map(|left| left.len()));
    let _ = (receiver.has(3), receiver.missing().count(), receiver.present(), receiver.in_hand());
    let _ = (receiver.payload(3), receiver.packets().count());
    let _ = [Port::Media, Port::Column, Port::Row].map(|port| receiver.ahead(port, &datagram));
    let first = answers[0].err();
    if answers.iter().all(|answer| answer.err() == first) {
        first
    } else {
        None
    }
}

#[test]
fn sizes_beyond_memory() {
    let good = Receiver::open(SET_UP).unwrap().into_parts().0;
    let before = Parts::new(1);
    for p in [0, 187, 1 << 46, usize::MAX - 12, usize::MAX - 11, usize::MAX] {
        let mut parts = before.clone();
        assert_eq!(every_call(Window { p, ..good }, &mut parts), Some(Refusal::BadPayloadSize), "p {p}");
        assert_eq!(parts, before);
    }
    for n in [0, 15, 401, 65_536, 1 << 60, usize::MAX] {
        let mut parts = before.clone();
        assert_eq!(every_call(Window { n, ..good }, &mut parts), Some(Refusal::BadRoom), "n {n}");
        assert_eq!(parts, before);
    }
    for k in [0, 129, 1 << 60, usize::MAX] {
        let mut parts = before.clone();
        assert_eq!(every_call(Window { k, ..good }, &mut parts), Some(Refusal::BadRoom), "k {k}");
        assert_eq!(parts, before);
    }
}

/// Every field at its edges, in all combinations, over a store whose marks are all 0, all 1 or all 2.
#[test]
fn every_edge() {
    let edges = [0, 4, 16, 188, 401, 1 << 46, usize::MAX];
    let mut calls = 0;
    for mark in [0, 1, 2] {
        let before = Parts::new(mark);
        for choice in 0..edges.len().pow(4) {
            let edge = |place: u32| edges[choice / edges.len().pow(place) % edges.len()];
            for counts in [0, 16, usize::MAX] {
                for (l, d) in [(4, 4), (edge(0), edge(1))] {
                    let (n, k) = (edge(2), edge(3));
                    for p in [188, edge(0)] {
                        let window = Window { base: 65_530, ssrc: 1, l, d, p, n, k, present: counts, in_use: counts & 15 };
                        let mut parts = before.clone();
                        every_call(window, &mut parts);
                        calls += 10;
                        if (l, d, p, n) != (4, 4, P, 16) {
                            assert_eq!(parts, before, "{window:?}");
                        }
                    }
                }
            }
        }
    }
    assert!(calls > 500_000, "{calls}");
}

/// Moves by any number: room is made only for one that a call has judged.
#[test]
fn moves_by_any_number() {
    let good = Receiver::open(SET_UP).unwrap().into_parts().0;
    for by in [0, 17, 401, 1 << 46, usize::MAX - 11, usize::MAX] {
        for (window, refusal) in [
            (good, Refusal::BadMove),
            (Window { l: usize::MAX, ..good }, Refusal::BadProfile),
            (Window { p: usize::MAX - 11, ..good }, Refusal::BadPayloadSize),
            (Window { n: usize::MAX, ..good }, Refusal::BadRoom),
        ] {
            let mut parts = Parts::new(0);
            let before = parts.clone();
            let mut receiver = Receiver::from_parts(window, parts.lend());
            assert_eq!(receiver.advance(by, &mut [0; 16 * (12 + P)], &mut [0; 16]).err(), Some(refusal));
            assert_eq!(receiver.advance_to_vec(by), Err(refusal));
            assert_eq!((*receiver.window(), parts), (window, before));
        }
    }
}

/// A store whose parts are empty, and one whose window names more than there is.
#[test]
fn short_stores() {
    let good = Receiver::open(SET_UP).unwrap().into_parts().0;
    for part in 0..6 {
        let mut parts = Parts::new(0);
        match part {
            0 => parts.media.clear(),
            1 => parts.timestamps.clear(),
            2 => parts.marks.clear(),
            3 => parts.parity.clear(),
            4 => parts.lengths.clear(),
            _ => parts.records.clear(),
        }
        let before = parts.clone();
        assert_eq!(every_call(good, &mut parts), Some(Refusal::ShortBuffer));
        assert_eq!(parts, before);
    }
}

/// Kept lengths that somebody changed: 5 where it can be seen, and what is read where it lies never goes past P.
#[test]
fn changed_lengths() {
    let good = Window { present: 16, ..Receiver::open(SET_UP).unwrap().into_parts().0 };
    for length in [0, 1, 187, 189, 376, u16::MAX] {
        let mut parts = Parts::new(1);
        parts.lengths[3] = length;
        let before = parts.clone();
        assert_eq!(every_call(good, &mut parts), Some(Refusal::Disorder));
        assert_eq!(parts, before);
        let receiver = Receiver::from_parts(good, parts.lend());
        assert_eq!(receiver.payload(65_533).map(<[u8]>::len), Some(usize::from(length).min(P)));
        assert_eq!(receiver.packets().count(), 16);
    }
}
