//! An endless stream through one window that moves: it loses nothing that an endless window would rebuild, where it is as large as the
//! header says; and room for parity in it.
//!
//! A stream of 10 × 10 matrices, 2 % of all datagrams lost by a seed; row parity goes out with its row, the columns of a matrix while
//! the next one goes by. What an endless window would rebuild is worked out by plain sets.
use congaveil::{capture::Port, move_room, Desk, Receiver, Refusal, SetUp, Taken};
use std::collections::BTreeSet;

const L: usize = 10;
const D: usize = 10;
const P: usize = 188;
const N: usize = 400;
/// Room for every parity packet that lies in a window, as the header has it.
const K: usize = N / (L * D) * (L + D);
const PACKETS: usize = 40_000;

struct Random(u64);

impl Random {
    fn below(&mut self, n: u64) -> u64 {
        self.0 = self.0.wrapping_add(0x9e37_79b9_7f4a_7c15);
        let z = (self.0 ^ (self.0 >> 30)).wrapping_mul(0xbf58_476d_1ce4_e5b9);
        let z = (z ^ (z >> 27)).wrapping_mul(0x94d0_49bb_1331_11eb);
        (z ^ (z >> 31)) % n
    }
}

/// A datagram on the line: media at a place of the stream, or parity over places.
#[derive(Clone)]
enum Sent {
    Media(usize),
    Column(usize),
    Row(usize),
}

/// The places of a parity packet's group.
fn group(sent: &Sent) -> Vec<usize> {
    match *sent {
        Sent::Media(_) => vec![],
        Sent::Column(start) => (0..D).map(|j| start + j * L).collect(),
        Sent::Row(start) => (start..start + L).collect(),
    }
}

fn payload_of(place: usize) -> u8 {
    (place * 31 + place / 7) as u8
}

fn datagram(sent: &Sent) -> Vec<u8> {
    if let Sent::Media(place) = *sent {
        let number = (place as u16).to_be_bytes();
        let mut g = vec![0x80, 33, number[0], number[1], 0, 0, 0, 0, 0, 0, 0, 0];
        g.resize(12 + P, payload_of(place));
        return g;
    }
    let group = group(sent);
    let start = (group[0] as u16).to_be_bytes();
    let mut g = vec![0; 28];
    g[..2].copy_from_slice(&[0x80, 96]);
    g[12..14].copy_from_slice(&start);
    g[16] = 0x80;
    g[24..27].copy_from_slice(&if matches!(sent, Sent::Row(_)) { [0x40, 1, L as u8] } else { [0, L as u8, D as u8] });
    g.resize(28 + P, group.iter().fold(0, |sum, place| sum ^ payload_of(*place)));
    g
}

/// The line, as FFmpeg has it, less what is lost.
fn line(seed: u64) -> Vec<Sent> {
    let (mut random, mut line) = (Random(seed), vec![]);
    for place in 0..PACKETS {
        let (matrix, within) = (place / (L * D), place % (L * D));
        let mut sent = vec![Sent::Media(place)];
        if within % L == L - 1 {
            sent.push(Sent::Row(place + 1 - L));
        }
        if matrix > 0 && within % D == 0 {
            sent.push(Sent::Column((matrix - 1) * L * D + within / D));
        }
        line.extend(sent.into_iter().filter(|_| random.below(100) >= 2));
    }
    line
}

/// The places that an endless window over these places would have.
fn endless(line: &[Sent], places: &BTreeSet<usize>) -> BTreeSet<usize> {
    let mut present: BTreeSet<usize> = line.iter().filter_map(|sent| if let Sent::Media(p) = sent { Some(*p) } else { None }).collect();
    present.retain(|place| places.contains(place));
    let groups: Vec<Vec<usize>> = line.iter().map(group).filter(|g| !g.is_empty() && g.iter().all(|p| places.contains(p))).collect();
    loop {
        let before = present.len();
        for group in &groups {
            let mut missing = group.iter().filter(|place| !present.contains(place));
            if let (Some(place), None) = (missing.next(), missing.next()) {
                present.insert(*place);
            }
        }
        if present.len() == before {
            return present;
        }
    }
}

fn port(sent: &Sent) -> Port {
    match sent {
        Sent::Media(_) => Port::Media,
        Sent::Column(_) => Port::Column,
        Sent::Row(_) => Port::Row,
    }
}

/// How a window moves: from this place, by so many positions of so many, and whether also for parity that is ahead of it.
#[derive(Clone, Copy)]
struct Way {
    join: usize,
    by: usize,
    n: usize,
    for_parity: bool,
}

/// The places that left a window with their packet, which moves whenever a datagram comes that is ahead of it; and how many left it in
/// all. Each packet that leaves is the one that was sent.
fn moved(line: &[Sent], Way { join, by, n, for_parity }: Way) -> (BTreeSet<usize>, usize) {
    let set_up = SetUp { base: join as u16, l: L, d: D, payload: P, positions: n, records: n.div_euclid(L * D) * (L + D), ssrc: 0 };
    let (mut receiver, mut desk) = (Receiver::open(set_up).unwrap(), Desk::new());
    let (mut out, mut sizes) = (vec![0; move_room(by, P)], vec![0; by]);
    let (mut present, mut next) = (BTreeSet::new(), join);
    desk.begin(&receiver);
    for sent in line {
        let (port, g) = (port(sent), datagram(sent));
        while (for_parity || port == Port::Media) && receiver.ahead(port, &g) {
            for left in desk.advance(&mut receiver, by, &mut out, &mut sizes).unwrap() {
                assert_eq!(left.number, next as u16);
                if let Some(g) = left.datagram {
                    assert_eq!(*g, datagram(&Sent::Media(next))[..]);
                    present.insert(next);
                }
                next += 1;
            }
        }
        let answer = match port {
            Port::Media => desk.media(&mut receiver, &g),
            Port::Column => desk.column(&mut receiver, &g),
            Port::Row => desk.row(&mut receiver, &g),
        };
        assert!(matches!(answer, Ok(Taken { spoilt: 0, .. }) | Err(Refusal::Outside | Refusal::Repeat)), "{answer:?}");
    }
    let c = desk.counters();
    assert_eq!((c.handed_out as usize, c.given_up as usize), (present.len(), next - join - present.len()));
    assert_eq!(c.missing() as usize, receiver.missing().count());
    (present, next - join)
}

/// How many packets of those that left a moving window were lost on the line, were missing when they left, and would be in an endless
/// window. The last ones are not looked at: an endless window has parity for them that was still to come.
fn missing(seed: u64, way: Way) -> (usize, usize, usize) {
    let Way { join, n, .. } = way;
    let line: Vec<Sent> = line(seed).into_iter().filter(|sent| !matches!(sent, Sent::Media(place) if *place < join)).collect();
    let (present, count) = moved(&line, way);
    let all = endless(&line, &(join..PACKETS).collect());
    let looked_at = join..join + count - 4 * L * D;
    let arrived: BTreeSet<usize> = line.iter().filter_map(|sent| if let Sent::Media(place) = sent { Some(*place) } else { None }).collect();
    let lacks = |set: &BTreeSet<usize>| looked_at.clone().filter(|place| !set.contains(place)).count();
    assert!(count > PACKETS - join - 2 * n && present.iter().filter(|place| looked_at.contains(place)).all(|place| all.contains(place)));
    (lacks(&arrived), lacks(&present), lacks(&all))
}

#[test]
fn a_window_that_moves_loses_nothing() {
    for (seed, join, by, n) in [(1, 0, L * D, 2 * L * D), (2, 37, 1, 2 * L * D), (3, 57, L * D, 3 * L * D), (4, 99, 7, 2 * L * D + 7)] {
        let (lost, missing, endless) = missing(seed, Way { join, by, n, for_parity: true });
        println!("by {by}, n {n}, from {join}: {lost} lost, {missing} given up, {endless} in an endless window");
        assert!(lost > 700);
        assert_eq!(missing, endless);
    }
}

/// By a matrix at a time from mid-matrix, two matrices are too few: columns come when their first members have left.
#[test]
fn too_few_positions_cut_columns() {
    let (lost, missing, endless) = missing(1, Way { join: 57, by: L * D, n: 2 * L * D, for_parity: true });
    println!("by {}, n {}, from 57: {lost} lost, {missing} given up, {endless} in an endless window", L * D, 2 * L * D);
    assert!(missing > endless + 10);
}

/// A window that moves for media alone refuses the parity of a row whose last packet is lost.
#[test]
fn parity_ahead_of_the_window() {
    let (lost, missing, endless) = missing(2, Way { join: 37, by: 1, n: 2 * L * D, for_parity: false });
    println!("by 1, n {}, from 37, for media alone: {lost} lost, {missing} given up, {endless} in an endless window", 2 * L * D);
    assert!(missing > endless + 10);
}

/// How many of a stream's parity packets are refused with 16, wherever in a matrix a window of this room starts: all of them come
/// before any media, so that each one in the window is held.
fn refused_for_room(records: usize) -> usize {
    let all: Vec<Sent> =
        (0..8 * D).map(|row| Sent::Row(row * L)).chain((0..8).flat_map(|m| (0..L).map(move |k| Sent::Column(m * L * D + k)))).collect();
    let all: Vec<(Vec<u8>, bool)> = all.iter().map(|sent| (datagram(sent), matches!(sent, Sent::Row(_)))).collect();
    (0..L * D)
        .map(|join| {
            let set_up = SetUp { base: (L * D + join) as u16, l: L, d: D, payload: P, positions: N, records, ssrc: 0 };
            let mut receiver = Receiver::open(set_up).unwrap();
            let mut offer = |(datagram, row): &(Vec<u8>, bool)| if *row { receiver.row(datagram) } else { receiver.column(datagram) };
            all.iter().filter(|sent| offer(sent) == Err(Refusal::Full)).count()
        })
        .sum()
}

#[test]
fn room_for_every_parity_packet() {
    assert_eq!(refused_for_room(K), 0);
    assert!(refused_for_room(K - 1) > 0);
}
