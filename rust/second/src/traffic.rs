//! Random traffic through both programs, a window at a time. A window is drawn wholly from its seed.

use crate::lies;
use crate::model::{Answer, Record, Stamp, Window, COLUMN, ROW};
use crate::pair::{Call, Pair, Sizes, Tally};
use crate::rng::Rng;
use crate::wire::{unit, Stretch};
use std::collections::VecDeque;

/// Elements past the longest part that is ever lent.
const GUARD: usize = 16;

pub fn profiles() -> Vec<(u64, u64)> {
    let mut list = Vec::new();
    for l in 1..=20 {
        for d in 4..=20 {
            if l * d <= 100 {
                list.push((l, d));
            }
        }
    }
    list
}

pub fn sizes() -> Vec<u64> {
    (1..=7).flat_map(|k| [k * 188, k * 204]).collect()
}

/// How unruly a window is, each in cases of a thousand.
struct Mood {
    disturb: u64,
    made_up: u64,
    short: u64,
    lies: u64,
    repeats: u64,
    /// Before an offer, while moves are left.
    moves: u64,
    /// Before an offer, of parity over a group that is wholly present.
    whole: u64,
    /// Old bytes stand wherever nothing is kept, from the opening on.
    dirty: bool,
    /// Every offer is an unaltered packet of the stretch, and nobody else writes the store.
    unaltered: bool,
}

struct Play<'a> {
    rng: Rng,
    mood: Mood,
    asked: Window,
    window: Window,
    stretch: Stretch,
    pair: Pair,
    undo: Vec<Change>,
    window_before: Window,
    stuck: u32,
    step: u64,
    started: bool,
    /// How many moves may still be done.
    moves_left: u64,
    /// By how much the stretch has moved since the offers were drawn.
    moved: u64,
    tally: &'a mut Tally,
}

/// A change made to the store from outside, with what stood there.
enum Change {
    Mark(usize, u8),
    Timestamp(usize, u32),
    Length(usize, u16),
    Media(usize, Vec<u8>),
    Parity(usize, Vec<u8>),
    Record(usize, Record),
}

/// Runs the window of a seed. The error says at which step the programs differ and how.
pub fn run(seed: u64, tally: &mut Tally) -> Result<(), String> {
    let mut rng = Rng::new(seed, 3);
    let knotted = rng.chance(120);
    let betrayed = !knotted && rng.chance(60);
    let asked = if knotted || betrayed { draw_knotted_window(&mut rng, betrayed) } else { draw_window(seed, &mut rng) };
    tally.windows += 1;
    tally.profiles.insert((asked.l, asked.d));
    let slack = rng.pick(&[0, 0, 1, 3, 20]);
    let calm = rng.chance(250);
    let lies = if knotted || betrayed { 1000 } else { rng.pick(&[0, 0, 100, 600, 1000]) };
    let unaltered = calm && lies == 0;
    let mood = Mood {
        disturb: if calm { 0 } else { rng.pick(&[20, 100, 300]) },
        made_up: if calm { 0 } else { rng.pick(&[0, 10, 40]) },
        short: if calm { 0 } else { rng.pick(&[0, 5, 20]) },
        lies,
        repeats: rng.pick(&[0, 50, 300]),
        moves: rng.pick(&[10, 40, 150]),
        whole: rng.pick(&[0, 0, 30, 150]),
        dirty: !unaltered && rng.chance(500),
        unaltered,
    };
    let moves_left = rng.pick(&[0, 0, 0, 0, 1, 2, 4, 8]);
    let mut play = Play::new(rng, mood, asked, slack, moves_left, tally);
    let (rng, stretch) = (&mut play.rng, &play.stretch);
    let list = match (knotted, betrayed) {
        (true, _) => knot(rng, stretch),
        (_, true) => betray(rng, stretch),
        _ => offers(rng, stretch, play.mood.lies, play.mood.repeats),
    };
    let result = play.whole(list);
    result.map_err(|text| format!("step {}\n{text}", play.step))
}

/// Runs a window that moves until its numbers have wrapped two to four times, with few packets between two moves: unaltered ones where
/// the seed is even.
pub fn run_long(seed: u64, tally: &mut Tally) -> Result<(), String> {
    let mut rng = Rng::new(seed, 8);
    let (l, d) = rng.pick(&[(1, 4), (4, 4), (5, 5), (20, 5), (10, 10), (4, 20)]);
    let matrix = l * d;
    let n = [400, matrix, 2 * matrix, matrix + rng.below(l)][(seed % 4) as usize];
    let base = rng.next() as u16;
    let asked =
        Window { base, ssrc: rng.next() as u32, l, d, p: rng.pick(&[188, 204, 376]), n, k: rng.between(1, 24), present: 0, in_use: 0 };
    let unaltered = seed % 2 == 0;
    let mood = Mood { disturb: 0, made_up: 0, short: 0, lies: 0, repeats: 0, moves: 0, whole: 0, dirty: false, unaltered };
    let mut play = Play::new(rng, mood, asked, 0, u64::MAX, tally);
    let result = play.far(65_536 * (2 + seed % 3));
    result.map_err(|text| format!("step {}\n{text}", play.step))
}

fn draw_window(seed: u64, rng: &mut Rng) -> Window {
    let all = profiles();
    let (l, d) = if rng.chance(600) {
        all[(seed % all.len() as u64) as usize]
    } else {
        rng.pick(&[(1, 4), (2, 4), (3, 4), (4, 4), (4, 4), (4, 5), (5, 4), (5, 5), (3, 5), (6, 4), (4, 7)])
    };
    let p = if rng.chance(900) { rng.pick(&[188, 188, 204, 376, 376, 408, 564]) } else { rng.pick(&sizes()) };
    let least = l * d;
    let most = if p > 204 { (2 * least).min(400) } else { 400 };
    let n = match rng.below(10) {
        0..=2 => least,
        3..=5 => rng.between(least, (least + l + 3).min(most)),
        6..=7 => (2 * least).min(most),
        8 => rng.between(least, (3 * least).min(most)),
        _ => rng.between(least, most),
    };
    let k = match rng.below(20) {
        0..=3 => rng.between(1, 3),
        4..=9 => rng.between(4, 12),
        10..=16 => rng.between(13, 64),
        _ => rng.between(65, 128),
    };
    let base = match rng.below(10) {
        0..=5 => (65_536 - rng.between(1, n)) as u16,
        6..=7 => rng.pick(&[0, 1, 65_535, (65_536 - n) as u16, (65_536 - n + 1) as u16]),
        _ => rng.next() as u16,
    };
    Window { base, ssrc: rng.next() as u32, l, d, p, n, k, present: 0, in_use: 0 }
}

/// A window with room for groups that begin in the second row of the matrix, and for many of them, at times for few.
fn draw_knotted_window(rng: &mut Rng, few: bool) -> Window {
    let (l, d) = rng.pick(&[(4, 4), (4, 4), (4, 5), (5, 4), (6, 4)]);
    let n = l * d + l * rng.between(1, 3) + rng.below(l);
    let base = (65_536 - rng.below(n + 1)) as u16;
    let p = rng.pick(&[188, 188, 376, 408, 564]);
    let k = if few && rng.chance(500) { rng.between(1, 3) } else { rng.between(40, 128) };
    Window { base, ssrc: rng.next() as u32, l, d, p, n, k, present: 0, in_use: 0 }
}

/// A value near the present one, or one that no set-up has.
pub fn twist(rng: &mut Rng, value: u64) -> u64 {
    match rng.below(12) {
        0..=2 => value.wrapping_add(1),
        3..=5 => value.wrapping_sub(1),
        6 => 0,
        7 => rng.pick(&[u64::MAX, u64::MAX - 1, 1 << 63, 1 << 32, (1 << 63) - 1, u64::MAX / 188 + 1]),
        8 => value.wrapping_add(rng.pick(&[1 << 16, 1 << 32, 1 << 63, 1 << 8])),
        9 => value.wrapping_mul(2),
        10 => rng.below(24),
        _ => rng.below(500),
    }
}

/// A window value with one field changed, or a few.
fn make_up(rng: &mut Rng, window: Window) -> Window {
    let mut w = window;
    for _ in 0..rng.pick(&[1, 1, 1, 2, 3]) {
        match rng.below(12) {
            0 => w.base = w.base.wrapping_add(rng.pick(&[1, 65_535, 4, 32_768])),
            1 => w.ssrc = rng.next() as u32,
            2 => w.l = twist(rng, w.l),
            3 => w.d = twist(rng, w.d),
            4 => w.p = if rng.chance(400) { rng.pick(&sizes()) } else { twist(rng, w.p) },
            5 => w.n = if rng.chance(300) { rng.pick(&[w.l.wrapping_mul(w.d), 400, 401]) } else { twist(rng, w.n) },
            6 => w.k = if rng.chance(300) { rng.pick(&[1, 128, 129]) } else { twist(rng, w.k) },
            7 => w.present = twist(rng, w.present),
            8 => w.in_use = twist(rng, w.in_use),
            9 => (w.l, w.d) = rng.pick(&profiles()),
            10 => w.p = rng.pick(&[0, 187, 189, 8 * 188, 8 * 204, 203, 205, 392, 65_536 + 188]),
            _ => (w.l, w.d) = rng.pick(&[(1 << 32, 1 << 32), (u64::MAX, u64::MAX), (5, 20), (20, 5), (4, 26), (21, 4), (20, 20), (0, 0)]),
        }
    }
    w
}

/// The datagrams of a window in the order in which they are offered, each with its port: 1 media, 2 column, 3 row.
pub fn offers(rng: &mut Rng, stretch: &Stretch, lies: u64, repeats: u64) -> Vec<(u8, Vec<u8>)> {
    let n = stretch.n();
    let lost = losses(rng, n);
    let mut list: Vec<(u64, u8, Vec<u8>)> = Vec::new();
    for (i, lost) in lost.iter().enumerate() {
        if !lost {
            list.push((i as u64 * 4, 1, stretch.media(i, rng.next() as u32)));
        }
    }
    for (stream, start) in groups(rng, stretch) {
        let last = stretch.members(stream, start).into_iter().max().unwrap_or(start).max(0) as u64;
        let mut datagram = stretch.parity(stream, start, rng.next() as u16, rng.next() as u32, rng.next() as u32);
        if rng.chance(lies) {
            lie(rng, stretch, stream, start, &mut datagram);
        }
        list.push((last * 4 + 1 + u64::from(stream), stream + 2, datagram));
    }
    for i in 0..list.len() {
        if rng.chance(repeats) {
            let mut again = list[i].clone();
            again.0 += rng.below(200);
            list.push(again);
        }
    }
    let jitter = rng.pick(&[1, 1, 12, 80, 100_000]);
    let delay_of_parity = rng.pick(&[0, 0, 0, 40, 100_000]);
    let delay_of_media = rng.pick(&[0, 0, 0, 0, 100_000]);
    for entry in &mut list {
        entry.0 += rng.below(jitter) + if entry.1 == 1 { delay_of_media } else { delay_of_parity };
    }
    list.sort_by_key(|entry| entry.0);
    let most = if stretch.p > 204 { 150 } else { 500 };
    list.truncate(most);
    list.into_iter().map(|(_, port, datagram)| (port, datagram)).collect()
}

/// A few packets of neighbouring rows and lines are missing, and lying parity that covers two or more of them is in hand. Then
/// the missing packets come, and each sets off a chain in which several parity packets are ready at once and disagree: the order
/// in which they rebuild shows in the bytes.
fn knot(rng: &mut Rng, stretch: &Stretch) -> Vec<(u8, Vec<u8>)> {
    let (n, l) = (stretch.n(), stretch.l);
    let corner = rng.index(n);
    let mut late: Vec<usize> = Vec::new();
    for down in 0..rng.between(2, 4) as usize {
        for right in 0..rng.between(2, 3) as usize {
            let i = corner + down * l + right;
            if rng.chance(700) && !late.contains(&(i % n)) {
                late.push(i % n);
            }
        }
    }
    let mut list: Vec<(u8, Vec<u8>)> = Vec::new();
    for i in (0..n).filter(|i| !late.contains(i)) {
        list.push((1, stretch.media(i, 0)));
    }
    let density = rng.pick(&[400, 700, 1000]);
    let mut parity = Vec::new();
    for stream in [COLUMN, ROW] {
        for start in (0..n as i64).filter(|&start| stretch.fits(stream, start)) {
            let covered = stretch.members(stream, start).into_iter().filter(|&i| late.contains(&(i as usize))).count();
            if covered >= 2 && rng.chance(density) {
                let mut datagram = stretch.parity(stream, start, 0, 0, 0);
                lie(rng, stretch, stream, start, &mut datagram);
                parity.push((stream + 2, datagram));
            }
        }
    }
    rng.shuffle(&mut parity);
    list.extend(parity);
    rng.shuffle(&mut late);
    list.extend(late.into_iter().map(|i| (1, stretch.media(i, 0))));
    list
}

/// All but a few packets arrive. Then parity that lies rebuilds each of these, and after it comes what is true: other groups that cover
/// it, the same one, and the packet itself.
fn betray(rng: &mut Rng, stretch: &Stretch) -> Vec<(u8, Vec<u8>)> {
    let n = stretch.n();
    let late: Vec<usize> = (0..rng.between(1, 4)).map(|_| rng.index(n)).collect();
    let mut list: Vec<(u8, Vec<u8>)> = (0..n).filter(|i| !late.contains(i)).map(|i| (1, stretch.media(i, 0))).collect();
    for &i in &late {
        let covers = |stream: u8, start: i64| stretch.fits(stream, start) && stretch.members(stream, start).contains(&(i as i64));
        let starts = (0..n as i64).flat_map(|start| [(COLUMN, start), (ROW, start)]);
        let mut groups: Vec<(u8, i64)> = starts.filter(|&(stream, start)| covers(stream, start)).collect();
        rng.shuffle(&mut groups);
        groups.truncate(6);
        let mut parity: Vec<(u8, Vec<u8>)> =
            groups.iter().map(|&(stream, start)| (stream + 2, stretch.parity(stream, start, 0, 0, 0))).collect();
        let mut lie = parity[0].clone();
        lies::unseen(rng, stretch.payloads[i].len(), &mut lie.1);
        list.push(lie.clone());
        parity.extend([lie, (1, stretch.media(i, 0))]);
        if rng.chance(500) {
            rng.shuffle(&mut parity);
        }
        list.extend(parity);
    }
    list
}

fn losses(rng: &mut Rng, n: usize) -> Vec<bool> {
    let rate = rng.pick(&[0, 20, 100, 100, 300, 300, 500, 800]);
    let mut lost: Vec<bool> = (0..n).map(|_| rng.chance(rate)).collect();
    for _ in 0..rng.pick(&[0, 0, 1, 2, 4]) {
        let start = rng.index(n);
        let len = rng.between(1, 40) as usize;
        lost[start..(start + len).min(n)].fill(true);
    }
    lost
}

/// The parity groups that are sent: aligned, staggered, or at any position, also partly outside.
fn groups(rng: &mut Rng, stretch: &Stretch) -> Vec<(u8, i64)> {
    let (n, l, d) = (stretch.n(), stretch.l, stretch.d);
    let mut list = Vec::new();
    let style = rng.below(6);
    if style != 5 && rng.chance(700) {
        list.extend((0..n).filter(|i| i % (l * d) < l).map(|i| (COLUMN, i as i64)));
    }
    if style != 5 && l >= 4 && rng.chance(700) {
        list.extend((0..n).filter(|i| i % l == 0).map(|i| (ROW, i as i64)));
    }
    if style == 1 {
        let start = |r: usize| r + l * (r % d);
        list.extend((0..n).filter(|i| (0..l).any(|r| *i >= start(r) && (i - start(r)) % (l * d) == 0)).map(|i| (COLUMN, i as i64)));
    }
    if style == 2 || style == 5 {
        // Groups at every position, as many as small windows have room to confuse.
        let density = rng.pick(&[200, 500, 1000]);
        list.extend((0..n).filter(|_| rng.chance(density)).map(|i| (COLUMN, i as i64)));
        if l >= 4 {
            list.extend((0..n).filter(|_| rng.chance(density)).map(|i| (ROW, i as i64)));
        }
        list.retain(|&(stream, start)| stretch.fits(stream, start) || rng.chance(100));
    }
    for _ in 0..rng.pick(&[0, 2, 10]) {
        list.push((rng.pick(&[COLUMN, ROW]), rng.below(n as u64 + 10) as i64 - 5));
    }
    list
}

/// Parity that keeps its shape and says something else: of payloads and timestamps, or of lengths.
fn lie(rng: &mut Rng, stretch: &Stretch, stream: u8, start: i64, datagram: &mut Vec<u8>) {
    let of_lengths = rng.chance(400);
    if of_lengths {
        lie_of_lengths(rng, stretch, stream, start, datagram);
    }
    if rng.chance(if of_lengths { 100 } else { 800 }) {
        let at = 28 + rng.index(datagram.len() - 28);
        datagram[at] ^= rng.between(1, 255) as u8;
    }
    if rng.chance(600) {
        rng.fill(&mut datagram[20..24]);
    }
}

/// The length of a packet that was never sent: good, zero, not in units, or longer than the parity or P.
fn false_length(rng: &mut Rng, p: usize, parity: usize) -> usize {
    let unit = unit(p);
    match rng.below(8) {
        0 => 0,
        1 => rng.pick(&[1, 2, unit - 1, unit + 1, p - 1, p + 1, 188, 204, 47, 51, 4]),
        2 => parity + unit,
        3 => rng.pick(&[p + unit, 65_535, 188 * 204, 40_960, 256 * unit]),
        _ => rng.between(1, (p / unit) as u64) as usize * unit,
    }
}

fn lie_of_lengths(rng: &mut Rng, stretch: &Stretch, stream: u8, start: i64, datagram: &mut Vec<u8>) {
    let (unit, p, end) = (unit(stretch.p), stretch.p, datagram.len());
    match rng.below(8) {
        0..=3 => {
            // As if one of the group had another length.
            let member = rng.pick(&stretch.members(stream, start));
            let was = stretch.payloads.get(member.max(0) as usize).map_or(p, Vec::len);
            let by = (was ^ false_length(rng, p, end - 28)) as u16;
            datagram[14] ^= (by >> 8) as u8;
            datagram[15] ^= by as u8;
        }
        4 => rng.fill(&mut datagram[14..16]),
        5 if end - 28 < p => {
            // Longer than the longest of its group, by zeros or not.
            let longer = end + unit * rng.between(1, ((p + 28 - end) / unit) as u64) as usize;
            datagram.resize(longer, 0);
            if rng.chance(500) {
                let at = end + rng.index(longer - end);
                datagram[at] = rng.byte();
            }
        }
        6 if end - 28 > unit => datagram.truncate(end - unit),
        _ => {
            // A byte that is past the length of the shorter ones.
            let anywhere = end - 1 - rng.index(unit);
            let at = rng.pick(&[end - 1, end - unit, anywhere]);
            datagram[at] ^= rng.between(1, 255) as u8;
        }
    }
}

/// Alters a datagram that was made for a port.
pub fn alter(rng: &mut Rng, stretch: &Stretch, port: u8, datagram: &mut Vec<u8>) {
    for _ in 0..rng.pick(&[1, 1, 1, 2, 3]) {
        if datagram.len() < 28 {
            return;
        }
        let headers = if port == 1 { 12 } else { 28 };
        match rng.below(22) {
            0..=3 => {
                let at = rng.index(headers);
                datagram[at] ^= 1 << rng.below(8);
            }
            4 => {
                let at = rng.index(headers);
                datagram[at] = rng.byte();
            }
            5 => datagram[0] = rng.pick(&[0x00, 0x40, 0xC0, 0xA0, 0x90, 0x81, 0x88]),
            6 => datagram[1] = rng.pick(&[33, 96, 33 | 0x80, 96 | 0x80, 34, 97, 0]),
            7..=8 => {
                let at = if port == 1 { 2 } else { 12 };
                let number = u16::from_be_bytes([datagram[at], datagram[at + 1]]);
                let shift = rng.pick(&[1u16, 65_535, 2, 4, 65_532, stretch.n() as u16, 65_535 - stretch.n() as u16, 256]);
                datagram[at..at + 2].copy_from_slice(&number.wrapping_add(shift).to_be_bytes());
            }
            9 => {
                // Every kind of length near a bound.
                let (end, unit) = (datagram.len(), unit(stretch.p));
                let fewer = end.saturating_sub(unit);
                let len = rng.pick(&[0, 1, 11, 12, 13, 27, 28, 29, end - 1, end - 12, end - 16, fewer, fewer, headers + unit]);
                datagram.truncate(len);
            }
            10 => {
                let unit = unit(stretch.p);
                let more = rng.pick(&[1, 1, 2, 12, 16, 188, 204, 600, unit, unit, stretch.p]);
                let byte = rng.pick(&[0, 0, 7]);
                datagram.extend(std::iter::repeat(byte).take(more));
            }
            11 => {
                let at = rng.index(datagram.len());
                datagram[at] ^= rng.between(1, 255) as u8;
            }
            12 => {
                let at = if port == 1 { 4 } else { 20 };
                let at = at + rng.index(4);
                datagram[at] ^= 1 << rng.below(8);
            }
            _ if port == 1 => {
                let at = datagram.len() - 1 - rng.index(3);
                datagram[at] ^= rng.between(1, 255) as u8;
            }
            13 => {
                // Another NA, with the recovery of payload types that would fit it.
                let na = datagram[26].wrapping_add(rng.pick(&[1, 255, 2]));
                datagram[26] = na;
                datagram[16] = 0x80 | if na % 2 == 1 { 33 } else { 0 };
            }
            14 => datagram[16] = 0x80 | if datagram[16] & 1 == 1 { 0 } else { 33 },
            15 => datagram[16] ^= rng.pick(&[33, 0x80, 1, 0x40]),
            16 => datagram[14 + rng.index(2)] ^= rng.pick(&[1, 2, 128]),
            17 => datagram[24] ^= rng.pick(&[0x80, 0x40, 0x40, 0x20, 0x10, 0x08, 0x04, 0x02, 0x01]),
            18 => datagram[25] = rng.pick(&[0, 1, stretch.l as u8, datagram[25].wrapping_add(1), datagram[25].wrapping_sub(1)]),
            19 => {
                datagram[26] =
                    rng.pick(&[0, 1, stretch.l as u8, stretch.d as u8, datagram[26].wrapping_add(2), datagram[26].wrapping_sub(1)])
            }
            20 => datagram[17 + rng.index(3)] = rng.pick(&[1, 128, 255]),
            _ => datagram[27] = rng.pick(&[1, 128, 255]),
        }
    }
}

fn on_port(port: u8, datagram: Vec<u8>) -> Call {
    match port {
        1 => Call::Media(datagram),
        2 => Call::Column(datagram),
        _ => Call::Row(datagram),
    }
}

impl<'a> Play<'a> {
    fn new(mut rng: Rng, mood: Mood, asked: Window, slack: usize, moves_left: u64, tally: &'a mut Tally) -> Play<'a> {
        let (n, k, p) = (asked.n as usize, asked.k as usize, asked.p as usize);
        let size = Sizes {
            media: n * p + slack * p + slack % 3 + GUARD,
            timestamps: n + slack + GUARD,
            lengths: n + slack + GUARD,
            marks: n + slack + GUARD,
            parity: k * p + slack * p + slack % 3 + GUARD,
            records: k + slack + GUARD,
            out: 28 + p + 64,
            slots: (n + slack) * (12 + p) + slack % 3 + GUARD,
            sizes: n + slack + GUARD,
        };
        let stretch = Stretch::draw(&mut rng, asked.base, asked.l as usize, asked.d as usize, p, n);
        let pair = Pair::new(&mut rng, size);
        Play {
            rng,
            mood,
            asked,
            window: Window::default(),
            stretch,
            pair,
            undo: Vec::new(),
            window_before: Window::default(),
            stuck: 0,
            step: 0,
            started: false,
            moves_left,
            moved: 0,
            tally,
        }
    }

    fn whole(&mut self, list: Vec<(u8, Vec<u8>)>) -> Result<(), String> {
        while self.rng.chance(200) {
            self.refused_opening()?;
        }
        self.call(Call::Open(self.asked))?;
        self.started = true;
        if self.mood.dirty {
            for i in 0..self.asked.n as usize {
                self.smear_position(i);
            }
            for r in 0..self.asked.k as usize {
                self.smear_record(r);
            }
            self.undo.clear();
        }
        let mut list = VecDeque::from(list);
        while !list.is_empty() {
            while self.rng.chance(self.mood.disturb) {
                self.disturb()?;
            }
            while self.rng.chance(self.mood.whole) {
                self.offer_on_whole()?;
            }
            if self.moves_left > 0 && self.rng.chance(self.mood.moves) {
                self.advance()?;
            }
            if self.moved > 0 {
                list = self.after_a_move(list);
            }
            if let Some((port, datagram)) = list.pop_front() {
                self.call(on_port(port, datagram))?;
            }
        }
        for _ in 0..self.rng.below(6) {
            self.look()?;
        }
        Ok(())
    }

    /// Moves the window so far, most of the time by much.
    fn far(&mut self, distance: u64) -> Result<(), String> {
        self.call(Call::Open(self.asked))?;
        self.started = true;
        let n = self.asked.n;
        let mut so_far = 0;
        while so_far < distance {
            for _ in 0..self.rng.pick(&[0, 1, 2, 2, 8]) {
                let (port, mut datagram) = self.any_packet();
                if !self.mood.unaltered && self.rng.chance(300) {
                    alter(&mut self.rng, &self.stretch, port, &mut datagram);
                }
                self.call(on_port(port, datagram))?;
            }
            if !self.mood.unaltered && self.rng.chance(100) {
                let i = self.rng.index(n as usize);
                self.smear_position(i);
                self.look()?;
            }
            let anything = self.rng.between(1, n);
            let by = self.rng.pick(&[n, n, n - n / 4, anything, 1]);
            let before = self.window.base;
            self.call(Call::Move(by))?;
            if self.window.base != before.wrapping_add(by as u16) {
                return Err("  a move was refused\n".to_string());
            }
            so_far += by;
        }
        Ok(())
    }

    /// A move by one, by a matrix, by all, by anything else from 1 to n, or by a number that is refused.
    fn advance(&mut self) -> Result<(), String> {
        let (n, l) = (self.window.n.clamp(1, 1000), self.window.l.clamp(1, 20));
        let by = match self.rng.below(20) {
            0..=2 => 1,
            3..=6 => self.asked.l * self.asked.d,
            7 => n,
            8..=11 => self.rng.between(1, n),
            12..=15 => self.rng.between(1, l),
            16 => 0,
            17 => n + 1,
            18 => self.rng.pick(&[u64::MAX, 1 << 63, 1 << 32, (1 << 32) + 1, 65_536, 65_537, u64::MAX / 200, (1 << 63) + 1]),
            _ => twist(&mut self.rng, n),
        };
        self.call(Call::Move(by))
    }

    /// What is offered after a move: what was left, and the packets of the new positions with some of the others.
    fn after_a_move(&mut self, mut left: VecDeque<(u8, Vec<u8>)>) -> VecDeque<(u8, Vec<u8>)> {
        let (n, moved) = (self.stretch.n() as i64, std::mem::take(&mut self.moved) as i64);
        let stretch = &self.stretch;
        // The position, from the base as it is now, of a packet or of the last of a group.
        let last = |port: u8, datagram: &[u8]| {
            let at = if port == 1 { 2 } else { 12 };
            let first = i64::from(u16::from_be_bytes([datagram[at], datagram[at + 1]]).wrapping_sub(stretch.base) as i16);
            if port == 1 {
                first
            } else {
                *stretch.members(port - 2, first).last().unwrap_or(&first)
            }
        };
        // A group that had a member past the stretch was a made-up one.
        left.retain(|(port, datagram)| *port == 1 || last(*port, datagram) + moved < n);
        left.truncate(100);
        let mut new = offers(&mut self.rng, stretch, self.mood.lies, self.mood.repeats);
        new.retain(|(port, datagram)| last(*port, datagram) >= n - moved || self.rng.chance(100));
        new.truncate(100);
        let mut new = VecDeque::from(new);
        let mut list = VecDeque::new();
        let from_left = self.rng.pick(&[500, 900, 1000]);
        while !left.is_empty() || !new.is_empty() {
            let old = new.is_empty() || !left.is_empty() && self.rng.chance(from_left);
            list.extend(if old { left.pop_front() } else { new.pop_front() });
        }
        if self.mood.dirty {
            for i in (n - moved).max(0) as usize..n as usize {
                if self.rng.chance(300) {
                    self.smear_position(i);
                }
            }
            self.undo.clear();
        }
        list
    }

    /// An opening that mostly is not permitted, and calls with the value that it gives.
    fn refused_opening(&mut self) -> Result<(), String> {
        let asked = make_up(&mut self.rng, self.asked);
        self.call(Call::Open(asked))?;
        for _ in 0..self.rng.below(3) {
            let (port, datagram) = self.any_packet();
            self.call(on_port(port, datagram))?;
            self.look()?;
        }
        Ok(())
    }

    /// Any packet that the sender could have sent, also for groups partly outside.
    fn any_packet(&mut self) -> (u8, Vec<u8>) {
        let n = self.stretch.n();
        let (sequence, timestamp, ssrc) = (self.rng.next() as u16, self.rng.next() as u32, self.rng.next() as u32);
        match self.rng.below(3) {
            0 => (1, self.stretch.media(self.rng.index(n), ssrc)),
            kind => {
                let start = self.rng.below(n as u64 + 6) as i64 - 3;
                (kind as u8 + 1, self.stretch.parity(kind as u8 - 1, start, sequence, timestamp, ssrc))
            }
        }
    }

    /// A packet that is held, as the store has it, mostly with one thing changed; any packet where none is held.
    fn held_packet(&mut self) -> (u8, Vec<u8>) {
        let (size, p) = (self.pair.size(), self.window.p as usize);
        let i = self.rng.index((self.window.n as usize).clamp(1, size.marks.min(size.lengths)));
        let r = self.rng.index((self.window.k as usize).clamp(1, size.records));
        let record = self.pair.record(r);
        let kept = |part: &[u8], index: usize, len: u16| Some(part.get(index.checked_mul(p)?..)?.get(..usize::from(len))?.to_vec());
        let mut found = None;
        if self.rng.chance(600) {
            if record.in_use == 1 {
                let start = i64::from(record.snbase.wrapping_sub(self.stretch.base) as i16);
                let mut datagram = self.stretch.parity(record.stream & 1, start, 0, 0, 0);
                datagram[14..16].copy_from_slice(&record.length_recovery.to_be_bytes());
                datagram[20..24].copy_from_slice(&record.timestamp_recovery.to_be_bytes());
                datagram.truncate(28);
                found = kept(self.pair.parity(), r, record.payload_length).map(|payload| (record.stream & 1, datagram, payload));
                found = found.map(|(stream, datagram, payload)| (stream + 2, datagram, payload));
            }
        } else if self.pair.mark(i) == 1 {
            let mut datagram = vec![0x80, 33];
            datagram.extend(self.window.base.wrapping_add(i as u16).to_be_bytes());
            datagram.extend(self.pair.timestamp(i).to_be_bytes());
            datagram.extend([0; 4]);
            found = kept(self.pair.media(), i, self.pair.length(i)).map(|payload| (1, datagram, payload));
        }
        let (port, mut datagram, mut payload) = match found {
            Some((port, datagram, payload)) if !payload.is_empty() => (port, datagram, payload),
            _ => return self.any_packet(),
        };
        let (end, unit) = (payload.len(), unit(self.stretch.p));
        match self.rng.below(10) {
            0..=2 => {}
            3 => {
                let at = if port == 1 { 4 } else { 20 } + self.rng.index(4);
                datagram[at] ^= 1 << self.rng.below(8);
            }
            4 => payload[end - 1] ^= 1 << self.rng.below(8),
            5..=6 => payload.resize(end + unit, 0),
            7 => payload.truncate(end.saturating_sub(unit)),
            _ => {
                let at = if port == 1 { 7 } else { 14 + self.rng.index(2) };
                datagram[at] ^= 1 << self.rng.below(8);
            }
        }
        datagram.extend(payload);
        (port, datagram)
    }

    /// A group that is wholly present: the first that is found, of a few.
    fn whole_group(&mut self) -> Option<(u8, i64)> {
        let n = self.stretch.n();
        for _ in 0..6 {
            let (stream, start) = (self.rng.pick(&[COLUMN, ROW]), self.rng.index(n) as i64);
            let whole = || self.stretch.members(stream, start).iter().all(|&i| self.pair.mark(i as usize) == 1);
            if self.stretch.fits(stream, start) && whole() {
                return Some((stream, start));
            }
        }
        None
    }

    /// Offers the parity of a group that is wholly present, as the store has it: a true one, or with one lie in it, or with the
    /// SNBase of another such group.
    fn offer_on_whole(&mut self) -> Result<(), String> {
        let stamp = Stamp { sequence: self.rng.next() as u16, timestamp: self.rng.next() as u32, ssrc: self.rng.next() as u32 };
        let (stream, start) = match self.whole_group() {
            Some(found) => found,
            None => return Ok(()),
        };
        let mut datagram = match self.pair.defined(self.window, stream, self.stretch.number(start), stamp) {
            Some(datagram) => datagram,
            None => return Ok(()),
        };
        let mut moved = false;
        match self.rng.below(10) {
            _ if self.mood.unaltered => {}
            0 => {}
            1 => {
                if let Some((_, other)) = self.whole_group().filter(|&(other, _)| other == stream) {
                    datagram[12..14].copy_from_slice(&self.stretch.number(other).to_be_bytes());
                    moved = true;
                }
            }
            _ => lies::lie(&mut self.rng, self.stretch.p, &mut datagram),
        }
        let before = self.tally.numbers[18];
        self.call(on_port(stream + 2, datagram))?;
        let refused = self.tally.numbers[18] > before;
        self.tally.lies.met("with the SNBase of another group", moved && refused);
        Ok(())
    }

    /// Notes a packet as it was sent that meets 18, and one that was not sent so and is taken, its whole group being present.
    fn note_truth(&mut self, call: &Call, window: Window, answer: Answer) {
        let (stream, datagram) = match call {
            Call::Column(datagram) => (COLUMN, datagram),
            Call::Row(datagram) => (ROW, datagram),
            _ => return,
        };
        let altered = (answer.count, answer.spoilt, answer.window) != (0, 0, window);
        if altered || !matches!(answer.number, 0 | 18) {
            return;
        }
        let start = i64::from(u16::from_be_bytes([datagram[12], datagram[13]]).wrapping_sub(self.stretch.base) as i16);
        if self.stretch.fits(stream, start) {
            let sent = self.stretch.parity(stream, start, 0, 0, 0)[12..] == datagram[12..];
            self.tally.lies.met("what was sent, over a wrong packet", sent && answer.number == 18);
            self.tally.lies.met("taken, and not what was sent", !sent && answer.number == 0);
        }
    }

    /// A length that is kept, good in so many cases of a thousand.
    fn any_length(&mut self, good: u64) -> u16 {
        let p = self.asked.p as usize;
        let length = match self.rng.chance(good) {
            true => unit(p) * self.rng.between(1, (p / unit(p)) as u64) as usize,
            false if self.rng.chance(200) => self.rng.index(65_536),
            false => false_length(&mut self.rng, p, p),
        };
        length as u16
    }

    fn any_number(&mut self) -> u16 {
        let n = self.window.n.min(1000);
        match self.rng.below(8) {
            0 => self.rng.next() as u16,
            1 => self.window.base.wrapping_add(n as u16).wrapping_add(self.rng.pick(&[0, 1, 65_535])),
            2 => self.window.base.wrapping_sub(1),
            _ => self.window.base.wrapping_add(self.rng.below(n + 1) as u16),
        }
    }

    /// Reads a packet out, writes a parity packet, or moves.
    fn look(&mut self) -> Result<(), String> {
        let number = self.any_number();
        let stamp = Stamp { sequence: self.rng.next() as u16, timestamp: self.rng.next() as u32, ssrc: self.rng.next() as u32 };
        let call = match self.rng.below(4) {
            0 if self.moves_left > 0 => return self.advance(),
            0 | 1 => Call::Read(number),
            2 => Call::WriteColumn(number, stamp),
            _ => Call::WriteRow(number, stamp),
        };
        self.call(call)
    }

    fn disturb(&mut self) -> Result<(), String> {
        match self.rng.below(24) {
            20..=23 => {
                let (port, datagram) = self.held_packet();
                self.call(on_port(port, datagram))
            }
            0..=6 => {
                let (port, mut datagram) = self.any_packet();
                alter(&mut self.rng, &self.stretch, port, &mut datagram);
                self.call(on_port(port, datagram))
            }
            7 => {
                let (port, datagram) = self.any_packet();
                let other = port % 3 + 1;
                let call = on_port(if self.rng.chance(500) { other } else { other % 3 + 1 }, datagram);
                self.call(call)
            }
            8 => {
                let len = match self.rng.below(3) {
                    0 => self.rng.index(40),
                    1 => self.rng.index(1500),
                    _ => {
                        let p = self.asked.p as usize;
                        self.rng.pick(&[12, 28]) + unit(p) * self.rng.between(0, (p / unit(p)) as u64 + 1) as usize
                    }
                };
                let mut datagram = vec![0; len];
                self.rng.fill(&mut datagram);
                if len >= 2 && self.rng.chance(700) {
                    datagram[0] = 0x80;
                    datagram[1] = self.rng.pick(&[33, 96]);
                }
                let call = on_port(self.rng.between(1, 3) as u8, datagram);
                self.call(call)
            }
            9..=12 => self.look(),
            13..=14 => {
                let (port, datagram) = self.any_packet();
                self.call(on_port(port, datagram))
            }
            15 if self.rng.chance(30) => self.call(Call::Open(self.asked)),
            _ => {
                self.window_before = if self.undo.is_empty() { self.window } else { self.window_before };
                for _ in 0..self.rng.pick(&[1, 1, 2, 4]) {
                    self.meddle();
                }
                match self.rng.below(3) {
                    0 => self.look(),
                    _ => {
                        let (port, datagram) = self.any_packet();
                        self.call(on_port(port, datagram))
                    }
                }
            }
        }
    }

    /// Changes the store from outside, the same in both, sometimes with the window value to match.
    fn meddle(&mut self) {
        let size = self.pair.size();
        let marks = (self.window.n as usize + 1).min(size.marks);
        let records = (self.window.k as usize + 1).min(size.records);
        let (i, r) = (self.rng.index(marks), self.rng.index(records));
        match self.rng.below(20) {
            13..=15 => {
                self.undo.push(Change::Length(i, self.pair.length(i)));
                let to = self.any_length(500);
                self.pair.set_length(i, to);
            }
            16..=18 => {
                for _ in 0..self.rng.pick(&[1, 4, 20]) {
                    let i = self.rng.index(marks);
                    self.smear_position(i);
                }
            }
            19 => {
                for _ in 0..self.rng.pick(&[1, 4, 20]) {
                    let r = self.rng.index(records);
                    self.smear_record(r);
                }
            }
            0..=2 => {
                let (old, new) = (self.pair.mark(i), self.rng.pick(&[0, 1, 1, 2, 255]));
                self.undo.push(Change::Mark(i, old));
                self.pair.set_mark(i, new);
                if new == 1 && self.rng.chance(800) {
                    self.undo.push(Change::Length(i, self.pair.length(i)));
                    let to = self.any_length(950);
                    self.pair.set_length(i, to);
                }
                if self.rng.chance(700) && (i as u64) < self.window.n {
                    self.window.present = self.window.present.wrapping_add(u64::from(new == 1)).wrapping_sub(u64::from(old == 1));
                }
            }
            3 => {
                self.undo.push(Change::Timestamp(i, self.pair.timestamp(i)));
                let to = self.rng.next() as u32;
                self.pair.set_timestamp(i, to);
            }
            4..=5 => {
                let at = self.rng.index(size.media);
                self.undo.push(Change::Media(at, self.pair.media()[at..=at].to_vec()));
                let to = self.rng.byte();
                self.pair.set_media(at, &[to]);
            }
            6..=7 => {
                let at = self.rng.index(size.parity);
                self.undo.push(Change::Parity(at, self.pair.parity()[at..=at].to_vec()));
                let to = self.rng.byte();
                self.pair.set_parity(at, &[to]);
            }
            _ => {
                let old = self.pair.record(r);
                let mut new = old;
                match self.rng.below(11) {
                    8..=9 => new.payload_length = self.any_length(500),
                    10 => new.length_recovery = self.rng.next() as u16,
                    0 => new.stream = self.rng.pick(&[0, 1, 2, 255]),
                    1 => new.snbase = self.any_number(),
                    2 => new.timestamp_recovery = self.rng.next() as u32,
                    3 => new.in_use = self.rng.pick(&[0, 1, 2, 255]),
                    4 => new = self.pair.record((r + 1) % records),
                    5 if old.in_use == 0 => {
                        // Old bytes in a free record.
                        new = Record {
                            stream: self.rng.byte(),
                            snbase: self.any_number(),
                            timestamp_recovery: 5,
                            length_recovery: self.rng.next() as u16,
                            payload_length: self.any_length(300),
                            in_use: 0,
                        };
                    }
                    _ => {
                        // A parity packet put in hand from outside.
                        let stream = self.rng.pick(&[COLUMN, ROW]);
                        new = Record {
                            stream,
                            snbase: self.any_number(),
                            timestamp_recovery: self.rng.next() as u32,
                            length_recovery: self.any_length(700),
                            payload_length: self.any_length(900),
                            in_use: 1,
                        };
                    }
                }
                self.undo.push(Change::Record(r, old));
                self.pair.set_record(r, new);
                if self.rng.chance(800) && (r as u64) < self.window.k {
                    self.window.in_use =
                        self.window.in_use.wrapping_add(u64::from(new.in_use == 1)).wrapping_sub(u64::from(old.in_use == 1));
                }
            }
        }
    }

    /// Other bytes where a position keeps nothing: past its length, or all of it where its packet is missing.
    fn smear_position(&mut self, i: usize) {
        let p = self.asked.p as usize;
        let from = if self.pair.mark(i) == 0 { 0 } else { usize::from(self.pair.length(i)) };
        let at = i * p + from.min(p);
        let mut bytes = vec![0; p.saturating_sub(from).min(self.pair.media().len().saturating_sub(at))];
        self.rng.fill(&mut bytes);
        if !bytes.is_empty() {
            self.undo.push(Change::Media(at, self.pair.media()[at..at + bytes.len()].to_vec()));
            self.pair.set_media(at, &bytes);
        }
        if self.pair.mark(i) == 0 {
            self.undo.push(Change::Timestamp(i, self.pair.timestamp(i)));
            self.undo.push(Change::Length(i, self.pair.length(i)));
            let (timestamp, length) = (self.rng.next() as u32, self.any_length(500));
            self.pair.set_timestamp(i, timestamp);
            self.pair.set_length(i, length);
        }
    }

    /// The same for a record: past the length of its payload, or all of it where it is free.
    fn smear_record(&mut self, r: usize) {
        let p = self.asked.p as usize;
        let old = self.pair.record(r);
        let from = if old.in_use == 0 { 0 } else { usize::from(old.payload_length) };
        let at = r * p + from.min(p);
        let mut bytes = vec![0; p.saturating_sub(from).min(self.pair.parity().len().saturating_sub(at))];
        self.rng.fill(&mut bytes);
        if !bytes.is_empty() {
            self.undo.push(Change::Parity(at, self.pair.parity()[at..at + bytes.len()].to_vec()));
            self.pair.set_parity(at, &bytes);
        }
        if old.in_use == 0 {
            let new = Record {
                stream: self.rng.pick(&[0, 1, 255]),
                snbase: self.any_number(),
                timestamp_recovery: self.rng.next() as u32,
                length_recovery: self.any_length(500),
                payload_length: self.any_length(500),
                in_use: 0,
            };
            self.undo.push(Change::Record(r, old));
            self.pair.set_record(r, new);
        }
    }

    fn undo(&mut self) {
        while let Some(change) = self.undo.pop() {
            match change {
                Change::Mark(i, to) => self.pair.set_mark(i, to),
                Change::Timestamp(i, to) => self.pair.set_timestamp(i, to),
                Change::Length(i, to) => self.pair.set_length(i, to),
                Change::Media(i, to) => self.pair.set_media(i, &to),
                Change::Parity(i, to) => self.pair.set_parity(i, &to),
                Change::Record(i, to) => self.pair.set_record(i, to),
            }
        }
        self.window = self.window_before;
    }

    /// What is lent: exactly the need or more, at times one part too short.
    fn lent(&mut self, w: &Window, call: &Call) -> Sizes {
        let size = self.pair.size();
        let loose = self.rng.chance(500);
        let lend = |need: u64, whole: usize| {
            let most = whole - GUARD;
            if need > most as u64 || loose {
                most
            } else {
                need as usize
            }
        };
        let headers = if matches!(call, Call::Read(_)) { 12 } else { 28 };
        let by = if let Call::Move(by) = call { *by } else { 0 };
        let mut lent = Sizes {
            media: lend(w.n.saturating_mul(w.p), size.media),
            timestamps: lend(w.n, size.timestamps),
            lengths: lend(w.n, size.lengths),
            marks: lend(w.n, size.marks),
            parity: lend(w.k.saturating_mul(w.p), size.parity),
            records: lend(w.k, size.records),
            out: lend(w.p.saturating_add(headers), size.out),
            slots: lend(by.saturating_mul(w.p.saturating_add(12)), size.slots),
            sizes: lend(by, size.sizes),
        };
        if matches!(call, Call::Read(_) | Call::WriteColumn(..) | Call::WriteRow(..)) && self.rng.chance(3 * self.mood.short) {
            // Often just under the need, whatever else is wrong.
            let under = self.rng.between(1, 3) as usize;
            lent.out = ((w.p.min(1428) + headers) as usize - under).min(lent.out);
        }
        if by > 0 && self.rng.chance(6 * self.mood.short) {
            let (slots, slot) = (by.saturating_mul(w.p.saturating_add(12)), w.p.saturating_add(12));
            let under = self.rng.pick(&[1, 1, 1, slot, slots]);
            let few = self.rng.pick(&[1, 1, by]);
            let which = self.rng.below(3);
            if which != 0 {
                lent.slots = lent.slots.min(slots.saturating_sub(under) as usize);
            }
            if which != 1 {
                lent.sizes = lent.sizes.min((by - few) as usize);
            }
        }
        if self.rng.chance(self.mood.short) {
            let part = match self.rng.below(7) {
                0 => &mut lent.media,
                1 => &mut lent.timestamps,
                2 => &mut lent.marks,
                3 => &mut lent.parity,
                4 => &mut lent.records,
                5 => &mut lent.lengths,
                _ => &mut lent.out,
            };
            *part = match self.rng.below(6) {
                0 => 0,
                1 => self.rng.index(*part + 1),
                _ => part.saturating_sub(1),
            };
        }
        lent
    }

    /// One call to both, with all that comes with it.
    fn call(&mut self, call: Call) -> Result<(), String> {
        let made_up = !matches!(call, Call::Open(_)) && self.rng.chance(self.mood.made_up);
        let window = if made_up { make_up(&mut self.rng, self.window) } else { self.window };
        let sized_by = if let Call::Open(asked) = &call { *asked } else { window };
        let lent = self.lent(&sized_by, &call);
        self.step += 1;
        let filler = self.rng.byte();
        let answer = self.pair.run(window, &call, lent, filler, self.tally)?;
        if self.mood.unaltered && self.started && (answer.spoilt != 0 || matches!(answer.number, 15 | 18)) {
            return Err(format!("  {} with {} spoilt for unaltered traffic\n", answer.number, answer.spoilt));
        }
        self.note_truth(&call, window, answer);
        if !made_up || answer.number == 0 {
            self.window = answer.window;
        }
        if let (Call::Move(by), 0) = (&call, answer.number) {
            self.stretch.advance(&mut self.rng, *by as usize);
            self.asked.base = self.stretch.base;
            self.moved += by;
            self.moves_left -= 1;
        }
        // 22 is given before the store is looked at.
        let in_order = answer.number == 0 || (answer.number > 5 && answer.number != 22);
        if matches!(call, Call::Open(_)) || answer.number == 0 || (!made_up && in_order) {
            self.undo.clear();
        }
        if answer.number == 5 && !made_up && !self.undo.is_empty() && self.rng.chance(700) {
            self.undo();
        }
        self.stuck = if in_order { 0 } else { self.stuck + 1 };
        if self.stuck >= 6 {
            // A window that only refuses shows nothing more: begin again.
            self.stuck = 0;
            let again = self.asked;
            return self.call(Call::Open(again));
        }
        Ok(())
    }
}

#[cfg(test)]
mod tests {
    use super::*;

    #[test]
    fn there_are_166_profiles() {
        assert_eq!(profiles().len(), 166);
    }

    #[test]
    fn a_seed_gives_the_same_window_again() {
        for seed in 0..100 {
            let (mut a, mut b) = (Tally::default(), Tally::default());
            run(seed, &mut a).unwrap();
            run(seed, &mut b).unwrap();
            assert_eq!((a.calls, a.numbers, a.rebuilt, a.spoilt), (b.calls, b.numbers, b.rebuilt, b.spoilt));
            assert_eq!((a.moves, a.lies), (b.moves, b.lies));
        }
    }
}
