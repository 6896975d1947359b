//! Brute force on small windows: what stays missing is exactly the largest set of packets, none received, of which no
//! received parity covers exactly one. It is looked for among all subsets. Nothing is ever spoilt, and no packet is refused with 15 or
//! 18. Of a window that moves the same is judged between each two moves: what the last one left counts as received, with the parity
//! still in hand.

use crate::face::Receiver;
use crate::model::{two, Window, COLUMN, ROW};
use crate::rng::Rng;
use crate::wire::Stretch;

#[derive(Default)]
pub struct Tally {
    pub lists: u64,
    pub offers: u64,
    pub lost: u64,
    pub rebuilt: u64,
    pub partly: u64,
    pub moves: u64,
    pub written: u64,
    /// Lists that began with parity in hand, and those in which it rebuilt a packet that would be missing without it.
    pub in_hand: u64,
    pub by_it: u64,
    /// Parity packets that found their whole group present, and were compared with it.
    pub compared: u64,
}

/// An offer: port, datagram, and whether a member of its group lies behind the base.
type Offer = (u8, Vec<u8>, bool);

/// The union of all sets of unreceived packets that no received group meets in exactly one; packets and groups are bits.
pub fn largest_stopping_set(unreceived: u32, groups: &[u32]) -> u32 {
    let mut union = 0;
    let mut set = unreceived;
    while set != 0 {
        if groups.iter().all(|group| (group & set).count_ones() != 1) {
            union |= set;
        }
        set = (set - 1) & unreceived;
    }
    union
}

/// Draws two lists of the same packets from a seed and judges what each leaves.
pub fn run(seed: u64, tally: &mut Tally) -> Result<(), String> {
    let mut rng = Rng::new(seed, 4);
    let l = rng.pick(&[1, 2, 3, 4, 4, 4]);
    let d = rng.between(4, 16 / l);
    let n = rng.between(l * d, 16);
    let p = rng.pick(&[188, 204, 376, 376, 408, 564, 1316]);
    let base = if rng.chance(700) { (65_536 - rng.between(1, n)) as u16 } else { rng.next() as u16 };
    let stretch = Stretch::draw(&mut rng, base, l as usize, d as usize, p as usize, n as usize);

    let rate = rng.pick(&[150, 300, 500, 700]);
    let unreceived = (0..n).filter(|_| rng.chance(rate)).fold(0u32, |set, i| set | 1 << i);
    let aligned = rng.chance(400);
    let density = rng.pick(&[200, 500, 900]);
    let mut groups = Vec::new();
    for stream in [COLUMN, ROW] {
        for start in 0..n as i64 {
            let regular = if stream == COLUMN { (start as u64) % (l * d) < l } else { (start as u64) % l == 0 };
            if (stream == COLUMN || l >= 4) && stretch.fits(stream, start) && (!aligned || regular) && rng.chance(density) {
                groups.push((stream, start));
            }
        }
    }
    let room = (groups.len() as u64).max(1) + rng.pick(&[0, 0, 1, 20]);
    let asked = Window { base, ssrc: rng.next() as u32, l, d, p, n, k: room, present: 0, in_use: 0 };
    let bits: Vec<u32> =
        groups.iter().map(|&(stream, start)| stretch.members(stream, start).into_iter().fold(0, |set, i| set | 1 << i)).collect();
    let expected = largest_stopping_set(unreceived, &bits);

    for _ in 0..2 {
        let mut list: Vec<Offer> = Vec::new();
        for _ in 0..rng.pick(&[1, 1, 2]) {
            for i in (0..n as usize).filter(|i| unreceived >> i & 1 == 0) {
                if list.len() < 40 || rng.chance(300) {
                    list.push((1, stretch.media(i, rng.next() as u32), false));
                }
            }
            for &(stream, start) in &groups {
                list.push((stream + 2, stretch.parity(stream, start, rng.next() as u16, rng.next() as u32, rng.next() as u32), false));
            }
        }
        rng.shuffle(&mut list);
        tally.lists += 1;
        tally.offers += list.len() as u64;
        let about = format!("{asked:?}\n  unreceived {unreceived:016b}, groups {groups:?}");
        let compared = Receiver::open(asked).and_then(|mut receiver| judge(&mut receiver, &stretch, 0, &list, expected));
        tally.compared += compared.map_err(|text| format!("{about}\n  {text}"))?;
        tally.lost += u64::from(unreceived.count_ones());
        tally.rebuilt += u64::from((unreceived & !expected).count_ones());
        tally.partly += u64::from(expected != 0 && expected != unreceived);
    }
    Ok(())
}

/// Offers a list to a window whose base is at a position of the stretch, and judges what is left. Answers how many parity packets
/// found their whole group present: each is taken and alters nothing.
fn judge(receiver: &mut Receiver, stretch: &Stretch, at: usize, list: &[Offer], expected: u32) -> Result<u64, String> {
    let mut compared = 0;
    for (step, (port, datagram, behind)) in list.iter().enumerate() {
        let before = receiver.window;
        let whole = *port != 1 && !behind && {
            let start = i64::from(two(datagram, 12).wrapping_sub(before.base));
            stretch.members(port - 2, start).into_iter().all(|i| receiver.marks[i as usize] == 1)
        };
        let answer = receiver.offer(*port, datagram);
        let risen = answer.window.present - before.present;
        let itself = u64::from(*port == 1 && answer.number == 0);
        let right = match answer.number {
            0 if whole => answer.count == 0 && answer.window == before,
            0 => !behind && answer.count + itself == risen,
            13 => *behind && answer.window == before,
            number => number == 14 && !behind && !whole && answer.count == 0 && answer.window == before,
        };
        if answer.spoilt != 0 || !right {
            return Err(format!("offer {step} on port {port} was answered {answer:?}, before it {before:?}"));
        }
        compared += u64::from(whole);
    }
    let n = receiver.window.n as usize;
    let missing = (0..n).filter(|&i| receiver.marks[i] == 0).fold(0u32, |set, i| set | 1 << i);
    if missing != expected {
        return Err(format!("missing {missing:016b}, and it should be {expected:016b}"));
    }
    for i in 0..n {
        let sent = stretch.media(at + i, receiver.window.ssrc);
        match receiver.read(stretch.number((at + i) as i64)) {
            Ok(packet) if expected >> i & 1 == 0 && packet == sent => {}
            Err(17) if expected >> i & 1 == 1 => {}
            other => return Err(format!("reading position {i}: {other:?}, sent was {sent:?}")),
        }
    }
    Ok(compared)
}

/// A window over one long stretch: a list, a move, a list, a move and so on. Each list is offered in two orders, from the store that
/// the last move left.
pub fn run_moving(seed: u64, tally: &mut Tally) -> Result<(), String> {
    let mut rng = Rng::new(seed, 9);
    let l = rng.pick(&[1, 2, 3, 4, 4, 4]);
    let d = rng.between(4, 16 / l);
    let n = rng.between(l * d, 16);
    let p = rng.pick(&[188, 188, 204, 376, 376, 564]);
    let rounds = rng.between(2, 6);
    let total = n * (rounds + 1);
    let base = if rng.chance(700) { (65_536 - rng.between(1, total)) as u16 } else { rng.next() as u16 };
    let stretch = Stretch::draw(&mut rng, base, l as usize, d as usize, p as usize, total as usize);
    let k = rng.between(3, 32);
    let asked = Window { base, ssrc: rng.next() as u32, l, d, p, n, k, present: 0, in_use: 0 };
    let mut receiver = Receiver::open(asked)?;
    let mut at = 0;
    for round in 0..rounds {
        round_and_move(&mut rng, &mut receiver, &stretch, &mut at, tally)
            .map_err(|text| format!("{asked:?}\n  round {round}, base at packet {at}: {text}"))?;
    }
    Ok(())
}

/// The packets of a window, a bit each.
fn bits(members: Vec<i64>) -> u32 {
    members.into_iter().fold(0, |set, i| set | 1 << i)
}

/// The groups in hand: stream and position.
fn in_hand(receiver: &Receiver) -> Result<Vec<(u8, i64)>, String> {
    let records = receiver.records.iter().map(|raw| raw.get()).filter(|record| record.in_use == 1);
    let held: Vec<(u8, i64)> = records.map(|record| (record.stream, i64::from(record.snbase.wrapping_sub(receiver.window.base)))).collect();
    if held.len() as u64 != receiver.window.in_use || held.iter().any(|&(_, start)| start >= receiver.window.n as i64) {
        return Err(format!("parity in hand {held:?}, window {:?}", receiver.window));
    }
    Ok(held)
}

fn round_and_move(rng: &mut Rng, receiver: &mut Receiver, stretch: &Stretch, at: &mut usize, tally: &mut Tally) -> Result<(), String> {
    let w = receiver.window;
    let n = w.n as usize;
    let inside = |stream: u8, start: i64| stretch.members(stream, start).iter().all(|&i| i >= 0 && i < n as i64);
    let held = in_hand(receiver)?;
    let present = (0..n).filter(|&i| receiver.marks[i] == 1).fold(0u32, |set, i| set | 1 << i);

    // What is received in this round. The groups received and those in hand, each counted once, have room.
    let rate = rng.pick(&[100, 300, 500, 800]);
    let received = (0..n).filter(|_| rng.chance(rate)).fold(0u32, |set, i| set | 1 << i);
    let density = rng.pick(&[100, 300, 600]);
    let mut groups: Vec<(u8, i64)> = Vec::new();
    let mut room = w.k - w.in_use;
    for stream in [COLUMN, ROW] {
        for start in 0..n as i64 {
            let known = held.contains(&(stream, start));
            if (stream == COLUMN || w.l >= 4) && inside(stream, start) && rng.chance(density) && (known || room > 0) {
                groups.push((stream, start));
                room -= u64::from(!known);
            }
        }
    }
    let covered = |groups: &[(u8, i64)]| groups.iter().map(|&(stream, start)| bits(stretch.members(stream, start))).collect::<Vec<u32>>();
    let unreceived = !(present | received) & ((1 << n) - 1);
    let without = largest_stopping_set(unreceived, &covered(&groups));
    let expected = largest_stopping_set(unreceived, &covered(&[&groups[..], &held[..]].concat()));

    let mut ends = Vec::new();
    for _ in 0..2 {
        let mut list: Vec<Offer> = Vec::new();
        for i in (0..n).filter(|i| received >> i & 1 == 1) {
            list.push((1, stretch.media(*at + i, rng.next() as u32), false));
        }
        for &(stream, start) in &groups {
            let parity = stretch.parity(stream, *at as i64 + start, rng.next() as u16, rng.next() as u32, rng.next() as u32);
            list.push((stream + 2, parity, false));
        }
        // Unaltered parity with a member behind the base is not received.
        for stream in [COLUMN, ROW] {
            for start in (-12..0).filter(|start| *at as i64 + start >= 0) {
                if (stream == COLUMN || w.l >= 4) && rng.chance(100) {
                    list.push((stream + 2, stretch.parity(stream, *at as i64 + start, 0, 0, 0), true));
                }
            }
        }
        let again = list.clone().into_iter().filter(|_| rng.chance(100)).collect::<Vec<Offer>>();
        list.extend(again);
        rng.shuffle(&mut list);
        tally.lists += 1;
        tally.offers += list.len() as u64;
        let mut end = receiver.clone();
        tally.compared += judge(&mut end, stretch, *at, &list, expected)
            .map_err(|text| format!("present {present:016b}, received {received:016b}, in hand {held:?}, groups {groups:?}\n  {text}"))?;
        tally.lost += u64::from(unreceived.count_ones());
        tally.rebuilt += u64::from((unreceived & !expected).count_ones());
        tally.partly += u64::from(expected != 0 && expected != unreceived);
        tally.in_hand += u64::from(!held.is_empty());
        tally.by_it += u64::from(without != expected);
        ends.push(end);
    }
    *receiver = ends.swap_remove(rng.index(2));

    let anything = rng.between(1, w.n);
    let by = rng.pick(&[1, w.l, w.l * w.d, w.n, anything, anything, anything]);
    let staying = in_hand(receiver)?.into_iter().filter(|&(_, start)| start >= by as i64).count() as u64;
    for (i, packet) in receiver.advance(by)?.into_iter().enumerate() {
        let sent = if expected >> i & 1 == 0 { Some(stretch.media(*at + i, w.ssrc)) } else { None };
        if packet != sent {
            return Err(format!("moving by {by}: position {i} was written as {packet:?}, sent was {sent:?}"));
        }
        tally.written += u64::from(packet.is_some());
    }
    if receiver.window.in_use != staying {
        return Err(format!("moving by {by}: {staying} parity packets stay in hand, and not {}", receiver.window.in_use));
    }
    tally.moves += 1;
    *at += by as usize;
    Ok(())
}

#[cfg(test)]
mod tests {
    use super::*;

    #[test]
    fn bench_case_10_is_a_stopping_set() {
        let rows = (0..4).map(|r| 0b1111u32 << (4 * r));
        let columns = (0..4).map(|c| 0b0001_0001_0001_0001u32 << c);
        let groups: Vec<u32> = rows.chain(columns).collect();
        assert_eq!(largest_stopping_set(0b0011_0011, &groups), 0b0011_0011);
        assert_eq!(largest_stopping_set(0b0001_0011, &groups), 0);
        assert_eq!(largest_stopping_set(0b1000_0011_0011, &groups), 0b0011_0011);
        assert_eq!(largest_stopping_set(0b1010, &[]), 0b1010);
    }

    #[test]
    fn a_few_lists() {
        let mut tally = Tally::default();
        for seed in 0..50 {
            run(seed, &mut tally).unwrap();
        }
        assert_eq!(tally.lists, 100);
    }

    #[test]
    fn a_few_lists_between_moves() {
        let mut tally = Tally::default();
        for seed in 0..50 {
            run_moving(seed, &mut tally).unwrap();
        }
        assert!(tally.lists == 2 * tally.moves && tally.in_hand > 0 && tally.by_it > 0);
    }
}
