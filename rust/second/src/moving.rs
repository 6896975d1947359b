//! Request 5 of document 02 read once more: the window moves.
//!
//! The positions are taken out of the store as a list of whole positions, the first ones leave the list, blank ones join it at the
//! end, and the list is laid down again from the front.

use crate::model::{check_numbers, check_order, check_room, group, no_if, position, recount, refuse, release, Answer, Store, Window};

/// The RTP header of a media packet.
const HEADER: u64 = 12;

/// All that the store has of a position.
#[derive(Clone)]
struct Position {
    payload: Vec<u8>,
    timestamp: u32,
    length: u16,
    mark: u8,
}

/// Advances the base by a number of positions. `out` gets the packets that leave, `sizes` the lengths of their datagrams.
pub fn advance(w: Window, by: u64, s: &mut Store, out: &mut [u8], sizes: &mut [u16]) -> Answer {
    if let Err(number) = judge(&w, by, s, out.len() as u64, sizes.len() as u64) {
        return refuse(number, w);
    }
    for i in 0..w.k as usize {
        if s.records[i].in_use == 1 && behind(&w, by, s, i) {
            release(&w, s, i);
        }
    }
    let mut positions: Vec<Position> = (0..w.n as usize).map(|i| take_up(&w, s, i)).collect();
    let leaving: Vec<Position> = positions.drain(..by as usize).collect();
    positions.resize(w.n as usize, Position { payload: vec![0; w.p as usize], timestamp: 0, length: 0, mark: 0 });
    for (i, position) in positions.iter().enumerate() {
        lay_down(&w, s, i, position);
    }
    let mut count = 0;
    for (i, position) in leaving.iter().enumerate() {
        let bytes = datagram(&w, i as u64, position);
        let slot = (HEADER + w.p) as usize;
        let slot = &mut out[i * slot..(i + 1) * slot];
        slot.fill(0);
        slot[..bytes.len()].copy_from_slice(&bytes);
        sizes[i] = bytes.len() as u16;
        count += u64::from(position.mark);
    }
    let base = ((u64::from(w.base) + by) % 65_536) as u16;
    Answer { number: 0, count, spoilt: 0, window: recount(Window { base, ..w }, s) }
}

/// Refusals 1, 2, 3, 22, 4 and 5. Room is asked for the positions that leave.
fn judge(w: &Window, by: u64, s: &Store, out: u64, sizes: u64) -> Result<(), u32> {
    check_numbers(w)?;
    no_if(by == 0, 22)?;
    no_if(by > w.n, 22)?;
    check_room(w, s)?;
    no_if(out < by * (HEADER + w.p), 4)?;
    no_if(sizes < by, 4)?;
    check_order(w, s)
}

/// Whether a record in use has a member behind the new base.
fn behind(w: &Window, by: u64, s: &Store, i: usize) -> bool {
    let record = s.records[i];
    group(w, record.stream, record.snbase).into_iter().any(|number| position(w, number) < by)
}

fn take_up(w: &Window, s: &Store, i: usize) -> Position {
    let p = w.p as usize;
    Position { payload: s.media[i * p..][..p].to_vec(), timestamp: s.timestamps[i], length: s.lengths[i], mark: s.marks[i] }
}

fn lay_down(w: &Window, s: &mut Store, i: usize, position: &Position) {
    let p = w.p as usize;
    s.media[i * p..][..p].copy_from_slice(&position.payload);
    s.timestamps[i] = position.timestamp;
    s.lengths[i] = position.length;
    s.marks[i] = position.mark;
}

/// The datagram of a position with its true length, or nothing where the packet is missing.
fn datagram(w: &Window, i: u64, position: &Position) -> Vec<u8> {
    if position.mark == 0 {
        return Vec::new();
    }
    let number = ((u64::from(w.base) + i) % 65_536) as u16;
    let mut bytes = vec![0x80, 33];
    bytes.extend(number.to_be_bytes());
    bytes.extend(position.timestamp.to_be_bytes());
    bytes.extend(w.ssrc.to_be_bytes());
    bytes.extend(&position.payload[..usize::from(position.length)]);
    bytes
}

#[cfg(test)]
mod tests {
    use super::*;
    use crate::model::{column, media, open, read, row, Held, Record};
    use crate::rng::Rng;
    use crate::wire::Stretch;

    /// Base 65,530, n 20, L 4, D 4, P 376: positions 0, 1, 6, 7, 9 and 19 present, row 65,532, row 2 and column 65,533 in hand.
    fn set_up() -> (Window, Held, Stretch) {
        let w = Window { base: 65_530, ssrc: 0x0102_0304, l: 4, d: 4, p: 376, n: 20, k: 5, present: 0, in_use: 0 };
        let stretch = Stretch::draw(&mut Rng::new(5, 1), w.base, 4, 4, 376, 20);
        let mut held = Held::new(21, 6, 376);
        let mut v = open(w, &mut held.lend()).window;
        for i in [0, 1, 6, 7, 9, 19] {
            v = media(v, &stretch.media(i, 7), &mut held.lend()).window;
        }
        v = row(v, &stretch.parity(1, 2, 0, 0, 0), &mut held.lend()).window;
        v = row(v, &stretch.parity(1, 8, 0, 0, 0), &mut held.lend()).window;
        v = column(v, &stretch.parity(0, 3, 0, 0, 0), &mut held.lend()).window;
        assert_eq!((v.present, v.in_use), (6, 3));
        // Old bytes in a missing position.
        held.media[10 * 376..11 * 376].fill(0x33);
        (held.timestamps[10], held.lengths[10]) = (44, 55);
        (v, held, stretch)
    }

    #[test]
    fn moved_by_three() {
        let (v, mut held, stretch) = set_up();
        let kept = [held.records[1], held.records[2]];
        let kept_payloads = held.parity[376..3 * 376].to_vec();
        let (mut out, mut sizes) = (vec![0xEE; 4 * 388], [9; 4]);
        let answer = advance(v, 3, &mut held.lend(), &mut out, &mut sizes);
        let window = Window { base: 65_533, present: 4, in_use: 2, ..v };
        assert_eq!(answer, Answer { number: 0, count: 2, spoilt: 0, window });
        for i in 0..2 {
            let sent = stretch.media(i, 0x0102_0304);
            assert_eq!((&out[i * 388..][..sent.len()], usize::from(sizes[i])), (&sent[..], sent.len()));
            assert!(out[i * 388 + sent.len()..(i + 1) * 388].iter().all(|&byte| byte == 0));
        }
        assert!(out[2 * 388..3 * 388].iter().all(|&byte| byte == 0) && out[3 * 388..].iter().all(|&byte| byte == 0xEE));
        assert_eq!(sizes[2..], [0, 9]);
        // Row 65,532 has a member behind the new base, column 65,533 begins at it; the others lie where they lay.
        assert_eq!((held.records[0], [held.records[1], held.records[2]]), (Record::default(), kept));
        assert!(held.parity[..376].iter().all(|&byte| byte == 0) && held.parity[376..3 * 376] == kept_payloads);
        let present: Vec<usize> = (0..20).filter(|&i| held.marks[i] == 1).collect();
        assert_eq!(present, [3, 4, 6, 16]);
        assert!(held.media[7 * 376..8 * 376].iter().all(|&byte| byte == 0x33));
        assert_eq!((held.timestamps[7], held.lengths[7]), (44, 55));
        assert!(held.media[17 * 376..20 * 376].iter().all(|&byte| byte == 0));
        assert_eq!((&held.timestamps[17..20], &held.lengths[17..20], &held.marks[17..20]), (&[0; 3][..], &[0; 3][..], &[0; 3][..]));
        // Past the window nothing is touched, and what is left reads as before.
        assert!(held.media[20 * 376..].iter().all(|&byte| byte == 9) && held.records[5].stream == 9 && held.marks[20] == 9);
        let mut packet = [0; 388];
        let count = read(window, 0, &held.lend(), &mut packet).count as usize;
        assert_eq!(packet[..count], stretch.media(6, 0x0102_0304));
    }

    /// By n every packet leaves, every record is released, and the window is as opened.
    #[test]
    fn moved_by_all() {
        let (v, mut held, _) = set_up();
        let (mut out, mut sizes) = (vec![0xEE; 20 * 388], [9; 20]);
        let answer = advance(v, 20, &mut held.lend(), &mut out, &mut sizes);
        assert_eq!((answer.number, answer.count, answer.window), (0, 6, Window { base: 14, present: 0, in_use: 0, ..v }));
        let mut opened = Held::new(21, 6, 376);
        open(v, &mut opened.lend());
        assert_eq!((&held.media, &held.timestamps, &held.lengths), (&opened.media, &opened.timestamps, &opened.lengths));
        assert_eq!((&held.marks, &held.parity, &held.records), (&opened.marks, &opened.parity, &opened.records));
        assert_eq!(sizes.iter().filter(|&&size| size == 0).count(), 14);
    }

    #[test]
    fn refusals_in_their_order() {
        let (v, mut held, _) = set_up();
        let (before, records) = (held.media.clone(), held.records.clone());
        let (mut out, mut sizes) = (vec![0xEE; 20 * 388], [9; 20]);
        let mut number = |w: Window, by: u64, slots: usize, some: usize, held: &mut Held| {
            let answer = advance(w, by, &mut held.lend(), &mut out[..slots], &mut sizes[..some]);
            assert!(answer.window == w && answer.count == 0 && answer.spoilt == 0);
            answer.number
        };
        let disorder = Window { present: 7, ..v };
        assert_eq!(number(Window { l: 0, ..v }, 0, 0, 0, &mut held), 1);
        assert_eq!(number(Window { p: 187, ..v }, 0, 0, 0, &mut held), 2);
        assert_eq!(number(Window { n: 15, ..v }, 0, 0, 0, &mut held), 3);
        for by in [0, 21, u64::MAX, 1 << 63, 1 << 32, 65_537] {
            assert_eq!(number(disorder, by, 0, 0, &mut held), 22);
        }
        assert_eq!(number(disorder, 2, 2 * 388 - 1, 2, &mut held), 4);
        assert_eq!(number(disorder, 20, 20 * 388, 19, &mut held), 4);
        assert_eq!(number(disorder, 1, 388, 1, &mut held), 5);
        let marks = std::mem::take(&mut held.marks);
        assert_eq!(number(v, 21, 388, 1, &mut held), 22);
        assert_eq!(number(v, 1, 388, 1, &mut held), 4);
        held.marks = marks;
        assert!(held.media == before && held.records == records);
        assert!(out.iter().all(|&byte| byte == 0xEE) && sizes == [9; 20]);
        assert_eq!(advance(v, 20, &mut held.lend(), &mut out, &mut sizes).number, 0);
    }
}
