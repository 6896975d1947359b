//! The media of real senders through the library's sender: every parity packet that they sent goes out here too, the same but for
//! sequence number, timestamp and SSRC, which are the caller's.
//!
//! These are 252 rows and 371 columns of five captures. FFmpeg and GStreamer both use the aligned arrangement, from their first packet
//! on. FFmpeg sends a row a packet later than request 4 has it, with the first packet of the next row as annex B draws it, and a column
//! with the same packet. GStreamer sends each row and column a packet earlier: before the packet with which ours goes out.

use crate::captures::Capture;
use crate::face;
use crate::model::{two, Stamp, COLUMN, ROW};
use crate::received::Parity;
use crate::sender::{groups, Room, Value, ALIGNED};
use std::collections::BTreeMap;

/// What came of a capture. Lists of two are of rows, then of columns.
pub struct Found {
    pub name: &'static str,
    value: Value,
    /// The packet of the capture with which the first matrix starts.
    phase: usize,
    pub compared: [u64; 2],
    /// By how many media packets the real sender is later than ours, and how often.
    later: [BTreeMap<i64, u64>; 2],
}

impl Found {
    /// In words, for the report.
    pub fn words(&self) -> String {
        let v = &self.value;
        let arrangement = if v.arrangement == ALIGNED { "aligned" } else { "staggered" };
        let timing: Vec<String> = ["rows", "columns"]
            .iter()
            .zip(&self.later)
            .flat_map(|(kind, later)| later.iter().map(move |(by, times)| format!("{times} {kind} {}", timing_words(*by))))
            .collect();
        format!("{} ({} x {}, {arrangement} from packet {}): {}", self.name, v.l, v.d, self.phase, timing.join(", "))
    }
}

fn timing_words(later: i64) -> String {
    match later {
        0 => "with ours".to_string(),
        1 => "a packet later than ours".to_string(),
        -1 => "a packet earlier than ours".to_string(),
        _ => format!("{} packets {} than ours", later.abs(), if later > 0 { "later" } else { "earlier" }),
    }
}

/// A parity packet of the capture: its port, its first member and how many media packets came before it.
struct Captured<'a> {
    port: u8,
    start: usize,
    before: usize,
    datagram: &'a [u8],
}

/// Feeds a capture to a sender of the same set-up and compares all parity packets.
pub fn run(capture: &Capture) -> Result<Found, String> {
    let captured = parity_of(capture);
    let (value, phase) = set_up(capture, &captured).ok_or(format!("{}: no arrangement has its groups", capture.name))?;
    let ours = send(capture, value, phase).map_err(|text| format!("{}: {text}", capture.name))?;
    let mut found = Found { name: capture.name, value, phase, compared: [0; 2], later: Default::default() };
    for theirs in &captured {
        let about = format!("{}, port {}, first member {}", capture.name, theirs.port, theirs.start);
        let same_group = |parity: &&Parity| parity.port == theirs.port && parity.start + phase == theirs.start;
        let mut sent = ours.iter().filter(same_group);
        let parity = sent.next().ok_or(format!("{about}: not sent"))?;
        // All but sequence number, timestamp and SSRC.
        if sent.next().is_some() || parity.bytes[..2] != theirs.datagram[..2] || parity.bytes[12..] != theirs.datagram[12..] {
            return Err(format!("{about}: sent twice, or {:?}, captured {:?}", parity.bytes, theirs.datagram));
        }
        let kind = if theirs.port == 3 { 0 } else { 1 };
        found.compared[kind] += 1;
        *found.later[kind].entry(theirs.before as i64 - (phase + parity.with + 1) as i64).or_default() += 1;
    }
    Ok(found)
}

fn parity_of(capture: &Capture) -> Vec<Captured<'_>> {
    let (mut list, mut before) = (Vec::new(), 0);
    for (port, datagram) in &capture.entries {
        if *port == 1 {
            before += 1;
        } else {
            let start = usize::from(two(datagram, 12).wrapping_sub(capture.first));
            list.push(Captured { port: *port, start, before, datagram });
        }
    }
    list
}

/// The arrangement and the packet from which on the captured groups are its groups.
fn set_up(capture: &Capture, captured: &[Captured]) -> Option<(Value, usize)> {
    let matrix = capture.l * capture.d;
    for arrangement in [ALIGNED, 1] {
        for phase in 0..matrix {
            let first = capture.first.wrapping_add(phase as u16);
            let (l, d, p) = (capture.l as u64, capture.d as u64, capture.p as u64);
            let value = Value { first, arrangement, l, d, p, ..Value::default() };
            let starts: Vec<(u8, usize)> = groups(&value, 0).iter().map(|group| (group.stream, group.start as usize % matrix)).collect();
            let fits = |parity: &Captured| {
                let stream = if parity.port == 2 { COLUMN } else { ROW };
                parity.start >= phase && starts.contains(&(stream, (parity.start - phase) % matrix))
            };
            if captured.iter().all(fits) {
                return Some((value, phase));
            }
        }
    }
    None
}

/// What the library sends: the captured media, then made-up ones until all columns of these have gone out.
fn send(capture: &Capture, asked: Value, phase: usize) -> Result<Vec<Parity>, String> {
    let places = asked.places() as usize;
    let (mut payloads, mut timestamps) = (vec![0xA5; places * capture.p], vec![0xA5A5; places]);
    let (mut lengths, mut longest) = (vec![0xA5A5; places], vec![0xA5A5; places]);
    let mut room = Room { payloads: &mut payloads, timestamps: &mut timestamps, lengths: &mut lengths, longest: &mut longest };
    let mut answer = face::sender_open(asked, &mut room);
    let stamps = [Stamp { sequence: 1, timestamp: 2, ssrc: 3 }, Stamp { sequence: 4, timestamp: 5, ssrc: 6 }];
    let mut list = Vec::new();
    for now in 0..capture.media.len() - phase + 2 * asked.matrix() as usize {
        let mut packet = capture.media.get(phase + now).unwrap_or(&capture.media[0]).clone();
        let number = asked.first.wrapping_add(now as u16);
        packet[2..4].copy_from_slice(&number.to_be_bytes());
        let (mut row, mut column) = (vec![0; 28 + capture.p], vec![0; 28 + capture.p]);
        answer = face::sender_media(answer.value, &packet, &mut room, stamps, [&mut row, &mut column]);
        if answer.number != 0 {
            return Err(format!("packet {now} was refused with {}", answer.number));
        }
        for (port, out, written, stamp) in [(3, row, answer.row, stamps[0]), (2, column, answer.column, stamps[1])] {
            if written > 0 {
                list.push(Parity::new(port, now, number, stamp, &out[..written as usize])?);
            }
        }
    }
    Ok(list)
}

#[cfg(test)]
mod tests {
    use super::*;
    use crate::captures::load;

    #[test]
    fn all_captured_parity_is_ours() {
        let mut compared = [0; 2];
        for capture in &load().unwrap() {
            let found = run(capture).unwrap();
            assert_eq!((found.value.arrangement, found.phase), (ALIGNED, 0));
            let (rows, columns) = if capture.name.starts_with("ff") { (1, 0) } else { (-1, -1) };
            let later: Vec<Vec<i64>> = found.later.iter().map(|later| later.keys().copied().collect()).collect();
            assert_eq!(later, [[rows], [columns]], "{}", found.words());
            let captured = capture.entries.iter().filter(|(port, _)| *port != 1).count() as u64;
            assert_eq!(found.compared[0] + found.compared[1], captured);
            (0..2).for_each(|kind| compared[kind] += found.compared[kind]);
        }
        assert_eq!(compared, [252, 371]);
    }
}
