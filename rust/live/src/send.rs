//! Writes the parity of media with the library, group by group or with its sender, sends media and parity with some of the media
//! dropped, and compares what a decoder sends back with what was sent.
use crate::traffic::{beyond_reach, dropped, group, media_of_capture, number, timestamp, udp, Entry, Profile};
use crate::{all_hold, Outcome, PAYLOAD};
use congaveil::capture::Port;
use congaveil::{Arrangement, ParityStreams, Sender, SenderSetUp};
use congaveil::{Outer, Receiver, Refusal, SetUp, PARITY_HEADER};
use std::collections::{BTreeMap, BTreeSet, VecDeque};
use std::net::{Ipv4Addr, UdpSocket};
use std::{error::Error, io, thread, time::Duration};

/// The profile of a capture, and the whole matrices of its media.
pub fn whole_matrices(capture: &str) -> Result<(Profile, Vec<Vec<u8>>), Box<dyn Error>> {
    let (profile, mut media) = media_of_capture(capture)?;
    media.truncate(media.len() / profile.matrix() * profile.matrix());
    match media.first() {
        Some(_) => Ok((profile, media)),
        None => Err("the capture has no whole matrix".into()),
    }
}

/// Media and parity in the order of sending: a row's parity after the row, a column's during the next matrix, one after every
/// D packets. Each parity stream counts its own numbers; a parity packet has the timestamp of the last packet of its row or matrix.
pub fn with_parity(media: &[Vec<u8>], profile: Profile) -> Result<Vec<Entry>, Refusal> {
    let Profile { l, d } = profile;
    let (mut entries, mut waiting, mut rows, mut columns) = (Vec::new(), VecDeque::new(), 0u16, 0u16);
    for matrix in media.chunks(profile.matrix()) {
        let base = number(&matrix[0]);
        let mut window = Receiver::open(SetUp { base, l, d, payload: PAYLOAD, positions: profile.matrix(), records: 1, ssrc: 0 })?;
        for (i, packet) in matrix.iter().enumerate() {
            window.media(packet)?;
            entries.push(Entry { port: Port::Media, datagram: packet.clone() });
            if l >= 4 && i % l == l - 1 {
                let outer = Outer { sequence: rows, timestamp: timestamp(packet), ssrc: 0 };
                let mut datagram = vec![0; PARITY_HEADER + PAYLOAD];
                let length = window.write_row(number(&matrix[i + 1 - l]), outer, &mut datagram)?;
                datagram.truncate(length);
                entries.push(Entry { port: Port::Row, datagram });
                rows = rows.wrapping_add(1);
            }
            if i % d == d - 1 {
                entries.extend(waiting.pop_front());
            }
        }
        for packet in &matrix[..l] {
            let outer = Outer { sequence: columns, timestamp: timestamp(&matrix[profile.matrix() - 1]), ssrc: 0 };
            let mut datagram = vec![0; PARITY_HEADER + PAYLOAD];
            let length = window.write_column(number(packet), outer, &mut datagram)?;
            datagram.truncate(length);
            waiting.push_back(Entry { port: Port::Column, datagram });
            columns = columns.wrapping_add(1);
        }
    }
    entries.extend(waiting);
    Ok(entries)
}

/// An arrangement by its name.
pub fn arrangement(name: &str) -> Result<Arrangement, String> {
    match name {
        "aligned" => Ok(Arrangement::Aligned),
        "staggered" => Ok(Arrangement::Staggered),
        _ => Err(format!("{name} is no arrangement: aligned or staggered")),
    }
}

/// Media and parity in the order of sending, as the library's sender gives them: each media packet, then the column and the row that go
/// out with it. A parity packet has the timestamp of that media packet.
fn by_sender(media: &[Vec<u8>], profile: Profile, arrangement: Arrangement) -> Result<Vec<Entry>, Refusal> {
    let Profile { l, d } = profile;
    let streams = ParityStreams::default();
    let mut sender = Sender::open(SenderSetUp { first: number(&media[0]), arrangement, l, d, payload: PAYLOAD, streams })?;
    let mut entries = Vec::new();
    for packet in media {
        let sent = sender.media(packet, timestamp(packet))?;
        entries.push(Entry { port: Port::Media, datagram: packet.clone() });
        entries.extend(sent.column.map(|column| Entry { port: Port::Column, datagram: column.to_vec() }));
        entries.extend(sent.row.map(|row| Entry { port: Port::Row, datagram: row.to_vec() }));
    }
    Ok(entries)
}

/// Sends the media of a capture to a port, one packet a millisecond, so many times over; numbers and timestamps go on.
pub fn play(capture: &str, port: u16, times: u32) -> Outcome {
    let out = UdpSocket::bind((Ipv4Addr::LOCALHOST, 0))?;
    let media = media_of_capture(capture)?.1;
    let time = media.last().map_or(0, |last| timestamp(last).wrapping_sub(timestamp(&media[0])).wrapping_add(3600));
    for turn in 0..times {
        for mut datagram in media.iter().cloned() {
            let further = (turn as u16).wrapping_mul(media.len() as u16);
            let (number, stamp) = (number(&datagram).wrapping_add(further), timestamp(&datagram).wrapping_add(turn.wrapping_mul(time)));
            datagram[2..4].copy_from_slice(&number.to_be_bytes());
            datagram[4..8].copy_from_slice(&stamp.to_be_bytes());
            out.send_to(&datagram, (Ipv4Addr::LOCALHOST, port))?;
            thread::sleep(Duration::from_millis(1));
        }
    }
    Ok(())
}

/// Everything that comes in until two seconds pass without a datagram.
fn collect(socket: UdpSocket) -> io::Result<Vec<Vec<u8>>> {
    socket.set_read_timeout(Some(Duration::from_secs(2)))?;
    let (mut buffer, mut datagrams) = ([0; 2048], Vec::new());
    loop {
        match socket.recv(&mut buffer) {
            Ok(length) => datagrams.push(buffer[..length].to_vec()),
            Err(e) if matches!(e.kind(), io::ErrorKind::WouldBlock | io::ErrorKind::TimedOut) => return Ok(datagrams),
            Err(e) => return Err(e),
        }
    }
}

/// With the sender and an arrangement, or without it.
pub fn run(capture: &str, sender: Option<Arrangement>, seed: u64, to: u16, back: u16) -> Outcome {
    let (profile, media) = whole_matrices(capture)?;
    let first = number(&media[0]);
    let entries = sender.map_or_else(|| with_parity(&media, profile), |arrangement| by_sender(&media, profile, arrangement))?;
    let groups: Vec<Vec<u16>> = entries.iter().filter(|e| e.port != Port::Media).map(|e| group(&e.datagram, first)).collect();
    let lost: BTreeSet<u16> = (0..media.len() as u16).filter(|p| dropped(usize::from(*p), profile, seed)).collect();
    let reach = beyond_reach(&lost, &groups);

    let socket = UdpSocket::bind((Ipv4Addr::LOCALHOST, back))?;
    let collector = thread::spawn(|| collect(socket));
    let out = UdpSocket::bind((Ipv4Addr::LOCALHOST, 0))?;
    for Entry { port, datagram } in &entries {
        if *port != Port::Media || !lost.contains(&number(datagram).wrapping_sub(first)) {
            out.send_to(datagram, (Ipv4Addr::LOCALHOST, udp(*port, to)))?;
            thread::sleep(Duration::from_millis(1));
        }
    }
    let came = collector.join().expect("the collector ended")?;

    // A recovered packet has an SSRC of the decoder's own choice (GStreamer: 0); everything else is the sender's. GStreamer reads each
    // port on a thread of its own: a packet that it recovers because parity overtook it comes back twice, which is no fault.
    let same = |a: &[u8], b: &[u8]| a.len() == b.len() && a[..8] == b[..8] && a[12..] == b[12..];
    let mut back: BTreeMap<u16, Vec<u8>> = BTreeMap::new();
    let (mut strange, mut twice) = (0, 0);
    for datagram in came {
        let position = number(&datagram).wrapping_sub(first);
        match media.get(position as usize) {
            Some(sent) if same(sent, &datagram) => twice += back.insert(position, datagram).is_some() as usize,
            _ => strange += 1,
        }
    }
    let passed = (0..media.len() as u16).filter(|p| !lost.contains(p) && back.contains_key(p)).count();
    let recovered = lost.iter().filter(|p| back.contains_key(p)).count();
    let missing: BTreeSet<u16> = lost.iter().copied().filter(|p| !back.contains_key(p)).collect();

    let last = first.wrapping_add(media.len() as u16).wrapping_sub(1);
    println!("  sent {} media, numbers {first} to {last}, less {} dropped, and {} parity", media.len(), lost.len(), groups.len());
    let short = lost.iter().filter(|p| back.get(p).map_or(false, |datagram| datagram.len() < 12 + PAYLOAD)).count();
    println!("  came back: {passed} passed on, {recovered} recovered, {short} of them short; still missing {}", missing.len());
    println!("  beyond the reach of the parity: {}", reach.len());
    println!("  came back and not equal to the one sent: {strange}; came back twice: {twice}");
    let checks = [
        (strange == 0, "a packet that came back is not the one sent"),
        (passed + lost.len() == media.len(), "media that were sent did not come back"),
        (recovered > 0 && missing == reach, "not exactly the packets beyond the parity's reach are missing"),
    ];
    all_hold(&checks)
}
