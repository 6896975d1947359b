//! Writes the parity of media with the library into a pcap file, and beside it the fields that a dissector has to find there,
//! worked out from the media without the library.
use crate::traffic::{number, timestamp, udp, Entry, Profile};
use crate::{send, Outcome};
use congaveil::capture::Port;
use std::fmt::Write;
use std::fs;

/// A classic pcap file, Ethernet: each parity datagram under IPv4 and UDP, from and to loopback, a millisecond apart.
fn pcap(entries: &[&Entry], media: u16) -> Vec<u8> {
    let mut bytes = Vec::new();
    for word in [0xa1b2_c3d4u32, 0x0002_0004, 0, 0, 65_535, 1] {
        bytes.extend(word.to_be_bytes());
    }
    for (i, Entry { port, datagram }) in entries.iter().enumerate() {
        let port = udp(*port, media).to_be_bytes();
        let length = (8 + datagram.len() as u16).to_be_bytes();
        let mut ip = [0x45, 0, 0, 0, 0, 0, 0x40, 0, 64, 17, 0, 0, 127, 0, 0, 1, 127, 0, 0, 1];
        ip[2..4].copy_from_slice(&(28 + datagram.len() as u16).to_be_bytes());
        let mut sum: u32 = ip.chunks(2).map(|two| u16::from_be_bytes([two[0], two[1]]) as u32).sum();
        sum = (sum & 0xffff) + (sum >> 16);
        ip[10..12].copy_from_slice(&(!(sum as u16)).to_be_bytes());
        let mut frame = vec![0; 12];
        frame.extend([8, 0]);
        frame.extend(ip);
        frame.extend([port, port, length, [0, 0]].concat());
        frame.extend(datagram);
        for word in [i as u32 / 1000, i as u32 % 1000 * 1000, frame.len() as u32, frame.len() as u32] {
            bytes.extend(word.to_be_bytes());
        }
        bytes.extend(frame);
    }
    bytes
}

/// The fields of the parity packet over some media, as tshark prints them: port, RTP payload type, number, SNBase, length recovery,
/// E, PT recovery, mask, timestamp recovery, X, D, type, index, Offset, NA, SNBase ext and payload recovery.
fn fields(group: &[&Vec<u8>], port: Port, sequence: u16, offset: usize, media: u16) -> String {
    let (mut length, mut kinds, mut stamps) = (0, 0, 0);
    let longest = group.iter().map(|packet| packet.len() - 12).max().unwrap_or(0);
    let mut payload = vec![0u8; longest];
    for packet in group {
        length ^= packet.len() - 12;
        kinds ^= packet[1] & 0x7f;
        stamps ^= timestamp(packet);
        payload.iter_mut().zip(&packet[12..]).for_each(|(sum, byte)| *sum ^= byte);
    }
    let (snbase, row, na) = (number(group[0]), (port == Port::Row) as u8, group.len());
    let port = udp(port, media);
    let mut line =
        format!("{port} 96 {sequence} {snbase} 0x{length:04x} 1 0x{kinds:02x} 0x000000 0x{stamps:08x} 0 {row} 0 0 {offset} {na} 0 ");
    payload.iter().for_each(|byte| write!(line, "{byte:02x}").unwrap());
    line
}

pub fn run(capture: &str, to: u16, file: &str, fields_file: &str) -> Outcome {
    let (profile, media) = send::whole_matrices(capture)?;
    let entries = send::with_parity(&media, profile)?;
    // All columns, then all rows.
    let of = |port: Port| entries.iter().filter(move |e| e.port == port);
    fs::write(file, pcap(&of(Port::Column).chain(of(Port::Row)).collect::<Vec<_>>(), to))?;

    let Profile { l, d } = profile;
    let mut lines = String::new();
    let matrices = media.len() / profile.matrix();
    for i in 0..matrices * l {
        let start = i / l * profile.matrix() + i % l;
        let column: Vec<&Vec<u8>> = (0..d).map(|j| &media[start + j * l]).collect();
        writeln!(lines, "{}", fields(&column, Port::Column, i as u16, l, to))?;
    }
    for i in 0..if l < 4 { 0 } else { matrices * d } {
        let row: Vec<&Vec<u8>> = (0..l).map(|j| &media[i * l + j]).collect();
        writeln!(lines, "{}", fields(&row, Port::Row, i as u16, 1, to))?;
    }
    Ok(fs::write(fields_file, lines)?)
}
