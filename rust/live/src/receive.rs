//! Receives the three ports of a sender, drops some of the media, offers the rest to the library through one window that moves, and
//! compares what leaves it with what was sent.
use crate::traffic::{beyond_reach, dropped, group, number, udp, write_capture, Entry, Profile, PORTS};
use crate::{all_hold, Outcome, PAYLOAD};
use congaveil::capture::Port;
use congaveil::{move_room, Receiver, Refusal, POSITIONS_MAX};
use std::collections::{BTreeMap, BTreeSet, VecDeque};
use std::net::{Ipv4Addr, UdpSocket};
use std::time::{Duration, Instant};
use std::{io, thread};

/// How long to wait for the first datagram, and for one more.
const PATIENCE: [Duration; 2] = [Duration::from_secs(30), Duration::from_secs(2)];

/// A card: one window that moves with the stream, a matrix at a time. Media that wait are read before parity, so that the window has more
/// matrices than the header asks for. Places are counted from the first media packet on, without end.
struct Card {
    profile: Profile,
    first: u16,
    receiver: Receiver,
    out: Vec<u8>,
    sizes: Vec<u16>,
    /// The place of the window's base, and of the next media packet.
    base: usize,
    next: usize,
    /// The media packets sent, from the window's base on.
    sent: VecDeque<Vec<u8>>,
    /// The places whose packets were dropped, and the groups of the parity that came.
    lost: BTreeSet<usize>,
    groups: Vec<Vec<usize>>,
    moves: usize,
    /// Packets that left the window: present, present though they were dropped, and of these short ones; another one than was sent.
    handed_out: usize,
    back: usize,
    short: usize,
    wrong: usize,
    /// The places that left the window without their packet.
    given_up: BTreeSet<usize>,
    /// By the answers: packets rebuilt, parity packets spoilt, media that came after they had been rebuilt, refusals.
    rebuilt: usize,
    spoilt: usize,
    late: usize,
    refused: BTreeMap<u32, usize>,
}

impl Card {
    fn new(profile: Profile, datagram: &[u8]) -> Result<Self, Refusal> {
        let (first, ssrc) = (number(datagram), u32::from_be_bytes([datagram[8], datagram[9], datagram[10], datagram[11]]));
        Ok(Card {
            profile,
            first,
            receiver: Receiver::open(profile.matrices((POSITIONS_MAX / profile.matrix()).min(8), first, ssrc))?,
            out: vec![0; move_room(profile.matrix(), PAYLOAD)],
            sizes: vec![0; profile.matrix()],
            base: 0,
            next: 0,
            sent: VecDeque::new(),
            lost: BTreeSet::new(),
            groups: Vec::new(),
            moves: 0,
            handed_out: 0,
            back: 0,
            short: 0,
            wrong: 0,
            given_up: BTreeSet::new(),
            rebuilt: 0,
            spoilt: 0,
            late: 0,
            refused: BTreeMap::new(),
        })
    }

    /// The places of a parity packet's group: the nearest ones, before or after the next media packet.
    fn places(&self, parity: &[u8]) -> Vec<usize> {
        let next = self.first.wrapping_add(self.next as u16);
        group(parity, next).into_iter().map(|ahead| (self.next as i64 + i64::from(ahead as i16)) as usize).collect()
    }

    /// A datagram came in: it is offered, unless it is dropped.
    fn take(&mut self, entry: &Entry, seed: u64) -> Outcome {
        if entry.port != Port::Media {
            let places = self.places(&entry.datagram);
            self.groups.push(places);
            return Ok(self.offer(entry)?);
        }
        if number(&entry.datagram) != self.first.wrapping_add(self.next as u16) {
            return Err("a media packet was lost or out of order on loopback itself: run it again".into());
        }
        self.sent.push_back(entry.datagram.clone());
        self.next += 1;
        if dropped(self.next - 1, self.profile, seed) {
            self.lost.insert(self.next - 1);
            return Ok(());
        }
        Ok(self.offer(entry)?)
    }

    /// Offers a datagram. GStreamer sends the parity of a row before its last packet, and the others may be dropped: the window moves for
    /// parity too.
    fn offer(&mut self, entry: &Entry) -> Result<(), Refusal> {
        while self.receiver.ahead(entry.port, &entry.datagram) {
            self.move_on()?;
        }
        let answer = match entry.port {
            Port::Media => self.receiver.media(&entry.datagram),
            Port::Column => self.receiver.column(&entry.datagram),
            Port::Row => self.receiver.row(&entry.datagram),
        };
        match answer {
            Ok(taken) => {
                self.rebuilt += taken.rebuilt;
                self.spoilt += taken.spoilt;
            }
            Err(Refusal::Repeat) if entry.port == Port::Media => self.late += 1,
            Err(refusal) => *self.refused.entry(refusal.number()).or_default() += 1,
        }
        Ok(())
    }

    /// Moves the window on, and compares each packet that leaves it with the one that was sent.
    fn move_on(&mut self) -> Result<(), Refusal> {
        self.moves += 1;
        for left in self.receiver.advance(self.profile.matrix(), &mut self.out, &mut self.sizes)? {
            match (left.datagram, self.sent.pop_front()) {
                (Some(is), Some(was)) => {
                    let back = self.lost.contains(&self.base);
                    self.handed_out += 1;
                    self.back += usize::from(back);
                    self.short += usize::from(back && is.len() < 12 + PAYLOAD);
                    self.wrong += usize::from(is != was);
                }
                (None, Some(_)) => drop(self.given_up.insert(self.base)),
                (Some(_), None) => self.wrong += 1,
                (None, None) => {} // past the end of what was sent
            }
            self.base += 1;
        }
        Ok(())
    }
}

/// A datagram that waits at one of the sockets, media before columns before rows.
fn next(sockets: &[UdpSocket]) -> io::Result<Option<Entry>> {
    let mut buffer = [0; 2048];
    for (socket, port) in sockets.iter().zip(PORTS) {
        match socket.recv(&mut buffer) {
            Ok(length) => return Ok(Some(Entry { port, datagram: buffer[..length].to_vec() })),
            Err(e) if e.kind() == io::ErrorKind::WouldBlock => {}
            Err(e) => return Err(e),
        }
    }
    Ok(None)
}

pub fn run(capture: &str, profile: Profile, seed: u64, from: u16) -> Outcome {
    let mut sockets = Vec::new();
    for port in PORTS {
        let socket = UdpSocket::bind((Ipv4Addr::LOCALHOST, udp(port, from)))?;
        socket.set_nonblocking(true)?;
        sockets.push(socket);
    }

    let mut all: Vec<Entry> = Vec::new();
    let mut card: Option<Card> = None;
    let mut last = Instant::now();
    loop {
        let entry = match next(&sockets)? {
            Some(entry) => entry,
            None if last.elapsed() > PATIENCE[card.is_some() as usize] => break,
            None => {
                thread::sleep(Duration::from_millis(1));
                continue;
            }
        };
        last = Instant::now();
        if entry.datagram.len() < 28 || (card.is_none() && entry.port != Port::Media) {
            return Err(format!("a datagram of {} bytes came where none was expected", entry.datagram.len()).into());
        }
        if card.is_none() {
            card = Some(Card::new(profile, &entry.datagram)?);
        }
        if let Some(card) = &mut card {
            card.take(&entry, seed)?;
        }
        if capture != "-" {
            all.push(entry);
        }
    }
    let mut card = card.ok_or("nothing was received")?;
    while card.base < card.next {
        card.move_on()?;
    }
    write_capture(capture, profile, &all)?;
    report(&card)
}

fn report(card: &Card) -> Outcome {
    let reach = beyond_reach(&card.lost, &card.groups);
    let last = card.first.wrapping_add(card.next as u16).wrapping_sub(1);
    let n = card.receiver.window().n;
    println!("  sent {} media, numbers {} to {last}, and {} parity", card.next, card.first, card.groups.len());
    println!("  one window of {n} positions, moved {} times by {}", card.moves, card.profile.matrix());
    println!("  dropped {}, rebuilt {}, {} of them short, given up {}", card.lost.len(), card.back, card.short, card.given_up.len());
    println!("  handed out and equal to the one sent, byte for byte: {}", card.handed_out - card.wrong);
    println!("  beyond the reach of the parity that came: {}", reach.len());
    if card.late > 0 {
        println!("  came after they had been rebuilt: {}", card.late);
    }

    let checks = [
        (card.lost.len() > 20 && card.back > 0, "too few packets came"),
        (card.wrong == 0, "a packet that left the window is not the one sent"),
        (card.handed_out + card.given_up.len() == card.next, "not every packet that was sent left the window"),
        (card.given_up.is_subset(&card.lost), "a packet that was offered was given up"),
        (card.given_up == reach, "not exactly the packets beyond the parity's reach were given up"),
        (card.rebuilt == card.back + card.late, "the answers do not add up to the packets rebuilt"),
        (card.spoilt == 0, "parity was spoilt, and the traffic is unaltered"),
    ];
    if !card.refused.is_empty() {
        return Err(format!("refusals, by number: {:?}", card.refused).into());
    }
    all_hold(&checks)
}
