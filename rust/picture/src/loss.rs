//! Windows of traffic through the library, with losses.
use congaveil::{Outer, Receiver, SetUp, Taken, MEDIA_HEADER, PARITY_HEADER};

const PAYLOAD: usize = 188;
const BASE: u16 = 65_400;

#[derive(Clone, Copy)]
pub struct Profile {
    pub l: usize,
    pub d: usize,
    pub rows: bool,
}

/// splitmix64
pub struct Random(pub u64);

impl Random {
    fn next(&mut self) -> u64 {
        self.0 = self.0.wrapping_add(0x9e37_79b9_7f4a_7c15);
        let z = (self.0 ^ self.0 >> 30).wrapping_mul(0xbf58_476d_1ce4_e5b9);
        let z = (z ^ z >> 27).wrapping_mul(0x94d0_49bb_1331_11eb);
        z ^ z >> 31
    }

    fn hits(&mut self, rate: f64) -> bool {
        ((self.next() >> 11) as f64) < rate * (1u64 << 53) as f64
    }
}

/// The datagrams of whole matrices, as a sender with aligned parity makes them: media, columns, rows.
struct Sent {
    set_up: SetUp,
    media: Vec<Vec<u8>>,
    columns: Vec<Vec<u8>>,
    rows: Vec<Vec<u8>>,
}

fn sent(profile: Profile) -> Sent {
    let Profile { l, d, rows } = profile;
    let matrices = 400 / (l * d);
    let positions = matrices * l * d;
    let records = 128.min(matrices * (l + if rows { d } else { 0 }));
    let set_up = SetUp { base: BASE, l, d, payload: PAYLOAD, positions, records, ssrc: 0 };
    let number = |i: usize| BASE.wrapping_add(i as u16);
    let media: Vec<Vec<u8>> = (0..positions)
        .map(|i| {
            let mut g = vec![0x80, 33];
            g.extend(number(i).to_be_bytes());
            g.extend((i as u32 * 90).to_be_bytes());
            g.extend([0; 4]);
            g.resize(MEDIA_HEADER + PAYLOAD, i as u8);
            g
        })
        .collect();
    let mut sender = Receiver::open(set_up).unwrap();
    media.iter().for_each(|g| assert_eq!(sender.media(g), Ok(Taken::default())));
    let parity = |row: bool, start: usize| {
        let mut out = vec![0; PARITY_HEADER + PAYLOAD];
        let written = if row {
            sender.write_row(number(start), Outer::default(), &mut out)
        } else {
            sender.write_column(number(start), Outer::default(), &mut out)
        };
        assert_eq!(written, Ok(out.len()));
        out
    };
    let columns = (0..matrices).flat_map(|m| (0..l).map(move |c| m * l * d + c)).map(|i| parity(false, i)).collect();
    let rows = (0..if rows { matrices * d } else { 0 }).map(|r| parity(true, r * l)).collect();
    Sent { set_up, media, columns, rows }
}

/// How many are missing after all but the lost ones were offered.
fn missing(sent: &Sent, lost: &mut dyn FnMut(Kind, usize) -> bool) -> usize {
    let mut receiver = Receiver::open(sent.set_up).unwrap();
    for (i, g) in sent.media.iter().enumerate() {
        if !lost(Kind::Media, i) {
            receiver.media(g).unwrap();
        }
    }
    for (i, g) in sent.columns.iter().enumerate() {
        if !lost(Kind::Parity, i) {
            receiver.column(g).unwrap();
        }
    }
    for (i, g) in sent.rows.iter().enumerate() {
        if !lost(Kind::Parity, i) {
            receiver.row(g).unwrap();
        }
    }
    receiver.missing().count()
}

#[derive(PartialEq)]
enum Kind {
    Media,
    Parity,
}

/// Packets missing of packets sent, where every packet, media or parity, is lost at a rate: windows until 300 packets stayed missing, or
/// 12,000 of them. None where fewer than 20 did: that is too few to draw.
pub fn after_random(profile: Profile, rate: f64, random: &mut Random) -> Option<f64> {
    let sent = sent(profile);
    let (mut windows, mut left) = (0, 0);
    while left < 300 && windows < 12_000 {
        left += missing(&sent, &mut |_, _| random.hits(rate));
        windows += 1;
    }
    (left >= 20).then(|| left as f64 / (windows * sent.media.len()) as f64)
}

/// The share of a burst that stays missing: media packets in a row, from each position of a matrix on, with every parity packet received.
pub fn after_burst(profile: Profile, burst: usize) -> f64 {
    let sent = sent(profile);
    let starts = (profile.l * profile.d).min(sent.media.len() - burst + 1);
    let left: usize = (0..starts).map(|from| missing(&sent, &mut |kind, i| kind == Kind::Media && (from..from + burst).contains(&i))).sum();
    left as f64 / (starts * burst) as f64
}
