//! Both senders side by side: the same call with the same lent bytes goes to each, and all that the documents settle is compared. Of
//! the room that is what an opening leaves, what a refusal leaves, and whatever lies past the need.

use crate::face;
use crate::model::Stamp;
use crate::pair::{first_difference, hex};
use crate::rng::Rng;
use crate::sender::{self, Room, Sender, Sent, Value};

/// How much of each part is lent, in elements: payloads, timestamps, lengths, longest, and the outputs for a row and a column.
pub type Sizes = [usize; 6];

/// What a value asks for, however large it is.
pub fn need(v: &Value) -> Sizes {
    let places = v.l.saturating_mul(2).saturating_add(1);
    let (numbers, output) = (places as usize, v.p.saturating_add(28) as usize);
    [places.saturating_mul(v.p) as usize, numbers, numbers, numbers, output, output]
}

/// An offer with all that comes with it.
pub struct Offer {
    pub value: Value,
    pub datagram: Vec<u8>,
    /// What the caller gives for a row and for a column.
    pub stamps: [Stamp; 2],
    pub lent: Sizes,
    /// Stands in both outputs before the call.
    pub filler: u8,
    /// Somebody else wrote to the room.
    pub meddled: bool,
}

/// What came of an offer.
pub struct Outcome {
    pub sent: Sent,
    /// It was the sender's own value, so the documents settle all that goes out.
    pub own: bool,
}

/// One room and two outputs for each program, the model's first. The parts are longer than what is lent, so that what stands past a
/// lent part is compared too.
pub struct Pair {
    payloads: [Vec<u8>; 2],
    timestamps: [Vec<u32>; 2],
    lengths: [Vec<u16>; 2],
    longest: [Vec<u16>; 2],
    rows: [Vec<u8>; 2],
    columns: [Vec<u8>; 2],
}

impl Pair {
    /// Both rooms hold the same old bytes.
    pub fn new(rng: &mut Rng, size: Sizes) -> Pair {
        let mut payloads = vec![0; size[0]];
        rng.fill(&mut payloads);
        let timestamps: Vec<u32> = (0..size[1]).map(|_| rng.next() as u32).collect();
        let lengths: Vec<u16> = (0..size[2]).map(|_| rng.next() as u16).collect();
        let longest: Vec<u16> = (0..size[3]).map(|_| rng.next() as u16).collect();
        Pair {
            payloads: [payloads.clone(), payloads],
            timestamps: [timestamps.clone(), timestamps],
            lengths: [lengths.clone(), lengths],
            longest: [longest.clone(), longest],
            rows: [vec![0; size[4]], vec![0; size[4]]],
            columns: [vec![0; size[5]], vec![0; size[5]]],
        }
    }

    pub fn longest(&self, i: usize) -> u16 {
        self.longest[0][i]
    }

    pub fn set_longest(&mut self, i: usize, to: u16) {
        self.longest.iter_mut().for_each(|part| part[i] = to);
    }

    /// The first bytes of the library's outputs: row, then column.
    pub fn written(&self, sent: &Sent) -> [&[u8]; 2] {
        [&self.rows[1][..sent.row as usize], &self.columns[1][..sent.column as usize]]
    }

    fn room(&mut self, program: usize, lent: &Sizes) -> Room<'_> {
        Room {
            payloads: &mut self.payloads[program][..lent[0]],
            timestamps: &mut self.timestamps[program][..lent[1]],
            lengths: &mut self.lengths[program][..lent[2]],
            longest: &mut self.longest[program][..lent[3]],
        }
    }

    /// The need of a value is as one of the programs left it, in both rooms.
    fn settle(&mut self, v: &Value, from: usize) {
        let need = need(v);
        take_over(&mut self.payloads, need[0], from);
        take_over(&mut self.timestamps, need[1], from);
        take_over(&mut self.lengths, need[2], from);
        take_over(&mut self.longest, need[3], from);
    }

    fn compare_lent(&self, faults: &mut Vec<String>) {
        first_difference("payloads of the room", &self.payloads, faults);
        first_difference("timestamps of the room", &self.timestamps, faults);
        first_difference("lengths of the room", &self.lengths, faults);
        first_difference("longest of the room", &self.longest, faults);
        first_difference("output of the row", &self.rows, faults);
        first_difference("output of the column", &self.columns, faults);
    }

    /// Opens both. The model's sender, where the opening is not refused.
    pub fn open(&mut self, asked: Value, lent: &Sizes) -> Result<(Sent, Option<Sender>), String> {
        let (ours, sender) = sender::open(asked, &mut self.room(0, lent));
        let theirs = face::sender_open(asked, &mut self.room(1, lent));
        let mut faults = Vec::new();
        if plain(ours) != plain(theirs) {
            faults.push("the answers differ".to_string());
        }
        self.compare_lent(&mut faults);
        told(faults, || format!("  opening {asked:?}\n  lent    {lent:?}\n  model   {ours:?}\n  library {theirs:?}\n"))?;
        Ok((theirs, sender))
    }

    /// Offers a packet to both. An offer that is taken with another value or room than the sender's own leaves the room as it was.
    pub fn offer(&mut self, model: &mut Sender, offer: &Offer) -> Result<Outcome, String> {
        self.rows.iter_mut().chain(&mut self.columns).for_each(|out| out.fill(offer.filler));
        let own = !offer.meddled && alike(offer.value, model.value());
        let ours = self.run_model(model, offer, own);
        let (theirs, datagram_kept) = self.run_library(offer);
        let mut faults = Vec::new();
        match ours {
            Some(ours) if plain(ours) == plain(theirs) => {}
            Some(_) => faults.push("the answers differ".to_string()),
            None => self.compare_free(offer, &theirs, &mut faults),
        }
        if !datagram_kept {
            faults.push("the library changed the datagram".to_string());
        }
        if ours.map_or(true, |ours| ours.number == 0) {
            self.settle(&offer.value, if own { 1 } else { 0 });
        }
        self.compare_lent(&mut faults);
        told(faults, || {
            let (datagram, front) = (&offer.datagram, offer.datagram.len().min(12));
            let text = format!("  media   {} bytes: {} ...\n  value   {:?}\n", datagram.len(), hex(&datagram[..front]), offer.value);
            text + &format!("  lent    {:?}\n  model   {ours:?}, count {}\n  library {theirs:?}\n", offer.lent, model.packets().len())
        })?;
        Ok(Outcome { sent: theirs, own })
    }

    /// None where the offer is taken and the documents leave free what goes out.
    fn run_model(&mut self, model: &mut Sender, offer: &Offer, own: bool) -> Option<Sent> {
        let (mut row, mut column) = (std::mem::take(&mut self.rows[0]), std::mem::take(&mut self.columns[0]));
        let outputs = [&mut row[..offer.lent[4]], &mut column[..offer.lent[5]]];
        let sizes = [outputs[0].len(), outputs[1].len()];
        let room = self.room(0, &offer.lent);
        let answer = if own {
            Some(model.media(offer.value, &offer.datagram, &room, offer.stamps, outputs))
        } else {
            let refusal = sender::judge(&offer.value, &offer.datagram, &room, sizes).err();
            refusal.map(|number| Sent { number, row: 0, column: 0, value: offer.value })
        };
        self.rows[0] = row;
        self.columns[0] = column;
        answer
    }

    fn run_library(&mut self, offer: &Offer) -> (Sent, bool) {
        let (mut row, mut column) = (std::mem::take(&mut self.rows[1]), std::mem::take(&mut self.columns[1]));
        let lent = offer.datagram.clone();
        let outputs = [&mut row[..offer.lent[4]], &mut column[..offer.lent[5]]];
        let answer = face::sender_media(offer.value, &lent, &mut self.room(1, &offer.lent), offer.stamps, outputs);
        self.rows[1] = row;
        self.columns[1] = column;
        (answer, face::anew(&lent) == &offer.datagram[..])
    }

    /// What holds of every offer that is taken: the value counts one more and stays within its bounds, a packet has its headers and no
    /// more than P, and nothing past it is written.
    fn compare_free(&mut self, offer: &Offer, theirs: &Sent, faults: &mut Vec<String>) {
        let v = offer.value;
        let arrangement = theirs.value.arrangement;
        let next = Value { taken: v.taken.wrapping_add(1), at: theirs.value.at, arrangement, ..v };
        let bytes = |written: u64| written == 0 || (28..=28 + v.p).contains(&written);
        let good = theirs.number == 0 && bytes(theirs.row) && bytes(theirs.column) && (theirs.row == 0 || v.l >= 4);
        if !good || theirs.value != next || theirs.value.at >= 3 * v.matrix() || (arrangement == 0) != (v.arrangement == 0) {
            faults.push("this cannot come of an offer that is taken".to_string());
        } else {
            take_over(&mut self.rows, theirs.row as usize, 1);
            take_over(&mut self.columns, theirs.column as usize, 1);
        }
    }
}

/// The same value, whichever number the staggered arrangement has.
fn alike(a: Value, b: Value) -> bool {
    (a.arrangement == 0) == (b.arrangement == 0) && Value { arrangement: b.arrangement, ..a } == b
}

/// An offer that is taken, and an opening, may hand the staggered arrangement on by any of its numbers.
fn plain(mut sent: Sent) -> Sent {
    if sent.number == 0 {
        sent.value.arrangement = u8::from(sent.value.arrangement != 0);
    }
    sent
}

fn take_over<T: Copy>(parts: &mut [Vec<T>; 2], need: usize, from: usize) {
    let [model, library] = parts;
    if from == 0 {
        library[..need].copy_from_slice(&model[..need]);
    } else {
        model[..need].copy_from_slice(&library[..need]);
    }
}

/// The faults with the call they are of.
fn told(faults: Vec<String>, call: impl Fn() -> String) -> Result<(), String> {
    if faults.is_empty() {
        return Ok(());
    }
    Err(faults.iter().take(12).fold(call(), |text, fault| format!("{text}  {fault}\n")))
}
