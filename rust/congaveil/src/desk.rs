use crate::{media_number, Leaving, Packet, Receiver, Refusal, Store, Taken, NUMBERS, POSITIONS_MAX};
use core::{fmt, ops::AddAssign};

/// Sums over all windows that a [`Desk`] was begun with. They only grow, so a rate is the difference of two readings.
///
/// As text they are one line: `received 169, recovered 21, late 0, missing 10, given up 0, alarms 0, spoilt 0, refused 26 (no. 13: 26)`.
#[derive(Clone, Copy, Debug, Default, PartialEq, Eq)]
pub struct Counters {
    /// Packets to come, when windows were opened and moved.
    pub positions: u64,
    /// Media packets that arrived, each once, late ones too.
    pub received: u64,
    /// Packets rebuilt, also those that arrived afterwards.
    pub rebuilt: u64,
    /// Packets rebuilt before they arrived.
    pub late: u64,
    /// Media refused with 15: a packet is present, and another one arrived.
    pub alarms: u64,
    /// Parity packets released because the packet that they gave cannot be right.
    pub spoilt: u64,
    /// Packets that were present when their window moved on.
    pub handed_out: u64,
    /// Packets that were missing then: lost for good.
    pub given_up: u64,
    /// By answer: the first is of offers taken in, the others of offers and moves refused with that number. Number 18 tells of wrong
    /// packets, as alarms and spoilt do.
    pub answers: [u64; NUMBERS],
}

impl Counters {
    /// Rebuilt and never arrived: what the parity saved.
    #[must_use]
    pub fn recovered(&self) -> u64 {
        self.rebuilt.saturating_sub(self.late)
    }

    /// Neither arrived nor rebuilt up to now, and not given up: what the window waits for, and what earlier windows lacked when they were
    /// opened again.
    #[must_use]
    pub fn missing(&self) -> u64 {
        self.positions.saturating_sub(self.received.wrapping_add(self.recovered()).wrapping_add(self.given_up))
    }

    /// Offers and moves that were refused.
    #[must_use]
    pub fn refused(&self) -> u64 {
        self.answers.iter().skip(1).fold(0, |sum, count| sum.wrapping_add(*count))
    }

    /// How many offers and moves were refused with this.
    #[must_use]
    pub fn refused_with(&self, refusal: Refusal) -> u64 {
        self.answers.get(refusal.number() as usize).copied().unwrap_or(0)
    }
}

impl AddAssign for Counters {
    fn add_assign(&mut self, other: Self) {
        self.positions = self.positions.wrapping_add(other.positions);
        self.received = self.received.wrapping_add(other.received);
        self.rebuilt = self.rebuilt.wrapping_add(other.rebuilt);
        self.late = self.late.wrapping_add(other.late);
        self.alarms = self.alarms.wrapping_add(other.alarms);
        self.spoilt = self.spoilt.wrapping_add(other.spoilt);
        self.handed_out = self.handed_out.wrapping_add(other.handed_out);
        self.given_up = self.given_up.wrapping_add(other.given_up);
        for (sum, count) in self.answers.iter_mut().zip(other.answers) {
            *sum = sum.wrapping_add(count);
        }
    }
}

impl fmt::Display for Counters {
    fn fmt(&self, f: &mut fmt::Formatter) -> fmt::Result {
        write!(f, "received {}, recovered {}, late {}, ", self.received, self.recovered(), self.late)?;
        write!(f, "missing {}, given up {}, ", self.missing(), self.given_up)?;
        write!(f, "alarms {}, spoilt {}, refused {}", self.alarms, self.spoilt, self.refused())?;
        let mut before = " (";
        for (number, count) in (0..NUMBERS).zip(self.answers).skip(1).filter(|(_, count)| *count > 0) {
            write!(f, "{before}no. {number}: {count}")?;
            before = ", ";
        }
        f.write_str(if before == " (" { "" } else { ")" })
    }
}

/// How the packet of a number came.
#[derive(Clone, Copy, Debug, PartialEq, Eq)]
pub enum How {
    /// It did not: it is missing, or not of the window.
    Missing,
    /// It arrived.
    Arrived,
    /// It was rebuilt and has not arrived: recovered.
    Rebuilt,
    /// It was rebuilt, and arrived afterwards.
    Late,
}

/// What a card keeps beside a receiver, to tell which packets were rebuilt and to count for the operator.
///
/// It copies no marks and costs a byte written a media packet and n bytes a move; positions are searched only after a rebuild.
///
/// ```
/// # #[cfg(feature = "std")]
/// # fn main() -> Result<(), congaveil::Refusal> {
/// use congaveil::{Desk, Receiver, SetUp};
///
/// # let datagram = [0x80; 200];
/// let set_up = SetUp { base: 65_530, l: 4, d: 4, payload: 188, positions: 16, records: 8, ssrc: 1 };
/// let mut receiver = Receiver::open(set_up)?;
/// let mut desk = Desk::new();
/// desk.begin(&receiver); // after every opening
///
/// let answer = desk.media(&mut receiver, &datagram); // instead of receiver.media
/// for packet in desk.rebuilt(&receiver) {
///     println!("{} is back, {} bytes", packet.number, packet.payload.len());
/// }
/// println!("{}", desk.counters());
/// # assert!(answer.is_err());
/// # Ok(())
/// # }
/// # #[cfg(not(feature = "std"))]
/// # fn main() {}
/// ```
#[derive(Clone, Debug)]
pub struct Desk {
    counters: Counters,
    /// Packets rebuilt that `rebuilt` has not told yet, and the position that it goes on from.
    untold: usize,
    from: usize,
    /// `Missing` where the mark is 1: rebuilt and untold.
    how: [How; POSITIONS_MAX],
}

impl Default for Desk {
    fn default() -> Self {
        Desk::new()
    }
}

impl Desk {
    /// A desk that has counted nothing.
    #[must_use]
    pub fn new() -> Self {
        Desk { counters: Counters::default(), untold: 0, from: 0, how: [How::Missing; POSITIONS_MAX] }
    }

    /// From now on the desk speaks of this receiver's window. What is present in it already counts neither as to come nor
    /// as rebuilt. The counters go on.
    pub fn begin<S: Store>(&mut self, receiver: &Receiver<S>) {
        self.untold = 0;
        self.from = 0;
        self.how = [How::Missing; POSITIONS_MAX];
        for (position, how) in (0..receiver.window().n).zip(&mut self.how) {
            match receiver.marked(position) {
                true => *how = How::Arrived,
                false => add(&mut self.counters.positions, 1),
            }
        }
    }

    /// The counters.
    #[must_use]
    pub fn counters(&self) -> &Counters {
        &self.counters
    }

    /// Offers a datagram of the media port, and counts. Answers what [`Receiver::media`] does.
    ///
    /// # Errors
    ///
    /// Those of [`Receiver::media`].
    pub fn media<S: Store>(&mut self, receiver: &mut Receiver<S>, datagram: &[u8]) -> Result<Taken, Refusal> {
        let answer = receiver.media(datagram);
        self.book(answer);
        let repeated = match answer {
            Ok(_) => false,
            Err(Refusal::Repeat) => true,
            Err(Refusal::Differs) => {
                add(&mut self.counters.alarms, 1);
                true
            }
            Err(_) => return answer,
        };
        let position = media_number(datagram).map(|number| receiver.position(number));
        if let Some(how) = position.and_then(|position| self.how.get_mut(position)) {
            match (repeated, *how) {
                (true, How::Arrived | How::Late) => return answer,
                (true, before) => {
                    if before == How::Missing {
                        self.untold = self.untold.saturating_sub(1);
                    }
                    *how = How::Late;
                    add(&mut self.counters.late, 1);
                }
                (false, _) => *how = How::Arrived,
            }
            add(&mut self.counters.received, 1);
        }
        answer
    }

    /// Offers a datagram of the column parity port, and counts. Answers what [`Receiver::column`] does.
    ///
    /// # Errors
    ///
    /// Those of [`Receiver::column`].
    pub fn column<S: Store>(&mut self, receiver: &mut Receiver<S>, datagram: &[u8]) -> Result<Taken, Refusal> {
        let answer = receiver.column(datagram);
        self.book(answer);
        answer
    }

    /// Offers a datagram of the row parity port, and counts. Answers what [`Receiver::row`] does.
    ///
    /// # Errors
    ///
    /// Those of [`Receiver::row`].
    pub fn row<S: Store>(&mut self, receiver: &mut Receiver<S>, datagram: &[u8]) -> Result<Taken, Refusal> {
        let answer = receiver.row(datagram);
        self.book(answer);
        answer
    }

    /// Moves the window on, and counts. Answers what [`Receiver::advance`] does. Packets that were rebuilt and not told are not told after
    /// they have left: they are in the output.
    ///
    /// # Errors
    ///
    /// Those of [`Receiver::advance`].
    pub fn advance<'o, S: Store>(
        &mut self,
        receiver: &mut Receiver<S>,
        by: usize,
        out: &'o mut [u8],
        sizes: &'o mut [u16],
    ) -> Result<Leaving<'o>, Refusal> {
        let answer = receiver.advance(by, out, sizes);
        match &answer {
            Ok(left) => self.moved(left.clone(), receiver.window().n),
            Err(refusal) => self.answered(refusal.number()),
        }
        answer
    }

    /// The packets that were rebuilt since this was last asked, in order of position. A packet that arrived before it was
    /// told is not told. Ask after each offer, or less often; what is not taken from the iterator is told the next time.
    pub fn rebuilt<'d, 'r, S: Store>(&'d mut self, receiver: &'r Receiver<S>) -> Rebuilt<'d, 'r, S> {
        Rebuilt { desk: self, receiver }
    }

    /// How the packet of a number came.
    #[must_use]
    pub fn how<S: Store>(&self, receiver: &Receiver<S>, number: u16) -> How {
        match self.how.get(receiver.position(number)) {
            Some(how) if receiver.has(number) => match how {
                How::Missing => How::Rebuilt,
                known => *known,
            },
            _ => How::Missing,
        }
    }

    fn answered(&mut self, number: u32) {
        if let Some(count) = self.counters.answers.get_mut(number as usize) {
            add(count, 1);
        }
    }

    /// These left a window of n positions: how the others came moves down.
    fn moved(&mut self, left: Leaving, n: usize) {
        let (by, handed_out) = (left.len(), left.handed_out());
        add(&mut self.counters.positions, by as u64);
        add(&mut self.counters.handed_out, handed_out as u64);
        add(&mut self.counters.given_up, by.saturating_sub(handed_out) as u64);
        for (how, left) in self.how.iter().zip(left) {
            if *how == How::Missing && left.datagram.is_some() {
                self.untold = self.untold.saturating_sub(1);
            }
        }
        self.from = self.from.saturating_sub(by);
        for position in 0..n.min(POSITIONS_MAX) {
            let from = position.saturating_add(by);
            let moved = if from < n { self.how.get(from).copied() } else { None };
            if let Some(how) = self.how.get_mut(position) {
                *how = moved.unwrap_or(How::Missing);
            }
        }
    }

    fn book(&mut self, answer: Result<Taken, Refusal>) {
        self.answered(answer.map_or_else(Refusal::number, |_| 0));
        let Taken { rebuilt, spoilt } = answer.unwrap_or_default();
        add(&mut self.counters.spoilt, spoilt as u64);
        if rebuilt > 0 {
            add(&mut self.counters.rebuilt, rebuilt as u64);
            self.untold = self.untold.saturating_add(rebuilt);
            self.from = 0;
        }
    }
}

fn add(counter: &mut u64, more: u64) {
    *counter = counter.wrapping_add(more);
}

/// The packets that were rebuilt and not told yet: [`Desk::rebuilt`].
#[derive(Debug)]
pub struct Rebuilt<'d, 'r, S: Store> {
    desk: &'d mut Desk,
    receiver: &'r Receiver<S>,
}

impl<'r, S: Store> Iterator for Rebuilt<'_, 'r, S> {
    type Item = Packet<'r>;

    fn next(&mut self) -> Option<Packet<'r>> {
        let Desk { untold, from, how, .. } = &mut *self.desk;
        while *untold > 0 {
            let position = *from;
            let how = match how.get_mut(position) {
                Some(how) if position < self.receiver.window().n => how,
                _ => {
                    *untold = 0; // they were of another window
                    break;
                }
            };
            *from = position.wrapping_add(1);
            if *how == How::Missing && self.receiver.marked(position) {
                *how = How::Rebuilt;
                *untold = untold.saturating_sub(1);
                if let Some(packet) = self.receiver.packet_at(position) {
                    return Some(packet);
                }
            }
        }
        None
    }
}
