//! §9, "May our driver talk?": the uplink investigation of source 002 (3.3.1.2.1.1), by document 02's rules, and the octets of its lent state.
//!
//! Time is one clock of 64 bits, the sum of all accepted steps, and never wraps. When the last "free" came and when the request that waits
//! was made are two moments on it. `judged` is another reading of the same sentences: it has no uplink, only what happened.

use crate::bits::Refusal;

pub const LENGTH: usize = 16;
/// "if the last message indicating the uplink as being free was received less than 480 ms ago"
pub const FREE_FOR: u64 = 480;
const LONGEST: u32 = 60_000;
const LATE: u32 = 1 << 31;

#[derive(Clone, Copy, Debug, PartialEq, Eq, PartialOrd, Ord)]
pub enum Signal {
    Free,
    Busy,
    Request,
    Tick,
}

/// What a request comes to.
#[derive(Clone, Copy, Debug, PartialEq, Eq, PartialOrd, Ord)]
pub enum Outcome {
    Granted,
    Rejected,
}

/// What a request is told when it is made.
#[derive(Clone, Copy, Debug, PartialEq, Eq, PartialOrd, Ord)]
pub enum Told {
    Granted,
    Waiting,
    AlreadyWaiting,
}

/// What became of the request that waited, and what a new one is told.
#[derive(Clone, Copy, Debug, Default, PartialEq, Eq)]
pub struct Reply {
    pub ended: Option<Outcome>,
    pub told: Option<Told>,
}

/// A moment on the long clock.
type Moment = u64;
/// The clock begins so late that every moment which octets can speak of lies behind its start.
const START: Moment = 1 << 40;

#[derive(Clone, Debug)]
pub struct Uplink {
    pub tick: u32,
    pub t3128: u32,
    now: Moment,
    freed: Option<Moment>,
    asked: Option<Moment>,
}

impl Uplink {
    /// The uplink is not free before a "free" came.
    pub fn setup(tick: u32, t3128: u32) -> Result<Uplink, Refusal> {
        if !(1..=LONGEST).contains(&t3128) {
            return Err(10);
        }
        Ok(Uplink { tick, t3128, now: START, freed: None, asked: None })
    }

    fn ran_out(&self, asked: Moment) -> bool {
        self.now >= asked + u64::from(self.t3128)
    }

    pub fn is_free(&self) -> bool {
        self.freed.is_some_and(|freed| self.now < freed + FREE_FOR)
    }

    pub fn event(&mut self, tick: u32, signal: Signal) -> Result<Reply, Refusal> {
        let step = tick.wrapping_sub(self.tick);
        if step >= LATE {
            return Err(9);
        }
        self.tick = tick;
        self.now += u64::from(step);
        let mut reply = Reply::default();
        // "Expiry comes before the event's own effect."
        if self.asked.is_some_and(|asked| self.ran_out(asked)) {
            self.asked = None;
            reply.ended = Some(Outcome::Rejected);
        }
        match signal {
            Signal::Free => {
                self.freed = Some(self.now);
                if self.asked.take().is_some() {
                    reply.ended = Some(Outcome::Granted);
                }
            }
            Signal::Busy => self.freed = None,
            Signal::Request => reply.told = Some(self.request()),
            Signal::Tick => {}
        }
        Ok(reply)
    }

    fn request(&mut self) -> Told {
        if self.asked.is_some() {
            return Told::AlreadyWaiting;
        }
        if self.is_free() {
            return Told::Granted;
        }
        // docs/STATE.md, of octets that no setup left: a request that waits for 0 ms is one that does not wait.
        self.asked = (self.t3128 != 0).then_some(self.now);
        Told::Waiting
    }

    /// How long something that lasts so long still lasts.
    fn left(&self, since: Option<Moment>, lasts: u64) -> u32 {
        since.map_or(0, |since| (since + lasts).saturating_sub(self.now) as u32)
    }

    /// docs/STATE.md: four numbers of four octets, the most significant first.
    pub fn octets(&self) -> [u8; LENGTH] {
        let mut octets = [0; LENGTH];
        let free = self.left(self.freed, FREE_FOR);
        let wait = self.left(self.asked, u64::from(self.t3128));
        for (place, number) in octets.chunks_mut(4).zip([self.tick, self.t3128, free, wait]) {
            place.copy_from_slice(&number.to_be_bytes());
        }
        octets
    }

    /// The uplink that any octets are read as.
    pub fn of(octets: &[u8; LENGTH]) -> Uplink {
        let number = |place: usize| u32::from_be_bytes(octets[4 * place..][..4].try_into().unwrap());
        let (t3128, free, wait) = (number(1), number(2), number(3));
        // Where so much is left of what lasts so long, it began then; perhaps in a time to come.
        let begun = |left: u32, lasts: u64| (left != 0).then(|| START + u64::from(left) - lasts);
        let (freed, asked) = (begun(free, FREE_FOR), begun(wait, u64::from(t3128)));
        Uplink { tick: number(0), t3128, now: START, freed, asked }
    }

    /// How long the last "free" and the request that waits are ago, for choosing the next tick.
    pub fn ages(&self) -> (Option<u64>, Option<u64>) {
        let age = |since: Option<Moment>| since.map(|since| self.now.saturating_sub(since));
        (age(self.freed), age(self.asked))
    }
}

/// An accepted event: the step from the accepted one before it.
#[derive(Clone, Copy, Debug)]
pub struct Happened {
    pub step: u64,
    pub signal: Signal,
}

/// Whether the uplink is free at an event of a history: the last "free" or "busy" before it was a "free", less than 480 ms ago.
pub fn free_at(history: &[Happened], place: usize) -> bool {
    let mut age = history[place].step;
    for happened in history[..place].iter().rev() {
        match happened.signal {
            Signal::Free => return age < FREE_FOR,
            Signal::Busy => return false,
            Signal::Request | Signal::Tick => age += happened.step,
        }
    }
    false
}

/// What the request at a place of a history comes to, and where, if it is not one that is told "already waiting": nothing yet where it
/// still waits. The events behind it are gone through, with no uplink in mind.
pub fn judged(history: &[Happened], place: usize, t3128: u32) -> Option<(Outcome, usize)> {
    if free_at(history, place) {
        return Some((Outcome::Granted, place));
    }
    let mut age = 0;
    for (later, happened) in history.iter().enumerate().skip(place + 1) {
        age += happened.step;
        if age >= u64::from(t3128) {
            return Some((Outcome::Rejected, later));
        }
        if happened.signal == Signal::Free {
            return Some((Outcome::Granted, later));
        }
    }
    None
}
