//! §9: the archive's uplink beside the second program's: hand-written scenes, event sequences at random, and what these must have met.

use crate::bits::Refusal;
use crate::ffi;
use crate::rng::Rng;
use crate::tally::{hex, Tally};
use crate::uplink::{free_at, judged, Happened, Outcome, Reply, Signal, Told, Uplink, FREE_FOR, LENGTH};
use std::collections::BTreeMap;

const STEPS_OF_A_SEQUENCE: u64 = 40;

/// What the random event steps met from a setup on.
#[derive(Clone, Copy, Debug, PartialEq, Eq, PartialOrd, Ord)]
enum Met {
    /// A request was told this.
    Told(Told),
    /// The request that waited came to this at such an event.
    Ended(Outcome, Signal),
    /// A request found the last "free" so old: a millisecond below 480 ms, and 480 ms.
    JustFree,
    JustNotFree,
    /// A request waits although a "free" came less than 480 ms ago: a "busy" came since.
    BusySince,
    /// The last event before T3128's end, a millisecond before it, and an event at its end.
    JustWaiting,
    JustRanOut,
    /// A request waits whose last "free" is over 2^32 ms ago, but less than 480 on a clock of 32 bits.
    WrappedAge,
    Refused(Refusal),
}

use Met::*;

/// How often each is met at least in 10,000 event steps: about a third to a half of what the usual seed gives.
const LEAST: [(Met, u64); 18] = [
    (Told(Told::Granted), 300),
    (Told(Told::Waiting), 650),
    (Told(Told::AlreadyWaiting), 330),
    (Ended(Outcome::Granted, Signal::Free), 180),
    (Ended(Outcome::Rejected, Signal::Free), 90),
    (Ended(Outcome::Rejected, Signal::Busy), 40),
    (Ended(Outcome::Rejected, Signal::Request), 170),
    (Ended(Outcome::Rejected, Signal::Tick), 130),
    (JustFree, 25),
    (JustNotFree, 25),
    (BusySince, 30),
    (JustWaiting, 150),
    (JustRanOut, 110),
    (WrappedAge, 60),
    (Refused(0), 3_500),
    (Refused(9), 370),
    (Refused(10), 65),
    (Refused(13), 12),
];

#[derive(Default)]
pub struct Cover {
    steps: u64,
    counts: BTreeMap<Met, u64>,
}

impl Cover {
    fn count(&mut self, met: Met) {
        *self.counts.entry(met).or_default() += 1;
    }

    /// Shows what was met how often; gives how many were met too seldom.
    pub fn finish(&self) -> u64 {
        println!("met in {} random event steps of the uplink, and how often each must be at least:", self.steps);
        let mut seldom = 0;
        for (met, least) in LEAST {
            let (count, least) = (self.counts.get(&met).copied().unwrap_or(0), least * self.steps / 10_000);
            println!("  {:28} {count:>8} {least:>8}{}", format!("{met:?}"), if count < least { "  met too seldom" } else { "" });
            seldom += u64::from(count < least);
        }
        seldom
    }
}

/// A result of the archive in the header's parts: refusal, and the two numbers told. Nothing stands above them.
fn parts(result: u32) -> (Refusal, u32, u32) {
    (result & 255, result >> 8 & 255, result >> 16)
}

/// The numbers of the header's enum.
fn numbers(reply: &Result<Reply, Refusal>) -> (Refusal, u32, u32) {
    let Ok(reply) = reply else { return (reply.unwrap_err(), 0, 0) };
    let ended = reply.ended.map_or(0, |ended| match ended {
        Outcome::Granted => 1,
        Outcome::Rejected => 2,
    });
    let told = reply.told.map_or(0, |told| match told {
        Told::Granted => 1,
        Told::Waiting => 3,
        Told::AlreadyWaiting => 4,
    });
    (0, ended, told)
}

/// A request of a history that was not told "already waiting", and what it was told it came to, each time with the place.
struct Asked {
    place: usize,
    outcomes: Vec<(Outcome, usize)>,
}

/// Both sides over one lent state.
struct Pair {
    archive: ffi::State,
    second: Uplink,
    /// From a setup on: what happened, and the requests as the archive answered them.
    history: Option<Vec<Happened>>,
    asked: Vec<Asked>,
    start: Vec<u8>,
    log: Vec<String>,
}

impl Pair {
    /// A state of octets that no setup left.
    fn of(octets: &[u8; LENGTH], shift: usize) -> Pair {
        let archive = ffi::State::new(octets, shift);
        Pair { archive, second: Uplink::of(octets), history: None, asked: Vec::new(), start: octets.to_vec(), log: Vec::new() }
    }

    fn story(&self) -> String {
        format!("uplink state {}\n          {}", hex(&self.start), self.log.join("\n          "))
    }

    fn check_octets(&self, tally: &mut Tally) {
        let (archive, second) = (hex(self.archive.octets()), hex(&self.second.octets()));
        tally.same("uplink: the state afterwards", || self.story(), &archive, &second);
    }

    fn setup(&mut self, tally: &mut Tally, tick: u32, t3128: u32) -> Refusal {
        let second = Uplink::setup(tick, t3128);
        let result = self.archive.uplink_setup(tick, t3128);
        if let Ok(second) = &second {
            self.second = second.clone();
            (self.history, self.asked) = (Some(Vec::new()), Vec::new());
            self.start = self.archive.octets().to_vec();
            self.log.clear();
        }
        self.log.push(format!("uplink_setup {tick} {t3128}"));
        tally.count_refusal(result);
        tally.same("uplink_setup", || self.story(), &result, &second.err().unwrap_or(0));
        self.check_octets(tally);
        result
    }

    fn event(&mut self, tally: &mut Tally, tick: u32, signal: Signal) -> (Refusal, u32, u32) {
        self.log.push(format!("uplink {signal:?} {tick}"));
        let step = u64::from(tick.wrapping_sub(self.second.tick));
        let second = self.second.event(tick, signal);
        let archive = parts(feed(&mut self.archive, tick, signal));
        tally.count_refusal(archive.0);
        tally.same("uplink event: (refusal, ended, told)", || self.story(), &archive, &numbers(&second));
        self.check_octets(tally);
        if archive.0 == 0 {
            self.check_history(tally, Happened { step, signal }, archive);
        }
        archive
    }

    /// Every request against the history alone: it came to what `judged` says, there, once and at no other time.
    fn check_history(&mut self, tally: &mut Tally, happened: Happened, (_, ended, told): (Refusal, u32, u32)) {
        let Some(history) = &mut self.history else { return };
        history.push(happened);
        let here = history.len() - 1;
        let outcome = |number: u32| match number {
            1 => Some((Outcome::Granted, here)),
            2 => Some((Outcome::Rejected, here)),
            _ => None,
        };
        let mut nobody = false;
        if let Some(outcome) = outcome(ended) {
            // The end is that of the last request that was told to wait.
            match self.asked.last_mut() {
                Some(asked) => asked.outcomes.push(outcome),
                None => nobody = true,
            }
        }
        match told {
            1 | 3 => self.asked.push(Asked { place: here, outcomes: outcome(told).into_iter().collect() }),
            4 => nobody |= self.asked.last().is_none_or(|asked| !asked.outcomes.is_empty()),
            _ => {}
        }
        // What is older than the last two was looked at before, and can only have changed through an end that is looked at now.
        let t3128 = self.second.t3128;
        let recent = &self.asked[self.asked.len().saturating_sub(2)..];
        let told_and_due = |asked: &Asked| (asked.outcomes.clone(), judged(history, asked.place, t3128).into_iter().collect::<Vec<_>>());
        let wrong = recent.iter().map(told_and_due).find(|(told, due)| told != due);
        tally.check(wrong.is_none() && !nobody, || {
            let what = "what a request came to, as told and by the history alone";
            format!("  {what}: {wrong:?}; an end, or an 'already waiting', of nobody: {nobody}\n  input   {}", self.story())
        });
    }

    fn cover(&self, cover: &mut Cover, archive: (Refusal, u32, u32), signal: Signal, ages: (Option<u64>, Option<u64>), step: u64) {
        cover.count(Refused(archive.0));
        let Some(history) = self.history.as_ref().filter(|_| archive.0 == 0) else { return };
        match archive.1 {
            1 => cover.count(Ended(Outcome::Granted, signal)),
            2 => cover.count(Ended(Outcome::Rejected, signal)),
            _ => {}
        }
        if let Some(waited) = ages.1 {
            let t3128 = u64::from(self.second.t3128);
            match waited + step {
                age if age + 1 == t3128 => cover.count(JustWaiting),
                age if age == t3128 => cover.count(JustRanOut),
                _ => {}
            }
        }
        match archive.2 {
            1 => cover.count(Told(Told::Granted)),
            3 => cover.count(Told(Told::Waiting)),
            4 => cover.count(Told(Told::AlreadyWaiting)),
            _ => return,
        }
        let last_free = ages.0.map(|age| age + step);
        if last_free == Some(FREE_FOR - 1) && archive.2 == 1 {
            cover.count(JustFree);
        }
        if last_free == Some(FREE_FOR) && archive.2 == 3 {
            cover.count(JustNotFree);
        }
        if last_free.is_some_and(|age| age >= 1 << 32 && age % (1 << 32) < FREE_FOR) && archive.2 == 3 {
            cover.count(WrappedAge);
        }
        if archive.2 == 3 && free_but_for_busy(history) {
            cover.count(BusySince);
        }
    }
}

/// Whether the last event would find the uplink free, had no "busy" come.
fn free_but_for_busy(history: &[Happened]) -> bool {
    let deaf: Vec<Happened> = history
        .iter()
        .map(|happened| match happened.signal {
            Signal::Busy => Happened { signal: Signal::Tick, ..*happened },
            _ => *happened,
        })
        .collect();
    free_at(&deaf, deaf.len() - 1)
}

fn feed(state: &mut ffi::State, tick: u32, signal: Signal) -> u32 {
    match signal {
        Signal::Free => state.uplink_free(tick),
        Signal::Busy => state.uplink_busy(tick),
        Signal::Request => state.uplink_request(tick),
        Signal::Tick => state.uplink_tick(tick),
    }
}

// ---- Rows of vectors/vNN.txt ----

/// The uplink that the rows speak of, and how many there were.
pub struct Rows {
    pair: Pair,
    pub done: usize,
}

impl Default for Rows {
    fn default() -> Rows {
        Rows { pair: Pair::of(&[0; LENGTH], 3), done: 0 }
    }
}

/// The protocol's words for the numbers of the header: refusal, whether a request was rejected, and what then became of one.
fn line((refusal, ended, told): (Refusal, u32, u32)) -> String {
    let then = match (ended, told) {
        (1, _) | (_, 1) => "granted",
        (_, 3) => "waiting",
        (_, 4) => "already",
        _ => "-",
    };
    format!("{refusal} {} {then}", u32::from(ended == 2))
}

impl Rows {
    /// What both sides answer to a row.
    pub fn row(&mut self, tally: &mut Tally, words: &[&str]) -> (String, String) {
        let number = |place: usize| words[place].parse().unwrap();
        if words[0] == "usetup" {
            let (tick, t3128) = (number(1), number(2));
            let second = Uplink::setup(tick, t3128).err().unwrap_or(0);
            return (self.pair.setup(tally, tick, t3128).to_string(), second.to_string());
        }
        let signal = match words[1] {
            "free" => Signal::Free,
            "busy" => Signal::Busy,
            "request" => Signal::Request,
            "tick" => Signal::Tick,
            other => panic!("what is uev {other}?"),
        };
        let second = numbers(&self.pair.second.clone().event(number(2), signal));
        (line(self.pair.event(tally, number(2), signal)), line(second))
    }
}

// ---- Scenes: each sentence of §9 with the outcome that it asks for ----

const NOTHING: (u32, u32) = (0, 0);
const GRANTED: (u32, u32) = (0, 1);
const WAITS: (u32, u32) = (0, 3);
const ALREADY: (u32, u32) = (0, 4);
const FREED: (u32, u32) = (1, 0);
const REJECTED: (u32, u32) = (2, 0);
const REJECTED_WAITS: (u32, u32) = (2, 3);

/// Events from a setup on: tick, signal, and what is asked for, (ended, told).
type Scene = (&'static str, u32, u32, &'static [(u32, Signal, (u32, u32))]);

use Signal::{Busy, Free, Request, Tick};

const SCENES: [Scene; 15] = [
    ("no 'free' came yet", 0, 100, &[(0, Request, WAITS), (99, Tick, NOTHING), (100, Tick, REJECTED), (100, Tick, NOTHING)]),
    ("free at the request", 7, 100, &[(10, Free, NOTHING), (489, Request, GRANTED), (489, Request, GRANTED)]),
    ("480 ms after the 'free'", 7, 100, &[(10, Free, NOTHING), (490, Request, WAITS)]),
    ("a 'busy' since", 0, 100, &[(0, Free, NOTHING), (1, Busy, NOTHING), (2, Request, WAITS)]),
    ("a 'free' since the 'busy'", 0, 100, &[(0, Busy, NOTHING), (1, Free, NOTHING), (2, Request, GRANTED)]),
    ("a 'free' just in time", 0, 100, &[(5, Request, WAITS), (104, Free, FREED), (105, Tick, NOTHING), (105, Request, GRANTED)]),
    ("a 'free' at the end", 0, 100, &[(5, Request, WAITS), (105, Free, REJECTED), (105, Request, GRANTED)]),
    ("a 'busy' changes nothing for the one that waits", 0, 100, &[(5, Request, WAITS), (6, Busy, NOTHING), (104, Free, FREED)]),
    ("a second request changes nothing", 0, 100, &[(5, Request, WAITS), (55, Request, ALREADY), (105, Tick, REJECTED)]),
    ("a second request at the end is a new one", 0, 100, &[(5, Request, WAITS), (105, Request, REJECTED_WAITS), (204, Free, FREED)]),
    (
        "the old 'free' still counts after a grant",
        0,
        100,
        &[(0, Request, WAITS), (9, Free, FREED), (488, Request, GRANTED), (489, Request, WAITS)],
    ),
    ("ages are sums", 0, 60_000, &[(0, Free, NOTHING), (0x7FFF_FFFF, Tick, NOTHING), (0xFFFF_FFFE, Tick, NOTHING), (5, Request, WAITS)]),
    (
        "the time of one that waits is a sum",
        0,
        60_000,
        &[(0, Request, WAITS), (30_000, Busy, NOTHING), (59_999, Tick, NOTHING), (60_000, Busy, REJECTED)],
    ),
    ("the tick wraps", u32::MAX - 9, 100, &[(u32::MAX - 9, Request, WAITS), (89, Tick, NOTHING), (90, Tick, REJECTED)]),
    (
        "the shortest T3128",
        0,
        1,
        &[(0, Request, WAITS), (0, Request, ALREADY), (0, Free, FREED), (480, Request, WAITS), (481, Free, REJECTED)],
    ),
];

pub fn scenes(tally: &mut Tally) {
    for (name, tick, t3128, events) in SCENES {
        let mut pair = Pair::of(&[0x5A; LENGTH], 1);
        pair.setup(tally, tick, t3128);
        for (i, &(tick, signal, asked_for)) in events.iter().enumerate() {
            let archive = pair.event(tally, tick, signal);
            tally.same("uplink scene", || format!("{name}, event {}", i + 1), &archive, &(0, asked_for.0, asked_for.1));
        }
    }
    // A refused setup leaves the uplink as it was, a refused event too, the clock included.
    let mut pair = Pair::of(&[0; LENGTH], 0);
    pair.setup(tally, 1_000, 100);
    pair.event(tally, 1_000, Request);
    for t3128 in [0, 60_001, 65_537, u32::MAX] {
        let refusal = pair.setup(tally, 5, t3128);
        tally.same("uplink scene: a setup out of its limits", || format!("T3128 {t3128}"), &refusal, &10);
    }
    for signal in [Free, Busy, Request, Tick] {
        for tick in [999, 1_000 + (1 << 31)] {
            let archive = pair.event(tally, tick, signal);
            tally.same("uplink scene: a step of 2^31 or more", || format!("{signal:?} {tick}"), &archive, &(9, 0, 0));
        }
    }
    let archive = pair.event(tally, 1_099, Free);
    tally.same("uplink scene: as if nothing had been", String::new, &archive, &(0, FREED.0, FREED.1));
}

// ---- At random ----

/// About `count` event steps.
pub fn run(tally: &mut Tally, cover: &mut Cover, rng: &mut Rng, count: u64) {
    let mut done = 0;
    while done < count {
        done += match rng.below(10) {
            0..=6 => from_setup(tally, cover, rng),
            7..=8 => from_any_octets(tally, cover, rng),
            _ => wrong_lengths(tally, cover, rng),
        };
    }
    cover.steps += done;
}

const TIMERS: [u32; 10] = [1, 2, 3, 100, 479, 480, 481, 5_000, 59_999, 60_000];

fn first_tick(rng: &mut Rng) -> u32 {
    match rng.below(3) {
        0 => u32::MAX - rng.below(600) as u32,
        1 => rng.below(600) as u32,
        _ => rng.next() as u32,
    }
}

fn from_setup(tally: &mut Tally, cover: &mut Cover, rng: &mut Rng) -> u64 {
    let mut pair = Pair::of(&octets(rng), rng.next() as usize);
    let t3128 = if rng.one_in(3) { 1 + rng.below(60_000) as u32 } else { rng.pick(&TIMERS) };
    pair.setup(tally, first_tick(rng), t3128);
    events(tally, cover, rng, &mut pair, STEPS_OF_A_SEQUENCE)
}

fn octets(rng: &mut Rng) -> [u8; LENGTH] {
    rng.octets(LENGTH).try_into().unwrap()
}

/// A state that no setup left: any octets, or times that are short or at their limits.
fn from_any_octets(tally: &mut Tally, cover: &mut Cover, rng: &mut Rng) -> u64 {
    let mut octets = octets(rng);
    if !rng.one_in(4) {
        let t3128 = rng.pick(&[0, 1, 100, 60_000, 60_001, u32::MAX]);
        let free = rng.pick(&[0, 0, 1, 100, 479, 480, 481, u32::MAX]);
        let wait = rng.pick(&[0, 0, 1, 100, t3128, t3128.wrapping_add(1), u32::MAX]);
        for (place, number) in octets.chunks_mut(4).zip([first_tick(rng), t3128, free, wait]) {
            place.copy_from_slice(&number.to_be_bytes());
        }
    }
    let mut pair = Pair::of(&octets, rng.next() as usize);
    events(tally, cover, rng, &mut pair, 8)
}

fn events(tally: &mut Tally, cover: &mut Cover, rng: &mut Rng, pair: &mut Pair, count: u64) -> u64 {
    // The next steps of a story, the next one last.
    let mut story: Vec<(u32, Signal)> = Vec::new();
    for _ in 0..count {
        if story.is_empty() && rng.one_in(60) {
            story = long_since_free(rng);
        }
        if rng.one_in(60) {
            let refusal = pair.setup(tally, rng.next() as u32, rng.pick(&[0, 60_001, 65_536, u32::MAX]));
            cover.count(Refused(refusal));
        }
        let (step, signal) = story.pop().unwrap_or_else(|| (step(rng, pair), signal(rng)));
        let ages = pair.second.ages();
        let archive = pair.event(tally, pair.second.tick.wrapping_add(step), signal);
        pair.cover(cover, archive, signal, ages, u64::from(step));
    }
    count
}

fn signal(rng: &mut Rng) -> Signal {
    match rng.below(10) {
        0 | 1 => Signal::Free,
        2 => Signal::Busy,
        3..=6 => Signal::Request,
        _ => Signal::Tick,
    }
}

/// A "free", then over 2^32 ms in accepted steps, then a request at which a clock of 32 bits would say that little time has passed.
fn long_since_free(rng: &mut Rng) -> Vec<(u32, Signal)> {
    let more = rng.below(FREE_FOR) as u32;
    vec![(more, Signal::Request), (2, Signal::Tick), ((1 << 31) - 1, Signal::Tick), ((1 << 31) - 1, Signal::Tick), (1, Signal::Free)]
}

/// The step to the next event: usually short, often to a limit of what is free or waits, sometimes refused.
fn step(rng: &mut Rng, pair: &Pair) -> u32 {
    let (freed, asked) = pair.second.ages();
    let until = |age: u64, limit: u64, more: u64| u32::try_from((limit + more).saturating_sub(age + 1)).unwrap_or(0) & !(1 << 31);
    match rng.below(20) {
        0..=3 => 0,
        4..=8 => 1 + rng.below(30) as u32,
        9..=11 if freed.is_some() => until(freed.unwrap_or(0), FREE_FOR, rng.below(3)),
        9..=14 if asked.is_some() => until(asked.unwrap_or(0), u64::from(pair.second.t3128), rng.below(3)),
        9..=15 => rng.below(600) as u32,
        16 => rng.below(70_000) as u32,
        17 => rng.pick(&[(1 << 31) - 1, (1 << 31) - 2, 1 << 30]),
        18 => rng.pick(&[1 << 31, (1 << 31) + 1, u32::MAX]),
        _ => (1 << 31) + rng.below(1 << 31) as u32,
    }
}

/// A lent state of another length is 13, before all else, and stays as it was.
fn wrong_lengths(tally: &mut Tally, cover: &mut Cover, rng: &mut Rng) -> u64 {
    let length = rng.pick(&[0, 1, LENGTH - 1, LENGTH + 1, 32, 10_040]);
    let octets = rng.octets(length);
    let mut state = ffi::State::new(&octets, rng.next() as usize);
    let (tick, signal) = (rng.next() as u32, signal(rng));
    let results = (feed(&mut state, tick, signal), state.uplink_setup(tick, rng.pick(&[0, 100])));
    tally.count_refusal(results.0);
    cover.count(Refused(results.0));
    let untouched = state.octets() == octets;
    let input = || format!("uplink {signal:?} {tick}, then a setup, with a state of {length} octets");
    tally.same("uplink with a state of a wrong length ((event, setup), untouched)", input, &(results, untouched), &((13, 13), true));
    1
}
