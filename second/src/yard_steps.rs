//! Event sequences at random for the yard set, and what they must have met: calls that come, are replaced, and go by each way; times of exactly 30,000 ms;
//! what is refused, and leaves every octet; states that no setup left.

use crate::bits::{number_of, NOT_FOR_YARD};
use crate::draft::{CallDraft, FacchDraft, NchDraft, PchDraft, Pool, SixDraft};
use crate::receiver::*;
use crate::rng::Rng;
use crate::state::*;
use crate::tally::Tally;
use crate::yard::{is_taken, wrong_length, Call, Yards, MOST_CALLS, SHOWN, YARD_LENGTH};
use std::collections::BTreeMap;

const STEPS_OF_A_SEQUENCE: u64 = 40;

#[derive(Clone, Copy, Debug, PartialEq, Eq, PartialOrd, Ord)]
pub enum Met {
    /// So many calls are shown behind an accepted event.
    Shown(usize),
    /// A call that was told this number was shown where none was, or in the place of an older one.
    Came(u64),
    Replaced(u64),
    /// A message has two complete records of one key.
    Twice,
    /// A call of 29,999 ms stayed; one of 30,000 ms went, and an older one; one that ran out came anew with the same message.
    Stayed,
    RanOut,
    RanOutLong,
    RanOutAndCame,
    /// A reselection took calls away, or another NLN; one that it took away came back with the same message.
    Reselected,
    OtherNln,
    BroughtBack,
    /// The first NLN of the first cell left the calls; that of a later cell did, though it is unlike the last of the cell before.
    FirstNln,
    NewCell,
    /// Calls outlived that one of them was joined, or another call.
    Joined(bool),
    /// A call is shown with the count of then, which is another one now; or as without a count, and one is kept now.
    CountSince,
    CountedSince,
    /// A half was stored of a call that is shown.
    HalfBeside,
    /// A call is shown that came before the clock wrapped.
    Wrapped,
    /// An event that a yard set takes was refused with this number while calls were shown.
    Refused(u32),
    /// One that it does not take was refused while calls were shown, at a tick that the clock refuses, or not: FACCH, PCH, handed over, reconfigured, left idle.
    NotTaken(usize, bool),
    /// A setup was refused for an odd key alone, for a ninth key alone, or for what a receiver refuses too; one was accepted while calls were shown.
    OddKey,
    NineKeys,
    SetupRefused,
    SetUpAnew,
    /// A state of another length, and octets that no setup left, with so many calls in them.
    OtherLength,
    AnyOctets,
}

use Met::*;

/// How often each is met at least in 10,000 steps: about a third of what the usual seed gives.
const LEAST: &[(Met, u64)] = &[
    (Shown(0), 693),
    (Shown(1), 1179),
    (Shown(2), 488),
    (Shown(3), 198),
    (Shown(4), 66),
    (Shown(5), 16),
    (Shown(6), 7),
    (Shown(7), 10),
    (Shown(8), 10),
    (Came(1), 621),
    (Came(2), 225),
    (Came(3), 99),
    (Replaced(1), 220),
    (Replaced(2), 98),
    (Replaced(3), 35),
    (Twice, 220),
    (Stayed, 177),
    (RanOut, 135),
    (RanOutLong, 424),
    (RanOutAndCame, 98),
    (Reselected, 45),
    (OtherNln, 112),
    (BroughtBack, 15),
    (FirstNln, 20),
    (NewCell, 91),
    (Joined(false), 59),
    (Joined(true), 29),
    (CountSince, 71),
    (CountedSince, 20),
    (HalfBeside, 304),
    (Wrapped, 25),
    (Refused(1), 12),
    (Refused(2), 3),
    (Refused(4), 20),
    (Refused(9), 140),
    (Refused(12), 18),
    (NotTaken(0, false), 63),
    (NotTaken(0, true), 4),
    (NotTaken(1, false), 65),
    (NotTaken(1, true), 3),
    (NotTaken(2, false), 61),
    (NotTaken(2, true), 4),
    (NotTaken(3, false), 66),
    (NotTaken(3, true), 4),
    (NotTaken(4, false), 65),
    (NotTaken(4, true), 4),
    (OddKey, 29),
    (NineKeys, 18),
    (SetupRefused, 22),
    (SetUpAnew, 4),
    (OtherLength, 7),
    (AnyOctets, 15),
];

const STEPS: u64 = 10_000;

#[derive(Default)]
pub struct YardCover {
    pub steps: u64,
    counts: BTreeMap<Met, u64>,
}

impl YardCover {
    fn count(&mut self, met: Met) {
        *self.counts.entry(met).or_default() += 1;
    }

    /// Shows what was met how often; gives how many were met too seldom.
    pub fn finish(&self) -> u64 {
        println!("met in {} random steps of yard sets, and how often each must be at least:", self.steps);
        let mut seldom = 0;
        for (met, least) in LEAST {
            let (count, least) = (self.counts.get(met).copied().unwrap_or(0), least * self.steps / STEPS);
            println!("  {:28} {count:>8} {least:>8}{}", format!("{met:?}"), if count < least { "  met too seldom" } else { "" });
            seldom += u64::from(count < least);
        }
        seldom
    }
}

/// About `count` steps.
pub fn run(tally: &mut Tally, rng: &mut Rng, count: u64) {
    let mut done = 0;
    while done < count {
        done += match rng.below(12) {
            0..=8 => from_setup(tally, rng),
            9 | 10 => from_any_octets(tally, rng),
            _ => of_another_length(tally, rng),
        };
    }
    tally.yards.steps += done;
}

/// Few even keys mostly, so that calls meet; all eight now and then, and the first and the last that there are.
fn keys(rng: &mut Rng) -> Vec<u32> {
    let count = if rng.one_in(3) { MOST_CALLS } else { 1 + rng.below(4) as usize };
    let mut keys: Vec<u32> = (0..count).map(|_| 2 * rng.below(100_000_000) as u32).collect();
    if rng.one_in(4) {
        keys[0] = rng.pick(&[0, 199_999_998]);
    }
    keys.sort_unstable();
    keys.dedup();
    keys
}

fn sets(rng: &mut Rng, count: usize) -> Vec<u32> {
    (0..count).map(|_| rng.pick(&[1 << 3, 1 << 3, 0xFFFE, 1 << 4, 0])).collect()
}

/// A setup with one thing in it that is mostly refused.
fn doubtful_setup(tally: &mut Tally, rng: &mut Rng, yards: &mut Yards, good: &[u32]) {
    let (mut keys, mut timers) = (good.to_vec(), [5_000; CHANNELS.len()]);
    let mut met = SetupRefused;
    match rng.below(8) {
        0..=2 => {
            let place = rng.below(keys.len() as u64) as usize;
            keys[place] += 1;
            met = OddKey;
        }
        3 | 4 => {
            keys = (0..9 + rng.below(3) as u32).map(|i| 2 * i).collect();
            met = NineKeys;
        }
        5 => keys = (0..8).map(|i| 2 * i).collect(),
        6 => timers[rng.below(3) as usize] = rng.pick(&[0, 60_001]),
        _ => keys.push(keys[0]),
    }
    let mut sets = sets(rng, keys.len());
    if met == SetupRefused && rng.one_in(4) {
        sets.push(0);
    }
    let shown = yards.past.calls().iter().flatten().count();
    let tick = rng.next() as u32;
    let refusal = yards.setup(tally, &keys, &sets, tick, timers);
    if refusal != 0 {
        tally.yards.count(met);
    } else if shown > 0 {
        tally.yards.count(SetUpAnew);
    }
}

fn first_tick(rng: &mut Rng) -> u32 {
    match rng.below(3) {
        0 => u32::MAX - rng.below(40_000) as u32,
        1 => rng.below(1_000) as u32,
        _ => rng.next() as u32,
    }
}

fn from_setup(tally: &mut Tally, rng: &mut Rng) -> u64 {
    let keys = keys(rng);
    let mut garbage = rng.octets(YARD_LENGTH);
    for place in 0..MOST_CALLS {
        garbage[STATE_LENGTH + 80 * place + 16] = rng.pick(&[0, 1, 2, 3, 4, 255]);
    }
    let mut yards = Yards::of(&garbage, rng.next() as usize);
    if rng.one_in(2) {
        doubtful_setup(tally, rng, &mut yards, &keys);
    }
    let timers = [rng.pick(&[1, 5_000, 10_000, 60_000]), 5_000, 5_000];
    let sets = sets(rng, keys.len());
    yards.setup(tally, &keys, &sets, first_tick(rng), timers);
    steps(tally, rng, &mut yards, STEPS_OF_A_SEQUENCE);
    if rng.one_in(2) {
        doubtful_setup(tally, rng, &mut yards, &keys);
        steps(tally, rng, &mut yards, 2);
    }
    STEPS_OF_A_SEQUENCE
}

/// The receiver's part of an accepted setup, with anything else; or any octets at all.
fn from_any_octets(tally: &mut Tally, rng: &mut Rng) -> u64 {
    let mut octets = rng.octets(YARD_LENGTH);
    if !rng.one_in(4) {
        let keys = keys(rng);
        let mut mirror = Mirror::of(&octets[..STATE_LENGTH]);
        let sets = sets(rng, keys.len());
        mirror.setup(&keys, &sets, first_tick(rng), [5_000; CHANNELS.len()]).expect("a right setup");
        octets[..STATE_LENGTH].copy_from_slice(&mirror.octets);
        octets[NLN] = rng.pick(&[0, 1, 2, 3, 4, 5, 255]);
        // More keys than places, in any order, and some twice.
        if rng.one_in(4) {
            octets[N_KEYS] = rng.pick(&[9, 20, 50, 255]);
            for i in 0..MOST_KEYS {
                let key = if rng.one_in(2) { rng.pick(&keys) } else { 2 * rng.below(1_000) as u32 };
                octets[KEYS + 4 * i..KEYS + 4 * i + 4].copy_from_slice(&key.to_le_bytes());
            }
        }
        let tick = mirror.receiver.tick;
        for place in 0..MOST_CALLS {
            let at = STATE_LENGTH + 80 * place;
            let age = rng.pick(&[0, 1, 1_000, 29_999, 30_000, 30_001, 1 << 31, u32::MAX, u32::MAX - 500]);
            octets[at..at + 4].copy_from_slice(&tick.wrapping_sub(age).to_le_bytes());
            octets[at + 16] = rng.pick(&[0, 0, 1, 2, 3, 4, 8, 255]);
        }
    }
    let mut yards = Yards::of(&octets, rng.next() as usize);
    if yards.past.calls().iter().flatten().count() > 0 {
        tally.yards.count(AnyOctets);
    }
    steps(tally, rng, &mut yards, 6);
    6
}

fn of_another_length(tally: &mut Tally, rng: &mut Rng) -> u64 {
    let length = match rng.below(4) {
        0 => rng.below(YARD_LENGTH as u64) as usize,
        _ => rng.pick(&[0, 1, STATE_LENGTH, YARD_LENGTH - 1, YARD_LENGTH + 1]),
    };
    let yards = Yards::of(&[0; YARD_LENGTH], 0);
    let (octets, tick, event) = (rng.octets(length), rng.next() as u32, event(rng, &yards));
    wrong_length(tally, &octets, tick, &event);
    tally.yards.count(OtherLength);
    1
}

fn steps(tally: &mut Tally, rng: &mut Rng, yards: &mut Yards, count: u64) {
    // What comes next of a story, the next one last.
    let mut story: Vec<Event> = Vec::new();
    for _ in 0..count {
        if story.is_empty() && rng.one_in(30) {
            story = if rng.one_in(4) { all_calls(rng, yards) } else { new_cell(rng, yards) };
        }
        let in_story = !story.is_empty();
        let event = story.pop().unwrap_or_else(|| event(rng, yards));
        let tick = if in_story { yards.mirror.receiver.tick.wrapping_add(rng.below(100) as u32) } else { tick(rng, yards) };
        let (before, last) = (yards.past.calls(), yards.mirror.receiver.tick);
        let held = yards.mirror.receiver.halves.len();
        let refusal = yards.event(tally, tick, &event);
        let halves = yards.mirror.receiver.halves.len() > held;
        count_met(tally, yards, &Step { before, step: tick.wrapping_sub(last), event, refusal, halves });
    }
}

/// An NLN, another cell, a call there, and another NLN, which is the first of that cell; backwards.
fn new_cell(rng: &mut Rng, yards: &Yards) -> Vec<Event> {
    let nln = rng.below(4);
    let with_nln = |nln: u64| Event::Nch(NchDraft { nln: Some(nln), ..NchDraft::default() }.octets());
    let call = CallDraft::plain(some_key(rng, yards), 0).on(rng.below(1 << 24) & !0x1000);
    let call = Event::Nch(NchDraft { calls: vec![call], ..NchDraft::default() }.octets());
    vec![with_nln((nln + 1 + rng.below(3)) % 4), call, Event::Reselected, with_nln(nln)]
}

/// A clear call of each key.
fn all_calls(rng: &mut Rng, yards: &Yards) -> Vec<Event> {
    let mut call = |&key: &u32| {
        let call = CallDraft::plain(key % 200_000_000, 0).on(rng.below(1 << 24) & !0x1000);
        Event::Nch(NchDraft { calls: vec![call], ..NchDraft::default() }.octets())
    };
    yards.mirror.receiver.keys.iter().take(MOST_CALLS).map(&mut call).collect()
}

/// The next tick: mostly soon, often when a call is as old as it may be, or a millisecond off, sometimes refused.
fn tick(rng: &mut Rng, yards: &Yards) -> u32 {
    let last = yards.mirror.receiver.tick;
    let calls: Vec<Call> = yards.past.calls().into_iter().flatten().collect();
    let near = SHOWN as u32 - 1 + rng.below(3) as u32;
    match rng.below(40) {
        0..=13 => last,
        14..=22 => last.wrapping_add(1 + rng.below(1_000) as u32),
        23..=30 if !calls.is_empty() => {
            let at = calls[rng.below(calls.len() as u64) as usize].since.wrapping_add(near);
            if at.wrapping_sub(last) < 1 << 31 {
                at
            } else {
                last
            }
        }
        31 => last.wrapping_add(near),
        32 => last.wrapping_add(rng.pick(&[(1 << 31) - 1, 60_000, 31_000])),
        33 | 34 => last.wrapping_add(1 << 31),
        35 => last.wrapping_sub(1 + rng.below(3) as u32),
        _ => last.wrapping_add(rng.below(10_000) as u32),
    }
}

fn some_key(rng: &mut Rng, yards: &Yards) -> u32 {
    let keys = &yards.mirror.receiver.keys;
    if keys.is_empty() || rng.one_in(12) {
        rng.below(200_000_000) as u32
    } else {
        rng.pick(keys) % 200_000_000
    }
}

fn event(rng: &mut Rng, yards: &Yards) -> Event {
    let key = some_key(rng, yards);
    match rng.below(64) {
        0..=37 => message(rng, yards),
        38 => Event::Nch(Pool { references: vec![u64::from(key / 2)] }.nch(rng).octets().into_iter().take(20).collect()),
        39 => {
            let length = if rng.one_in(2) { 20 } else { rng.below(24) as usize };
            Event::Nch(rng.octets(length))
        }
        40..=43 => Event::Joined(if rng.one_in(8) { rng.pick(&[200_000_000, u32::MAX]) } else { key ^ u32::from(rng.one_in(4)) }),
        44 => Event::Reselected,
        45..=49 => Event::Bit(if rng.one_in(8) { 2 } else { rng.below(2) as u32 }),
        50 | 51 => Event::Facch(FacchDraft::of(CallDraft::plain(key, 0).on(0x0A_4123)).octets()),
        52 | 53 => Event::Pch(PchDraft::of(CallDraft::plain(key, 0).on(0x0A_4123)).numbers()),
        54 | 55 => Event::HandedOver,
        56 | 57 => Event::Reconfigured,
        58 | 59 => Event::LeftIdle,
        _ => Event::Tick,
    }
}

/// A call of ours in each of its shapes: clear, in one piece, or a half, mostly the one that is missing; sometimes two clear ones, of one key or of two.
fn message(rng: &mut Rng, yards: &Yards) -> Event {
    let receiver = &yards.mirror.receiver;
    let held = receiver.halves.iter().next().filter(|_| rng.one_in(2));
    let key = held.map_or(some_key(rng, yards), |(place, _)| receiver.key_at(place.0) % 200_000_000);
    let shape = match held {
        Some((_, half)) if half.segment == Segment::First => 5,
        Some(_) => 4,
        None => rng.below(8),
    };
    let channel = |rng: &mut Rng| rng.below(1 << 24) & !0x1000;
    let cipher = if rng.one_in(4) { 1 + rng.below(15) } else { 3 };
    let mut six = SixDraft { count: rng.one_in(3).then(|| rng.below(4)), ..SixDraft::default() };
    let mut calls = Vec::new();
    match shape {
        0 | 1 => calls.push(CallDraft::plain(key, 0).on(channel(rng))),
        2 | 3 => {
            calls.push(CallDraft::plain(key, cipher).on(channel(rng)));
            six.random.push((0, Some(rng.below(1 << 36))));
        }
        4 => {
            calls.push(CallDraft::plain(key, 3).on(channel(rng)));
            six.random.push((0, None));
        }
        5 => {
            calls.push(CallDraft::plain(key, 3));
            six.random.push((1, Some(rng.below(1 << 36))));
        }
        _ => {
            let another = if rng.one_in(2) { key } else { some_key(rng, yards) };
            calls.extend([key, another].map(|key| CallDraft::plain(key, 0).on(channel(rng))));
        }
    }
    let nln = match receiver.nln.filter(|&nln| nln < 4) {
        _ if rng.one_in(2) => None,
        Some(last) if !rng.one_in(8) => Some(u64::from(last)),
        _ => Some(rng.below(4)),
    };
    let mut octets = NchDraft { nln, calls, six: Some(six), seven: None }.octets();
    octets.truncate(20);
    Event::Nch(octets)
}

/// One step: what was shown before it, and what came of it.
struct Step {
    before: Vec<Option<Call>>,
    step: u32,
    event: Event,
    refusal: u32,
    halves: bool,
}

fn count_met(tally: &mut Tally, yards: &Yards, step: &Step) {
    let mut met = |what: Met| tally.yards.count(what);
    let shown = step.before.iter().flatten().count();
    if step.refusal != 0 {
        let late = step.step >= 1 << 31;
        if shown > 0 && is_taken(&step.event) {
            met(Refused(number_of(step.refusal)));
        } else if shown > 0 && step.refusal == NOT_FOR_YARD {
            let kinds = [Event::HandedOver, Event::Reconfigured, Event::LeftIdle];
            let kind = match &step.event {
                Event::Facch(_) => 0,
                Event::Pch(_) => 1,
                event => 2 + kinds.iter().position(|kind| kind == event).expect("what is not taken"),
            };
            met(NotTaken(kind, late));
        }
        return;
    }
    let number = yards.past.moments.len() - 1;
    let after = yards.past.calls();
    met(Shown(after.iter().flatten().count()));
    // Those that had not run out when the event came.
    let alive = |call: &&Call| call.age + u64::from(step.step) < SHOWN;
    let alive_before = step.before.iter().flatten().filter(alive).count() > 0;
    let other_nln = yards.past.changes_nln(number);
    for (place, (old, new)) in step.before.iter().zip(&after).enumerate() {
        let told = yards.past.told_at(number, place);
        let age = old.as_ref().map(|old| old.age + u64::from(step.step));
        match (age, new) {
            (Some(SHOWN..), Some(_)) => met(RanOutAndCame),
            (Some(SHOWN), None) => met(RanOut),
            (Some(SHOWN..), None) => met(RanOutLong),
            (Some(29_999), Some(new)) if told.is_empty() && new.age == 29_999 => met(Stayed),
            _ => {}
        }
        if let (Some(last), Some(_)) = (told.last(), new) {
            let stood = age.is_some_and(|age| age < SHOWN);
            met(if stood && !other_nln { Replaced(*last) } else { Came(*last) });
            if stood && other_nln {
                met(BroughtBack);
            }
        }
        if told.len() > 1 {
            met(Twice);
        }
        let Some(new) = new else { continue };
        let kept = yards.mirror.receiver.count;
        match new.told.follow {
            (3, count) if told.is_empty() && kept != Some(count) => met(CountSince),
            (2, _) if told.is_empty() && kept.is_some() => met(CountedSince),
            _ => {}
        }
        if new.since > yards.mirror.receiver.tick {
            met(Wrapped);
        }
        if step.halves && told.is_empty() {
            met(HalfBeside);
        }
    }
    if !alive_before {
        return;
    }
    match &step.event {
        Event::Reselected => met(Reselected),
        Event::Nch(_) if other_nln => met(OtherNln),
        Event::Nch(_) => match yards.past.first_nln(number) {
            Some(None) => met(FirstNln),
            Some(Some(true)) => met(NewCell),
            _ => {}
        },
        Event::Joined(key) => met(Joined(step.before.iter().flatten().any(|call| call.told.key == u64::from(*key)))),
        _ => {}
    }
}
