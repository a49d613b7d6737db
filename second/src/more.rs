//! More subscriptions, same answers (document 02, §10): two setups alike but for their keys, every key of the first in the second with the same
//! group keys, fed the same events. After each event every part of the answer is read, and only what may differ is left out: the counts of
//! lost halves, and what is told under the keys that are new. The archive's two states are held against each other, and the second program's
//! two receivers; the archive against the second program is the matter of `pair`.

use crate::bits::Refusal;
use crate::draft::{CallDraft, FacchDraft, NchDraft, PchDraft, Pool, SixDraft};
use crate::ffi;
use crate::pair::{event_line, feed};
use crate::receiver::*;
use crate::rng::Rng;
use crate::state::*;
use crate::steps;
use crate::tally::Tally;
use std::collections::BTreeMap;

const STEPS_OF_A_SEQUENCE: u64 = 40;
/// The header's parts before a record.
const EXPIRED_PART: usize = 0;
const DROPPED_PART: usize = 1;
const COUNT_PART: usize = 2;
const KEY_PART: usize = 3;
const TOLD_PART: usize = 4;

/// An answer: the refusal, and for each entry, one beyond the last too, all its parts.
type Parts = (Refusal, Vec<Vec<u64>>);

/// One of the two setups, on both sides.
struct Side {
    keys: Vec<u32>,
    archive: ffi::State,
    mirror: Mirror,
}

impl Side {
    fn of(rng: &mut Rng, keys: Vec<u32>) -> Side {
        let octets = rng.octets(STATE_LENGTH);
        Side { keys, archive: ffi::State::new(&octets, rng.next() as usize), mirror: Mirror::of(&octets) }
    }

    fn setup(&mut self, sets: &[u32], tick: u32, timers: Timers) -> [Refusal; 2] {
        let archive = self.archive.setup(&self.keys, sets, tick, timers);
        [archive, self.mirror.setup(&self.keys, sets, tick, timers).err().unwrap_or(0)]
    }

    /// What the archive answers, and what the second program does.
    fn event(&mut self, tick: u32, event: &Event) -> [Parts; 2] {
        let refusals = [feed(&mut self.archive, tick, event), self.mirror.event(tick, event).err().unwrap_or(0)];
        let archive = parts(|entry, part| self.archive.read(entry, part).1);
        let second = parts(|entry, part| self.mirror.read(entry, part));
        [(refusals[0], archive), (refusals[1], second)]
    }

    fn has(&self, key: u64) -> bool {
        self.keys.iter().any(|&own| u64::from(own) == key)
    }

    /// Whether a half is held on this channel under a key that the other side does not have.
    fn holds_beside(&self, channel: Channel, other: &Side) -> bool {
        let receiver = &self.mirror.receiver;
        receiver.halves.keys().any(|place| place.1 == channel && !other.has(u64::from(receiver.key_at(place.0))))
    }
}

fn parts(read: impl Fn(u32, u32) -> u64) -> Vec<Vec<u64>> {
    let count = read(0, COUNT_PART as u32).min(MOST_ENTRIES as u64) as u32;
    (0..=count).map(|entry| (0..PARTS as u32).map(|part| read(entry, part)).collect()).collect()
}

/// An answer without what more subscriptions may change in it.
fn blanked(answer: &Parts, is_new: impl Fn(u64) -> bool) -> Parts {
    let mut blank = answer.clone();
    for entry in &mut blank.1 {
        entry[EXPIRED_PART] = 0;
        entry[DROPPED_PART] = 0;
        if is_new(entry[KEY_PART]) {
            entry[TOLD_PART..=FOLLOW_COUNT_PART].fill(0);
        }
    }
    blank
}

/// Two setups, the second with more keys, and what they are fed.
struct Case {
    pool: Pool,
    first: Side,
    second: Side,
    /// What comes next of a story, the next one last.
    story: Vec<Event>,
    /// All that was done, for the reader of a difference.
    log: Vec<String>,
}

impl Case {
    fn new(tally: &mut Tally, rng: &mut Rng) -> Case {
        let pool = steps::small_pool(rng);
        let keys = steps::keys(rng, &pool);
        let sets = steps::sets(rng, &keys);
        let stays = staying(rng, keys.len());
        let of_first = |all: &[u32]| -> Vec<u32> { all.iter().zip(&stays).filter(|(_, stays)| **stays).map(|(one, _)| *one).collect() };
        let (mut first, mut second) = (Side::of(rng, of_first(&keys)), Side::of(rng, keys));
        let (tick, timers) = (steps::first_tick(rng), CHANNELS.map(|_| rng.pick(&steps::TIMES)));
        let refusals = [first.setup(&of_first(&sets), tick, timers), second.setup(&sets, tick, timers)];
        let line = format!("setup {tick} {timers:?} {:?} {sets:?}, of which the first has {:?}", second.keys, first.keys);
        tally.check(refusals == [[0; 2]; 2], || format!("  more subscriptions: a setup is refused: {refusals:?}\n  input   {line}"));
        Case { pool, first, second, story: Vec::new(), log: vec![line] }
    }

    fn is_new(&self, key: u64) -> bool {
        self.second.has(key) && !self.first.has(key)
    }

    /// The next event: of a story, or made up from what one of the two holds.
    fn next(&mut self, rng: &mut Rng) -> (u32, Event) {
        let new: Vec<u32> = self.second.keys.iter().copied().filter(|&key| self.is_new(u64::from(key))).collect();
        if self.story.is_empty() && !self.first.keys.is_empty() && !new.is_empty() && rng.one_in(10) {
            let (old, new) = (rng.pick(&self.first.keys), rng.pick(&new));
            self.story = between(rng, old, new);
            self.story.reverse();
        }
        let like = if rng.one_in(2) { &self.first.mirror.receiver } else { &self.second.mirror.receiver };
        match self.story.pop() {
            Some(event) => (like.tick.wrapping_add(rng.below(2) as u32), event),
            None => {
                let event = steps::event(rng, like, &self.pool);
                (steps::tick(rng, like), event)
            }
        }
    }
}

/// A half of a call on a channel, on the NCH with an NLN or none.
fn half(rng: &mut Rng, channel: Channel, key: u32, second: bool, nln: Option<u64>) -> Event {
    let call = CallDraft::plain(key, 3);
    let call = if second { call } else { call.on(rng.below(1 << 24) & !0x1000) };
    let vstk_rand = second.then(|| rng.below(1 << 36));
    match channel {
        Channel::Nch => {
            let six = SixDraft { random: vec![(u64::from(second), vstk_rand)], ..SixDraft::default() };
            Event::Nch(NchDraft { nln, calls: vec![call], six: Some(six), ..NchDraft::default() }.octets())
        }
        Channel::Facch => Event::Facch(FacchDraft { six: Some((None, vstk_rand)), ..FacchDraft::of(call) }.octets()),
        Channel::Pch => Event::Pch(PchDraft { vstk_rand, ..PchDraft::of(call) }.numbers()),
    }
}

/// The halves of a call that both setups have, and between them what is a new call's alone: a half of it on the same channel, a clear call with
/// an NLN and a count, or that it was joined.
fn between(rng: &mut Rng, old: u32, new: u32) -> Vec<Event> {
    let (channel, nln) = (rng.pick(&CHANNELS), rng.below(4));
    let first = half(rng, channel, old, false, Some(nln));
    let other = match rng.below(4) {
        0 => Event::Joined(new),
        1 => {
            let six = SixDraft { count: Some(rng.below(4)), ..SixDraft::default() };
            let calls = vec![CallDraft::plain(new, 0).on(rng.below(1 << 24) & !0x1000)];
            Event::Nch(NchDraft { nln: Some(rng.below(4)), calls, six: Some(six), ..NchDraft::default() }.octets())
        }
        which => half(rng, channel, new, which == 2, None),
    };
    vec![first, other, half(rng, channel, old, true, None)]
}

/// What the pairs of setups met.
#[derive(Clone, Copy, Debug, PartialEq, Eq, PartialOrd, Ord)]
enum Met {
    /// Under a key of both setups this number was told.
    Told(u64),
    /// Beside 2 or 3 under a key of both: no key, no count or follow.
    Followed(u64),
    /// Under a new key the second setup was told this number.
    New(u64),
    /// An entry under a key of neither.
    Neither,
    /// An entry under a key of both, and one under a new key, in one message.
    Beside,
    /// A call of both setups was joined while a half under a new key was held on its channel.
    JoinedBeside,
    /// A join of a new key, or an entry of the PCH under one, took a half under a key of both.
    Took,
    /// The second setup lost more halves: by their timers, or dropped.
    MoreExpired,
    MoreDropped,
    Refused,
    /// A key of both setups stands at another place in the second.
    Moved,
    /// The first setup has no key, and the second some.
    NoKeys,
}

use Met::*;

/// How often each is met at least in 10,000 steps: about a third of what the usual seed gives.
const LEAST: [(Met, u64); 28] = [
    (Told(1), 50),
    (Told(2), 40),
    (Told(3), 130),
    (Told(4), 450),
    (Told(5), 20),
    (Told(6), 210),
    (Told(7), 110),
    (Told(8), 35),
    (Followed(1), 80),
    (Followed(2), 17),
    (Followed(3), 80),
    (New(1), 110),
    (New(2), 55),
    (New(3), 29),
    (New(4), 280),
    (New(5), 16),
    (New(6), 270),
    (New(7), 130),
    (New(8), 35),
    (Neither, 300),
    (Beside, 65),
    (JoinedBeside, 45),
    (Took, 80),
    (MoreExpired, 130),
    (MoreDropped, 80),
    (Refused, 760),
    (Moved, 45),
    (NoKeys, 15),
];
const STEPS: u64 = 10_000;

/// The comparison, with what it met so far.
#[derive(Default)]
pub struct More {
    steps: u64,
    met: BTreeMap<Met, u64>,
}

impl More {
    /// About `count` steps, each on both setups.
    pub fn run(&mut self, tally: &mut Tally, rng: &mut Rng, count: u64) {
        for _ in 0..count.div_ceil(STEPS_OF_A_SEQUENCE) {
            self.sequence(tally, rng);
        }
    }

    fn meet(&mut self, met: Met, times: bool) {
        *self.met.entry(met).or_default() += u64::from(times);
    }

    fn sequence(&mut self, tally: &mut Tally, rng: &mut Rng) {
        let mut case = Case::new(tally, rng);
        let (first, second) = (&case.first.keys, &case.second.keys);
        self.meet(Moved, first.iter().zip(second).any(|(one, other)| one != other));
        self.meet(NoKeys, first.is_empty() && !second.is_empty());
        for _ in 0..STEPS_OF_A_SEQUENCE {
            self.step(tally, rng, &mut case);
        }
        self.steps += STEPS_OF_A_SEQUENCE;
    }

    /// One event, fed to both.
    fn step(&mut self, tally: &mut Tally, rng: &mut Rng, case: &mut Case) {
        let (tick, event) = case.next(rng);
        case.log.push(event_line(tick, &event));
        let channel = match event {
            Event::Nch(_) => Channel::Nch,
            Event::Facch(_) => Channel::Facch,
            _ => Channel::Pch,
        };
        let beside = case.second.holds_beside(channel, &case.first);
        let (one, other) = (case.first.event(tick, &event), case.second.event(tick, &event));
        for (who, which) in [("the second program", 1), ("the archive", 0)] {
            let blank = |answer: &[Parts; 2]| blanked(&answer[which], |key| case.is_new(key));
            let (left, right) = (blank(&one), blank(&other));
            tally.check(left == right, || {
                format!("  more subscriptions, {who}\n  input   {}\n  first   {left:?}\n  second  {right:?}", case.log.join("\n          "))
            });
        }
        self.count(case, &event, beside, [&one[0], &other[0]]);
    }

    /// What the archive's two answers were.
    fn count(&mut self, case: &Case, event: &Event, beside: bool, [one, other]: [&Parts; 2]) {
        self.meet(Refused, one.0 != 0);
        if one.0 != 0 {
            return;
        }
        let (mut old, mut new) = (false, false);
        for entry in &other.1[..other.1[0][COUNT_PART] as usize] {
            let (key, told) = (entry[KEY_PART], entry[TOLD_PART]);
            old |= case.first.has(key);
            new |= case.is_new(key);
            self.meet(Neither, !case.second.has(key));
            if case.first.has(key) {
                self.meet(Told(told), true);
                self.meet(Followed(entry[FOLLOW_PART]), entry[FOLLOW_PART] != 0);
                self.meet(JoinedBeside, told == 3 && beside);
            } else if case.is_new(key) {
                self.meet(New(told), true);
            }
        }
        self.meet(Beside, old && new);
        self.meet(MoreExpired, other.1[0][EXPIRED_PART] > one.1[0][EXPIRED_PART]);
        self.meet(MoreDropped, other.1[0][DROPPED_PART] > one.1[0][DROPPED_PART]);
        let by_new = match event {
            Event::Joined(key) => case.is_new(u64::from(*key)),
            Event::Pch(numbers) => case.is_new(numbers[0]),
            _ => false,
        };
        self.meet(Took, by_new && one.1[0][DROPPED_PART] > 0);
    }

    /// Shows what was met how often; what was met too seldom fails.
    pub fn finish(&self, tally: &mut Tally) {
        println!("met in {} steps of two setups, and how often each must be at least:", self.steps);
        for (met, least) in LEAST {
            let (count, least) = (self.met.get(&met).copied().unwrap_or(0), least * self.steps / STEPS);
            println!("  {:28} {count:>8} {least:>8}{}", format!("{met:?}"), if count < least { "  met too seldom" } else { "" });
            tally.failed += u64::from(count < least);
        }
    }
}

/// Which of so many keys the first setup has too: none, one, all but one, or about half.
fn staying(rng: &mut Rng, count: usize) -> Vec<bool> {
    let one = rng.below(count.max(1) as u64) as usize;
    match rng.below(8) {
        0 => vec![false; count],
        1 => (0..count).map(|place| place == one).collect(),
        2 | 3 => (0..count).map(|place| place != one).collect(),
        _ => (0..count).map(|_| rng.one_in(2)).collect(),
    }
}
