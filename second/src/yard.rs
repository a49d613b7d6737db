//! The yard set (document 02, §13), beside the library's over one lent state.
//!
//! No call is stored here. What is shown is worked out from all events that were accepted since the setup, with the receiver's answers to them: the
//! last complete record of a key, unless something has taken it away since. Octets that no setup left may have calls in them, with which all begins.

use crate::bits::{Refusal, NOT_FOR_YARD, SETUP};
use crate::ffi::{self, archive};
use crate::messages::filled;
use crate::nch;
use crate::one::{One, Seen};
use crate::pair::event_line;
use crate::receiver::*;
use crate::state::*;
use crate::tally::{hex, Tally};

pub const MOST_CALLS: usize = 8;
/// A call is gone when so many ms have passed with no complete record for it.
pub const SHOWN: u64 = 30_000;
/// A place has the tick of the record, four octets that are not used, and an entry as an answer has it.
const PLACE_OCTETS: usize = 8 + ENTRY_OCTETS;
pub const YARD_LENGTH: usize = STATE_LENGTH + MOST_CALLS * PLACE_OCTETS;
const _: () = assert!(YARD_LENGTH == 10_896);
/// Key, number told, record, whether it can be followed with which count, age.
pub const CALL_NUMBERS: usize = ENTRY_NUMBERS + 1;

/// An accepted event: its tick, how long after the one before it came, and what matters of it; each entry stands with the place of its key.
#[derive(Clone)]
pub struct Moment {
    tick: u32,
    step: u32,
    nln: Option<u64>,
    reselected: bool,
    told: Vec<(Option<usize>, Told)>,
}

/// A call that is shown.
#[derive(Clone, Debug, PartialEq)]
pub struct Call {
    pub told: Told,
    pub since: u32,
    pub age: u64,
}

/// What a set begins with, which after a setup is nothing, and all moments since, the latest last.
#[derive(Clone, Default)]
pub struct Past {
    nln: Option<u64>,
    calls: Vec<Option<Call>>,
    pub moments: Vec<Moment>,
}

fn is_complete(told: &Told) -> bool {
    (1..=3).contains(&told.number)
}

impl Past {
    /// The last NLN of the cell, before the moment of this number.
    pub fn nln_before(&self, number: usize) -> Option<u64> {
        for moment in self.moments[..number].iter().rev() {
            if moment.reselected {
                return None;
            }
            if moment.nln.is_some() {
                return moment.nln;
            }
        }
        self.nln
    }

    /// Whether this moment has another NLN than the last of its cell; the first of a cell is no other.
    pub fn changes_nln(&self, number: usize) -> bool {
        let (now, before) = (self.moments[number].nln, self.nln_before(number));
        now.is_some() && before.is_some() && now != before
    }

    /// The call of a place: the last complete record of its key, unless the cell was left or its NLN changed behind it, or it has run out. Of one message the last record
    /// counts, and a message that changes the NLN takes only earlier ones away.
    pub fn call(&self, place: usize) -> Option<Call> {
        let mut age = 0;
        for (number, moment) in self.moments.iter().enumerate().rev() {
            let own = moment.told.iter().rev().find(|(at, told)| *at == Some(place) && is_complete(told));
            if let Some((_, told)) = own {
                return (age < SHOWN).then(|| Call { told: told.clone(), since: moment.tick, age });
            }
            if moment.reselected || self.changes_nln(number) {
                return None;
            }
            age += u64::from(moment.step);
        }
        let call = self.calls.get(place).cloned().flatten()?;
        let age = |moment: &Moment| u64::from(moment.tick.wrapping_sub(call.since));
        let stays = self.moments.iter().all(|moment| age(moment) < SHOWN);
        stays.then(|| Call { age: self.moments.last().map_or(call.age, age), ..call.clone() })
    }

    /// The numbers of the complete records that this moment has for a place.
    pub fn told_at(&self, number: usize, place: usize) -> Vec<u64> {
        let own = self.moments[number].told.iter().filter(|(at, told)| *at == Some(place) && is_complete(told));
        own.map(|(_, told)| told.number).collect()
    }

    /// Where this moment has the first NLN of its cell: none where no cell was left, else whether it is unlike the last of the cell before.
    pub fn first_nln(&self, number: usize) -> Option<Option<bool>> {
        let now = self.moments[number].nln?;
        if self.nln_before(number).is_some() {
            return None;
        }
        let left = self.moments[..number].iter().rposition(|moment| moment.reselected);
        Some(left.map(|left| self.nln_before(left).is_some_and(|last| last != now)))
    }

    pub fn calls(&self) -> Vec<Option<Call>> {
        (0..MOST_CALLS).map(|place| self.call(place)).collect()
    }
}

/// The calls that stand in octets, whoever wrote them: a place whose number told is not 1 to 3 has none.
fn calls_in(octets: &[u8]) -> Vec<Option<Call>> {
    let each = |place: usize| {
        let at = STATE_LENGTH + PLACE_OCTETS * place;
        let entry = at + 8;
        let record = Some(get_record(octets, entry + 16));
        let follow = (get(octets, entry + 9, 1), get(octets, entry + 10, 1));
        let (tick, since) = (get(octets, 0, 4) as u32, get(octets, at, 4) as u32);
        let told = Told { key: get(octets, entry, 8), number: get(octets, entry + 8, 1), record, follow };
        is_complete(&told).then(|| Call { told, since, age: u64::from(tick.wrapping_sub(since)) })
    };
    (0..MOST_CALLS).map(each).collect()
}

/// The octets of the places, where a setup left them: all zero where no call is.
fn octets_of(calls: &[Option<Call>]) -> Vec<u8> {
    let mut octets = vec![0; MOST_CALLS * PLACE_OCTETS];
    for (place, call) in calls.iter().enumerate() {
        let Some(Call { told, since, .. }) = call else { continue };
        let (at, entry) = (PLACE_OCTETS * place, PLACE_OCTETS * place + 8);
        put(&mut octets, at, 4, u64::from(*since));
        put(&mut octets, entry, 8, told.key);
        put(&mut octets, entry + 8, 1, told.number);
        put(&mut octets, entry + 9, 1, told.follow.0);
        put(&mut octets, entry + 10, 1, told.follow.1);
        put_record(&mut octets, entry + 16, &told.record.unwrap_or_default());
    }
    octets
}

fn numbers_of_call(call: &Call) -> Vec<u64> {
    let record = call.told.record.as_ref().map_or([0; RECORD_NUMBERS], numbers_of);
    let follow = call.told.follow;
    [&[call.told.key, call.told.number][..], &record, &[follow.0, follow.1, call.age]].concat()
}

/// What a yard set does not take is refused before the clock is looked at.
pub fn is_taken(event: &Event) -> bool {
    matches!(event, Event::Nch(_) | Event::Joined(_) | Event::Reselected | Event::Bit(_) | Event::Tick)
}

pub fn feed(state: &mut ffi::State, tick: u32, event: &Event) -> Refusal {
    match event {
        Event::Nch(octets) => state.with_octets(archive::asternhaken_yard_nch, tick, octets),
        Event::Facch(octets) => state.with_octets(archive::asternhaken_yard_facch, tick, octets),
        Event::Pch(numbers) => state.with_entry(archive::asternhaken_yard_pch, tick, numbers),
        Event::Joined(key) => state.with_number(archive::asternhaken_yard_joined, tick, *key),
        Event::Reselected => state.plain(archive::asternhaken_yard_reselected, tick),
        Event::HandedOver => state.plain(archive::asternhaken_yard_handed_over, tick),
        Event::Reconfigured => state.plain(archive::asternhaken_yard_reconfigured, tick),
        Event::LeftIdle => state.plain(archive::asternhaken_yard_left_idle, tick),
        Event::Bit(value) => state.with_number(archive::asternhaken_yard_bit_22, tick, *value),
        Event::Tick => state.plain(archive::asternhaken_yard_tick, tick),
    }
}

/// The library's yard set and this one.
pub struct Yards {
    archive: ffi::State,
    /// The receiver inside.
    pub mirror: Mirror,
    pub past: Past,
    /// For each key, from a setup on, the receiver of that call alone on the NCH, and the past of what that one tells.
    alone: Vec<(One, Past)>,
    from_setup: bool,
    start: Vec<u8>,
    log: Vec<String>,
}

impl Yards {
    /// Octets that no setup left.
    pub fn of(octets: &[u8], shift: usize) -> Yards {
        let mirror = Mirror::of(&octets[..STATE_LENGTH]);
        let past = Past { nln: mirror.receiver.nln.map(u64::from), calls: calls_in(octets), moments: Vec::new() };
        Yards {
            archive: ffi::State::new(octets, shift),
            mirror,
            past,
            alone: Vec::new(),
            from_setup: false,
            start: octets.to_vec(),
            log: Vec::new(),
        }
    }

    fn story(&self) -> String {
        let start = if self.from_setup { String::new() } else { format!("state {}\n          ", hex(&self.start)) };
        format!("{start}{}", self.log.join("\n          "))
    }

    pub fn setup(&mut self, tally: &mut Tally, keys: &[u32], sets: &[u32], tick: u32, timers: Timers) -> Refusal {
        let before = self.archive.octets().to_vec();
        let line = format!("yard_setup {tick} {timers:?} {keys:?} {sets:?}");
        let archive = self.archive.setup_by(archive::asternhaken_yard_setup, keys, sets, tick, timers);
        let second = if keys.len() > MOST_CALLS || keys.iter().any(|key| key % 2 == 1) {
            Err(SETUP)
        } else {
            self.mirror.setup(keys, sets, tick, timers)
        };
        if second.is_ok() {
            self.log.clear();
            self.from_setup = true;
            self.past = Past::default();
            let each = |(&key, &set)| (One::new(key, set, Channel::Nch, timers[0]), Past::default());
            self.alone = keys.iter().zip(sets).map(each).collect();
        }
        self.log.push(line);
        tally.count_refusal(archive);
        tally.same("yard setup: refusal", || self.story(), &archive, &second.err().unwrap_or(0));
        self.check(tally, (archive != 0).then_some(&before[..]));
        archive
    }

    /// One event on both sides, everything compared; gives the library's refusal.
    pub fn event(&mut self, tally: &mut Tally, tick: u32, event: &Event) -> Refusal {
        let before = self.archive.octets().to_vec();
        let step = tick.wrapping_sub(self.mirror.receiver.tick);
        self.log.push(event_line(tick, event));
        let archive = feed(&mut self.archive, tick, event);
        let second = if is_taken(event) { self.mirror.event(tick, event) } else { Err(NOT_FOR_YARD) };
        if let Ok(answer) = &second {
            self.remember(tick, step, event, answer);
        }
        tally.count_refusal(archive);
        tally.same("yard event: refusal", || self.story(), &archive, &second.err().unwrap_or(0));
        self.check(tally, (archive != 0).then_some(&before[..]));
        archive
    }

    fn remember(&mut self, tick: u32, step: u32, event: &Event, answer: &Answer) {
        let message = match event {
            Event::Nch(octets) => nch::read(octets).ok().map(|read| read.0),
            _ => None,
        };
        let nln = message.as_ref().and_then(|message| message.nln);
        let seen = match (event, &message) {
            (Event::Joined(key), _) => Seen::Joined(*key),
            (Event::Reselected, _) => Seen::Reselected,
            (Event::Bit(value), _) => Seen::Bit(*value == 1),
            (_, Some(message)) => Seen::Nch(message),
            _ => Seen::Nothing,
        };
        let moment = |told| Moment { tick, step, nln, reselected: *event == Event::Reselected, told };
        let place = |told: &Told| find(&self.mirror.receiver.keys, told.key).0;
        let told = answer.entries.iter().map(|told| (place(told), told.clone())).collect();
        for (at, (one, past)) in self.alone.iter_mut().enumerate() {
            let key = u64::from(one.key);
            let own = one.see(step, &seen).told.into_iter();
            past.moments.push(moment(own.map(|(number, record, follow)| (Some(at), Told { key, number, record, follow })).collect()));
        }
        self.past.moments.push(moment(told));
    }

    /// The octets, of which a refused call leaves all as they were, and what is shown.
    fn check(&self, tally: &mut Tally, unchanged: Option<&[u8]>) {
        let octets = self.archive.octets();
        let calls = self.past.calls();
        if let Some(before) = unchanged {
            tally.check(octets == before, || format!("  a refused call changed the state of a yard set\n  input   {}", self.story()));
        }
        let receiver = octets[..STATE_LENGTH] == self.mirror.octets[..];
        // Octets that no setup left may have anything where no call is, and in octets that are not used.
        let places = if self.from_setup { octets[STATE_LENGTH..] == octets_of(&calls)[..] } else { calls_in(octets) == calls };
        tally.check(receiver && places, || {
            let archive = calls_in(octets);
            format!(
                "  the state of a yard set: the receiver {receiver}, the calls {places}\n  archive {archive:?}\n  second  {calls:?}\n  input   {}",
                self.story()
            )
        });
        let alone: Vec<Option<Call>> = self.alone.iter().enumerate().map(|(place, (_, past))| past.call(place)).collect();
        tally.check(!self.from_setup || alone[..] == calls_in(octets)[..alone.len()], || {
            format!("  each call alone: {alone:?}\n  archive {:?}\n  input   {}", calls_in(octets), self.story())
        });
        self.check_views(tally, &calls);
    }

    /// How many there are, and each, by rising key: from the first to the last and beyond, into fewer places and more.
    fn check_views(&self, tally: &mut Tally, calls: &[Option<Call>]) {
        let shown: Vec<Vec<u64>> = calls.iter().flatten().map(numbers_of_call).collect();
        let before = self.archive.octets().to_vec();
        let mut wrong = Vec::new();
        let count = self.archive.number(archive::asternhaken_yard_count);
        if count != (0, shown.len() as u64) {
            wrong.push(format!("count: archive {count:?}, second {}", shown.len()));
        }
        for i in (0..shown.len() as u32 + 2).chain([256, 1 << 31, u32::MAX]) {
            let dice = self.mirror.receiver.tick.wrapping_add(i).wrapping_mul(0x9E37_79B9) >> 8;
            let places = if dice % 4 == 0 { dice as usize / 4 % (CALL_NUMBERS + 4) } else { CALL_NUMBERS };
            let archive = self.archive.numbers(archive::asternhaken_yard_call_numbers, i, places);
            let second = filled(Ok(shown.get(i as usize).cloned().unwrap_or_default()), places);
            if archive != second {
                wrong.push(format!("call {i}: archive {archive:?}, second {second:?}"));
            }
        }
        self.archive.check_guards();
        let rising = !self.from_setup || shown.windows(2).all(|pair| pair[0][0] < pair[1][0]);
        tally.check(wrong.is_empty() && rising && self.archive.octets() == before, || {
            format!("  what a yard set shows: {}\n  input   {}", wrong.join("\n         "), self.story())
        });
    }
}

/// A state of another length is 13, before all else, and stays as it was: that of a receiver too.
pub fn wrong_length(tally: &mut Tally, octets: &[u8], tick: u32, event: &Event) {
    let mut state = ffi::State::new(octets, tick as usize);
    let calls = state.numbers(archive::asternhaken_yard_call_numbers, tick % 9, CALL_NUMBERS);
    let count = state.number(archive::asternhaken_yard_count);
    let refusals = [
        feed(&mut state, tick, event),
        state.setup_by(archive::asternhaken_yard_setup, &[1], &[], tick, [0; 3]),
        state.setup_by(archive::asternhaken_yard_setup, &[2], &[2], tick, [1; 3]),
    ];
    refusals.iter().for_each(|&refusal| tally.count_refusal(refusal));
    let seen = (refusals, calls, count, state.octets() == octets);
    let input = || format!("{} with a yard set's state of {} octets", event_line(tick, event), octets.len());
    tally.same("a yard set's state of a wrong length", input, &seen, &([13; 3], (13, vec![0; CALL_NUMBERS]), (13, 0), true));
}
