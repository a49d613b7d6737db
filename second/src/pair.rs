//! The archive and the second program side by side over one lent state.

use crate::bits::{number_of, Refusal};
use crate::cover::{Cause, Met, Sets};
use crate::facch::Notified;
use crate::ffi::{self, archive};
use crate::messages::filled;
use crate::one::{One, Outcome, Seen};
use crate::receiver::*;
use crate::state::*;
use crate::tally::{hex, Tally};
use crate::{facch, nch, pch};
use std::cmp::Ordering;

/// Entries and parts that are asked for after each event: all there can be, and some beyond.
const ENTRIES_ASKED: u32 = 11;
const PARTS_ASKED: u32 = PARTS as u32 + 2;
/// So many of the halves that are held are asked for, with the first and the last, and some beyond.
const HALVES_ASKED: usize = 8;
/// The place of the cipher key number among the numbers of a record.
const CIPHER_KEY_NUMBER: usize = 25;
const BEYOND: [(u32, u32); 6] = [(0, 255), (0, 256 + 4), (256, 4), (u32::MAX, 3), (u32::MAX, 2), (1 << 31, u32::MAX)];

pub struct Pair {
    archive: ffi::State,
    pub mirror: Mirror,
    /// One for each subscription and channel; none where the state was not left by a setup.
    ones: Vec<One>,
    from_setup: bool,
    /// What the state held at the start, and what was done since, for the reader of a difference.
    start: Vec<u8>,
    log: Vec<String>,
}

/// An answer in numbers: each entry is its key, the number told, the numbers of its record, and whether it can be followed.
#[derive(Debug, Clone, PartialEq)]
pub struct Spoken {
    pub expired: u64,
    pub dropped: u64,
    pub entries: Vec<(u64, u64, Option<[u64; RECORD_NUMBERS]>, Follow)>,
    pub paged: [u64; PAGED_NUMBERS],
}

/// What both sides said to one event.
pub struct Said {
    pub archive: Result<Spoken, Refusal>,
    pub second: Result<Spoken, Refusal>,
}

fn spoken(answer: &Answer) -> Spoken {
    let entries = answer.entries.iter().map(|told| (told.key, told.number, told.record.as_ref().map(numbers_of), told.follow));
    let paged = paged_numbers_of(answer.paged.as_ref());
    Spoken { expired: answer.expired, dropped: answer.dropped, entries: entries.collect(), paged }
}

pub fn event_line(tick: u32, event: &Event) -> String {
    match event {
        Event::Nch(octets) => format!("nch {tick} {}", hex(octets)),
        Event::Facch(octets) => format!("facch {tick} {}", hex(octets)),
        Event::Pch(numbers) => format!("pch {tick} {numbers:?}"),
        Event::Joined(key) => format!("joined {tick} {key}"),
        Event::Reselected => format!("reselected {tick}"),
        Event::HandedOver => format!("handed_over {tick}"),
        Event::Reconfigured => format!("reconfigured {tick}"),
        Event::LeftIdle => format!("left_idle {tick}"),
        Event::Bit(value) => format!("bit {tick} {value}"),
        Event::Tick => format!("tick {tick}"),
    }
}

pub fn feed(state: &mut ffi::State, tick: u32, event: &Event) -> Refusal {
    match event {
        Event::Nch(octets) => state.with_octets(archive::asternhaken_nch, tick, octets),
        Event::Facch(octets) => state.with_octets(archive::asternhaken_facch, tick, octets),
        Event::Pch(numbers) => state.with_entry(archive::asternhaken_pch, tick, numbers),
        Event::Joined(key) => state.with_number(archive::asternhaken_joined, tick, *key),
        Event::Reselected => state.plain(archive::asternhaken_reselected, tick),
        Event::HandedOver => state.plain(archive::asternhaken_handed_over, tick),
        Event::Reconfigured => state.plain(archive::asternhaken_reconfigured, tick),
        Event::LeftIdle => state.plain(archive::asternhaken_left_idle, tick),
        Event::Bit(value) => state.with_number(archive::asternhaken_bit_22, tick, *value),
        Event::Tick => state.plain(archive::asternhaken_tick, tick),
    }
}

/// Where two states differ, for the reader of a difference.
fn differing(archive: &[u8], second: &[u8]) -> String {
    let places: Vec<usize> = (0..STATE_LENGTH).filter(|&i| archive[i] != second[i]).collect();
    let shown: Vec<String> = places.iter().take(16).map(|&i| format!("{i}: {:02x} {:02x}", archive[i], second[i])).collect();
    format!("{} octets differ (octet: archive second): {}", places.len(), shown.join(", "))
}

impl Pair {
    /// A state of octets that no setup left.
    pub fn of(octets: &[u8], shift: usize) -> Pair {
        Pair {
            archive: ffi::State::new(octets, shift),
            mirror: Mirror::of(octets),
            ones: Vec::new(),
            from_setup: false,
            start: octets.to_vec(),
            log: Vec::new(),
        }
    }

    /// The start, if it was no setup, and all that was done since.
    fn story(&self) -> String {
        let start = if self.from_setup { String::new() } else { format!("state {}\n          ", hex(&self.start)) };
        format!("{start}{}", self.log.join("\n          "))
    }

    fn tell(&self) -> String {
        format!("  input   {}", self.story())
    }

    fn check_state(&self, tally: &mut Tally, what: &str) {
        let (archive, second) = (self.archive.octets(), &self.mirror.octets[..]);
        tally.check(archive == second, || format!("  {what}: the state afterwards\n{}\n  {}", self.tell(), differing(archive, second)));
    }

    pub fn setup(&mut self, tally: &mut Tally, keys: &[u32], sets: &[u32], tick: u32, timers: Timers) -> Refusal {
        let line = format!("setup {tick} {timers:?} {keys:?} {sets:?}");
        let paged = self.from_setup && self.mirror.paged()[0] == 1;
        let archive = self.archive.setup(keys, sets, tick, timers);
        let second = self.mirror.setup(keys, sets, tick, timers).err().unwrap_or(0);
        tally.cover.count(Met::PageAtSetup(archive == 0), u64::from(paged));
        if second == 0 {
            self.log.clear();
            self.from_setup = true;
            let each = |(&key, &set)| CHANNELS.map(|channel| One::new(key, set, channel, timers[channel as usize]));
            self.ones = keys.iter().zip(sets).flat_map(each).collect();
        }
        self.log.push(line);
        tally.count_refusal(archive);
        if archive != 0 {
            self.count_sets(tally, keys, sets, timers);
        }
        tally.same("setup: refusal", || self.story(), &archive, &second);
        self.check_state(tally, "setup");
        self.look(tally);
        archive
    }

    /// One event on both sides, everything compared; gives what each of them said.
    pub fn event(&mut self, tally: &mut Tally, tick: u32, event: &Event) -> Said {
        self.log.push(event_line(tick, event));
        let step = tick.wrapping_sub(self.mirror.receiver.tick);
        let (kept, bit) = (self.mirror.receiver.count, self.mirror.receiver.bit);
        let paged = self.mirror.paged()[0] == 1;
        let archive = feed(&mut self.archive, tick, event);
        let second = self.mirror.event(tick, event);
        tally.count_refusal(archive);
        let channel = match event {
            Event::Nch(_) => Some(Channel::Nch),
            Event::Facch(_) => Some(Channel::Facch),
            Event::Pch(_) => Some(Channel::Pch),
            _ => None,
        };
        if let (Some(channel), true) = (channel, archive != 0) {
            tally.cover.count(Met::Refused(channel, number_of(archive)), 1);
        }
        tally.same("event: refusal", || self.story(), &archive, &second.as_ref().err().copied().unwrap_or(0));
        self.check_state(tally, "event");
        self.look(tally);
        let told = if archive == 0 { Ok(self.archive_answer()) } else { Err(archive) };
        let second = second.map(|answer| spoken(&answer));
        if let Ok(told) = &told {
            for entry in &told.entries {
                tally.count_told(entry.1);
            }
            tally.check(second.as_ref() == Ok(told), || {
                format!("  event: answer\n{}\n  archive {told:?}\n  second  {second:?}", self.tell())
            });
            self.check_ones(tally, step, event, told);
        }
        self.count_counts(tally, event, kept, bit, &told);
        self.count_pages(tally, event, paged, &told);
        Said { archive: told, second }
    }

    pub fn archive_octet(&self, place: usize) -> u8 {
        self.archive.octets()[place]
    }

    /// Who is paged, by asternhaken_paged_numbers.
    pub fn archive_paged(&self) -> Vec<u64> {
        self.archive.paged(PAGED_NUMBERS).1
    }

    pub fn value(&self, entry: u32, part: u32) -> u64 {
        self.archive.read(entry, part).1
    }

    /// The archive's answer, by asternhaken_read alone.
    fn archive_answer(&self) -> Spoken {
        let entries = (0..self.value(0, 2).min(20) as u32).map(|entry| {
            let number = self.value(entry, 4);
            let record = (1..=3).contains(&number).then(|| {
                let mut numbers = [0; RECORD_NUMBERS];
                for (i, value) in numbers.iter_mut().enumerate() {
                    *value = self.value(entry, (FIRST_RECORD_PART + i) as u32);
                }
                numbers
            });
            (self.value(entry, 3), number, record, (self.value(entry, FOLLOW_PART as u32), self.value(entry, FOLLOW_COUNT_PART as u32)))
        });
        let mut paged = [0; PAGED_NUMBERS];
        for (i, value) in paged.iter_mut().enumerate() {
            *value = self.value(0, (FIRST_PAGED_PART + i) as u32);
        }
        Spoken { expired: self.value(0, 0), dropped: self.value(0, 1), entries: entries.collect(), paged }
    }

    /// What can be read of the state as it stands.
    pub fn look(&self, tally: &mut Tally) {
        self.check_parts(tally);
        self.check_views(tally);
    }

    /// Every part of every entry, parts and entries beyond the last too.
    fn check_parts(&self, tally: &mut Tally) {
        let asked = (0..ENTRIES_ASKED).flat_map(|entry| (0..PARTS_ASKED).map(move |part| (entry, part))).chain(BEYOND);
        let mut first_difference = None;
        for (entry, part) in asked {
            let archive = self.archive.read(entry, part);
            let second = (0, self.mirror.read(entry, part));
            if archive != second && first_difference.is_none() {
                first_difference = Some((entry, part, archive, second));
            }
        }
        self.archive.check_guards();
        let untouched = self.archive.octets() == &self.mirror.octets[..];
        tally.check(first_difference.is_none() && untouched, || {
            format!("  read (entry, part, (refusal, value) of the archive, of the second): {first_difference:?}\n{}", self.tell())
        });
    }

    /// Every entry whole, who is paged, and what is held: from the first half to the last and beyond, into fewer places and more; when the next one runs
    /// out; whether a setup left the state.
    fn check_views(&self, tally: &mut Tally) {
        let held = self.mirror.held();
        let mut wrong = Vec::new();
        let mut check = |what: &str, i: u32, archive: (u32, Vec<u64>), second: Vec<u64>| {
            if archive != (0, second.clone()) {
                wrong.push(format!("{what} {i}: archive {archive:?}, second {second:?}"));
            }
        };
        for entry in (0..ENTRIES_ASKED).chain([256, u32::MAX]) {
            let places = self.places(entry, ENTRY_NUMBERS);
            check(
                "entry",
                entry,
                self.archive.numbers(archive::asternhaken_entry_numbers, entry, places),
                filled(Ok(self.mirror.entry(entry)), places).1,
            );
        }
        let some = (0..held.len()).step_by(held.len() / HALVES_ASKED + 1).chain(held.len().saturating_sub(1)..held.len() + 2);
        for i in some.map(|i| i as u32).chain([256, u32::MAX]) {
            let places = self.places(i, HELD_NUMBERS);
            let second = held.get(i as usize).cloned().unwrap_or_default();
            check("held", i, self.archive.numbers(archive::asternhaken_held_numbers, i, places), filled(Ok(second), places).1);
        }
        let places = self.places(7, PAGED_NUMBERS);
        check("paged", 0, self.archive.paged(places), filled(Ok(self.mirror.paged().to_vec()), places).1);
        let one = |(refusal, number): (u32, u64)| (refusal, vec![number]);
        check("held count", 0, one(self.archive.number(archive::asternhaken_held_count)), vec![held.len() as u64]);
        check("next expiry", 0, one(self.archive.number(archive::asternhaken_next_expiry)), vec![self.mirror.next_expiry()]);
        check("set up", 0, (0, vec![u64::from(self.archive.is_set_up())]), vec![u64::from(self.mirror.is_set_up())]);
        self.archive.check_guards();
        let untouched = self.archive.octets() == &self.mirror.octets[..];
        tally.check(wrong.is_empty() && untouched, || format!("  views: {}\n{}", wrong.join("\n         "), self.tell()));
    }

    /// How many places such an array gets: mostly all, and each other number up to three more now and then.
    fn places(&self, i: u32, all: usize) -> usize {
        let dice = self.mirror.receiver.tick.wrapping_add(i).wrapping_mul(0x9E37_79B9) >> 8;
        match dice % 4 {
            0 => dice as usize / 4 % (all + 4),
            _ => all,
        }
    }

    /// What was met of counts and of the bit, where these were known before the event.
    fn count_counts(&self, tally: &mut Tally, event: &Event, kept: Option<u64>, bit: Option<bool>, told: &Result<Spoken, Refusal>) {
        let mut met = |what: Met| tally.cover.count(what, 1);
        if let (Event::Bit(2..), Err(refusal)) = (event, told) {
            met(Met::BitRefused(number_of(*refusal)));
        }
        if !self.from_setup {
            return;
        }
        // The message's channel and count, and whether its B22 is 1.
        let sent = match event {
            Event::Nch(octets) => nch::read(octets).ok().and_then(|read| Some((Channel::Nch, read.0.release6?.cell_global_count?, false))),
            Event::Pch(numbers) => pch::read(numbers).ok().and_then(|entry| Some((Channel::Pch, entry.cell_global_count?, false))),
            Event::Facch(octets) => {
                let read = facch::read(octets).ok();
                let count = read.as_ref().and_then(|read| read.0.count());
                count.map(|count| (Channel::Facch, count.cell_global_count, count.b22_count))
            }
            _ => None,
        };
        let Ok(told) = told else {
            if let Some((channel, ..)) = sent {
                met(Met::LateCount(channel));
            }
            return;
        };
        match (sent, event) {
            (Some((Channel::Facch, ..)), _) if bit.is_none() => met(Met::NotTaken(kept.is_some())),
            (Some((channel, count, b22)), _) => {
                let raised = b22 && bit == Some(false);
                if channel == Channel::Facch {
                    met(Met::FacchTaken(raised));
                }
                if raised && count == 3 {
                    met(Met::Wrapped(true));
                }
                if told.entries.iter().all(|entry| entry.1 == 0) {
                    met(Met::Strange(channel));
                }
                if self.mirror.receiver.count != kept && told.entries.iter().any(|entry| entry.3 .0 == 3) {
                    met(Met::Changed(channel));
                }
            }
            (None, Event::Bit(now)) => {
                met(Met::Bit(bit.map_or(2, u64::from), u64::from(*now), kept.is_some()));
                if bit == Some(true) && *now == 0 && kept == Some(3) {
                    met(Met::Wrapped(false));
                }
            }
            (None, Event::Reselected | Event::HandedOver) => {
                let cause = if *event == Event::Reselected { Cause::Reselected } else { Cause::HandedOver };
                kept.iter().for_each(|_| met(Met::CountForgotten(cause)));
                bit.iter().for_each(|_| met(Met::BitForgotten(cause)));
            }
            _ => {}
        }
    }

    /// What was met of pages, where somebody was paged before the event, or nobody.
    fn count_pages(&self, tally: &mut Tally, event: &Event, paged: bool, told: &Result<Spoken, Refusal>) {
        let mut met = |what: Met| tally.cover.count(what, 1);
        let read = match event {
            Event::Facch(octets) if self.from_setup => facch::read(octets).ok(),
            _ => None,
        };
        let page = read.as_ref().and_then(|read| match &read.0.notified {
            Notified::Page(page) => Some((page, read.0.count())),
            Notified::Call(_) => None,
        });
        match told {
            _ if !self.from_setup => return,
            Ok(_) if paged => met(if page.is_some() { Met::PageAgain } else { Met::PageGone }),
            Err(_) if paged => met(Met::PageKept),
            _ => {}
        }
        let Some((page, count)) = page else { return };
        let Ok(told) = told else { return met(Met::LatePage) };
        met(Met::Paged(page.identity.length));
        met(Met::PagedWithPriority(page.priority.is_some()));
        met(Met::PagedFor(if told.paged[7] == 1 { told.paged[8] } else { 2 }));
        for channel in CHANNELS {
            if self.mirror.receiver.halves.keys().any(|place| place.1 == channel) {
                met(Met::PageBeside(channel));
            }
        }
        if told.expired > 0 {
            met(Met::PageExpires);
        }
        if count.is_some() {
            met(Met::PageCounted(self.mirror.receiver.bit.is_some()));
        }
    }

    /// Whether a setup was refused for its sets alone, and what is wrong with them.
    fn count_sets(&self, tally: &mut Tally, keys: &[u32], sets: &[u32], timers: Timers) {
        if Receiver::setup(keys, &vec![0; keys.len()], 0, timers).is_ok() {
            let wrong = match sets.len().cmp(&keys.len()) {
                Ordering::Less => Sets::Fewer,
                Ordering::Greater => Sets::More,
                Ordering::Equal if sets.iter().any(|set| set % 2 == 1) => Sets::Zero,
                Ordering::Equal => Sets::Above,
            };
            tally.cover.count(Met::SetsRefused(wrong), 1);
        }
    }

    /// Each subscribed call on each channel against the one-call receiver, and the counts against the sum of theirs.
    fn check_ones(&mut self, tally: &mut Tally, step: u32, event: &Event, told: &Spoken) {
        if !self.from_setup {
            return;
        }
        let (read_nch, read_facch, read_pch);
        let seen = match event {
            Event::Nch(octets) => {
                let Ok((message, _)) = nch::read(octets) else { return };
                read_nch = message;
                Seen::Nch(&read_nch)
            }
            Event::Facch(octets) => {
                let Ok((message, _)) = facch::read(octets) else { return };
                read_facch = message;
                match read_facch.notified {
                    Notified::Call(_) => Seen::Facch(&read_facch),
                    Notified::Page(_) => Seen::Paging(read_facch.count()),
                }
            }
            Event::Pch(numbers) => {
                let Ok(entry) = pch::read(numbers) else { return };
                read_pch = entry;
                Seen::Pch(&read_pch)
            }
            Event::Joined(key) => Seen::Joined(*key),
            Event::Reselected => Seen::Reselected,
            Event::HandedOver => Seen::HandedOver,
            Event::Reconfigured => Seen::Reconfigured,
            Event::LeftIdle => Seen::LeftIdle,
            Event::Bit(value) => Seen::Bit(*value == 1),
            Event::Tick => Seen::Nothing,
        };
        // A tick and a FACCH message drop nothing, which the counts below show.
        let (channel, cause) = match event {
            Event::Nch(_) => (Some(Channel::Nch), Cause::OtherNln),
            Event::Facch(_) => (Some(Channel::Facch), Cause::RanOut),
            Event::Pch(numbers) if self.ones.iter().any(|one| u64::from(one.key) == numbers[0]) => (Some(Channel::Pch), Cause::OtherKey),
            Event::Pch(_) => (Some(Channel::Pch), Cause::StrangeKey),
            Event::Joined(_) => (None, Cause::Joined),
            Event::Reselected => (None, Cause::Reselected),
            Event::HandedOver => (None, Cause::HandedOver),
            Event::Reconfigured => (None, Cause::Reconfigured),
            Event::LeftIdle => (None, Cause::LeftIdle),
            Event::Bit(_) | Event::Tick => (None, Cause::RanOut),
        };
        if let Some(channel) = channel {
            for entry in &told.entries {
                tally.cover.count(Met::Told(channel, entry.1), 1);
                tally.cover.count(Met::Followed(channel, entry.1, entry.3 .0), 1);
                if let (2 | 3, Some(8..)) = (entry.1, entry.2.map(|record| record[CIPHER_KEY_NUMBER])) {
                    tally.cover.count(Met::HighKey(entry.3 .0 != 1), 1);
                }
            }
        }
        let (mut expired, mut dropped) = (0, 0);
        let mut strays = Vec::new();
        for one in &mut self.ones {
            let Outcome { expired: ran_out, dropped: left, told: own, second_first, disagreed, spared } = one.see(step, &seen);
            expired += ran_out;
            dropped += left;
            tally.cover.count(Met::Lost(Cause::RanOut, one.channel), ran_out);
            tally.cover.count(Met::Lost(cause, one.channel), left);
            tally.cover.count(Met::SecondFirst(one.channel), second_first);
            tally.cover.count(Met::Disagreed(one.channel), disagreed);
            tally.cover.count(Met::Spared, spared);
            let here = channel == Some(one.channel);
            let own: Vec<_> = own.into_iter().map(|(number, record, follow)| (number, record.as_ref().map(numbers_of), follow)).collect();
            let archive: Vec<_> = told
                .entries
                .iter()
                .filter(|entry| here && entry.0 == u64::from(one.key))
                .map(|entry| (entry.1, entry.2, entry.3))
                .collect();
            if own != archive {
                strays.push((one.key, one.channel, archive, own));
            }
        }
        let counts = (told.expired, told.dropped) == (expired, dropped);
        self.check_held(tally);
        tally.check(strays.is_empty() && counts, || {
            format!(
                "  one-call receiver: (key, channel, archive, one) {strays:?}\n  (expired, dropped): archive {:?}, the ones together {:?}\n{}",
                (told.expired, told.dropped),
                (expired, dropped),
                self.tell()
            )
        });
    }
    /// What is held, and for how long yet, against what the one-call receivers hold, whose ages are sums of steps.
    fn check_held(&self, tally: &mut Tally) {
        let held: Vec<[u64; 4]> = self.ones.iter().filter_map(One::held).collect();
        let leading = |i: usize| {
            let (_, numbers) = self.archive.numbers(archive::asternhaken_held_numbers, i as u32, 4);
            [numbers[0], numbers[1], numbers[2], numbers[3]]
        };
        let archive: Vec<[u64; 4]> = (0..held.len()).map(leading).collect();
        let count = self.archive.number(archive::asternhaken_held_count).1;
        let next = self.archive.number(archive::asternhaken_next_expiry).1;
        let soonest = held.iter().map(|half| half[3]).min().unwrap_or(NEVER);
        tally.check(archive == held && count == held.len() as u64 && next == soonest, || {
            format!("  held by the one-call receivers (key, channel, half, ms left) {held:?}\n  archive {archive:?}, {count} held, the next in {next} ms\n{}", self.tell())
        });
    }
}
