//! The one-call receiver: knows one key and one channel, and is fed only what that call sees.
//!
//! Of every message it sees the count, with its channel and B22, since the count is the cell's and not a call's; and it sees bit 22 of COUNT.
//! It has no clock and no store: the age of its half is the sum of the steps of accepted events. What the receiver of document 01 tells
//! the entries of a subscribed call must be what this one tells them, whatever the other calls do.

use crate::facch::{Count, Facch};
use crate::nch::Nch;
use crate::pch::Pch;
use crate::receiver::{facch_entry, nch_entries, pch_entry, Channel, Follow, Record};

/// What a call sees of an accepted event.
pub enum Seen<'a> {
    Nch(&'a Nch),
    Facch(&'a Facch),
    /// Of a FACCH message that pages, no more than its count.
    Paging(Option<&'a Count>),
    /// Of an entry under another key it looks at the key and the count alone.
    Pch(&'a Pch),
    Joined(u32),
    Reselected,
    HandedOver,
    Reconfigured,
    LeftIdle,
    /// Bit 22 of COUNT.
    Bit(bool),
    Nothing,
}

#[derive(Clone)]
struct Held {
    second: bool,
    age: u64,
    record: Record,
}

#[derive(Clone)]
pub struct One {
    pub key: u32,
    pub channel: Channel,
    timer: u64,
    /// The numbers of the group keys held for this call.
    group_keys: Vec<u64>,
    /// The last count taken in this cell, and how often bit 22 has since gone from 1 to 0.
    sent: Option<u64>,
    raised: u64,
    bit: Option<bool>,
    nln: Option<u64>,
    /// The last NLN of the cell before, until one of this cell is seen; only for counting what was met.
    nln_before: Option<u64>,
    held: Option<Held>,
    second_first: u64,
    disagreed: u64,
}

/// What happened to this call at one event.
#[derive(Debug, Default, PartialEq)]
pub struct Outcome {
    pub expired: u64,
    pub dropped: u64,
    pub told: Vec<(u64, Option<Record>, Follow)>,
    /// Joins with a second half that came first, and entries told 7 because references differ.
    pub second_first: u64,
    pub disagreed: u64,
    /// The half stayed though the message's NLN, the first of this cell, is unlike the last of the cell before.
    pub spared: u64,
}

impl One {
    pub fn new(key: u32, set: u32, channel: Channel, timer: u32) -> One {
        One {
            key,
            channel,
            timer: u64::from(timer),
            group_keys: (1..16).filter(|number| set & 1 << number != 0).collect(),
            sent: None,
            raised: 0,
            bit: None,
            nln: None,
            nln_before: None,
            held: None,
            second_first: 0,
            disagreed: 0,
        }
    }

    /// Key, channel, which half, and for how many ms it stays yet.
    pub fn held(&self) -> Option<[u64; 4]> {
        let held = self.held.as_ref()?;
        Some([u64::from(self.key), self.channel as u64, if held.second { 2 } else { 1 }, self.timer - held.age])
    }

    pub fn see(&mut self, step: u32, seen: &Seen) -> Outcome {
        let mut outcome = Outcome::default();
        if let Some(held) = &mut self.held {
            held.age += u64::from(step);
            if held.age >= self.timer {
                self.held = None;
                outcome.expired = 1;
            }
        }
        if self.leaves(seen) && self.held.take().is_some() {
            outcome.dropped = 1;
        }
        self.learn(seen);
        match (self.channel, seen) {
            // A new cell numbers its notifications anew.
            (_, Seen::Reselected) => self.nln_before = self.nln.take().or(self.nln_before),
            (Channel::Nch, Seen::Nch(message)) => {
                if message.nln.is_some() {
                    let before = self.nln_before.take();
                    outcome.spared = u64::from(self.held.is_some() && before.is_some() && before != message.nln);
                    self.nln = message.nln;
                }
                for entry in nch_entries(message) {
                    if entry.key() == u64::from(self.key) {
                        let told = self.on_nch(entry);
                        outcome.told.push(self.with_follow(told));
                    }
                }
            }
            (Channel::Facch, Seen::Facch(message)) => {
                let key = u64::from(self.key);
                if let Some(entry) = facch_entry(message).filter(|entry| entry.key() == key) {
                    let told = self.on_facch(entry);
                    outcome.told.push(self.with_follow(told));
                }
            }
            (Channel::Pch, Seen::Pch(given)) if given.key == self.key => {
                let told = self.on_pch(given.ciphered, pch_entry(given));
                outcome.told.push(self.with_follow(told));
            }
            _ => {}
        }
        outcome.second_first = std::mem::take(&mut self.second_first);
        outcome.disagreed = std::mem::take(&mut self.disagreed);
        outcome
    }

    /// The count of every message, on any channel and of any call, with its B22 on the FACCH, and the bit.
    fn learn(&mut self, seen: &Seen) {
        let sent = match seen {
            Seen::Nch(message) => message.release6.as_ref().and_then(|six| six.cell_global_count),
            Seen::Pch(given) => given.cell_global_count,
            Seen::Facch(message) => self.sent_on_facch(message.count()),
            Seen::Paging(count) => self.sent_on_facch(*count),
            _ => None,
        };
        if sent.is_some() {
            (self.sent, self.raised) = (sent, 0);
        }
        match seen {
            Seen::Reselected | Seen::HandedOver => (self.sent, self.bit) = (None, None),
            Seen::Bit(bit) => {
                self.raised += u64::from(self.bit == Some(true) && !bit);
                self.bit = Some(*bit);
            }
            _ => {}
        }
    }

    /// The count as it would be sent now; none while the bit is not known.
    fn sent_on_facch(&self, count: Option<&Count>) -> Option<u64> {
        match (count, self.bit) {
            (Some(count), Some(true)) => Some(count.cell_global_count),
            (Some(count), Some(false)) if count.b22_count => Some([1, 2, 3, 0][count.cell_global_count as usize]),
            (Some(count), Some(false)) => Some(count.cell_global_count),
            _ => None,
        }
    }

    fn with_follow(&self, (number, record): (u64, Option<Record>)) -> (u64, Option<Record>, Follow) {
        let follow = match &record {
            Some(record) if number != 1 => match self.sent {
                _ if !self.group_keys.contains(&record.cipher_key_number) => (1, 0),
                None => (2, 0),
                Some(sent) => (3, (sent + self.raised) % 4),
            },
            _ => (0, 0),
        };
        (number, record, follow)
    }

    /// Whether the event makes this call discard its half.
    fn leaves(&self, seen: &Seen) -> bool {
        match seen {
            Seen::Joined(key) => *key != self.key,
            Seen::Reselected => matches!(self.channel, Channel::Nch | Channel::Pch),
            Seen::HandedOver | Seen::Reconfigured => self.channel == Channel::Facch,
            Seen::LeftIdle => self.channel == Channel::Pch,
            Seen::Pch(given) => self.channel == Channel::Pch && given.key != self.key,
            Seen::Nch(message) => self.channel == Channel::Nch && self.nln.is_some() && message.nln.is_some() && message.nln != self.nln,
            Seen::Facch(_) | Seen::Paging(_) | Seen::Bit(_) | Seen::Nothing => false,
        }
    }

    fn on_nch(&mut self, entry: Record) -> (u64, Option<Record>) {
        if !entry.full {
            // A reduced reference is ciphered and not described: a second half, or of no use.
            return match (entry.segmented, entry.segment_id, entry.rand_given) {
                (true, true, true) => self.half(true, entry),
                _ => (7, None),
            };
        }
        let ciphered = entry.cipher_key_number > 0;
        match (entry.described, ciphered) {
            (true, false) => (1, Some(entry)),
            (true, true) if !entry.segmented || entry.segment_id => (7, None),
            (true, true) if entry.rand_given => (2, Some(entry)),
            (true, true) => self.half(false, entry),
            (false, true) if entry.segment_id && entry.rand_given => self.half(true, entry),
            (false, _) => (6, None),
        }
    }

    fn on_facch(&mut self, entry: Record) -> (u64, Option<Record>) {
        match (entry.described, entry.cipher_key_number > 0, entry.rand_given) {
            (true, false, _) => (1, Some(entry)),
            (true, true, true) => (2, Some(entry)),
            (true, true, false) => self.half(false, entry),
            (false, true, true) if self.held.is_none() => (8, None),
            (false, true, true) => self.half(true, entry),
            (false, _, _) => (6, None),
        }
    }

    /// Either half may come first. What has no full reference has no description either: a second half, or of no use.
    fn on_pch(&mut self, ciphered: bool, entry: Record) -> (u64, Option<Record>) {
        match (ciphered, entry.described, entry.rand_given) {
            (false, true, _) => (1, Some(entry)),
            (true, true, true) => (2, Some(entry)),
            (true, true, false) => self.half(false, entry),
            (true, false, true) => self.half(true, entry),
            (_, false, _) => (if entry.full { 6 } else { 7 }, None),
        }
    }

    fn half(&mut self, second: bool, entry: Record) -> (u64, Option<Record>) {
        let Some(held) = self.held.take() else {
            self.held = Some(Held { second, age: 0, record: entry });
            return (4, None);
        };
        let differs = held.record.acknowledged != entry.acknowledged
            || held.record.priority != entry.priority
            || held.record.cipher_key_number != entry.cipher_key_number;
        let number = if held.second == second {
            5
        } else if held.record.full && entry.full && differs {
            7
        } else {
            3
        };
        self.second_first += u64::from(number == 3 && held.second);
        self.disagreed += u64::from(number == 7);
        if number != 3 {
            self.held = Some(held);
            return (number, None);
        }
        let (first, second) = if second { (held.record, entry) } else { (entry, held.record) };
        let mut joined = Record { vstk_rand: second.vstk_rand, rand_given: true, ..first };
        if second.counted {
            joined.counted = true;
            joined.cell_global_count = second.cell_global_count;
            joined.b22_count = second.b22_count;
        }
        (3, Some(joined))
    }
}
