//! The receiver (document 01, "Setup, clock and store" and "What each notified call is told"; document 02, §8, the paging channel,
//! §3, what a new cell forgets, §11, keys in rising order, §2, the cell's count and which calls can be followed, and §7, who is paged).

use crate::bits::*;
use crate::call::{Call, Frequencies};
use crate::facch::{self, Facch, Notified, Page};
use crate::nch::{self, Nch};
use crate::pch::{self, Pch};
use std::cmp::Ordering;
use std::collections::BTreeMap;

pub const LAST_KEY: u32 = 199_999_999;
pub const MOST_KEYS: usize = 50;
pub const LONGEST_TIMER: u32 = 60_000;

#[derive(Clone, Copy, Debug, PartialEq, Eq, PartialOrd, Ord)]
pub enum Channel {
    Nch,
    Facch,
    Pch,
}

pub const CHANNELS: [Channel; 3] = [Channel::Nch, Channel::Facch, Channel::Pch];

/// T3206, T3208 and T3210: one for each channel, in the channels' order.
pub type Timers = [u32; CHANNELS.len()];

/// The ready defaults. Two railways send the second half on the NCH after six or seven seconds (document 02, §4).
pub const DEFAULT_TIMERS: Timers = [10_000, 5_000, 5_000];

/// What an entry brings: its own parts, and its message's count, uplink, AMR and SMS parts.
#[derive(Clone, Copy, Debug, Default, PartialEq)]
pub struct Record {
    pub reference: u64,
    pub channel: u64,
    pub frequencies: u64,
    pub vstk_rand: u64,
    pub full: bool,
    pub vgcs: bool,
    pub acknowledged: bool,
    pub described: bool,
    pub hops: bool,
    pub short_list: bool,
    pub segmented: bool,
    pub segment_id: bool,
    pub rand_given: bool,
    pub emergency: bool,
    pub counted: bool,
    pub b22_count: bool,
    pub uplink_given: bool,
    pub uplink_access: bool,
    pub amr: bool,
    pub fr_amr_given: bool,
    pub hr_amr_given: bool,
    pub sms: bool,
    pub sms_confidentiality: bool,
    pub sms_privacy: bool,
    pub priority: u64,
    pub cipher_key_number: u64,
    pub allocation_octets: u64,
    pub cell_global_count: u64,
    pub fr_amr_config: u64,
    pub hr_amr_config: u64,
}

impl Record {
    fn of_call(call: &Call) -> Record {
        let mut record = Record {
            full: true,
            reference: call.reference,
            vgcs: call.vgcs,
            acknowledged: call.acknowledged,
            priority: call.priority,
            cipher_key_number: call.cipher_key_number,
            ..Record::default()
        };
        if let Some(description) = &call.description {
            record.described = true;
            record.channel = description.channel;
            match description.frequencies {
                Frequencies::NotHopping => {}
                Frequencies::Allocation { length, octets } => {
                    record.hops = true;
                    record.allocation_octets = length;
                    record.frequencies = octets;
                }
                Frequencies::ShortList(list) => {
                    record.hops = true;
                    record.short_list = true;
                    record.frequencies = list;
                }
            }
        }
        record
    }

    pub fn key(&self) -> u64 {
        2 * self.reference + u64::from(self.vgcs)
    }

    /// Every reduced reference of the NCH counts as ciphered; the PCH marks what is.
    fn is_ciphered(&self) -> bool {
        !self.full || self.cipher_key_number != 0
    }

    /// The 36 bits of a full reference.
    fn reference_36(&self) -> (u64, bool, bool, u64, u64) {
        (self.reference, self.vgcs, self.acknowledged, self.priority, self.cipher_key_number)
    }
}

/// The entries of an NCH message: calls, then reduced references, each with the random entry and the mark that belong to it.
pub fn nch_entries(message: &Nch) -> Vec<Record> {
    let mut random = message.random().iter();
    let mut marks = message.marks().iter();
    let mut entries: Vec<Record> = message.calls.iter().map(Record::of_call).collect();
    for reduced in message.reduced() {
        entries.push(Record { reference: reduced.reference, vgcs: reduced.vgcs, ..Record::default() });
    }
    for entry in &mut entries {
        if entry.is_ciphered() {
            if let Some(random) = random.next() {
                entry.segmented = true;
                entry.segment_id = random.segment_id;
                entry.rand_given = random.vstk_rand.is_some();
                entry.vstk_rand = random.vstk_rand.unwrap_or(0);
            }
        }
        if entry.described {
            entry.emergency = marks.next() == Some(&true);
        }
        if let Some(count) = message.release6.as_ref().and_then(|six| six.cell_global_count) {
            entry.counted = true;
            entry.cell_global_count = count;
        }
        if let Some(seven) = &message.release7 {
            entry.uplink_given = seven.uplink_access.is_some();
            entry.uplink_access = seven.uplink_access == Some(1);
            if let Some(amr) = seven.amr {
                entry.amr = true;
                entry.fr_amr_given = amr.fr.is_some();
                entry.fr_amr_config = amr.fr.unwrap_or(0);
                entry.hr_amr_given = amr.hr.is_some();
                entry.hr_amr_config = amr.hr.unwrap_or(0);
            }
            if let Some(sms) = seven.sms {
                entry.sms = true;
                entry.sms_confidentiality = sms.confidentiality;
                entry.sms_privacy = sms.privacy;
            }
        }
    }
    entries
}

/// The one entry of a FACCH message that notifies a call; paging has none.
pub fn facch_entry(message: &Facch) -> Option<Record> {
    let Notified::Call(call) = &message.notified else { return None };
    let mut entry = Record::of_call(call);
    if let Some(six) = &message.release6 {
        if let Some(count) = &six.count {
            entry.counted = true;
            entry.cell_global_count = count.cell_global_count;
            entry.b22_count = count.b22_count;
        }
        entry.rand_given = six.vstk_rand.is_some();
        entry.vstk_rand = six.vstk_rand.unwrap_or(0);
    }
    if let Some(seven) = &message.release7 {
        entry.uplink_given = true;
        entry.uplink_access = seven.uplink_access;
        entry.emergency = seven.emergency;
    }
    Some(entry)
}

/// Who is paged by a message, and why. Without a cause it is for a mobile terminating call, as with 0.
#[derive(Clone, Debug, PartialEq)]
pub struct Paged {
    pub page: Page,
    pub cause: Option<u64>,
}

fn paged_by(message: &Facch) -> Option<Paged> {
    let Notified::Page(page) = &message.notified else { return None };
    Some(Paged { page: page.clone(), cause: message.release7.as_ref().and_then(|seven| seven.paging_cause) })
}

/// The one entry of a PCH event. Without the full reference it is a reduced one.
pub fn pch_entry(given: &Pch) -> Record {
    let mut entry = match &given.call {
        Some(call) => Record::of_call(call),
        None => Record { reference: u64::from(given.key / 2), vgcs: given.key % 2 == 1, ..Record::default() },
    };
    entry.rand_given = given.vstk_rand.is_some();
    entry.vstk_rand = given.vstk_rand.unwrap_or(0);
    entry.counted = given.cell_global_count.is_some();
    entry.cell_global_count = given.cell_global_count.unwrap_or(0);
    entry
}

#[derive(Clone, Copy, Debug, PartialEq)]
pub enum Segment {
    First,
    Second,
    /// Only in octets that no setup left: the opposite of whatever half comes.
    Opposite,
}

/// What an entry is by itself, before the store is looked at.
enum Class {
    Clear,
    OnePiece,
    Half(Segment),
    NoChannel,
    Unusable,
}

fn class(channel: Channel, ciphered: bool, entry: &Record) -> Class {
    // Only the NCH has a Segment Id to look at.
    let says = |id: bool| channel != Channel::Nch || (entry.segmented && entry.segment_id == id);
    if !ciphered && entry.described {
        Class::Clear
    } else if ciphered && entry.described && entry.rand_given && says(false) {
        Class::OnePiece
    } else if ciphered && entry.described && !entry.rand_given && says(false) {
        Class::Half(Segment::First)
    } else if ciphered && !entry.described && entry.rand_given && says(true) {
        Class::Half(Segment::Second)
    } else if entry.full && !entry.described {
        Class::NoChannel
    } else {
        Class::Unusable
    }
}

/// A half in its place.
#[derive(Clone, Copy, Debug, PartialEq)]
pub struct Half {
    pub segment: Segment,
    pub tick: u32,
    pub record: Record,
}

/// Everything is the first half's but VSTK_RAND, which every second half has, and a count that the second half brings.
fn join(first: &Record, second: &Record) -> Record {
    let mut joined = *first;
    joined.rand_given = true;
    joined.vstk_rand = second.vstk_rand;
    if second.counted {
        joined.counted = true;
        joined.cell_global_count = second.cell_global_count;
        joined.b22_count = second.b22_count;
    }
    joined
}

/// Two full references under one key must agree in all 36 bits.
fn agree(one: &Record, other: &Record) -> bool {
    !one.full || !other.full || one.reference_36() == other.reference_36()
}

#[derive(Clone, Debug, PartialEq)]
pub enum Event {
    Nch(Vec<u8>),
    Facch(Vec<u8>),
    Pch(Vec<u64>),
    Joined(u32),
    Reselected,
    HandedOver,
    Reconfigured,
    LeftIdle,
    /// The present value of bit 22 of COUNT.
    Bit(u32),
    Tick,
}

/// What one entry is told.
#[derive(Clone, Debug, PartialEq)]
pub struct Told {
    pub key: u64,
    pub number: u64,
    pub record: Option<Record>,
    /// Whether the call can be followed, and with what count: both 0 beside every number but 2 and 3.
    pub follow: Follow,
}

/// 1 no key, 2 no count, 3 follow; and the kept count, which is 0 beside 1 and 2.
pub type Follow = (u64, u64);

#[derive(Clone, Debug, Default, PartialEq)]
pub struct Answer {
    pub expired: u64,
    pub dropped: u64,
    pub entries: Vec<Told>,
    /// By this event alone: the next one that is accepted pages somebody else, or nobody.
    pub paged: Option<Paged>,
}

/// The place of a half: which subscription (by its place in the setup's keys), and which channel.
pub type Place = (usize, Channel);

#[derive(Clone, Debug, PartialEq)]
pub struct Receiver {
    pub tick: u32,
    pub timers: Timers,
    pub nln: Option<u8>,
    /// CELL_GLOBAL_COUNT and bit 22 of COUNT, as they are known of this cell.
    pub count: Option<u64>,
    pub bit: Option<bool>,
    pub keys: Vec<u32>,
    /// The group keys held, one set for each key: bit n for key number n.
    pub sets: Vec<u32>,
    pub halves: BTreeMap<Place, Half>,
    /// Places that the last accepted event filled or freed.
    pub touched: Vec<Place>,
}

/// An event whose message, if it has one, has been read.
enum Read {
    Nch(Nch),
    Facch(Facch),
    Pch(Pch),
    Joined(u32),
    Reselected,
    HandedOver,
    Reconfigured,
    LeftIdle,
    Bit(bool),
    Tick,
}

fn read(event: &Event) -> Result<Read, Refusal> {
    Ok(match event {
        Event::Nch(octets) => Read::Nch(nch::read(octets)?.0),
        Event::Facch(octets) => Read::Facch(facch::read(octets)?.0),
        Event::Pch(numbers) => Read::Pch(pch::read(numbers)?),
        Event::Joined(key) if *key > LAST_KEY => return Err(REFERENCE),
        Event::Joined(key) => Read::Joined(*key),
        Event::Reselected => Read::Reselected,
        Event::HandedOver => Read::HandedOver,
        Event::Reconfigured => Read::Reconfigured,
        Event::LeftIdle => Read::LeftIdle,
        Event::Bit(value) if *value > 1 => return Err(RANGE),
        Event::Bit(value) => Read::Bit(*value == 1),
        Event::Tick => Read::Tick,
    })
}

/// The place of a key among rising ones, and how many it was compared with, by halving: what may hold the key is first all of them; the one
/// in its middle (of two, the later) is looked at, and unless it is the key, only those before it, or only those behind it, may hold it.
pub fn find(keys: &[u32], key: u64) -> (Option<usize>, u64) {
    let (mut start, mut end, mut looks) = (0, keys.len(), 0);
    while start < end {
        let middle = start + (end - start) / 2;
        looks += 1;
        match key.cmp(&u64::from(keys[middle])) {
            Ordering::Equal => return (Some(middle), looks),
            Ordering::Less => end = middle,
            Ordering::Greater => start = middle + 1,
        }
    }
    (None, looks)
}

impl Receiver {
    pub fn setup(keys: &[u32], sets: &[u32], tick: u32, timers: Timers) -> Result<Receiver, Refusal> {
        let rising = keys.windows(2).all(|pair| pair[0] < pair[1]);
        let in_range = timers.iter().all(|timer| (1..=LONGEST_TIMER).contains(timer));
        if keys.len() > MOST_KEYS || keys.iter().any(|&key| key > LAST_KEY) || !rising || !in_range {
            return Err(SETUP);
        }
        // Key numbers are 1 to 15, and every key has a set.
        if sets.len() != keys.len() || sets.iter().any(|set| set & !0xFFFE != 0) {
            return Err(SETUP);
        }
        Ok(Receiver {
            tick,
            timers,
            nln: None,
            count: None,
            bit: None,
            keys: keys.to_vec(),
            sets: sets.to_vec(),
            halves: BTreeMap::new(),
            touched: Vec::new(),
        })
    }

    /// A setup's keys rise. In octets that no setup left they may stand in any order, and twice: the place that the halving finds counts, and
    /// what is held at any other is under another key.
    fn place_of(&self, key: u64) -> Option<usize> {
        find(&self.keys, key).0
    }

    /// The key of a place, for what is made up at random: the highest number where no subscription uses it.
    pub fn key_at(&self, subscription: usize) -> u32 {
        self.keys.get(subscription).copied().unwrap_or(u32::MAX)
    }

    pub fn timer(&self, channel: Channel) -> u32 {
        self.timers[channel as usize]
    }

    /// Frees the places of the halves that `leaves` names and says how many there were.
    fn discard(&mut self, leaves: impl Fn(&Self, &Place, &Half) -> bool) -> u64 {
        let places: Vec<Place> = self.halves.iter().filter(|(place, half)| leaves(self, place, half)).map(|(place, _)| *place).collect();
        for place in &places {
            self.halves.remove(place);
        }
        self.touched.extend(&places);
        places.len() as u64
    }

    pub fn event(&mut self, tick: u32, event: &Event) -> Result<Answer, Refusal> {
        if tick.wrapping_sub(self.tick) >= 1 << 31 {
            return Err(CLOCK);
        }
        let event = read(event)?;
        self.tick = tick;
        self.touched.clear();
        let expired = self.discard(|me, place, half| tick.wrapping_sub(half.tick) >= me.timer(place.1));
        let dropped = match &event {
            Read::Joined(key) => self.discard(|me, place, _| me.place_of(u64::from(*key)) != Some(place.0)),
            Read::Reselected => {
                self.nln = None;
                self.discard(|_, place, _| place.1 != Channel::Facch)
            }
            Read::HandedOver | Read::Reconfigured => self.discard(|_, place, _| place.1 == Channel::Facch),
            Read::LeftIdle => self.discard(|_, place, _| place.1 == Channel::Pch),
            Read::Nch(message) => self.see_nln(message.nln),
            Read::Pch(entry) => self.see_key(entry.key),
            Read::Facch(_) | Read::Bit(_) | Read::Tick => 0,
        };
        self.see_count(&event);
        let mut answer = Answer { expired, dropped, entries: Vec::new(), paged: None };
        match &event {
            Read::Nch(message) => {
                for entry in nch_entries(message) {
                    let told = self.tell(Channel::Nch, entry.is_ciphered(), entry);
                    answer.entries.push(told);
                }
            }
            Read::Facch(message) => {
                if let Some(entry) = facch_entry(message) {
                    answer.entries.push(self.tell(Channel::Facch, entry.is_ciphered(), entry));
                }
                answer.paged = paged_by(message);
            }
            Read::Pch(entry) => answer.entries.push(self.tell(Channel::Pch, entry.ciphered, pch_entry(entry))),
            _ => {}
        }
        Ok(answer)
    }

    /// The first NLN of a cell is no change, and a message without one changes nothing.
    fn see_nln(&mut self, nln: Option<u64>) -> u64 {
        let Some(nln) = nln else { return 0 };
        let changed = self.nln.is_some_and(|last| u64::from(last) != nln);
        self.nln = Some(nln as u8);
        if changed {
            self.discard(|_, place, _| place.1 == Channel::Nch)
        } else {
            0
        }
    }

    /// A count is taken from every message that has one, whoever it is for, also of one that pages. On the FACCH it goes with bit 22 as it was when it was sent: where
    /// that was 1 and is 0 now, the count has since been raised; where the bit is not known, nobody can say, and the count is not taken.
    fn see_count(&mut self, event: &Read) {
        match event {
            Read::Nch(message) => self.count = message.release6.as_ref().and_then(|six| six.cell_global_count).or(self.count),
            Read::Pch(entry) => self.count = entry.cell_global_count.or(self.count),
            Read::Facch(message) => {
                let sent = message.count();
                if let (Some(sent), Some(bit)) = (sent, self.bit) {
                    self.count = Some((sent.cell_global_count + u64::from(sent.b22_count && !bit)) % 4);
                }
            }
            Read::Bit(bit) => {
                if self.bit == Some(true) && !bit {
                    self.count = self.count.map(|count| (count + 1) % 4);
                }
                self.bit = Some(*bit);
            }
            Read::Reselected | Read::HandedOver => (self.count, self.bit) = (None, None),
            _ => {}
        }
    }

    /// Whether a complete ciphered call of this subscription can be followed.
    fn follow(&self, place: usize, record: &Record) -> Follow {
        let number = record.cipher_key_number;
        let held = (1..=15).contains(&number) && self.sets[place] >> number & 1 == 1;
        match self.count {
            _ if !held => (1, 0),
            None => (2, 0),
            Some(count) => (3, count),
        }
    }

    /// A PCH entry says that the PCH is now used for its key, whoever subscribed it: halves under any other are dropped there.
    fn see_key(&mut self, key: u32) -> u64 {
        let own = self.place_of(u64::from(key));
        self.discard(|_, place, _| place.1 == Channel::Pch && own != Some(place.0))
    }

    fn tell(&mut self, channel: Channel, ciphered: bool, entry: Record) -> Told {
        let key = entry.key();
        let place = self.place_of(key);
        let (number, record) = match (place, class(channel, ciphered, &entry)) {
            (None, _) => (0, None),
            (Some(_), Class::Clear) => (1, Some(entry)),
            (Some(_), Class::OnePiece) => (2, Some(entry)),
            (Some(place), Class::Half(segment)) => self.meet((place, channel), segment, entry),
            (Some(_), Class::NoChannel) => (6, None),
            (Some(_), Class::Unusable) => (7, None),
        };
        let follow = match (place, number, &record) {
            (Some(place), 2 | 3, Some(record)) => self.follow(place, record),
            _ => (0, 0),
        };
        Told { key, number, record, follow }
    }

    /// A half meets what its place holds.
    fn meet(&mut self, place: Place, segment: Segment, entry: Record) -> (u64, Option<Record>) {
        match self.halves.get(&place).copied() {
            None if place.1 == Channel::Facch && segment == Segment::Second => (8, None),
            None => {
                self.halves.insert(place, Half { segment, tick: self.tick, record: entry });
                self.touched.push(place);
                (4, None)
            }
            Some(held) if held.segment == segment => (5, None),
            Some(held) if !agree(&held.record, &entry) => (7, None),
            Some(held) => {
                self.halves.remove(&place);
                self.touched.push(place);
                let joined = if segment == Segment::First { join(&entry, &held.record) } else { join(&held.record, &entry) };
                (3, Some(joined))
            }
        }
    }
}
