//! The lent state as docs/STATE.md lays it out: decoding any octets, and what each call leaves in them.

use crate::bits::*;
use crate::receiver::*;
use std::collections::BTreeMap;

/// One for each subscription and channel.
pub const PLACES: usize = CHANNELS.len() * MOST_KEYS;
pub const MOST_ENTRIES: usize = 9;
pub const ENTRY_OCTETS: usize = 72;
pub const RECORD_OCTETS: usize = 56;
pub const PAGED_OCTETS: usize = 16;

/// Where a block begins that comes behind `end` octets: at a multiple of eight.
const fn behind(end: usize) -> usize {
    end.next_multiple_of(8)
}

/// Where everything stands: the tick, the timers, then one block behind the other.
pub const TIMERS: usize = 4;
pub const NLN: usize = TIMERS + 4 * CHANNELS.len();
/// What is known of the cell beside the NLN: the kept count, and bit 22 of COUNT.
pub const KEPT_COUNT: usize = NLN + 1;
pub const BIT_22: usize = KEPT_COUNT + 1;
/// How many keys there are, the last octet before the mark.
pub const N_KEYS: usize = BIT_22 + 1;
pub const MARK: usize = N_KEYS + 1;
pub const KEYS: usize = behind(MARK + SET_UP.len());
pub const SETS: usize = behind(KEYS + 4 * MOST_KEYS);
pub const KINDS: usize = behind(SETS + 4 * MOST_KEYS);
pub const TICKS: usize = behind(KINDS + PLACES);
pub const RECORDS: usize = behind(TICKS + 4 * PLACES);
pub const EXPIRED: usize = behind(RECORDS + RECORD_OCTETS * PLACES);
pub const DROPPED: usize = EXPIRED + 4;
pub const COUNT: usize = DROPPED + 4;
pub const PAGED: usize = behind(COUNT + 4);
pub const ENTRIES: usize = behind(PAGED + PAGED_OCTETS);
pub const STATE_LENGTH: usize = ENTRIES + ENTRY_OCTETS * MOST_ENTRIES;

/// These are the numbers of docs/STATE.md.
const _: () = assert!(NLN == 16 && KEPT_COUNT == 17 && BIT_22 == 18 && N_KEYS == 19 && MARK == 20 && KEYS == 24 && SETS == 224);
const _: () = assert!(KINDS == 424 && TICKS == 576 && RECORDS == 1_176);
const _: () = assert!(EXPIRED == 9_576 && COUNT == 9_584 && PAGED == 9_592 && ENTRIES == 9_608 && STATE_LENGTH == 10_256);

/// The mark that an accepted setup leaves: three letters and the number of this layout. Nothing but `is_set_up` looks at it.
pub const SET_UP: [u8; 4] = *b"AHK\x04";

const UNUSED_KEY: u32 = u32::MAX;
const NO_NLN: u8 = 4;
const NO_COUNT: u8 = 4;
const NO_BIT: u8 = 2;
/// The next expiry where no half is held.
pub const NEVER: u64 = 4_294_967_295;

/// The header's parts of a record run from 5 on, in the order in which the octets of a record stand.
pub const FIRST_RECORD_PART: usize = 5;
pub const RECORD_NUMBERS: usize = 30;
/// Behind them: whether the call can be followed, and with which count.
pub const FOLLOW_PART: usize = FIRST_RECORD_PART + RECORD_NUMBERS;
pub const FOLLOW_COUNT_PART: usize = FOLLOW_PART + 1;
/// Who is paged, the same beside every entry: somebody is; length of the identity, its first octet, its others; channel first; priority there,
/// priority; cause there, cause.
pub const FIRST_PAGED_PART: usize = FOLLOW_COUNT_PART + 1;
pub const PAGED_NUMBERS: usize = 9;
pub const PARTS: usize = FIRST_PAGED_PART + PAGED_NUMBERS;
/// A whole entry has its key and the number told before its record, and whether it can be followed behind it; a half has key, channel, which
/// half and ms left.
pub const ENTRY_NUMBERS: usize = 2 + RECORD_NUMBERS + 2;
pub const HELD_NUMBERS: usize = 4 + RECORD_NUMBERS;
/// Four wide numbers, then twenty flags, then six small numbers.
fn width(number: usize) -> usize {
    match number {
        0 | 1 => 4,
        2 | 3 => 8,
        _ => 1,
    }
}

fn is_flag(number: usize) -> bool {
    (4..24).contains(&number)
}

pub fn get(octets: &[u8], at: usize, width: usize) -> u64 {
    octets[at..at + width].iter().rev().fold(0, |number, &octet| number << 8 | u64::from(octet))
}

fn get_u32(octets: &[u8], at: usize) -> u32 {
    get(octets, at, 4) as u32
}

pub fn put(octets: &mut [u8], at: usize, width: usize, number: u64) {
    octets[at..at + width].copy_from_slice(&number.to_le_bytes()[..width]);
}

/// A record's numbers in the header's order of parts.
pub fn numbers_of(r: &Record) -> [u64; RECORD_NUMBERS] {
    let flags = [
        r.full,
        r.vgcs,
        r.acknowledged,
        r.described,
        r.hops,
        r.short_list,
        r.segmented,
        r.segment_id,
        r.rand_given,
        r.emergency,
        r.counted,
        r.b22_count,
        r.uplink_given,
        r.uplink_access,
        r.amr,
        r.fr_amr_given,
        r.hr_amr_given,
        r.sms,
        r.sms_confidentiality,
        r.sms_privacy,
    ];
    let mut numbers = [0; RECORD_NUMBERS];
    numbers[..4].copy_from_slice(&[r.reference, r.channel, r.frequencies, r.vstk_rand]);
    for (number, flag) in numbers[4..24].iter_mut().zip(flags) {
        *number = u64::from(flag);
    }
    numbers[24..].copy_from_slice(&[
        r.priority,
        r.cipher_key_number,
        r.allocation_octets,
        r.cell_global_count,
        r.fr_amr_config,
        r.hr_amr_config,
    ]);
    numbers
}

fn record_of(n: &[u64; RECORD_NUMBERS]) -> Record {
    Record {
        reference: n[0],
        channel: n[1],
        frequencies: n[2],
        vstk_rand: n[3],
        full: n[4] != 0,
        vgcs: n[5] != 0,
        acknowledged: n[6] != 0,
        described: n[7] != 0,
        hops: n[8] != 0,
        short_list: n[9] != 0,
        segmented: n[10] != 0,
        segment_id: n[11] != 0,
        rand_given: n[12] != 0,
        emergency: n[13] != 0,
        counted: n[14] != 0,
        b22_count: n[15] != 0,
        uplink_given: n[16] != 0,
        uplink_access: n[17] != 0,
        amr: n[18] != 0,
        fr_amr_given: n[19] != 0,
        hr_amr_given: n[20] != 0,
        sms: n[21] != 0,
        sms_confidentiality: n[22] != 0,
        sms_privacy: n[23] != 0,
        priority: n[24],
        cipher_key_number: n[25],
        allocation_octets: n[26],
        cell_global_count: n[27],
        fr_amr_config: n[28],
        hr_amr_config: n[29],
    }
}

fn get_number(octets: &[u8], at: usize, number: usize) -> u64 {
    let start = at + (0..number).map(width).sum::<usize>();
    let value = get(octets, start, width(number));
    if is_flag(number) {
        u64::from(value != 0)
    } else {
        value
    }
}

pub fn get_record(octets: &[u8], at: usize) -> Record {
    let mut numbers = [0; RECORD_NUMBERS];
    for (number, value) in numbers.iter_mut().enumerate() {
        *value = get_number(octets, at, number);
    }
    record_of(&numbers)
}

/// All 56 octets, the unused ones at the end as zeros.
pub fn put_record(octets: &mut [u8], at: usize, record: &Record) {
    octets[at..at + RECORD_OCTETS].fill(0);
    let mut place = at;
    for (number, value) in numbers_of(record).into_iter().enumerate() {
        put(octets, place, width(number), value);
        place += width(number);
    }
}

/// Who is paged, in the header's order; nobody is all zero.
pub fn paged_numbers_of(paged: Option<&Paged>) -> [u64; PAGED_NUMBERS] {
    let Some(Paged { page, cause }) = paged else { return [0; PAGED_NUMBERS] };
    let announced = |value: Option<u64>| [u64::from(value.is_some()), value.unwrap_or(0)];
    let (identity, priority, cause) = (&page.identity, announced(page.priority), announced(*cause));
    let identity = [identity.length, identity.first_octet, identity.other_octets];
    [1, identity[0], identity[1], identity[2], page.channel_first, priority[0], priority[1], cause[0], cause[1]]
}

/// Where each of these numbers stands from the block's start on, how wide it is, and whether it is a flag.
const PAGED_FIELDS: [(usize, usize, bool); PAGED_NUMBERS] =
    [(0, 1, true), (1, 1, false), (2, 1, false), (8, 8, false), (3, 1, false), (4, 1, true), (5, 1, false), (6, 1, true), (7, 1, true)];

/// The octets as they stand, whether they say that somebody is paged or not.
pub fn get_paged(octets: &[u8]) -> [u64; PAGED_NUMBERS] {
    PAGED_FIELDS.map(|(at, width, flag)| {
        let number = get(octets, PAGED + at, width);
        if flag {
            u64::from(number != 0)
        } else {
            number
        }
    })
}

fn put_paged(octets: &mut [u8], paged: Option<&Paged>) {
    for ((at, width, _), number) in PAGED_FIELDS.into_iter().zip(paged_numbers_of(paged)) {
        put(octets, PAGED + at, width, number);
    }
}

pub fn place_number(place: Place) -> usize {
    CHANNELS.len() * place.0 + place.1 as usize
}

/// Decoding is total: any octets are a receiver.
pub fn decode(octets: &[u8]) -> Receiver {
    let mut halves = BTreeMap::new();
    for subscription in 0..MOST_KEYS {
        for channel in CHANNELS {
            let place = place_number((subscription, channel));
            let segment = match octets[KINDS + place] {
                0 => continue,
                1 => Segment::First,
                2 => Segment::Second,
                _ => Segment::Opposite,
            };
            let tick = get_u32(octets, TICKS + 4 * place);
            let record = get_record(octets, RECORDS + RECORD_OCTETS * place);
            halves.insert((subscription, channel), Half { segment, tick, record });
        }
    }
    Receiver {
        tick: get_u32(octets, 0),
        timers: CHANNELS.map(|channel| get_u32(octets, TIMERS + 4 * channel as usize)),
        nln: Some(octets[NLN]).filter(|&nln| nln != NO_NLN),
        count: Some(u64::from(octets[KEPT_COUNT])).filter(|&count| count < 4),
        bit: match octets[BIT_22] {
            0 => Some(false),
            1 => Some(true),
            _ => None,
        },
        keys: (0..MOST_KEYS.min(octets[N_KEYS] as usize)).map(|i| get_u32(octets, KEYS + 4 * i)).collect(),
        sets: (0..MOST_KEYS).map(|i| get_u32(octets, SETS + 4 * i)).collect(),
        halves,
        touched: Vec::new(),
    }
}

/// The second program's receiver together with the octets that the archive must leave in the lent state.
pub struct Mirror {
    pub octets: Vec<u8>,
    pub receiver: Receiver,
}

impl Mirror {
    pub fn of(octets: &[u8]) -> Mirror {
        Mirror { octets: octets.to_vec(), receiver: decode(octets) }
    }

    /// An accepted setup writes every octet; a refused one none.
    pub fn setup(&mut self, keys: &[u32], sets: &[u32], tick: u32, timers: Timers) -> Result<(), Refusal> {
        self.receiver = Receiver::setup(keys, sets, tick, timers)?;
        self.octets.fill(0);
        put(&mut self.octets, 0, 4, u64::from(tick));
        for (i, timer) in timers.into_iter().enumerate() {
            put(&mut self.octets, TIMERS + 4 * i, 4, u64::from(timer));
        }
        self.octets[NLN] = NO_NLN;
        self.octets[KEPT_COUNT] = NO_COUNT;
        self.octets[BIT_22] = NO_BIT;
        self.octets[N_KEYS] = keys.len() as u8;
        self.octets[MARK..KEYS].copy_from_slice(&SET_UP);
        for i in 0..MOST_KEYS {
            let key = keys.get(i).copied().unwrap_or(UNUSED_KEY);
            put(&mut self.octets, KEYS + 4 * i, 4, u64::from(key));
            put(&mut self.octets, SETS + 4 * i, 4, u64::from(sets.get(i).copied().unwrap_or(0)));
        }
        Ok(())
    }

    /// An accepted event writes its tick, what it changed of the cell, the places it filled or freed, and the answer.
    pub fn event(&mut self, tick: u32, event: &Event) -> Result<Answer, Refusal> {
        let (nln, count, bit) = (self.receiver.nln, self.receiver.count, self.receiver.bit);
        let answer = self.receiver.event(tick, event)?;
        let octets = &mut self.octets;
        put(octets, 0, 4, u64::from(tick));
        if self.receiver.nln != nln {
            octets[NLN] = self.receiver.nln.unwrap_or(NO_NLN);
        }
        // What is forgotten is written even where it was not known: octets that no setup left have more than one way to say that.
        let forgets = matches!(event, Event::Reselected | Event::HandedOver);
        if self.receiver.count != count || forgets {
            octets[KEPT_COUNT] = self.receiver.count.map_or(NO_COUNT, |count| count as u8);
        }
        if self.receiver.bit != bit || forgets {
            octets[BIT_22] = self.receiver.bit.map_or(NO_BIT, u8::from);
        }
        for &place in &self.receiver.touched {
            let number = place_number(place);
            let half = self.receiver.halves.get(&place);
            octets[KINDS + number] = match half {
                None => 0,
                Some(half) if half.segment == Segment::First => 1,
                Some(_) => 2,
            };
            put(octets, TICKS + 4 * number, 4, half.map_or(0, |half| u64::from(half.tick)));
            // An empty place is all zero, and so is an empty record.
            let record = half.map_or(Record::default(), |half| half.record);
            put_record(octets, RECORDS + RECORD_OCTETS * number, &record);
        }
        put(octets, EXPIRED, 4, answer.expired);
        put(octets, DROPPED, 4, answer.dropped);
        put(octets, COUNT, 4, answer.entries.len() as u64);
        put_paged(octets, answer.paged.as_ref());
        for (i, told) in answer.entries.iter().enumerate() {
            let at = ENTRIES + ENTRY_OCTETS * i;
            put(octets, at, 8, told.key);
            put(octets, at + 8, 1, told.number);
            put(octets, at + 9, 1, told.follow.0);
            put(octets, at + 10, 1, told.follow.1);
            if let Some(record) = &told.record {
                put_record(octets, at + 16, record);
            }
        }
        Ok(answer)
    }

    /// One number of the answer; what is not there is 0.
    pub fn read(&self, entry: u32, part: u32) -> u64 {
        read(&self.octets, entry, part)
    }

    /// All numbers of an entry: its parts one after the other.
    pub fn entry(&self, entry: u32) -> Vec<u64> {
        (3..FIRST_PAGED_PART).map(|part| self.read(entry, part as u32)).collect()
    }

    /// Who is paged, all of it.
    pub fn paged(&self) -> [u64; PAGED_NUMBERS] {
        get_paged(&self.octets)
    }

    /// The halves that are held, by subscription and channel: key, channel, which half, ms left, record. Which half is told as its octet stands.
    pub fn held(&self) -> Vec<Vec<u64>> {
        let receiver = &self.receiver;
        let each = |(&place, half): (&Place, &Half)| {
            let age = receiver.tick.wrapping_sub(half.tick);
            let left = receiver.timers[place.1 as usize].saturating_sub(age);
            let which = u64::from(self.octets[KINDS + place_number(place)]);
            let leading = [get(&self.octets, KEYS + 4 * place.0, 4), place.1 as u64, which, u64::from(left)];
            [&leading[..], &numbers_of(&half.record)].concat()
        };
        receiver.halves.iter().map(each).collect()
    }

    /// In how many ms the next half runs out.
    pub fn next_expiry(&self) -> u64 {
        self.held().iter().map(|half| half[3]).min().unwrap_or(NEVER)
    }

    pub fn is_set_up(&self) -> bool {
        self.octets[MARK..KEYS] == SET_UP
    }
}

pub fn read(octets: &[u8], entry: u32, part: u32) -> u64 {
    let count = get(octets, COUNT, 4);
    match part {
        0 => return get(octets, EXPIRED, 4),
        1 => return get(octets, DROPPED, 4),
        2 => return count,
        _ => {}
    }
    if (FIRST_PAGED_PART..PARTS).contains(&(part as usize)) {
        return get_paged(octets)[part as usize - FIRST_PAGED_PART];
    }
    if u64::from(entry) >= count.min(MOST_ENTRIES as u64) {
        return 0;
    }
    let at = ENTRIES + ENTRY_OCTETS * entry as usize;
    let told = u64::from(octets[at + 8]);
    let part = part as usize;
    match part {
        3 => get(octets, at, 8),
        4 => told,
        FIRST_RECORD_PART..=34 if (1..=3).contains(&told) => get_number(octets, at + 16, part - FIRST_RECORD_PART),
        FOLLOW_PART => u64::from(octets[at + 9]),
        FOLLOW_COUNT_PART => u64::from(octets[at + 10]),
        _ => 0,
    }
}
