//! Messages and records: both sides read and write the same.

use crate::bits::{bit_of, missing, number_of, RAN_OUT};
use crate::cover::Met;
use crate::draft::{octets_of_bits, CallDraft, FacchDraft, Hops, NchDraft, PageDraft, Pool, Subject};
use crate::ffi::{self, archive};
use crate::rng::Rng;
use crate::tally::{hex, sparse, Tally};
use crate::{facch, nch};

/// What a reader leaves in an array of `places` numbers: the reading, zeros beyond it; all zeros where it was refused.
pub fn filled(reading: Result<Vec<u64>, u32>, places: usize) -> (u32, Vec<u64>) {
    let (refusal, mut numbers) = match reading {
        Ok(numbers) => (0, numbers),
        Err(refusal) => (refusal, Vec::new()),
    };
    numbers.resize(places, 0);
    (refusal, numbers)
}

pub fn second_nch(octets: &[u8]) -> Result<Vec<u64>, u32> {
    nch::read(octets).map(|(message, used)| message.numbers(used))
}

pub fn second_facch(octets: &[u8]) -> Result<Vec<u64>, u32> {
    facch::read(octets).map(|(message, used)| message.numbers(used))
}

/// Reads on both sides; an accepted message is also written back. Gives the archive's reading.
pub fn compare_nch(tally: &mut Tally, octets: &[u8], places: usize) -> (u32, Vec<u64>) {
    let archive = ffi::read_octets(archive::asternhaken_nch_read, octets, places);
    let second = filled(second_nch(octets), places);
    tally.count_refusal(archive.0);
    tally.same_reading("nch_read", || format!("{} into {places} numbers", hex(octets)), &archive, &second);
    if archive.0 == 0 && places == nch::NUMBERS {
        let used = archive.1[0] as usize;
        let written = compare_nch_write(tally, &archive.1, 20);
        let expected = octets_of_bits(&bits_of(octets)[..used.min(160)], 20);
        tally.same_writing("nch: what was read is written back, then padding", || hex(octets), &written, &(0, expected));
    }
    archive
}

fn bits_of(octets: &[u8]) -> Vec<u8> {
    octets.iter().flat_map(|octet| (0..8).rev().map(move |place| octet >> place & 1)).collect()
}

/// Reads on both sides; an accepted message is also written back, into as many octets, of which the first is then zero.
pub fn compare_facch(tally: &mut Tally, octets: &[u8], places: usize) -> (u32, Vec<u64>) {
    let archive = ffi::read_octets(archive::asternhaken_facch_read, octets, places);
    let second = filled(second_facch(octets), places);
    tally.count_refusal(archive.0);
    tally.same_reading("facch_read", || format!("{} into {places} numbers", hex(octets)), &archive, &second);
    count_reading(tally, octets, archive.0);
    if archive.0 == 0 && places == facch::NUMBERS {
        let used = archive.1[0] as usize;
        let written = compare_facch_write(tally, &archive.1, octets.len());
        let mut bits = bits_of(octets)[..used.clamp(8, 8 * octets.len())].to_vec();
        bits[..8].fill(0);
        let expected = octets_of_bits(&bits, octets.len());
        tally.same_writing("facch: what was read is written back, then padding", || hex(octets), &written, &(0, expected));
    }
    archive
}

/// What was met in a FACCH message that was refused with this, or not at all.
fn count_reading(tally: &mut Tally, octets: &[u8], refusal: u32) {
    let mut met = |what: Met| tally.messages.count(what, 1);
    let length = if octets.len() > 2 { (u64::from(octets[1]) << 1 | u64::from(octets[2] >> 7)) & 255 } else { 0 };
    let paging = octets.len() > 1 && octets[1] >= 0x80;
    match number_of(refusal) {
        0 if paging => met(Met::PageRead(length)),
        0 => second_facch(octets).iter().filter(|numbers| numbers[28] == 1).for_each(|numbers| met(Met::CallCause(numbers[29]))),
        8 => met(Met::Identity(length.min(13))),
        RAN_OUT if paging && bit_of(refusal) == 17 => met(Met::IdentityMissing(true)),
        RAN_OUT if paging && bit_of(refusal) == 9 => met(Met::IdentityMissing(false)),
        _ => {}
    }
}

/// What was met in writing these numbers into so many octets.
fn count_writing(tally: &mut Tally, numbers: &[u64], size: usize, refusal: u32) {
    if !tally.messages.on {
        return;
    }
    let mut met = |what: Met| tally.messages.count(what, 1);
    if refusal != 0 {
        met(Met::WriteRefused(number_of(refusal)));
        if refusal == 12 && numbers[1] < 2 {
            let mut own = numbers.to_vec();
            own[if numbers[1] == 1 { 2..13 } else { 13..19 }].fill(0);
            if facch::write(&own, &mut vec![0; size]).is_ok() {
                met(Met::OtherBranch(numbers[1] == 1));
            }
        }
        return;
    }
    met(Met::Written(size as u64));
    if numbers[1] == 1 {
        met(Met::PageWritten(numbers[13]));
    }
    // A form that fits into 23 octets has room there for the bits of the releases that are absent.
    let Ok(used) = facch::write(numbers, &mut [0; 23]) else { return };
    let (six, seven, size) = (numbers[19] == 1, numbers[25] == 1, 8 * size);
    if !seven {
        let lead = used - 1;
        if !six && lead - 1 == size {
            met(Met::UsedUp(6));
        } else if lead == size {
            met(Met::UsedUp(7));
        } else if lead + 1 == size {
            met(Met::LastBit(7));
        }
        if !six && lead == size {
            met(Met::LastBit(6));
        }
    }
}

/// Writes on both sides into octets that held something; gives the archive's refusal and octets.
pub fn compare_facch_write(tally: &mut Tally, numbers: &[u64], size: usize) -> (u32, Vec<u8>) {
    let before: Vec<u8> = (0..size).map(|i| 0xC0 ^ i as u8).collect();
    let archive = ffi::write_octets(archive::asternhaken_facch_write, numbers, &before);
    let mut octets = before;
    let refusal = facch::write(numbers, &mut octets).err().unwrap_or(0);
    tally.count_refusal(archive.0);
    tally.same_writing("facch_write", || format!("{} into {size} octets", sparse(numbers)), &archive, &(refusal, octets));
    count_writing(tally, numbers, size, refusal);
    archive
}

/// Writes on both sides into octets that held something; gives the archive's refusal and octets.
pub fn compare_nch_write(tally: &mut Tally, numbers: &[u64], size: usize) -> (u32, Vec<u8>) {
    let before: Vec<u8> = (0..size).map(|i| 0xC0 ^ i as u8).collect();
    let archive = ffi::write_octets(archive::asternhaken_nch_write, numbers, &before);
    let mut octets = before;
    let refusal = nch::write(numbers, &mut octets).err().unwrap_or(0);
    tally.count_refusal(archive.0);
    tally.same_writing("nch_write", || format!("{} into {size} octets", sparse(numbers)), &archive, &(refusal, octets));
    archive
}

/// Numbers that lie at and just beyond the bounds of all the fields there are, and that a narrower field would cut down to a good one.
pub const BOUNDS: [u64; 42] = [
    0,
    1,
    2,
    3,
    4,
    5,
    6,
    7,
    8,
    9,
    10,
    11,
    12,
    15,
    16,
    127,
    128,
    255,
    256,
    257,
    0xFFFF,
    0x1_0000,
    0x1000,
    (1 << 24) - 1,
    1 << 24,
    99_999_999,
    100_000_000,
    (1 << 27) - 1,
    1 << 27,
    (1 << 32) - 1,
    1 << 32,
    (1 << 32) + 1,
    (1 << 36) - 1,
    1 << 36,
    (1 << 40) - 1,
    1 << 40,
    (1 << 48) - 1,
    1 << 48,
    (1 << 56) - 1,
    1 << 56,
    1 << 63,
    u64::MAX,
];

fn places(rng: &mut Rng, usual: usize) -> usize {
    if rng.one_in(40) {
        rng.below(2 * usual as u64) as usize
    } else {
        usual
    }
}

/// A message with bits flipped, cut short or lengthened.
fn spoiled(rng: &mut Rng, octets: &[u8]) -> Vec<u8> {
    let mut octets = octets.to_vec();
    match rng.below(8) {
        0 => octets.truncate(rng.below(octets.len() as u64) as usize),
        1 => {
            let more = 1 + rng.below(4) as usize;
            octets.extend(rng.octets(more));
        }
        _ => {
            for _ in 0..1 + rng.below(3) {
                let place = rng.below(8 * octets.len() as u64) as usize;
                octets[place / 8] ^= 0x80 >> (place % 8);
            }
        }
    }
    octets
}

/// The draft's own octets and numbers against the archive: only where the draft is one that must be accepted.
fn compare_nch_draft(tally: &mut Tally, draft: &NchDraft) -> Option<Vec<u64>> {
    let bits = draft.bits().0.len();
    let numbers = draft.numbers();
    let owners = draft.calls.iter().filter(|call| call.cipher != 0).count() + draft.six.as_ref().map_or(0, |six| six.reduced.len());
    let described = draft.calls.iter().filter(|call| call.description.is_some()).count();
    let agrees = draft.six.as_ref().map_or(0, |six| six.random.len()) <= owners
        && draft.seven.as_ref().map_or(0, |seven| seven.marks.len()) <= described;
    if let (true, true, Some(numbers)) = (bits <= 160, agrees, &numbers) {
        let octets = draft.octets();
        let reading = ffi::read_octets(archive::asternhaken_nch_read, &octets, nch::NUMBERS);
        tally.same_reading("nch_read of a draft (second is the draft)", || hex(&octets), &reading, &(0, numbers.clone()));
        let written = ffi::write_octets(archive::asternhaken_nch_write, numbers, &[0; 20]);
        tally.same_writing("nch_write of a draft (second is the draft)", || sparse(numbers), &written, &(0, octets));
    }
    // What does not fit is missing: the draft knows which field, and where it begins. A release whose lead is behind the last bit is none.
    if let Some((bit, number)) = draft.bits().cut(160).filter(|field| !matches!(field.1, 6 | 7)) {
        let octets = &draft.octets()[..20];
        let reading = ffi::read_octets(archive::asternhaken_nch_read, octets, nch::NUMBERS);
        let expected = (missing(number, bit), vec![0; nch::NUMBERS]);
        tally.same_reading("nch_read of a draft too long (second is the draft)", || hex(octets), &reading, &expected);
    }
    numbers
}

/// Where the length octet of an identity ends.
const IDENTITY: usize = 17;

/// The draft's own octets and numbers against the archive's reader. One that pages with a wrong length is refused behind the length octet.
fn compare_facch_draft(tally: &mut Tally, draft: &FacchDraft) {
    let octets = draft.octets();
    let numbers = draft.numbers();
    let fits = octets.len() <= facch::LONGEST;
    let right = !matches!(&draft.subject, Subject::Page(page) if !page.is_right());
    let reading = ffi::read_octets(archive::asternhaken_facch_read, &octets, facch::NUMBERS);
    let expected = match (fits, right) {
        (false, _) => (1, vec![0; facch::NUMBERS]),
        (true, false) => (8, vec![0; facch::NUMBERS]),
        (true, true) => (0, numbers.clone()),
    };
    tally.same_reading("facch_read of a draft (second is the draft)", || hex(&octets), &reading, &expected);
    // Cut short after every octet: the missing field is told, or the cut is where a release would begin, and there is none.
    for length in facch::SHORTEST..octets.len().min(facch::LONGEST + 1) {
        let Some((bit, number)) = draft.bits().cut(8 * length) else { break };
        let reading = ffi::read_octets(archive::asternhaken_facch_read, &octets[..length], facch::NUMBERS);
        let expected = match number {
            _ if !right && 8 * length >= IDENTITY => (8, vec![0; facch::NUMBERS]),
            6 | 7 => {
                let mut numbers = numbers.clone();
                numbers[if number == 6 { 19 } else { 25 }..].fill(0);
                numbers[0] = 8 * length as u64;
                (0, numbers)
            }
            _ => (missing(number, bit), vec![0; facch::NUMBERS]),
        };
        tally.same_reading("facch_read of a draft cut short (second is the draft)", || hex(&octets[..length]), &reading, &expected);
    }
}

/// The draft's own octets against the archive's writer, in so many octets: only where the draft is one that must be accepted, if it fits.
fn compare_facch_draft_write(tally: &mut Tally, draft: &FacchDraft, size: usize) {
    let numbers = draft.numbers();
    let before = vec![0x5A; size];
    let written = ffi::write_octets(archive::asternhaken_facch_write, &numbers, &before);
    let expected = match draft.written(size) {
        Some(octets) if (2..=23).contains(&size) => (0, octets),
        _ => (11, before),
    };
    let input = || format!("{} into {size} octets", sparse(&numbers));
    tally.same_writing("facch_write of a draft (second is the draft)", input, &written, &expected);
}

/// Drafts that bend a rule on purpose: references, hopping flags and lengths that must be refused.
fn bent_call(rng: &mut Rng, draft: &mut CallDraft) {
    match rng.below(4) {
        0 => draft.reference = 100_000_000 + rng.below((1 << 27) - 100_000_000) * rng.below(2),
        1 => draft.description = Some((0x1000 | rng.below(1 << 24), Hops::Allocation(rng.pick(&[0, 9, 10, 127, 200, 255]), 0))),
        _ => {
            if let Some((channel, _)) = &mut draft.description {
                *channel ^= 0x1000;
            }
        }
    }
}

/// About `count` messages and records, at random.
pub fn run(tally: &mut Tally, rng: &mut Rng, count: u64) {
    let pool = Pool::wide();
    let mut done = 0;
    tally.messages.on = true;
    while done < count {
        match rng.below(12) {
            0 => {
                let length = if rng.one_in(8) { rng.below(30) as usize } else { 20 };
                let octets = rng.octets(length);
                let places = places(rng, nch::NUMBERS);
                compare_nch(tally, &octets, places);
                done += 1;
            }
            1 => {
                let length = rng.below(26) as usize;
                let mut octets = rng.octets(length);
                if length > 1 && rng.one_in(2) {
                    octets[1] &= 0x3F;
                } else if length > 2 && rng.one_in(2) {
                    let identity = rng.below(14) as u8;
                    (octets[1], octets[2]) = (0x80 | identity >> 1, identity << 7 | octets[2] >> 1);
                }
                let places = places(rng, facch::NUMBERS);
                compare_facch(tally, &octets, places);
                done += 1;
            }
            2..=5 => done += nch_messages(tally, rng, &pool),
            6..=7 => done += facch_messages(tally, rng, &pool),
            8..=9 => done += facch_records(tally, rng, &pool),
            _ => done += nch_records(tally, rng, &pool),
        }
    }
    tally.messages.on = false;
    tally.messages.steps += done;
}

fn nch_messages(tally: &mut Tally, rng: &mut Rng, pool: &Pool) -> u64 {
    let mut draft = pool.nch(rng);
    if rng.one_in(6) && !draft.calls.is_empty() {
        let which = rng.below(draft.calls.len() as u64) as usize;
        bent_call(rng, &mut draft.calls[which]);
    } else {
        compare_nch_draft(tally, &draft);
    }
    // What runs over is cut, so that a list meets the end of the message.
    let mut octets = draft.octets();
    octets.truncate(20);
    let places = places(rng, nch::NUMBERS);
    compare_nch(tally, &octets, places);
    for _ in 0..3 {
        let octets = spoiled(rng, &octets);
        compare_nch(tally, &octets, nch::NUMBERS);
    }
    4
}

fn facch_messages(tally: &mut Tally, rng: &mut Rng, pool: &Pool) -> u64 {
    let mut draft = pool.facch(rng);
    let octets = match &mut draft.subject {
        Subject::Call(call) if rng.one_in(6) => {
            bent_call(rng, call);
            let mut octets = draft.octets();
            octets.truncate(23);
            octets
        }
        _ => {
            compare_facch_draft(tally, &draft);
            draft.octets()
        }
    };
    let places = places(rng, facch::NUMBERS);
    compare_facch(tally, &octets, places);
    for _ in 0..3 {
        let octets = spoiled(rng, &octets);
        compare_facch(tally, &octets, facch::NUMBERS);
    }
    4
}

/// A number of octets: as few as the record takes, or one less or more, or any.
fn buffer(rng: &mut Rng, least: usize) -> usize {
    match rng.below(8) {
        0..=2 => least,
        3 => least - 1,
        4 => least + 1,
        5 => 23,
        6 => 2 + rng.below(22) as usize,
        _ => rng.pick(&[0, 1, 2, 3, 22, 24, 25, 46, 255]),
    }
}

fn facch_records(tally: &mut Tally, rng: &mut Rng, pool: &Pool) -> u64 {
    let mut draft = FacchDraft { short: true, ..pool.facch(rng) };
    let right = match &mut draft.subject {
        Subject::Call(call) if rng.one_in(4) => {
            bent_call(rng, call);
            false
        }
        Subject::Call(_) => true,
        Subject::Page(page) => page.is_right(),
    };
    let numbers = draft.numbers();
    let least = draft.octets().len().min(23);
    for size in [least, buffer(rng, least)] {
        compare_facch_write(tally, &numbers, size);
        if right {
            compare_facch_draft_write(tally, &draft, size);
        }
    }
    for faults in 1..=2 {
        let mut numbers = numbers.clone();
        for _ in 0..faults {
            spoil_facch(rng, &mut numbers);
        }
        if rng.one_in(30) {
            numbers.resize(rng.below(64) as usize, 0);
        }
        let size = buffer(rng, least);
        compare_facch_write(tally, &numbers, size);
    }
    4
}

/// Another number in some place of a FACCH record: half of the time one that is in use, often one of the branch that the record does not have.
fn spoil_facch(rng: &mut Rng, numbers: &mut [u64]) {
    let used: Vec<usize> = (0..numbers.len()).filter(|&place| numbers[place] != 0).collect();
    let other = if numbers[1] == 1 { 2 + rng.below(11) } else { 13 + rng.below(6) };
    let place = match rng.below(8) {
        0..=2 => rng.pick(&used),
        3 => 13 + rng.below(2) as usize,
        4 | 5 => other as usize,
        _ => rng.below(numbers.len() as u64) as usize,
    };
    numbers[place] = match rng.below(4) {
        0 => numbers[place].wrapping_add(1),
        1 => numbers[place] ^ 1 << rng.below(64),
        _ => rng.pick(&BOUNDS),
    };
}

fn nch_records(tally: &mut Tally, rng: &mut Rng, pool: &Pool) -> u64 {
    let mut draft = pool.nch(rng);
    if rng.one_in(3) && !draft.calls.is_empty() {
        let which = rng.below(draft.calls.len() as u64) as usize;
        bent_call(rng, &mut draft.calls[which]);
    }
    let Some(numbers) = draft.numbers() else { return 0 };
    let size = if rng.one_in(20) { rng.below(42) as usize } else { 20 };
    compare_nch_write(tally, &numbers, size);
    for faults in 1..=3 {
        let mut numbers = numbers.clone();
        for _ in 0..faults {
            // Half of the time a place that is in use, or most faults would only be something in an unused one.
            let used: Vec<usize> = (0..numbers.len()).filter(|&place| numbers[place] != 0).collect();
            let place = if used.is_empty() || rng.one_in(2) { rng.below(numbers.len() as u64) as usize } else { rng.pick(&used) };
            numbers[place] = match rng.below(4) {
                0 => numbers[place].wrapping_add(1),
                1 => numbers[place] ^ 1 << rng.below(64),
                _ => rng.pick(&BOUNDS),
            };
        }
        if rng.one_in(30) {
            numbers.resize(rng.below(220) as usize, 0);
        }
        compare_nch_write(tally, &numbers, 20);
    }
    4
}

/// Each field of some records at every bound, whatever the seed.
pub fn fields(tally: &mut Tally) {
    let mut rng = Rng::new(1);
    let pool = Pool::wide();
    let mut bases: Vec<Vec<u64>> = vec![vec![0; nch::NUMBERS]];
    // Descriptions of every kind.
    let kinds = (1..=8).map(|length| Hops::Allocation(length, 1)).chain([Hops::List(0x8000_0000_0000_0001)]);
    for hops in kinds {
        let call = CallDraft { description: Some((0x1000, hops)), ..CallDraft::plain(9_423, 0) };
        bases.extend(NchDraft { calls: vec![call], ..NchDraft::default() }.numbers());
    }
    // Records with much in them, and of every shape.
    while bases.len() < 24 {
        let draft = pool.nch(&mut rng);
        let enough = draft.calls.len() + draft.seven.iter().count() + draft.six.iter().count() >= 3;
        let octets = draft.octets();
        if let (true, Ok(numbers)) = (enough, second_nch(&octets)) {
            bases.push(numbers);
        }
    }
    for base in &bases {
        for field in 0..nch::NUMBERS {
            for bound in BOUNDS {
                let mut numbers = base.clone();
                numbers[field] = bound;
                compare_nch_write(tally, &numbers, 20);
            }
        }
        for length in 0..2 * nch::NUMBERS {
            let mut numbers = base.clone();
            numbers.resize(length, 0);
            compare_nch_write(tally, &numbers, 20);
        }
        for size in 0..42 {
            compare_nch_write(tally, base, size);
        }
    }
    facch_fields(tally);
    // Messages and arrays far too long.
    for length in [24, 255, 256, 276, 4_095, 4_096, 4_097, 65_556, 100_000] {
        for fill in [0x00, 0x2B, 0x80] {
            compare_nch(tally, &vec![fill; length], nch::NUMBERS);
            compare_facch(tally, &vec![fill; length], facch::NUMBERS);
        }
        compare_nch(tally, &[0x2B; 20], length);
        compare_facch(tally, &[0x2B; 23], length);
        compare_nch_write(tally, &vec![0; length], 20);
        compare_nch_write(tally, &bases[0], length);
        compare_facch_write(tally, &vec![0; length], 23);
        compare_facch_write(tally, &[0; facch::NUMBERS], length);
    }
}

/// The same of the FACCH: calls with every kind of description, and identities of every length, each with little behind it and with all.
fn facch_fields(tally: &mut Tally) {
    let mut drafts = vec![FacchDraft::of(CallDraft::plain(0, 0))];
    for hops in [Hops::No].into_iter().chain((1..=8).map(|length| Hops::Allocation(length, 1))).chain([Hops::List(1 << 63 | 1)]) {
        let channel = if matches!(hops, Hops::No) { 0 } else { 0x1000 };
        drafts.push(FacchDraft::of(CallDraft { description: Some((channel, hops)), ..CallDraft::plain(9_423, 0) }));
    }
    for length in (0..=12).chain([255]) {
        let identity: Vec<u8> = (0..length.min(9)).map(|i| 0xF4 ^ i as u8).collect();
        drafts.push(FacchDraft::page(PageDraft { length, ..PageDraft::of(&identity) }));
        drafts.push(FacchDraft::page(PageDraft { length, channel_first: 3, priority: Some(7), ..PageDraft::of(&identity) }));
    }
    let full = drafts.clone().into_iter().map(|draft| draft.rand((1 << 36) - 1).count(3, 1).cause(1));
    drafts.extend(full.collect::<Vec<FacchDraft>>());
    for draft in drafts {
        let base = draft.numbers();
        let least = FacchDraft { short: true, ..draft }.octets().len();
        for field in 0..facch::NUMBERS {
            for bound in BOUNDS {
                let mut numbers = base.clone();
                numbers[field] = bound;
                compare_facch_write(tally, &numbers, 23);
            }
            let mut numbers = base.clone();
            numbers[field] ^= 1;
            compare_facch_write(tally, &numbers, least);
        }
        for length in 0..2 * facch::NUMBERS {
            let mut numbers = base.clone();
            numbers.resize(length, 0);
            compare_facch_write(tally, &numbers, 23);
        }
        for size in 0..42 {
            compare_facch_write(tally, &base, size);
        }
    }
}
