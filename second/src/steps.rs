//! Event sequences at random: few keys, so that halves meet; ticks near expiry and around the wrap; states that no setup left.

use crate::bits::SETUP;
use crate::cover::Met;
use crate::draft::{CallDraft, FacchDraft, NchDraft, PchDraft, Pool, SevenDraft, SixDraft, Subject};
use crate::ffi::{self, archive};
use crate::pair::{event_line, feed, Pair};
use crate::receiver::*;
use crate::rng::Rng;
use crate::state::*;
use crate::tally::{hex, Tally};

const STEPS_OF_A_SEQUENCE: u64 = 40;

/// About `count` event steps.
pub fn run(tally: &mut Tally, rng: &mut Rng, count: u64) {
    let mut done = 0;
    tally.cover.on = true;
    while done < count {
        done += match rng.below(10) {
            0..=6 => from_setup(tally, rng),
            7..=8 => from_any_octets(tally, rng),
            _ => wrong_lengths(tally, rng),
        };
    }
    tally.cover.on = false;
    tally.cover.steps += done;
}

/// A few references of which both services turn up; one at the upper end, where the key is the last.
pub fn small_pool(rng: &mut Rng) -> Pool {
    let count = 1 + rng.below(3);
    let mut references: Vec<u64> = (0..count).map(|_| rng.below(100_000_000)).collect();
    if rng.one_in(4) {
        references.push(rng.pick(&[0, 99_999_999]));
    }
    Pool { references }
}

/// Keys of the pool, in rising order; sometimes filled up to as many as there may be.
pub fn keys(rng: &mut Rng, pool: &Pool) -> Vec<u32> {
    let mut keys: Vec<u32> = Vec::new();
    for reference in &pool.references {
        for service in 0..2 {
            let key = 2 * *reference as u32 + service;
            if !rng.one_in(6) && !keys.contains(&key) {
                keys.push(key);
            }
        }
    }
    if rng.one_in(8) {
        let most = 40 + rng.below(11) as usize;
        while keys.len() < most {
            let key = rng.below(200_000_000) as u32;
            if !keys.contains(&key) {
                keys.push(key);
            }
        }
    }
    keys.sort_unstable();
    keys
}

/// Lookups among keys of any number, mostly rising, of keys that stand there and of their neighbours.
fn lookups(tally: &mut Tally, rng: &mut Rng) {
    let most = rng.pick(&[1, 2, 4, 8, 16, 32, 50, 50, 50, 51, 52]);
    let count = if rng.one_in(2) { most } else { rng.below(most + 1) };
    let mut keys: Vec<u32> = (0..count).map(|_| rng.below(200_000_000) as u32).collect();
    if rng.one_in(4) {
        keys.iter_mut().for_each(|key| *key %= 60);
    }
    keys.sort_unstable();
    keys.dedup();
    if rng.one_in(8) {
        keys.iter_mut().for_each(|key| *key = key.wrapping_mul(0x9E37_79B1));
    }
    for _ in 0..4 {
        let near = if keys.is_empty() { rng.next() as u32 } else { rng.pick(&keys) };
        let key = near.wrapping_add(rng.pick(&[0, 0, 0, 1, u32::MAX, 1 << 31]));
        lookup(tally, &keys, key);
    }
}

/// One lookup on both sides. Where the keys rise it finds what a search from the front finds, and compares six at most.
pub fn lookup(tally: &mut Tally, keys: &[u32], key: u32) -> (u32, u64, u64) {
    let archive = ffi::find(keys, key);
    let second = match find(keys, u64::from(key)) {
        _ if keys.len() > MOST_KEYS => (SETUP, 0, 0),
        (place, looks) => (0, place.unwrap_or(MOST_KEYS) as u64, looks),
    };
    tally.count_refusal(archive.0);
    tally.same("find (refusal, place, looks)", || format!("{key} in {keys:?}"), &archive, &second);
    if archive.0 == 0 && keys.is_sorted() {
        let there = keys.iter().position(|&each| each == key);
        tally.cover.count(Met::Found(there.is_some(), archive.2), 1);
        let most = if keys.is_empty() { 0 } else { 1 + u64::from(keys.len().ilog2()) };
        let right = archive.1 == there.unwrap_or(MOST_KEYS) as u64 && archive.2 <= most && most <= 6;
        tally.check(right, || format!("  find {key} in {keys:?}: {archive:?}, where it stands is {there:?}"));
    }
    archive
}

/// Group keys for each: mostly the one that the pool's calls have, alone or with others; sometimes all but it, none, or any.
pub fn sets(rng: &mut Rng, keys: &[u32]) -> Vec<u32> {
    let mut set = || {
        let any = rng.next() as u32 & 0xFFFE;
        rng.pick(&[1 << 3, 1 << 3, 3 << 3, 0xFFFE, 0xFFFE & !(1 << 3), 1 << 4, 0, any, any])
    };
    keys.iter().map(|_| set()).collect()
}

pub const TIMES: [u32; 9] = [1, 2, 3, 10, 100, 5_000, 10_000, 59_999, 60_000];

pub fn first_tick(rng: &mut Rng) -> u32 {
    match rng.below(4) {
        0 => u32::MAX - rng.below(200) as u32,
        1 => (1 << 31) - rng.below(200) as u32,
        2 => rng.below(1000) as u32,
        _ => rng.next() as u32,
    }
}

/// A setup that must be refused, or may be.
fn doubtful_setup(tally: &mut Tally, rng: &mut Rng, pair: &mut Pair, good: &[u32]) {
    let mut keys = good.to_vec();
    let mut timers = [5_000; CHANNELS.len()];
    // What is put in at any place mostly breaks the order, which is a ground of its own.
    let sorted = rng.one_in(2);
    match rng.below(12) {
        0 | 1 => timers[rng.below(3) as usize] = rng.pick(&[0, 60_001, u32::MAX]),
        7 if keys.len() > 1 => {
            let place = rng.below(keys.len() as u64 - 1) as usize;
            keys.swap(place, place + 1);
        }
        2 => {
            let key = rng.pick(&[200_000_000, 200_000_001, 199_999_999, u32::MAX, u32::MAX - 1]);
            keys.insert(rng.below(keys.len() as u64 + 1) as usize, key);
        }
        3 if !keys.is_empty() => {
            let key = rng.pick(&keys);
            keys.insert(rng.below(keys.len() as u64 + 1) as usize, key);
        }
        4 => keys = (0..49 + rng.below(4) as u32).map(|i| 7 * i).collect(),
        5 => keys = (0..rng.pick(&[51, 100, 255, 256, 257, 306])).collect(),
        8..=11 => return doubtful_sets(tally, rng, pair, &keys),
        _ => timers = timers.map(|_| rng.pick(&[1, 60_000])),
    }
    if sorted {
        keys.sort_unstable();
    }
    let sets = sets(rng, &keys);
    let tick = rng.next() as u32;
    pair.setup(tally, &keys, &sets, tick, timers);
}

/// A setup of which the sets alone may be wrong: not one for each key, or with a key number that there is not, in one of them.
fn doubtful_sets(tally: &mut Tally, rng: &mut Rng, pair: &mut Pair, keys: &[u32]) {
    let mut sets = sets(rng, keys);
    match rng.below(6) {
        0 => sets.push(rng.pick(&[0, 2])),
        1 => drop(sets.pop()),
        2 => sets.resize(rng.pick(&[0, 1, 50, 51]), 2),
        _ if !sets.is_empty() => {
            let place = rng.below(sets.len() as u64) as usize;
            sets[place] |= rng.pick(&[1, 1, 1 << 16, 1 << 16, 1 << 17, 1 << 24, 1 << 31]);
        }
        _ => {}
    }
    let tick = rng.next() as u32;
    pair.setup(tally, keys, &sets, tick, [5_000; CHANNELS.len()]);
}

fn from_setup(tally: &mut Tally, rng: &mut Rng) -> u64 {
    let pool = small_pool(rng);
    let keys = keys(rng, &pool);
    let garbage = rng.octets(STATE_LENGTH);
    let mut pair = Pair::of(&garbage, rng.next() as usize);
    for _ in 0..rng.below(3) {
        doubtful_setup(tally, rng, &mut pair, &keys);
    }
    lookups(tally, rng);
    let timers = CHANNELS.map(|_| rng.pick(&TIMES));
    let sets = sets(rng, &keys);
    pair.setup(tally, &keys, &sets, first_tick(rng), timers);
    events(tally, rng, &mut pair, &pool, STEPS_OF_A_SEQUENCE);
    if rng.one_in(3) {
        // Who is paged then goes with an accepted setup, and stays over a refused one.
        if rng.one_in(2) {
            let (tick, page) = (pair.mirror.receiver.tick, page(rng, &pool));
            pair.event(tally, tick, &page);
        }
        doubtful_setup(tally, rng, &mut pair, &keys);
    }
    STEPS_OF_A_SEQUENCE
}

fn events(tally: &mut Tally, rng: &mut Rng, pair: &mut Pair, pool: &Pool, count: u64) {
    // What comes next of a story, the next one last.
    let mut story: Vec<Event> = Vec::new();
    for _ in 0..count {
        if story.is_empty() && rng.one_in(40) {
            let tale = if rng.one_in(3) { new_count } else { new_cell };
            story = tale(rng, &pair.mirror.receiver, pool);
            story.reverse();
        }
        let event = story.pop().unwrap_or_else(|| event(rng, &pair.mirror.receiver, pool));
        let tick = tick(rng, &pair.mirror.receiver);
        pair.event(tally, tick, &event);
    }
}

/// The next tick: usually soon, often at the moment when a half runs out, sometimes refused.
pub fn tick(rng: &mut Rng, receiver: &Receiver) -> u32 {
    let last = receiver.tick;
    let halves: Vec<(&Place, &Half)> = receiver.halves.iter().collect();
    match rng.below(40) {
        0..=7 => last,
        8..=19 => last.wrapping_add(1 + rng.below(3) as u32),
        20..=29 if !halves.is_empty() => {
            // A millisecond before, at and after the timer of a half that is held.
            let (place, half) = halves[rng.below(halves.len() as u64) as usize];
            let tick = half.tick.wrapping_add(receiver.timer(place.1)).wrapping_add(rng.below(3) as u32).wrapping_sub(1);
            if tick.wrapping_sub(last) < 1 << 31 {
                tick
            } else {
                last
            }
        }
        30..=33 => {
            let timer = u64::from(rng.pick(&receiver.timers));
            last.wrapping_add(rng.below(timer.max(1)) as u32)
        }
        34 => last.wrapping_add(rng.pick(&[(1 << 31) - 1, (1 << 31) - 2, 1 << 30])),
        35 => last.wrapping_add(1 << 31),
        36 => last.wrapping_add((1 << 31) + rng.below(1 << 31) as u32),
        37 => last.wrapping_sub(1 + rng.below(3) as u32),
        _ => last.wrapping_add(rng.below(20) as u32),
    }
}

pub fn event(rng: &mut Rng, receiver: &Receiver, pool: &Pool) -> Event {
    if !receiver.halves.is_empty() && rng.one_in(4) {
        return meeting(rng, receiver);
    }
    if !receiver.halves.is_empty() && rng.one_in(12) {
        return losing(rng, receiver);
    }
    match rng.below(62) {
        0..=17 => {
            let mut draft = pool.nch(rng);
            // Once there was an NLN, most messages repeat it or have none, or no NCH half would live long.
            if receiver.nln.is_some() && !rng.one_in(12) {
                draft.nln = rng.one_in(2).then_some(receiver.nln.map(u64::from).filter(|&nln| nln < 4)).flatten();
            }
            // Now and then so much in Release 7 that it runs out.
            if rng.one_in(16) {
                draft.seven.get_or_insert_with(SevenDraft::default).marks = vec![1; 80];
            }
            let mut octets = draft.octets();
            octets.truncate(20);
            Event::Nch(octets)
        }
        18..=31 => {
            let draft = pool.facch(rng);
            let mut octets = draft.octets();
            octets.truncate(23);
            // Often clipped, mostly inside the last parts.
            if rng.one_in(4) {
                let whole = draft.bits().0.len().div_ceil(8);
                let most = if rng.one_in(4) { 20 } else { 3 };
                let less = 1 + rng.below(most) as usize;
                octets.truncate(whole.saturating_sub(less).max(2));
            }
            Event::Facch(octets)
        }
        32 => {
            let length = rng.below(26) as usize;
            let octets = rng.octets(length);
            if rng.one_in(2) {
                Event::Nch(octets)
            } else {
                Event::Facch(octets)
            }
        }
        33 => Event::Nch(rng.octets(20)),
        34 | 35 => Event::Joined(match rng.below(8) {
            0 => rng.pick(&[200_000_000, 200_000_001, u32::MAX, u32::MAX - 1]),
            1 => rng.pick(&[0, 199_999_999]),
            2 => rng.below(200_000_000) as u32,
            _ => (2 * pool.reference(rng) + rng.below(2)) as u32,
        }),
        36 => Event::Reselected,
        37 if rng.one_in(2) => Event::HandedOver,
        37 => Event::Reconfigured,
        38..=50 => {
            let numbers = pool.pch(rng).numbers();
            Event::Pch(if rng.below(13) < 3 { doubtful_pch(rng, numbers) } else { with_leftovers(rng, numbers) })
        }
        51 => Event::LeftIdle,
        54..=57 => Event::Bit(if rng.one_in(6) { rng.pick(&[2, 3, 256, 1 << 31, u32::MAX]) } else { rng.below(2) as u32 }),
        58..=61 => page(rng, pool),
        _ => Event::Tick,
    }
}

/// Somebody is paged, now and then with a length that no identity has; sometimes clipped.
fn page(rng: &mut Rng, pool: &Pool) -> Event {
    let draft = FacchDraft { subject: Subject::Page(Pool::page(rng)), ..pool.facch(rng) };
    let mut octets = draft.octets();
    if rng.one_in(12) {
        octets.truncate(2 + rng.below(octets.len() as u64 - 2) as usize);
    }
    Event::Facch(octets)
}

/// Numbers at the limits of what fields hold, and of all.
const LARGE: [u64; 10] = [0, 1, 2, 255, 1 << 12, 1 << 24, 1 << 32, 1 << 36, 1 << 63, u64::MAX];

/// The places of a PCH entry that are not looked at, by the flags in it. A flag above 1 counts as set.
fn not_looked_at(n: &[u64]) -> Vec<usize> {
    let mut places = Vec::new();
    let mut behind = |there: bool, of_it: &[usize]| {
        if !there {
            places.extend(of_it);
        }
    };
    behind(n[2] != 0, &[3]);
    behind(n[4] != 0, &[5, 6]);
    behind(n[4] != 0 && n[6] != 0, &[7, 9]);
    behind(n[4] != 0 && n[6] != 0 && n[7] == 0, &[8]);
    behind(n[10] != 0, &[11]);
    behind(n[12] != 0, &[13]);
    places
}

/// Often with something in places that are not looked at.
fn with_leftovers(rng: &mut Rng, mut numbers: Vec<u64>) -> Vec<u64> {
    if rng.one_in(2) {
        for place in not_looked_at(&numbers) {
            numbers[place] = if rng.one_in(2) { rng.pick(&LARGE) } else { rng.next() };
        }
    }
    numbers
}

/// An entry with one or two things in it that are mostly refused; two of them show which goes first.
fn doubtful_pch(rng: &mut Rng, mut n: Vec<u64>) -> Vec<u64> {
    for _ in 0..1 + rng.below(2) {
        match rng.below(20) {
            0 | 1 => n[0] = rng.pick(&[200_000_000, 200_000_001, u64::from(u32::MAX), 1 << 32, n[0] | 1 << 32, u64::MAX]),
            // A mobile allocation of any length; one that is right may hold its octets or not.
            2..=5 => {
                n[4] = rng.pick(&[1, 1, 1, 2]);
                n[5] = rng.below(1 << 24) | u64::from(!rng.one_in(4)) << 12;
                n[6] = rng.pick(&[1, 1, 1, 3]);
                n[7] = if rng.one_in(8) { rng.pick(&LARGE) } else { 0 };
                n[8] = rng.pick(&[0, 9, 255, 256, 257, u64::MAX, 1, 2, 7, 8]);
                n[9] = rng.next() >> rng.pick(&[0, 7, 8, 40, 47, 48, 55, 56, 63]);
            }
            6 | 7 => n[5] ^= 1 << 12,
            8..=10 => n[rng.pick(&[1, 2, 4, 6, 7, 10, 12])] = rng.pick(&[2, 3, 256, 1 << 32, u64::MAX]),
            11 => n[rng.pick(&[1, 1, 1, 2, 4, 6, 7, 10, 12])] ^= 1,
            12 | 13 => n[3] ^= 1 << rng.pick(&[0, 1, 2, 3, 8, 8, 9, 34, 35, 36]),
            14 => n[0] ^= 1,
            15 => n[11] = (1 << 36) + rng.below(2) - 1,
            16 => n[13] = 3 + rng.below(2),
            17 => n[2] = 0,
            // A mark of ciphering that the full reference's cipher key number contradicts.
            18 => {
                n[1] = rng.below(2);
                n[3] = n[3] & !15 | if n[1] == 1 { 0 } else { 1 + rng.below(15) };
            }
            _ => n[5] |= 1 << (24 + rng.below(40)),
        }
    }
    if rng.one_in(16) {
        n.resize(rng.pick(&[0, 1, 13, 15, 28]), 0);
    } else {
        n = with_leftovers(rng, n);
    }
    n
}

/// A message with a half that meets one that is held: mostly the opposite half, mostly with a reference that agrees.
pub fn meeting(rng: &mut Rng, receiver: &Receiver) -> Event {
    let which = rng.below(receiver.halves.len() as u64) as usize;
    let ((subscription, channel), held) = receiver.halves.iter().nth(which).unwrap();
    let key = receiver.key_at(*subscription) % 200_000_000;
    let mut call = CallDraft::plain(key, 3);
    (call.acknowledged, call.priority) = (0, 5);
    if held.record.full && held.record.cipher_key_number != 0 {
        call.acknowledged = u64::from(held.record.acknowledged);
        call.priority = held.record.priority % 8;
        call.cipher = held.record.cipher_key_number % 16;
    }
    match rng.below(12) {
        0 => call.acknowledged ^= 1,
        1 => call.priority ^= 1 << rng.below(3),
        2 => call.cipher = 1 + rng.below(15),
        _ => {}
    }
    let second = (held.segment == Segment::First) != rng.one_in(4);
    let reduced = second && rng.one_in(3);
    let (reference, service) = (call.reference, call.service);
    let call = if second { call } else { call.on(rng.below(1 << 24)) };
    let vstk_rand = second.then(|| rng.below(1 << 36));
    // Where no count is kept, mostly none comes with it, or few joined calls would be told so.
    let count = rng.one_in(if receiver.count.is_some() { 2 } else { 8 }).then(|| rng.below(4));
    match channel {
        Channel::Nch => {
            let mut six = SixDraft { count, reduced: Vec::new(), random: vec![(u64::from(second), vstk_rand)] };
            let mut calls = Vec::new();
            if reduced {
                six.reduced.push((reference, service));
            } else {
                calls.push(call);
            }
            let seven = (!second || rng.one_in(4)).then(|| SevenDraft {
                marks: if second { Vec::new() } else { vec![rng.below(2)] },
                uplink: rng.one_in(2).then(|| rng.below(2)),
                amr: rng.one_in(2).then(|| (rng.one_in(2).then(|| rng.below(16)), None)),
                sms: rng.one_in(2).then(|| (rng.below(2), rng.below(2))),
            });
            let mut octets = NchDraft { nln: None, calls, six: Some(six), seven }.octets();
            octets.truncate(20);
            Event::Nch(octets)
        }
        Channel::Facch => {
            let mut draft = FacchDraft::of(call);
            draft.six = Some((count.map(|count| (count, rng.below(2))), vstk_rand));
            draft.seven = rng.one_in(2).then(|| (rng.below(2), rng.below(2), None));
            Event::Facch(draft.octets())
        }
        Channel::Pch => {
            let draft = PchDraft { full: !reduced, vstk_rand, count, ..PchDraft::of(call) };
            Event::Pch(with_leftovers(rng, draft.numbers()))
        }
    }
}

/// A subscribed key, or one of the pool.
fn some_key(rng: &mut Rng, receiver: &Receiver, pool: &Pool) -> u32 {
    if receiver.keys.is_empty() {
        (2 * pool.reference(rng) + rng.below(2)) as u32
    } else {
        rng.pick(&receiver.keys) % 200_000_000
    }
}

/// An NLN, a move, a half on the NCH, and another NLN: whether the half goes is the move's matter.
fn new_cell(rng: &mut Rng, receiver: &Receiver, pool: &Pool) -> Vec<Event> {
    let nln = rng.below(4);
    let with_nln = |nln: u64| Event::Nch(NchDraft { nln: Some(nln), ..NchDraft::default() }.octets());
    let half = CallDraft::plain(some_key(rng, receiver, pool), 3).on(rng.below(1 << 24) & !0x1000);
    let six = SixDraft { random: vec![(0, None)], ..SixDraft::default() };
    let half = NchDraft { calls: vec![half], six: Some(six), ..NchDraft::default() };
    let movement = rng.pick(&[0, 0, 0, 1, 1, 2, 3]);
    let movement = [Event::Reselected, Event::HandedOver, Event::Reconfigured, Event::LeftIdle][movement].clone();
    vec![with_nln(nln), movement, Event::Nch(half.octets()), with_nln((nln + 1 + rng.below(3)) % 4)]
}

/// A call in one piece on the FACCH, with the cipher key number that the pool's calls have, or with any.
fn one_piece(rng: &mut Rng, receiver: &Receiver, pool: &Pool) -> FacchDraft {
    let cipher = if rng.one_in(2) { 1 + rng.below(15) } else { 3 };
    let call = CallDraft::plain(some_key(rng, receiver, pool), cipher).on(rng.below(1 << 24) & !0x1000);
    FacchDraft::of(call).rand(rng.below(1 << 36))
}

/// A move, often with a bit that was known before it; then, with a count kept or none, bit 22 at 1 and at 0, or its first value, or a FACCH
/// count while it is not known; and a call in one piece, which shows what is kept.
fn new_count(rng: &mut Rng, receiver: &Receiver, pool: &Pool) -> Vec<Event> {
    let count = |rng: &mut Rng| {
        let six = SixDraft { count: Some(rng.below(4)), ..SixDraft::default() };
        Event::Nch(NchDraft { six: Some(six), ..NchDraft::default() }.octets())
    };
    let mut story = Vec::new();
    if rng.one_in(2) {
        story.push(Event::Bit(rng.below(2) as u32));
    }
    story.push(if rng.one_in(2) { Event::Reselected } else { Event::HandedOver });
    let which = rng.below(4);
    if which < 2 {
        story.push(Event::Bit(1));
    }
    if rng.one_in(2) {
        story.push(count(rng));
    }
    match which {
        0 | 1 => story.push(Event::Bit(0)),
        2 => story.push(Event::Bit(rng.below(2) as u32)),
        _ => story.push(Event::Facch(one_piece(rng, receiver, pool).count(rng.below(4), rng.below(2)).octets())),
    }
    if rng.one_in(4) {
        story.push(count(rng));
    }
    let call = one_piece(rng, receiver, pool);
    story.push(Event::Facch(if rng.one_in(2) { call.count(rng.below(4), rng.below(2)) } else { call }.octets()));
    story
}

/// An event that takes a half away which is held, each cause as often as another.
pub fn losing(rng: &mut Rng, receiver: &Receiver) -> Event {
    let which = rng.below(receiver.halves.len() as u64) as usize;
    let (subscription, channel) = receiver.halves.keys().nth(which).unwrap();
    let other = receiver.key_at(*subscription) ^ 1;
    match (channel, rng.below(if *channel == Channel::Pch { 4 } else { 3 })) {
        (_, 0) => Event::Joined(other),
        (Channel::Nch | Channel::Pch, 1) => Event::Reselected,
        (Channel::Pch, 2) => Event::LeftIdle,
        (Channel::Pch, _) => {
            let key = if rng.one_in(2) { other } else { rng.below(200_000_000) as u32 };
            Event::Pch(PchDraft::reduced(key % 200_000_000).numbers())
        }
        (Channel::Nch, _) => {
            // Where none was seen yet, it is the first.
            let last = receiver.nln.map_or(0, u64::from);
            Event::Nch(NchDraft { nln: Some((last + 1 + rng.below(3)) % 4), ..NchDraft::default() }.octets())
        }
        (Channel::Facch, 1) => Event::HandedOver,
        (Channel::Facch, _) => Event::Reconfigured,
    }
}

fn put(octets: &mut [u8], at: usize, number: u32) {
    octets[at..at + 4].copy_from_slice(&number.to_le_bytes());
}

/// A state that no setup left: any octets, or octets with a meaning and strange numbers in them.
fn from_any_octets(tally: &mut Tally, rng: &mut Rng) -> u64 {
    let pool = small_pool(rng);
    let mut octets = rng.octets(STATE_LENGTH);
    let count = match rng.below(4) {
        0 => 2,
        _ => {
            strange_state(rng, &pool, &mut octets);
            8
        }
    };
    // The mark of a setup, or nearly so.
    if rng.one_in(2) {
        octets[MARK..KEYS].copy_from_slice(&SET_UP);
        octets[MARK + rng.below(4) as usize] ^= rng.pick(&[0, 0, 1, 2, 3, 128]);
    }
    let mut pair = Pair::of(&octets, rng.next() as usize);
    // An accepted event writes anew who is paged.
    pair.look(tally);
    // First what shows the kept count and the sets that stand there, before a message brings a count.
    let receiver = &pair.mirror.receiver;
    let (tick, first) = match rng.below(3) {
        0 => (receiver.tick, Event::Facch(one_piece(rng, receiver, &pool).octets())),
        1 if !receiver.halves.is_empty() => (receiver.tick, meeting(rng, receiver)),
        _ => (tick(rng, receiver), event(rng, receiver, &pool)),
    };
    pair.event(tally, tick, &first);
    events(tally, rng, &mut pair, &pool, count);
    count + 1
}

/// Keys of the pool, twice or in any place, and any number of them; halves of any kind with flags of any number; an answer of any length.
fn strange_state(rng: &mut Rng, pool: &Pool, octets: &mut [u8]) {
    let tick = first_tick(rng);
    put(octets, 0, tick);
    for channel in 0..CHANNELS.len() {
        put(octets, TIMERS + 4 * channel, rng.pick(&[0, 1, 100, 5_000, 100_000, 1 << 31, u32::MAX]));
    }
    octets[NLN] = rng.pick(&[0, 1, 2, 3, 4, 4, 5, 6, 255]);
    octets[KEPT_COUNT] = rng.pick(&[0, 1, 2, 3, 3, 4, 5, 6, 7, 255]);
    octets[BIT_22] = rng.pick(&[0, 1, 1, 2, 255]);
    let mut keys: Vec<u32> = Vec::new();
    for _ in 0..MOST_KEYS {
        keys.push(match rng.below(4) {
            0 => u32::MAX,
            1 => rng.next() as u32,
            _ => (2 * pool.reference(rng) + rng.below(2)) as u32,
        });
    }
    // Mostly in order, though with repeats, so that keys are found.
    if !rng.one_in(4) {
        keys.sort_unstable();
    }
    for (subscription, &key) in keys.iter().enumerate() {
        put(octets, KEYS + 4 * subscription, key);
        let any = rng.next() as u32;
        put(octets, SETS + 4 * subscription, rng.pick(&[1 << 3, u32::MAX, !(1 << 3), 1, any]));
    }
    octets[N_KEYS] = rng.pick(&[0, 1, 5, 20, 49, 50, 50, 50, 51, 64, 128, 255]);
    for place in 0..PLACES {
        let subscription = place / CHANNELS.len();
        octets[KINDS + place] = rng.pick(&[0, 0, 1, 1, 2, 2, 3, 255]);
        let age = rng.pick(&[0, 1, 50, 4_999, 1 << 31, u32::MAX]);
        put(octets, TICKS + 4 * place, tick.wrapping_sub(age));
        let at = RECORDS + RECORD_OCTETS * place;
        let key = u32::from_le_bytes(octets[KEYS + 4 * subscription..][..4].try_into().unwrap());
        put(octets, at, if rng.one_in(8) { rng.next() as u32 } else { key / 2 });
        for flag in &mut octets[at + 24..at + 44] {
            *flag = rng.pick(&[0, 0, 0, 1, 1, 2, 255]);
        }
        // Mostly the 36 bits that the pool's calls have, so that references agree.
        if !rng.one_in(4) {
            octets[at + 25] = if key % 2 == 1 { rng.pick(&[1, 2, 255]) } else { 0 };
            octets[at + 26] = 0;
            octets[at + 44] = 5;
            octets[at + 45] = rng.pick(&[3, 3, 3, 3, 3, 0, 0, 0, 16, 19, 31, 31, 32]);
        }
    }
    put(octets, COUNT, rng.pick(&[0, 1, 2, 8, 9, 10, 255, 256, 1 << 31, u32::MAX]));
    for flag in [0, 4, 6, 7] {
        octets[PAGED + flag] = rng.pick(&[0, 0, 1, 2, 255]);
    }
    for entry in 0..MOST_ENTRIES {
        octets[ENTRIES + ENTRY_OCTETS * entry + 8] = rng.pick(&[0, 1, 2, 3, 3, 4, 8, 9, 255]);
    }
}

/// A lent state of another length is 13, before all else, and stays as it was.
fn wrong_lengths(tally: &mut Tally, rng: &mut Rng) -> u64 {
    let length = match rng.below(4) {
        0 => rng.below(STATE_LENGTH as u64) as usize,
        1 => STATE_LENGTH + 1 + rng.below(200) as usize,
        _ => rng.pick(&[0, 1, STATE_LENGTH - 1, STATE_LENGTH + 1]),
    };
    let octets = rng.octets(length);
    let mut state = ffi::State::new(&octets, rng.next() as usize);
    let pool = small_pool(rng);
    let pair = Pair::of(&[0; STATE_LENGTH], 0);
    let event = event(rng, &pair.mirror.receiver, &pool);
    let tick = rng.next() as u32;
    let refusal = feed(&mut state, tick, &event);
    tally.count_refusal(refusal);
    let untouched = state.octets() == octets;
    let input = || format!("{} with a state of {length} octets {}", event_line(tick, &event), hex(&octets));
    tally.same("event with a state of a wrong length (refusal, untouched)", input, &(refusal, untouched), &(13, true));

    let mut keys = keys(rng, &pool);
    if rng.one_in(2) {
        keys.resize(51, 7);
    }
    let refusal = state.setup(&keys, &vec![2; keys.len() / 2 * 2], tick, [rng.pick(&[0, 5_000]), 5_000, 5_000]);
    tally.count_refusal(refusal);
    let untouched = state.octets() == octets;
    let input = || format!("setup with a state of {length} octets");
    tally.same("setup with a state of a wrong length (refusal, untouched)", input, &(refusal, untouched), &(13, true));

    // An entry of another length is 13 too, where the clock does not refuse the event.
    let mut pair = pair;
    let length = rng.pick(&[0, 1, 13, 15, 28]);
    pair.event(tally, rng.pick(&[0, 1 << 31]), &Event::Pch(vec![rng.next(); length]));

    let (entry, part) = (rng.below(12) as u32, rng.below(50) as u32);
    let reading = state.read(entry, part);
    tally.count_refusal(reading.0);
    let untouched = state.octets() == octets;
    let input = || format!("read of entry {entry}, part {part} with a state of {length} octets");
    tally.same("read of a state of a wrong length ((refusal, value), untouched)", input, &(reading, untouched), &((13, 0), true));

    // Whatever looks at it has zeros, and it is not set up, even with the mark in its place.
    let mut marked = octets;
    if let Some(place) = marked.get_mut(MARK..KEYS) {
        place.copy_from_slice(&SET_UP);
    }
    let state = ffi::State::new(&marked, rng.next() as usize);
    let (i, places) = (rng.below(12) as u32, rng.below(40) as usize);
    let views = [
        state.numbers(archive::asternhaken_entry_numbers, i, places),
        state.numbers(archive::asternhaken_held_numbers, i, places),
        state.paged(places),
        (state.number(archive::asternhaken_held_count).0, vec![state.number(archive::asternhaken_held_count).1; places]),
        (state.number(archive::asternhaken_next_expiry).0, vec![state.number(archive::asternhaken_next_expiry).1; places]),
    ];
    let seen = (views, state.is_set_up(), state.octets() == marked);
    let input = || format!("views of {i} with a state of {} octets", marked.len());
    tally.same(
        "views of a state of a wrong length (numbers, set up, untouched)",
        input,
        &seen,
        &([0; 5].map(|_| (13, vec![0; places])), 0, true),
    );
    1
}
