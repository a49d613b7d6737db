//! Captures at random, and the proved programs held against this one on each of them, octet by octet.
//!
//!     compare captures --replay PROGRAM [--mend PROGRAM] [--count N] [--seed S] [--stop]
//!                                                        the comparison, with either or both; the last line is `N passed, M failed`
//!     compare capture [--seed S] [--number N] > FILE     the Nth of these captures alone
//!     compare replay < FILE                              what this program answers
//!     compare mend < FILE                                what this program copies, and what it lists
//!
//! PROGRAM may have words behind it, and an emulator before it. It must answer on standard output, say nothing on standard error, if it is not
//! to mend, and end with status 0. What a program has mended it is given to mend again. The run fails where something was met too seldom that
//! LEAST lists.

use crate::capture::*;
use crate::draft::{octets_of_bits, Pool};
use crate::receiver::{Event, Receiver, DEFAULT_TIMERS};
use crate::rng::Rng;
use crate::steps;
use crate::tally::hex;
use std::collections::BTreeMap;
use std::io::{Read, Write};
use std::process::{Command, Stdio};

/// The longest contents that a length can say.
const LONGEST: usize = 0xFFFF;

/// A capture in the making, and a receiver that has heard all that stands in it.
struct Draft {
    octets: Vec<u8>,
    receiver: Receiver,
    pool: Pool,
}

fn field(tag: u8, contents: &[u8]) -> Vec<u8> {
    let length = u16::try_from(contents.len()).expect("contents that a length can say");
    [&[tag][..], &length.to_be_bytes(), contents].concat()
}

fn setup_contents(tick: u32, timers: [u16; 2], keys: &[u32]) -> Vec<u8> {
    let mut contents = tick.to_be_bytes().to_vec();
    contents.extend(timers.iter().flat_map(|timer| timer.to_be_bytes()));
    contents.extend(keys.iter().flat_map(|key| key.to_be_bytes()));
    contents
}

/// Tag and contents of an event; none of those that a capture cannot have.
fn event_field(tick: u32, event: &Event) -> Option<(u8, Vec<u8>)> {
    let with = |rest: &[u8]| [&tick.to_be_bytes()[..], rest].concat();
    Some(match event {
        Event::Nch(octets) => (1, with(octets)),
        Event::Facch(octets) => (2, with(octets)),
        Event::Joined(key) => (3, with(&key.to_be_bytes())),
        Event::Reselected => (4, with(&[])),
        Event::HandedOver => (5, with(&[])),
        Event::Reconfigured => (6, with(&[])),
        Event::Tick => (7, with(&[])),
        _ => return None,
    })
}

fn shuffle(rng: &mut Rng, keys: &mut [u32]) {
    for place in (1..keys.len()).rev() {
        keys.swap(place, rng.below(place as u64 + 1) as usize);
    }
}

const TIMES: [u16; 8] = [1, 2, 10, 100, 5_000, 10_000, 59_999, 60_000];

/// The contents of a setup that is accepted, its keys in any order, and the receiver that it sets up.
fn good_setup(rng: &mut Rng, pool: &Pool) -> (Vec<u8>, Receiver) {
    let mut keys = steps::keys(rng, pool);
    let (tick, timers) = (steps::first_tick(rng), [rng.pick(&TIMES), rng.pick(&TIMES)]);
    let [t3206, t3208] = timers.map(u32::from);
    let receiver = Receiver::setup(&keys, &vec![0; keys.len()], tick, [t3206, t3208, DEFAULT_TIMERS[2]]).expect("a good setup");
    if rng.one_in(2) {
        shuffle(rng, &mut keys);
    }
    (setup_contents(tick, timers, &keys), receiver)
}

/// The contents of a setup that is refused, or may be: one thing in it is wrong, or at its limit.
fn doubtful_setup(rng: &mut Rng, pool: &Pool) -> Vec<u8> {
    let mut keys = steps::keys(rng, pool);
    let mut timers = [5_000; 2];
    match rng.below(10) {
        0 | 1 => timers[rng.below(2) as usize] = rng.pick(&[0, 0, 60_000, 60_001, 60_001, 0xFFFF]),
        2 => keys.push(rng.pick(&[199_999_999, 200_000_000, 200_000_001, u32::MAX])),
        3 if !keys.is_empty() => keys.push(keys[0]),
        4 if rng.one_in(4) => keys = (0..rng.pick(&[16_381, 16_380, 306, 256])).collect(),
        4 | 5 => keys = (0..49 + rng.below(4) as u32).map(|key| 7 * key).collect(),
        _ => {
            let (mut contents, _) = good_setup(rng, pool);
            let least = if rng.one_in(2) { 0 } else { 8 };
            contents.truncate(least + rng.below(9) as usize);
            return contents;
        }
    }
    shuffle(rng, &mut keys);
    setup_contents(rng.next() as u32, timers, &keys)
}

/// A page on the FACCH (source 003): a mobile identity, mostly of 1 to 9 octets, two bits for the channel, an eMLPP priority or none; then padding,
/// as much as fills the message, or its last octet.
fn page(rng: &mut Rng) -> Event {
    let mut bits = Vec::new();
    let mut put = |value: u64, width: usize| bits.extend((0..width).rev().map(|place| (value >> place) as u8 & 1));
    let length = if rng.one_in(6) { rng.pick(&[0, 10, 11, 255]) } else { 1 + rng.below(9) };
    put(rng.below(256), 8);
    put(1, 1);
    put(length, 8);
    (0..length.min(9)).for_each(|_| put(rng.below(256), 8));
    put(rng.below(4), 2);
    match rng.below(2) {
        0 => put(0, 1),
        _ => put(8 + rng.below(8), 4),
    }
    let mut octets = octets_of_bits(&bits, if rng.one_in(2) { 23 } else { 2 });
    if rng.one_in(6) {
        octets.truncate(2 + rng.below(11) as usize);
    }
    Event::Facch(octets)
}

impl Draft {
    fn add(&mut self, tag: u8, contents: &[u8]) {
        self.octets.extend(field(tag, contents));
        if let Some((tick, event)) = event(tag, contents) {
            _ = self.receiver.event(tick, &event);
        }
    }

    /// An event: often one that meets a half which is held, or takes one away.
    fn event(&self, rng: &mut Rng) -> Event {
        let receiver = &self.receiver;
        match rng.below(20) {
            0..=5 if !receiver.halves.is_empty() => return steps::meeting(rng, receiver),
            6 if !receiver.halves.is_empty() => return steps::losing(rng, receiver),
            _ => {}
        }
        match rng.below(20) {
            0..=7 => {
                let mut draft = self.pool.nch(rng);
                // Once there was an NLN, most messages repeat it or have none, or no NCH half would live long.
                if receiver.nln.is_some() && !rng.one_in(12) {
                    draft.nln = rng.one_in(2).then_some(receiver.nln.map(u64::from)).flatten();
                }
                let mut octets = draft.octets();
                octets.truncate(20);
                Event::Nch(octets)
            }
            8 => page(rng),
            9..=14 => {
                let mut octets = self.pool.facch(rng).octets();
                octets.truncate(23);
                if rng.one_in(8) {
                    octets.truncate(2 + rng.below(22) as usize);
                }
                Event::Facch(octets)
            }
            15 => Event::Joined(if rng.one_in(4) {
                rng.pick(&[0, 199_999_999, 200_000_000, u32::MAX])
            } else {
                (2 * self.pool.reference(rng) + rng.below(2)) as u32
            }),
            16 => Event::Reselected,
            17 if rng.one_in(2) => Event::HandedOver,
            17 => Event::Reconfigured,
            18 => {
                let octets = rng.octets(20);
                if rng.one_in(2) {
                    Event::Nch(octets)
                } else {
                    Event::Facch(octets)
                }
            }
            _ => Event::Tick,
        }
    }

    fn any_event(&mut self, rng: &mut Rng) {
        let event = self.event(rng);
        if let Some((tag, contents)) = event_field(steps::tick(rng, &self.receiver), &event) {
            self.add(tag, &contents);
        }
    }

    /// An event that is not refused.
    fn good_event(&mut self, rng: &mut Rng) {
        loop {
            let (tick, event) = (steps::tick(rng, &self.receiver), self.event(rng));
            if self.receiver.clone().event(tick, &event).is_ok() {
                if let Some((tag, contents)) = event_field(tick, &event) {
                    return self.add(tag, &contents);
                }
            }
        }
    }

    /// A tag with contents of a length, led by a tick that the clock takes.
    fn of_length(&mut self, rng: &mut Rng, tag: u8, length: usize) {
        let mut contents = self.receiver.tick.to_be_bytes().to_vec();
        contents.extend(rng.octets(length.saturating_sub(TICK)));
        contents.truncate(length);
        self.add(tag, &contents);
    }

    /// A field that is skipped, or mostly: what it does to the run behind it is the question.
    fn doubtful(&mut self, rng: &mut Rng) {
        match rng.below(16) {
            0..=2 => {
                let tag = if rng.one_in(3) { rng.pick(&[8, 9, 16, 127, 128, 255]) } else { 8 + rng.below(248) as u8 };
                let length = rng.pick(&[0, 1, 4, 8, 24, rng.clone().below(300) as usize]);
                self.of_length(rng, tag, length);
            }
            3..=6 => {
                let tag = 3 + rng.below(5) as u8;
                let length = rng.pick(&[0, 1, 2, 3, 4, 5, 7, 8, 9, 11, 12, 24, 260, 264]);
                self.of_length(rng, tag, length);
            }
            7 => {
                let tag = rng.pick(&[1, 2]);
                let length = rng.below(4) as usize;
                self.of_length(rng, tag, length);
            }
            8 | 9 => {
                let tag = rng.pick(&[1, 2]);
                let length = TICK + rng.pick(&[0, 1, 2, 19, 20, 21, 22, 23, 24, 25, 40, 253, 276]);
                self.of_length(rng, tag, length);
            }
            10..=12 => {
                let contents = if rng.one_in(2) { good_setup(rng, &self.pool).0 } else { doubtful_setup(rng, &self.pool) };
                self.add(SETUP_TAG, &contents);
            }
            13 => {
                // The very setup of this capture once more.
                let length = number(&self.octets[1..HEAD]) as usize;
                let contents = self.octets[HEAD..HEAD + length].to_vec();
                self.add(SETUP_TAG, &contents);
            }
            14 if rng.one_in(12) => {
                let tag = rng.pick(&[0, 1, 2, 3, 7, 8, 200]);
                let length = if rng.one_in(2) { LONGEST } else { 256 * (1 + rng.below(255) as usize) + rng.pick(&[0, 4, 8, 24, 27]) };
                self.of_length(rng, tag, length);
            }
            _ => self.any_event(rng),
        }
    }
}

/// The nth capture of a seed, and what was done to it.
pub fn make(seed: u64, nth: u64) -> (Vec<u8>, &'static str) {
    let rng = &mut Rng::new(seed.wrapping_mul(1 << 32).wrapping_add(nth << 2));
    let pool = steps::small_pool(rng);
    match rng.below(40) {
        0 => {
            let length = rng.below(12) as usize;
            return (rng.octets(length), UNSPOILT);
        }
        1 => {
            let mut octets = field(SETUP_TAG, &good_setup(rng, &pool).0);
            octets.truncate(rng.below(6) as usize);
            return (octets, CUT);
        }
        2..=6 => {
            let octets = first_faults(rng, &pool);
            return spoilt(rng, octets);
        }
        _ => {}
    }
    let (contents, receiver) = good_setup(rng, &pool);
    let mut draft = Draft { octets: field(SETUP_TAG, &contents), receiver, pool };
    let most = if rng.one_in(40) { 2_400 } else { 60 };
    let clean = rng.one_in(4);
    for _ in 0..rng.below(most) {
        match rng.below(8) {
            _ if clean => draft.good_event(rng),
            0 | 1 => draft.doubtful(rng),
            _ => draft.any_event(rng),
        }
    }
    if clean {
        (draft.octets, UNSPOILT)
    } else {
        spoilt(rng, draft.octets)
    }
}

/// A capture whose first field ends the run, mostly; fields that must not be read any more stand behind it.
fn first_faults(rng: &mut Rng, pool: &Pool) -> Vec<u8> {
    let mut octets = Vec::new();
    match rng.below(6) {
        0 => {
            let (tag, length) = (1 + rng.below(9) as u8, rng.pick(&[0, 3, 4, 8, 12, 24]));
            octets.extend(field(tag, &rng.octets(length)));
        }
        1 => {
            let event = Event::Nch(pool.nch(rng).octets());
            let (tag, contents) = event_field(5, &event).expect("an NCH message");
            octets.extend(field(tag, &contents));
        }
        _ => octets.extend(field(SETUP_TAG, &doubtful_setup(rng, pool))),
    }
    octets.extend(field(SETUP_TAG, &good_setup(rng, pool).0));
    octets.extend(field(7, &rng.octets(TICK)));
    octets
}

/// What was done to a capture.
const UNSPOILT: &str = "a capture as it was made";
const CUT: &str = "a capture that is cut";
const LENGTHENED: &str = "a capture with octets behind it";
const FLIPPED: &str = "a capture with bits flipped";
const PUT_IN: &str = "a capture with octets put in";
const TAKEN_OUT: &str = "a capture with octets taken out";

/// Often cut, sometimes with a bit that is another, or with octets more, or less, somewhere.
fn spoilt(rng: &mut Rng, mut octets: Vec<u8>) -> (Vec<u8>, &'static str) {
    let somewhere = |rng: &mut Rng, octets: &[u8]| rng.below(octets.len() as u64 + 1) as usize;
    let how = match rng.below(16) {
        0..=3 => {
            octets.truncate(somewhere(rng, &octets));
            CUT
        }
        // A field behind the last, of which only a part of the head is there, or all but the last octet.
        4 | 5 => {
            let head = [rng.pick(&[0, 1, 2, 3, 7, 8]), rng.pick(&[0, 0, 1, 255]), rng.pick(&[1, 4, 24, 27, 255])];
            let more = field(head[0], &rng.octets(number(&head[1..]) as usize));
            let length = if rng.one_in(3) { more.len() - 1 } else { 1 + rng.below(3) as usize };
            octets.extend(&more[..length]);
            LENGTHENED
        }
        6 | 7 => {
            for _ in 0..1 + rng.below(3) {
                let at = somewhere(rng, &octets);
                if let Some(octet) = octets.get_mut(at) {
                    *octet ^= 1 << rng.below(8);
                }
            }
            FLIPPED
        }
        8 => {
            let (at, length) = (somewhere(rng, &octets), 1 + rng.below(8) as usize);
            octets.splice(at..at, rng.octets(length));
            PUT_IN
        }
        9 => {
            let at = somewhere(rng, &octets);
            let end = octets.len().min(at + 1 + rng.below(8) as usize);
            octets.drain(at..end);
            TAKEN_OUT
        }
        _ => UNSPOILT,
    };
    (octets, how)
}

/// What is met, and how often at least in 1,000 captures: a good third of what four seeds give.
const LEAST: [(&str, u64); 92] = [
    (UNSPOILT, 170),
    (CUT, 63),
    (FLIPPED, 30),
    (LENGTHENED, 30),
    (PUT_IN, 14),
    (TAKEN_OUT, 14),
    ("a clean capture", 77),
    ("a drop, tag 1", 410),
    ("a drop, tag 2", 360),
    ("a drop, tag 3", 110),
    ("a drop, tag 4", 100),
    ("a drop, tag 5", 53),
    ("a drop, tag 6", 55),
    ("a drop, tag 7", 34),
    ("a field left out above offset 65,535", 240),
    ("a field number of four digits", 2),
    ("a field of 65,535 octets", 5),
    ("a paging message that is accepted", 380),
    ("an event behind a 16 that is skipped", 750),
    ("an event behind a 17 that is skipped", 370),
    ("field torn after the tag, 18", 8),
    ("field torn an octet early, 18", 11),
    ("field torn before the contents, 18", 6),
    ("field torn in the contents, 18", 72),
    ("field torn in the length, 18", 8),
    ("fields behind a 17 that ends the run", 39),
    ("first field torn after the tag, 18", 2),
    ("first field torn before the contents, 18", 2),
    ("first field torn in the contents, 18", 19),
    ("first field torn in the length, 18", 2),
    ("keys that are not in order", 120),
    ("more than 40 keys", 32),
    ("more than one entry", 1640),
    ("no octets", 2),
    ("no setup, 17", 15),
    ("setup again, 17", 630),
    ("setup of impossible length, 17", 8),
    ("setup with a key that is too high, 17", 4),
    ("setup with a key twice, 17", 2),
    ("setup with a timer of 0, 17", 1),
    ("setup with a timer that is too long, 17", 2),
    ("setup with too many keys, 17", 2),
    ("tag 0, 0", 310),
    ("tag 1 of another length, 16", 81),
    ("tag 1, 0", 3750),
    ("tag 1, 1", 150),
    ("tag 1, 2", 290),
    ("tag 1, 3", 4),
    ("tag 1, 4", 42),
    ("tag 1, 5", 21),
    ("tag 1, 6", 77),
    ("tag 1, 7", 60),
    ("tag 1, 9", 270),
    ("tag 1, 14", 140),
    ("tag 1, 15", 140),
    ("tag 2 of another length, 16", 87),
    ("tag 2, 0", 3790),
    ("tag 2, 1", 83),
    ("tag 2, 2", 100),
    ("tag 2, 3", 3),
    ("tag 2, 4", 27),
    ("tag 2, 5", 20),
    ("tag 2, 8", 160),
    ("tag 2, 9", 250),
    ("tag 2, 14", 20),
    ("tag 2, 15", 2),
    ("tag 3 of another length, 16", 110),
    ("tag 3, 0", 480),
    ("tag 3, 4", 49),
    ("tag 3, 9", 28),
    ("tag 4 of another length, 16", 120),
    ("tag 4, 0", 560),
    ("tag 4, 9", 27),
    ("tag 5 of another length, 16", 110),
    ("tag 5, 0", 280),
    ("tag 5, 9", 15),
    ("tag 6 of another length, 16", 110),
    ("tag 6, 0", 300),
    ("tag 6, 9", 15),
    ("tag 7 of another length, 16", 120),
    ("tag 7, 0", 530),
    ("tag 7, 9", 29),
    ("told 0", 1340),
    ("told 1", 610),
    ("told 2", 320),
    ("told 3", 380),
    ("told 4", 1730),
    ("told 5", 170),
    ("told 6", 3120),
    ("told 7", 1420),
    ("told 8", 310),
    ("unknown tag, 16", 500),
];

/// The keys in a setup's contents, as they stand there.
fn keys_of(contents: &[u8]) -> Vec<u32> {
    contents[8..].chunks(4).map(number).collect()
}

/// Why a setup is refused: the first ground that is found.
fn why_refused(contents: &[u8]) -> &'static str {
    if contents.len() < 8 || contents.len() % 4 != 0 {
        return "setup of impossible length";
    }
    let mut keys = keys_of(contents);
    keys.sort_unstable();
    if keys.len() > 50 {
        "setup with too many keys"
    } else if keys.iter().any(|key| *key > 199_999_999) {
        "setup with a key that is too high"
    } else if keys.windows(2).any(|pair| pair[0] == pair[1]) {
        "setup with a key twice"
    } else if number(&contents[4..6]) == 0 || number(&contents[6..8]) == 0 {
        "setup with a timer of 0"
    } else {
        "setup with a timer that is too long"
    }
}

/// What a field is, by its answer, and where in the capture it stands.
fn name(capture: &[u8], place: usize, line: &Line) -> String {
    let octets = &capture[line.start..line.end];
    match (line.refusal, octets.get(HEAD..), place) {
        (NO_SETUP, ..) if place != 0 => "setup again, 17".to_string(),
        (NO_SETUP, Some(contents), _) if line.tag == SETUP_TAG => format!("{}, 17", why_refused(contents)),
        (NO_SETUP, ..) => "no setup, 17".to_string(),
        (TORN, contents, _) => {
            let early = contents.is_some_and(|contents| contents.len() + 1 == number(&octets[1..HEAD]) as usize);
            let what = match octets.len() {
                1 => "after the tag",
                2 => "in the length",
                HEAD => "before the contents",
                _ if early => "an octet early",
                _ => "in the contents",
            };
            format!("{}field torn {what}, 18", if place == 0 { "first " } else { "" })
        }
        (NO_EVENT, ..) if line.tag > 7 => "unknown tag, 16".to_string(),
        (NO_EVENT, ..) => format!("tag {} of another length, 16", line.tag),
        (refusal, ..) => format!("tag {}, {refusal}", line.tag),
    }
}

/// What was met in a capture, by what was done to it and by its lines.
fn meet(met: &mut BTreeMap<String, u64>, (capture, how): (&[u8], &str), lines: &[Line]) {
    let mut count = |there: bool, what: &str| {
        if there {
            *met.entry(what.to_string()).or_default() += 1;
        }
    };
    count(lines.len() > 1 && lines.iter().all(|line| line.refusal == 0), "a clean capture");
    count(capture.is_empty(), "no octets");
    count(true, how);
    count(lines.len() > 999, "a field number of four digits");
    for (place, line) in lines.iter().enumerate() {
        let (accepted, length) = (line.refusal == 0, line.end - line.start);
        let behind = lines.get(place + 1).is_some_and(|next| next.refusal == 0);
        count(true, &name(capture, place, line));
        count(place == 0 && line.refusal == NO_SETUP && line.end < capture.len(), "fields behind a 17 that ends the run");
        count(line.refusal != TORN && length == HEAD + LONGEST, "a field of 65,535 octets");
        count(!accepted && line.start > LONGEST, "a field left out above offset 65,535");
        count(line.refusal >= NO_EVENT && behind, &format!("an event behind a {} that is skipped", line.refusal));
        if accepted && line.tag == SETUP_TAG {
            let keys = keys_of(&capture[line.start + HEAD..line.end]);
            count(!keys.is_sorted(), "keys that are not in order");
            count(keys.len() > 40, "more than 40 keys");
        }
        line.told.iter().for_each(|(_, told)| count(true, &format!("told {told}")));
        count(line.told.len() > 1, "more than one entry");
        count(accepted && line.tag == 2 && line.told.is_empty(), "a paging message that is accepted");
        count(line.dropped > 0, &format!("a drop, tag {}", line.tag));
    }
}

/// The comparison so far.
struct Comparison {
    seed: u64,
    stop: bool,
    passed: u64,
    failed: u64,
    met: BTreeMap<String, u64>,
}

/// What a program wrote on standard output and standard error, and whether it ended with status 0.
type Run = (Vec<u8>, Vec<u8>, bool);

/// Runs a program, which may have words behind it, on a capture.
fn run(program: &str, capture: &[u8]) -> Run {
    let mut words = program.split_whitespace();
    let mut command = Command::new(words.next().expect("a program"));
    command.args(words).stdin(Stdio::piped()).stdout(Stdio::piped()).stderr(Stdio::piped());
    let mut child = command.spawn().unwrap_or_else(|error| panic!("{program}: {error}"));
    let mut stdin = child.stdin.take().expect("its standard input");
    let output = std::thread::scope(|scope| {
        // A program need not read on behind the end of the run.
        scope.spawn(move || _ = stdin.write_all(capture));
        child.wait_with_output().expect("its output")
    });
    (output.stdout, output.stderr, output.status.success())
}

/// Where two outputs part, with the lines around it.
fn parted(program: &[u8], second: &[u8]) -> String {
    let at = program.iter().zip(second).take_while(|(one, other)| one == other).count();
    let around = |octets: &[u8]| {
        let from = at.saturating_sub(40);
        String::from_utf8_lossy(&octets[from..octets.len().min(at + 40)]).into_owned()
    };
    format!("  from octet {at} on\n  program {:?}\n  second  {:?}", around(program), around(second))
}

impl Comparison {
    fn check(&mut self, same: bool, nth: u64, capture: &[u8], tell: impl FnOnce() -> String) {
        if same {
            self.passed += 1;
            return;
        }
        self.failed += 1;
        if self.failed <= 20 {
            let shown = if capture.len() > 600 { format!("{} octets", capture.len()) } else { hex(capture) };
            println!("DIFFERENCE (seed {}, capture {nth})\n  capture {shown}\n{}", self.seed, tell());
        }
        if self.stop {
            println!("{} passed, {} failed", self.passed, self.failed);
            std::process::exit(1);
        }
    }

    /// A program answered what this one does, and ended well.
    fn same(&mut self, what: &str, nth: u64, capture: &[u8], program: &Run, second: (&[u8], &[u8])) {
        let same = (&program.0[..], &program.1[..]) == second && program.2;
        self.check(same, nth, capture, || {
            let (name, one, other) = if program.0 == second.0 { ("error", &program.1, second.1) } else { ("output", &program.0, second.0) };
            let status = if program.2 { "0" } else { "not 0" };
            format!("  {what}, standard {name}, status {status}\n{}", parted(one, other))
        });
    }

    fn finish(mut self, count: u64) -> bool {
        for (what, times) in &self.met {
            println!("{what:48} {times:>8}");
        }
        for (what, least) in LEAST {
            let (times, least) = (self.met.get(what).copied().unwrap_or(0), (least * count).div_ceil(1_000));
            if times < least {
                println!("{what}: {times} times; it must be met {least} times: met too seldom");
                self.failed += 1;
            }
        }
        println!("{} passed, {} failed", self.passed, self.failed);
        self.failed == 0
    }
}

/// Replaying a mended capture refuses nothing, and tells and drops what replaying the capture did, in the same order. Where the first setup was
/// not accepted nothing is left.
fn keeps(before: &[Line], after: &[Line]) -> bool {
    let told = |line: &Line| (line.tag, line.dropped, line.told.clone());
    after.iter().all(|line| line.refusal == 0) && before.iter().filter(|line| line.refusal == 0).map(told).eq(after.iter().map(told))
}

fn compare(arguments: &Arguments) -> bool {
    let mut all = Comparison { seed: arguments.seed, stop: arguments.stop, passed: 0, failed: 0, met: BTreeMap::new() };
    println!("seed {}, {} captures", arguments.seed, arguments.count);
    for nth in 0..arguments.count {
        let (capture, how) = make(arguments.seed, nth);
        let lines = replay(&capture);
        if let Some(program) = &arguments.replay {
            all.same("replay", nth, &capture, &run(program, &capture), (text(&lines).as_bytes(), b""));
        }
        if let Some(program) = &arguments.mend {
            let (copy, list) = mend(&capture);
            let mended = run(program, &capture);
            all.same("mend", nth, &capture, &mended, (&copy, list.as_bytes()));
            all.same("mend, once more", nth, &capture, &run(program, &mended.0), (&copy, b""));
            all.check(keeps(&lines, &replay(&copy)), nth, &capture, || "  what is told and dropped after mending".to_string());
        }
        meet(&mut all.met, (&capture, how), &lines);
    }
    all.finish(arguments.count)
}

struct Arguments {
    seed: u64,
    number: u64,
    count: u64,
    stop: bool,
    replay: Option<String>,
    mend: Option<String>,
}

fn arguments(mut words: impl Iterator<Item = String>) -> Option<Arguments> {
    let seed = std::env::var("SEED").ok().and_then(|seed| seed.parse().ok()).unwrap_or(44_018);
    let mut arguments = Arguments { seed, number: 0, count: 1_000, stop: false, replay: None, mend: None };
    while let Some(word) = words.next() {
        match &word[..] {
            "--stop" => arguments.stop = true,
            "--seed" => arguments.seed = words.next()?.parse().ok()?,
            "--number" => arguments.number = words.next()?.parse().ok()?,
            "--count" => arguments.count = words.next()?.parse().ok()?,
            "--replay" => arguments.replay = Some(words.next()?),
            "--mend" => arguments.mend = Some(words.next()?),
            _ => return None,
        }
    }
    Some(arguments)
}

/// The first word says what is to be done with captures, and it is done; another word is none of theirs. The status is 0, 1 where
/// something differs, 2 where the words make no sense.
pub fn main() -> Option<i32> {
    let mut words = std::env::args().skip(1);
    let word = words.next().filter(|word| matches!(&word[..], "replay" | "mend" | "capture" | "captures"))?;
    let enough = |given: &Arguments| word != "captures" || given.replay.is_some() || given.mend.is_some();
    let Some(arguments) = arguments(words).filter(enough) else {
        eprintln!("usage: compare replay | compare mend | compare capture [--seed S] [--number N]");
        eprintln!("       compare captures [--replay PROGRAM] [--mend PROGRAM] [--count N] [--seed S] [--stop]");
        return Some(2);
    };
    if word == "captures" {
        return Some(i32::from(!compare(&arguments)));
    }
    let (mut capture, _) = make(arguments.seed, arguments.number);
    if word != "capture" {
        capture.clear();
        std::io::stdin().read_to_end(&mut capture).expect("a capture");
    }
    let (written, said) = match &word[..] {
        "replay" => (text(&replay(&capture)).into_bytes(), String::new()),
        "mend" => mend(&capture),
        _ => (capture, String::new()),
    };
    std::io::stdout().write_all(&written).expect("standard output");
    eprint!("{said}");
    Some(0)
}
