//! Document 01's "Listed inputs", and the vector files: messages of other people's software and mixed ones.

use crate::bits::number_of;
use crate::elements::{CALL_REFERENCE, CAUSE, DIGITS};
use crate::messages::{compare_facch, compare_facch_write, compare_nch, compare_nch_write};
use crate::pair::Pair;
use crate::receiver::{Channel, Event, DEFAULT_TIMERS, LAST_KEY, LONGEST_TIMER, MOST_KEYS};
use crate::rows;
use crate::state::{ENTRY_NUMBERS, FIRST_RECORD_PART, MOST_ENTRIES, PAGED_NUMBERS, PARTS, RECORD_NUMBERS, STATE_LENGTH};
use crate::tally::{hex, Tally};
use crate::{facch, nch, pch};
use std::path::{Path, PathBuf};

pub fn octets_of(hex: &str) -> Vec<u8> {
    (0..hex.len() / 2).map(|i| u8::from_str_radix(&hex[2 * i..2 * i + 2], 16).unwrap()).collect()
}

/// Rows of the table. The clock's rows are scenes (scenes.rs, `clock`).
pub fn listed(tally: &mut Tally) {
    header(tally);
    let nch = |numbers: &[(usize, u64)]| {
        let mut record = vec![0; nch::NUMBERS];
        for &(place, number) in numbers {
            record[place] = number;
        }
        (0, record)
    };
    let refused = |refusal: u32| (refusal, vec![0; nch::NUMBERS]);
    let rows = [
        (vec![0x2B; 20], nch(&[(0, 4)])),
        (vec![0x00; 20], nch(&[(0, 11), (48, 1), (90, 1)])),
        ([vec![0xCB], vec![0x2B; 19]].concat(), nch(&[(0, 6), (1, 1), (2, 2)])),
        (vec![0xFF; 20], refused(4)),
        (vec![0x2B; 19], refused(1)),
    ];
    for (octets, expected) in rows {
        let archive = compare_nch(tally, &octets, nch::NUMBERS);
        tally.same_reading("listed: NCH (second is the document)", || hex(&octets), &archive, &expected);
    }
    // Cause: septets, diagnostics, meaning (1 specific, 2 unspecific), number.
    let rows: [(&[u8], u32, [u64; 6]); 3] =
        [(&[0x90], 0, [1, 16, 0, 0, 1, 16]), (&[0x10, 0x91], 0, [2, 16, 17, 0, 2, 0]), (&[0x10], 13, [0; 6])];
    for (octets, refusal, expected) in rows {
        let (archive, numbers) = CAUSE.compare_read(tally, octets, CAUSE.numbers);
        let some = [numbers[2], numbers[3], numbers[4], numbers[258], numbers[0], numbers[1]];
        tally.same("listed: cause (second is the document)", || hex(octets), &(archive, some), &(refusal, expected));
    }
    let digits: [(&[u8], u32, &str); 3] = [
        (&[0x00, 0x00, 0x00, 0x23, 0xA3], 0, "000000009123"),
        (&[0xE8, 0xD4, 0xA5, 0x10, 0x00], 12, "\0\0\0\0\0\0\0\0\0\0\0\0"),
        (&[0xE8, 0xD4, 0xA5, 0x0F, 0xFF], 0, "999999999999"),
    ];
    for (octets, refusal, expected) in digits {
        let archive = DIGITS.compare_read(tally, octets, DIGITS.numbers);
        let expected = (refusal, expected.bytes().map(u64::from).collect());
        tally.same_reading("listed: digits (second is the document)", || hex(octets), &archive, &expected);
    }
}

/// The sizes and limits of the header are this program's. events.tsv names two timers; the third is the default.
fn header(tally: &mut Tally) {
    let path = Path::new(env!("CARGO_MANIFEST_DIR")).join("../include/asternhaken.h");
    let text = std::fs::read_to_string(&path).unwrap_or_default();
    let constant = |name: &str| {
        let line = text.lines().find(|line| line.split_whitespace().nth(1) == Some(name))?;
        line.split_whitespace().nth(2)?.parse::<u64>().ok()
    };
    let [t3206, t3208, t3210] = DEFAULT_TIMERS;
    let expected = [
        ("ASTERNHAKEN_T3206", u64::from(t3206)),
        ("ASTERNHAKEN_T3208", u64::from(t3208)),
        ("ASTERNHAKEN_T3210", u64::from(t3210)),
        ("ASTERNHAKEN_LONGEST", u64::from(LONGEST_TIMER)),
        ("ASTERNHAKEN_LAST_KEY", u64::from(LAST_KEY)),
        ("ASTERNHAKEN_KEYS", MOST_KEYS as u64),
        ("ASTERNHAKEN_ENTRIES", MOST_ENTRIES as u64),
        ("ASTERNHAKEN_PARTS", PARTS as u64),
        ("ASTERNHAKEN_PAGED_NUMBERS", PAGED_NUMBERS as u64),
        ("ASTERNHAKEN_FACCH_SHORTEST", facch::SHORTEST as u64),
        ("ASTERNHAKEN_FACCH_LONGEST", facch::LONGEST as u64),
        ("ASTERNHAKEN_ENTRY_NUMBERS", ENTRY_NUMBERS as u64),
        ("ASTERNHAKEN_STATE_LENGTH", STATE_LENGTH as u64),
        ("ASTERNHAKEN_NCH_NUMBERS", nch::NUMBERS as u64),
        ("ASTERNHAKEN_FACCH_NUMBERS", facch::NUMBERS as u64),
        ("ASTERNHAKEN_PCH_NUMBERS", pch::NUMBERS as u64),
    ];
    for (name, number) in expected {
        tally.check(constant(name) == Some(number), || {
            format!("  {} says {:?} of {name}, which is {number}", path.display(), constant(name))
        });
    }
}

/// The vectors stand beside this folder; ASTERNHAKEN_VECTORS names another place.
pub fn folder() -> PathBuf {
    match std::env::var("ASTERNHAKEN_VECTORS") {
        Ok(folder) => PathBuf::from(folder),
        Err(_) => Path::new(env!("CARGO_MANIFEST_DIR")).join("../vectors"),
    }
}

/// The rows of a file, without its heading.
fn rows(tally: &mut Tally, name: &str) -> Vec<Vec<String>> {
    let path = folder().join(name);
    let text = std::fs::read_to_string(&path).unwrap_or_default();
    let rows: Vec<Vec<String>> = text.lines().skip(1).map(|line| line.split('\t').map(str::to_string).collect()).collect();
    tally.check(rows.len() > 10, || format!("  no vectors in {}", path.display()));
    rows
}

pub fn vectors(tally: &mut Tally) {
    osmo_bts(tally);
    osmo_msc(tally);
    nch_mixed(tally);
    facch_mixed(tally);
    events(tally);
    rows::run(tally);
}

fn number(text: &str) -> u64 {
    text.parse().unwrap()
}

fn hexadecimal(text: &str) -> u64 {
    u64::from_str_radix(text, 16).unwrap()
}

/// Messages that osmo-bts encoded from the fields beside them: read, or refused where our rules are stricter than its encoder.
fn osmo_bts(tally: &mut Tally) {
    for row in rows(tally, "osmo-bts-1.9.0.tsv") {
        let octets = octets_of(&row[8]);
        let mut call: Vec<u64> = row[2..7].iter().map(|field| number(field)).collect();
        let described = row[7] != "-";
        let channel = if described { hexadecimal(&row[7]) } else { 0 };
        let refusal = match () {
            _ if call[0] > 99_999_999 => 4,
            _ if channel & 0x1000 != 0 => 5,
            _ => 0,
        };
        call.extend([u64::from(described), channel]);
        let (archive, numbers) = if row[0] == "NCH" {
            let (refusal, numbers) = compare_nch(tally, &octets, nch::NUMBERS);
            let nln = if row[1] == "-" { [0, 0] } else { [1, number(&row[1])] };
            let counts = [nln[0], nln[1], 1];
            let right = refusal != 0 || numbers[1..4] == counts;
            tally.check(right, || format!("  osmo-bts: {} should read NLN and one call as {counts:?}", row[8]));
            (refusal, numbers[4..11].to_vec())
        } else {
            let (refusal, numbers) = compare_facch(tally, &octets, facch::NUMBERS);
            (refusal, numbers[2..9].to_vec())
        };
        let expected = if refusal == 0 { call } else { vec![0; 7] };
        tally.same_reading("osmo-bts (second is its field list)", || row[8].clone(), &(archive, numbers), &(refusal, expected));
    }
}

/// Call references that osmo-msc encoded.
fn osmo_msc(tally: &mut Tally) {
    for row in rows(tally, "osmo-msc-1.13.0-call-reference.tsv") {
        let octets = octets_of(&row[2]);
        let priority = if row[1] == "-" { [0, 0] } else { [1, number(&row[1])] };
        let numbers = vec![number(&row[0]), priority[0], priority[1]];
        let archive = CALL_REFERENCE.compare_read(tally, &octets, 3);
        let expected = if numbers[0] > 99_999_999 { (4, vec![0; 3]) } else { (0, numbers.clone()) };
        tally.same_reading("osmo-msc (second is its field list)", || row[2].clone(), &archive, &expected);
        let written = CALL_REFERENCE.compare_write(tally, &numbers, 4);
        if archive.0 == 0 && !(priority[0] == 1 && priority[1] == 0) {
            tally.same_writing("osmo-msc: written back", || row[2].clone(), &written, &(0, octets));
        }
    }
}

/// The words of an expectation, one after the other.
struct Words<'a>(std::iter::Peekable<std::str::SplitWhitespace<'a>>);

impl<'a> Words<'a> {
    fn new(text: &'a str) -> Self {
        Words(text.split_whitespace().peekable())
    }

    fn next(&mut self) -> Option<&'a str> {
        self.0.next()
    }

    fn number(&mut self) -> u64 {
        number(self.0.next().unwrap())
    }

    fn hexadecimal(&mut self) -> u64 {
        hexadecimal(self.0.next().unwrap())
    }

    /// Whether the next word is this one; takes it then.
    fn is(&mut self, word: &str) -> bool {
        self.0.next_if_eq(&word).is_some()
    }

    fn is_hexadecimal(&mut self) -> bool {
        self.0.peek().is_some_and(|word| word.bytes().all(|c| c.is_ascii_hexdigit()))
    }

    /// The numbers of a description from its 24 bits on: channel, hopping, short list, octets, frequencies.
    fn description(&mut self) -> [u64; 6] {
        let channel = self.hexadecimal();
        if self.is("allocation") {
            [1, channel, 1, 0, self.number(), self.hexadecimal()]
        } else if self.is("list") {
            [1, channel, 1, 1, 0, self.hexadecimal()]
        } else {
            [1, channel, 0, 0, 0, 0]
        }
    }
}

fn nch_mixed(tally: &mut Tally) {
    for row in rows(tally, "nch-mixed.tsv") {
        let octets = octets_of(&row[0]);
        // The files name the number; the bit numbers are in vNN.txt's rows and in the scenes.
        let (archive, record) = compare_nch(tally, &octets, nch::NUMBERS);
        let archive = (number_of(archive), record);
        let mut words = Words::new(&row[1]);
        let mut numbers = vec![0; nch::NUMBERS];
        let (mut calls, mut reduced, mut random, mut marks) = (0, 0, 0, 0);
        let mut refusal = 0;
        let mut written = None;
        while let Some(word) = words.next() {
            match word {
                "refused" => refusal = words.number() as u32,
                "used" => numbers[0] = words.number(),
                "nln" => numbers[1..3].copy_from_slice(&[1, words.number()]),
                "call" => {
                    let at = 4 + 11 * calls;
                    (0..5).for_each(|i| numbers[at + i] = words.number());
                    calls += 1;
                }
                "channel" => numbers[4 + 11 * (calls - 1) + 5..][..6].copy_from_slice(&words.description()),
                "six" => numbers[48] = 1,
                "count" => numbers[49..51].copy_from_slice(&[1, words.number()]),
                "reduced" => {
                    numbers[52 + 2 * reduced..][..2].copy_from_slice(&[words.number(), words.number()]);
                    reduced += 1;
                }
                "random" => {
                    let segment = words.number();
                    let vstk_rand = if words.is_hexadecimal() { [1, words.hexadecimal()] } else { [0, 0] };
                    numbers[63 + 3 * random..][..3].copy_from_slice(&[segment, vstk_rand[0], vstk_rand[1]]);
                    random += 1;
                }
                "seven" => numbers[90] = 1,
                "mark" => {
                    numbers[92 + marks] = words.number();
                    marks += 1;
                }
                "uplink" => numbers[96..98].copy_from_slice(&[1, words.number()]),
                "amr" => numbers[98] = 1,
                "full" => numbers[99..101].copy_from_slice(&[1, words.number()]),
                "half" => numbers[101..103].copy_from_slice(&[1, words.number()]),
                "sms" => numbers[103..106].copy_from_slice(&[1, words.number(), words.number()]),
                "written" => written = words.next().map(octets_of),
                other => panic!("nch-mixed.tsv: what is {other}?"),
            }
        }
        (numbers[3], numbers[51], numbers[62], numbers[91]) = (calls as u64, reduced as u64, random as u64, marks as u64);
        tally.same_reading("nch-mixed (second is the file)", || row[0].clone(), &archive, &(refusal, numbers));
        if let Some(written) = written {
            let archive = compare_nch_write(tally, &archive.1, 20);
            tally.same_writing("nch-mixed, written (second is the file)", || row[0].clone(), &archive, &(0, written));
        }
    }
}

fn facch_mixed(tally: &mut Tally) {
    for row in rows(tally, "facch-mixed.tsv") {
        let octets = octets_of(&row[0]);
        let (archive, record) = compare_facch(tally, &octets, facch::NUMBERS);
        let archive = (number_of(archive), record);
        let mut words = Words::new(&row[1]);
        let mut numbers = vec![0; facch::NUMBERS];
        let mut refusal = 0;
        let mut written = None;
        while let Some(word) = words.next() {
            match word {
                "refused" => refusal = words.number() as u32,
                "used" => numbers[0] = words.number(),
                "reference" => numbers[2] = words.number(),
                "service" => numbers[3] = words.number(),
                "ack" => numbers[4] = words.number(),
                // A page's stands behind a flag.
                "priority" if numbers[1] == 1 => numbers[17..19].copy_from_slice(&[1, words.number()]),
                "priority" => numbers[5] = words.number(),
                "cipher" => numbers[6] = words.number(),
                "description" if words.is("-") => {}
                "description" => numbers[7..13].copy_from_slice(&words.description()),
                "identity" => {
                    let length = words.number();
                    let (first, others) = words.next().unwrap().split_at(2);
                    let others = if others.is_empty() { 0 } else { hexadecimal(others) };
                    numbers[1] = 1;
                    numbers[13..16].copy_from_slice(&[length, hexadecimal(first), others]);
                }
                "channel" => numbers[16] = words.number(),
                "six" => numbers[19] = 1,
                "count" => numbers[20..22].copy_from_slice(&[1, words.number()]),
                "b22" => numbers[22] = words.number(),
                "rand" => numbers[23..25].copy_from_slice(&[1, words.hexadecimal()]),
                "seven" => numbers[25] = 1,
                "uplink" => numbers[26] = words.number(),
                "emergency" => numbers[27] = words.number(),
                "cause" => numbers[28..30].copy_from_slice(&[1, words.number()]),
                "written" => written = words.next().map(octets_of),
                other => panic!("facch-mixed.tsv: what is {other}?"),
            }
        }
        tally.same_reading("facch-mixed (second is the file)", || row[0].clone(), &archive, &(refusal, numbers));
        tally.check(written.is_some() == (refusal == 0), || {
            format!("  facch-mixed: what is written stands beside {} exactly if it is accepted", row[0])
        });
        if let Some(written) = written {
            let archive = compare_facch_write(tally, &archive.1, octets.len());
            tally.same_writing("facch-mixed, written (second is the file)", || row[0].clone(), &archive, &(0, written));
        }
    }
}

/// The place of a header's part among the numbers of a record.
fn part(number: usize) -> usize {
    number - FIRST_RECORD_PART
}

/// The record of an expectation: `call reference service ack priority cipher channel .. segment .. rand .. emergency .. count .. `
/// `uplink .. amr .. sms ..`, where `-` is what is absent.
fn record(words: &mut Words) -> [u64; RECORD_NUMBERS] {
    let mut numbers = [0; RECORD_NUMBERS];
    while let Some(word) = words.next() {
        let absent = word != "call" && word != "channel" && words.is("-");
        match word {
            "call" => {
                numbers[part(9)] = 1;
                for place in [5, 10, 11, 29, 30] {
                    numbers[part(place)] = words.number();
                }
            }
            "channel" => {
                let [described, channel, hops, short_list, octets, frequencies] = words.description();
                for (place, number) in [(12, described), (6, channel), (13, hops), (14, short_list), (31, octets), (7, frequencies)] {
                    numbers[part(place)] = number;
                }
            }
            // AMR may be there without either part: `amr - -`.
            "amr" => {
                let half = words.0.peek().is_some_and(|&word| word == "-" || word.bytes().all(|c| c.is_ascii_digit()));
                if absent && !half {
                    continue;
                }
                numbers[part(23)] = 1;
                if !absent {
                    (numbers[part(24)], numbers[part(33)]) = (1, words.number());
                }
                if !words.is("-") {
                    (numbers[part(25)], numbers[part(34)]) = (1, words.number());
                }
            }
            _ if absent => {}
            "segment" => (numbers[part(15)], numbers[part(16)]) = (1, words.number()),
            "rand" => (numbers[part(17)], numbers[part(8)]) = (1, words.hexadecimal()),
            "emergency" => numbers[part(18)] = words.number(),
            "count" => (numbers[part(19)], numbers[part(32)], numbers[part(20)]) = (1, words.number(), words.number()),
            "uplink" => (numbers[part(21)], numbers[part(22)]) = (1, words.number()),
            "sms" => (numbers[part(26)], numbers[part(27)], numbers[part(28)]) = (1, words.number(), words.number()),
            other => panic!("events.tsv: what is {other}?"),
        }
    }
    numbers
}

fn events(tally: &mut Tally) {
    let mut pair = Pair::of(&[0; STATE_LENGTH], 5);
    for row in rows(tally, "events.tsv") {
        let words: Vec<&str> = row[0].split(' ').collect();
        let tick: u32 = words[1].parse().unwrap();
        // Refusal, expired, dropped and count; then each entry behind a stroke: key, number told, record.
        let mut parts = row[1].split('|');
        let head: Vec<u64> = parts.next().unwrap().split(' ').map(number).collect();
        let octets = || octets_of(words.get(2).unwrap_or(&""));
        let event = match words[0] {
            "setup" => {
                let numbers: Vec<u32> = words[2..].iter().map(|word| word.parse().unwrap()).collect();
                let archive = pair.setup(
                    tally,
                    &numbers[2..],
                    &vec![0; numbers.len() - 2],
                    tick,
                    [numbers[0], numbers[1], DEFAULT_TIMERS[Channel::Pch as usize]],
                );
                tally.same("events.tsv: setup (second is the file)", || row[0].clone(), &u64::from(archive), &head[0]);
                continue;
            }
            "nch" => Event::Nch(octets()),
            "facch" => Event::Facch(octets()),
            "joined" => Event::Joined(words[2].parse().unwrap()),
            "reselected" => Event::Reselected,
            "handed_over" => Event::HandedOver,
            "reconfigured" => Event::Reconfigured,
            "tick" => Event::Tick,
            other => panic!("events.tsv: what is {other}?"),
        };
        let said = pair.event(tally, tick, &event);
        let expected: Vec<_> = parts
            .map(|text| {
                let mut words = Words::new(text);
                let (key, told) = (words.number(), words.number());
                (key, told, (1..=3).contains(&told).then(|| record(&mut words)))
            })
            .collect();
        let archive = match said.archive {
            Ok(spoken) => (
                vec![0, spoken.expired, spoken.dropped, spoken.entries.len() as u64],
                spoken.entries.into_iter().map(|(key, told, record, _)| (key, told, record)).collect(),
            ),
            Err(refusal) => (vec![u64::from(number_of(refusal)), 0, 0, 0], Vec::new()),
        };
        tally.same("events.tsv (second is the file)", || row[0].clone(), &archive, &(head, expected));
    }
}
