//! The receiver's rows of vectors/vNN.txt, the readers', the FACCH writer's and the uplink's: answers that others worked out, held against both sides.
//! vectors/README.md has the protocol.
//! tests/drive.sh holds every row of the file against the library; here the second program must give the same.

use crate::bits::{bit_of, number_of, Refusal};
use crate::listed::{folder, octets_of};
use crate::messages::{compare_facch, compare_facch_write, compare_nch, filled, second_facch, second_nch};
use crate::pair::{Pair, Spoken};
use crate::receiver::{find, Event, CHANNELS};
use crate::state::{FIRST_RECORD_PART, RECORD_NUMBERS, STATE_LENGTH};
use crate::steps::lookup;
use crate::tally::{hex, Tally};
use crate::uplink_steps::Rows;
use crate::{facch, nch};

/// Fewer receiver rows than this, or fewer of the uplink, are not the whole file.
const LEAST_ROWS: usize = 1_000;
const LEAST_UPLINK_ROWS: usize = 300;

/// The header's parts of a record in the protocol's order, up to the description, and behind it.
const BEFORE: [usize; 7] = [9, 5, 10, 11, 29, 30, 12];
const BEHIND: [usize; 18] = [15, 16, 17, 8, 18, 19, 32, 20, 21, 22, 23, 24, 33, 25, 34, 26, 27, 28];

/// The octets that a number stands for, as many places as are asked for, zeros in those beyond the length.
fn places(number: u64, length: u64, count: u64) -> Vec<u64> {
    let length = length.min(count);
    (0..count).map(|i| if i < length { number >> (8 * (length - 1 - i)) & 255 } else { 0 }).collect()
}

/// The number that octets in their places stand for. An octet beyond the length makes it too large for that.
fn as_number(octets: &[u64], length: u64) -> u64 {
    let used = octets.iter().rposition(|&octet| octet != 0).map_or(0, |last| last + 1).max(length.min(octets.len() as u64) as usize);
    octets[..used].iter().fold(0, |number, octet| number << 8 | octet)
}

/// The 13 numbers of a DESCRIPTION.
fn description([channel, hops, short_list, length, frequencies]: [u64; 5]) -> Vec<u64> {
    let mut numbers = vec![channel, hops, short_list, length];
    numbers.extend(places(frequencies, length, 8));
    numbers.push(if short_list == 1 { frequencies } else { 0 });
    numbers
}

/// The library's five numbers for them: octets, or a short list, as one number, whichever the short list flag names.
fn five(given: &[u64]) -> [u64; 5] {
    let frequencies = if given[2] != 0 || given[12] != 0 { given[12] } else { as_number(&given[4..12], given[3]) };
    [given[0], given[1], given[2], given[3], frequencies]
}

/// The 44 numbers of a FACCH-RECORD, without the bits used.
fn facch_record(numbers: &[u64]) -> Vec<u64> {
    let mut record = numbers[1..8].to_vec();
    record.extend(description(numbers[8..13].try_into().unwrap()));
    record.extend([numbers[13], numbers[14]]);
    record.extend(places(numbers[15], numbers[13].saturating_sub(1), 8));
    record.extend(&numbers[16..]);
    record
}

/// The library's thirty numbers for them, with any number of bits used, which a writer does not look at.
fn facch_numbers(given: &[u64]) -> Vec<u64> {
    let mut numbers = vec![u64::MAX];
    numbers.extend(&given[..7]);
    numbers.extend(five(&given[7..20]));
    numbers.extend([given[20], given[21], as_number(&given[22..30], given[20].saturating_sub(1))]);
    numbers.extend(&given[30..]);
    numbers
}

/// What `paged` answers, out of the nine numbers.
fn paged(numbers: &[u64]) -> String {
    let mut shown = vec![numbers[0]];
    if numbers[0] == 1 {
        shown.extend([numbers[1], numbers[2]]);
        shown.extend(places(numbers[3], numbers[1].saturating_sub(1), 8));
        shown.extend(&numbers[4..]);
    }
    spaced(&shown)
}

fn spaced(numbers: &[u64]) -> String {
    numbers.iter().map(u64::to_string).collect::<Vec<String>>().join(" ")
}

/// The 40 numbers of a CALL-RECORD.
fn call_record(key: u64, record: &[u64; RECORD_NUMBERS]) -> Vec<u64> {
    let part = |number: usize| record[number - FIRST_RECORD_PART];
    let mut numbers = vec![key];
    numbers.extend(BEFORE.map(part));
    numbers.extend(description([6, 13, 14, 31, 7].map(part)));
    // Ciphered is what has a cipher key number: complete records have full references.
    numbers.push(u64::from(part(30) != 0));
    numbers.extend(BEHIND.map(part));
    numbers
}

/// An EVENT-ANSWER.
fn answer(said: &Result<Spoken, Refusal>) -> String {
    match said {
        Err(refusal) => format!("{} {} 0 0", number_of(*refusal), bit_of(*refusal)),
        Ok(spoken) => {
            let mut line = spaced(&[0, 0, spoken.dropped, spoken.expired]);
            for (key, told, record, follow) in &spoken.entries {
                line += &format!(" | {key} {told}");
                if let Some(record) = record {
                    line += &format!(" {}", spaced(&call_record(*key, record)));
                    if *told != 1 {
                        line += &format!(" {} {}", follow.0, follow.1);
                    }
                }
            }
            line
        }
    }
}

/// The library's fourteen numbers for the protocol's 22: octets, or a short list, as one number, whichever the short list flag names. An octet
/// beyond the length makes the number too large for it.
fn pch_numbers(given: &[u64]) -> Vec<u64> {
    let mut numbers = given[..9].to_vec();
    numbers.push(if given[7] != 0 { given[17] } else { as_number(&given[9..17], given[8]) });
    numbers.extend(&given[18..]);
    numbers
}

/// The numbers up to a stroke or the end.
fn numbers(words: &[&str]) -> Vec<u64> {
    words.iter().map(|word| word.parse().unwrap()).collect()
}

fn octets(word: &str) -> Vec<u8> {
    if word == "-" {
        Vec::new()
    } else {
        octets_of(word)
    }
}

fn event(words: &[&str]) -> Event {
    match words[0] {
        "nch" => Event::Nch(octets(words[2])),
        "facch" => Event::Facch(octets(words[2])),
        "pch" => Event::Pch(pch_numbers(&numbers(&words[2..]))),
        "joined" => Event::Joined(words[2].parse().unwrap()),
        "reselected" => Event::Reselected,
        "handed_over" => Event::HandedOver,
        "reconfigured" => Event::Reconfigured,
        "idle" => Event::LeftIdle,
        "bit" => Event::Bit(words[2].parse().unwrap()),
        "tick" => Event::Tick,
        other => panic!("what is ev {other}?"),
    }
}

pub fn run(tally: &mut Tally) {
    let is_one = |name: &str| name.len() == 7 && name.starts_with('v') && name.ends_with(".txt");
    let files = std::fs::read_dir(folder()).into_iter().flatten().flatten().map(|file| file.path());
    let files: Vec<_> = files.filter(|path| path.file_name().and_then(|name| name.to_str()).is_some_and(is_one)).collect();
    tally.check(files.len() == 1, || format!("  one file vNN.txt belongs in {}, and there are {}", folder().display(), files.len()));
    let text = files.first().map(|path| std::fs::read_to_string(path).unwrap()).unwrap_or_default();
    let mut lines = text.lines().filter(|line| line.starts_with("> ") || line.starts_with("< "));
    let mut pair = Pair::of(&[0; STATE_LENGTH], 2);
    let mut uplink = Rows::default();
    let mut done = 0;
    while let (Some(command), Some(expected)) = (lines.next(), lines.next()) {
        let mut expected = expected[2..].to_string();
        let words: Vec<&str> = command[2..].split(' ').collect();
        let (archive, second) = match words[0] {
            "setup" => {
                let given = numbers(&words[2..3 + CHANNELS.len()]);
                let timers = CHANNELS.map(|channel| given[1 + channel as usize] as u32);
                let mut lists = words[4 + CHANNELS.len()..].split(|&word| word == "/");
                let mut list = || lists.next().unwrap().iter().map(|key| key.parse().unwrap()).collect::<Vec<u32>>();
                let (keys, sets) = (list(), list());
                let refusal = pair.setup(tally, &keys, &sets, given[0] as u32, timers).to_string();
                // The pair has held the second program's refusal against this one.
                (refusal.clone(), refusal)
            }
            "ev" => {
                let said = pair.event(tally, words[2].parse().unwrap(), &event(&words[1..]));
                (answer(&said.archive), answer(&said.second))
            }
            "nch" => {
                // Refusal, bit and bits used; tests/drive.sh compares the record with the library's, and the reading both sides.
                let octets = octets(words[2]);
                let (reading, second) = (compare_nch(tally, &octets, nch::NUMBERS), second_nch(&octets));
                let line = |refusal: Refusal, used: u64| format!("{} {} {used}", number_of(refusal), bit_of(refusal));
                let second = match second {
                    Ok(numbers) => line(0, numbers[0]),
                    Err(refusal) => line(refusal, 0),
                };
                expected = expected.splitn(4, ' ').take(3).collect::<Vec<&str>>().join(" ");
                (line(reading.0, reading.1[0]), second)
            }
            "facch" => {
                let octets = octets(words[2]);
                let reading = compare_facch(tally, &octets, facch::NUMBERS);
                let second = filled(second_facch(&octets), facch::NUMBERS);
                let line = |(refusal, numbers): (Refusal, Vec<u64>)| {
                    format!("{} {} {} {}", number_of(refusal), bit_of(refusal), numbers[0], spaced(&facch_record(&numbers)))
                };
                (line(reading), line(second))
            }
            "wfacch" => {
                let given = numbers(&words[1..]);
                let (size, numbers) = (given[0] as usize, facch_numbers(&given[1..]));
                let (refusal, octets) = compare_facch_write(tally, &numbers, size);
                // The archive says how many bits are used when it reads what it wrote.
                let used = compare_facch(tally, &octets, facch::NUMBERS).1[0];
                let mut buffer = vec![0; size];
                let second = facch::write(&numbers, &mut buffer);
                let line = |refusal: Refusal, used: u64, octets: &[u8]| match refusal {
                    0 => format!("0 {used} {}", hex(octets)),
                    _ => format!("{refusal} 0 -"),
                };
                let second = second.map_or_else(|refusal| line(refusal, 0, &[]), |used| line(0, used as u64, &buffer));
                (line(refusal, used, &octets), second)
            }
            "paged" => (paged(&pair.archive_paged()), paged(&pair.mirror.paged())),
            "find" => {
                let keys: Vec<u32> = words[3..].iter().map(|key| key.parse().unwrap()).collect();
                let (_, place, _) = lookup(tally, &keys, words[1].parse().unwrap());
                let second = find(&keys, words[1].parse().unwrap()).0;
                let line = |place: Option<usize>| place.map_or("-".to_string(), |place| place.to_string());
                (line(Some(place as usize).filter(|&place| place < keys.len())), line(second))
            }
            "usetup" | "uev" => {
                uplink.done += 1;
                uplink.row(tally, &words)
            }
            _ => continue,
        };
        done += 1;
        for (side, line) in [("archive", archive), ("second", second)] {
            tally.check(line == expected, || format!("  {command}\n  the file  {expected}\n  {side:9} {line}"));
        }
    }
    let receivers = done - uplink.done;
    tally.check(receivers >= LEAST_ROWS, || format!("  only {receivers} receiver rows in {files:?}"));
    tally.check(uplink.done >= LEAST_UPLINK_ROWS, || format!("  only {} rows of the uplink in {files:?}", uplink.done));
}
