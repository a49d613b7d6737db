//! The elements of Group Call Control: both sides read and write the same.

use crate::ffi::{self, archive, OctetReader, OctetWriter, OctetsReader, OctetsWriter};
use crate::gcc;
use crate::messages::{filled, BOUNDS};
use crate::rng::Rng;
use crate::tally::{hex, sparse, Tally};

type Reading = Result<Vec<u64>, u32>;
type SecondOctetWriter = fn(&[u64]) -> Result<u8, u32>;
type SecondOctetsWriter = fn(&[u64], &mut [u8]) -> Result<(), u32>;

/// An element of one octet or half an octet: the archive's functions, each beside the second program's.
pub struct Half {
    pub name: &'static str,
    pub numbers: usize,
    pub read: (OctetReader, fn(u8) -> Reading),
    pub write: (OctetWriter, SecondOctetWriter),
}

/// An element of several octets, likewise.
pub struct Octets {
    pub name: &'static str,
    pub numbers: usize,
    pub read: (OctetsReader, fn(&[u8]) -> Reading),
    pub write: (OctetsWriter, SecondOctetsWriter),
}

macro_rules! half {
    ($name:ident, $read:ident, $write:ident, $archive_read:ident, $archive_write:ident, $numbers:expr) => {
        pub const $name: Half = Half {
            name: stringify!($archive_read),
            numbers: $numbers,
            read: (archive::$archive_read, gcc::$read),
            write: (archive::$archive_write, gcc::$write),
        };
    };
}

half!(MESSAGE_TYPE, read_message_type, write_message_type, asternhaken_message_type_read, asternhaken_message_type_write, 2);
half!(CALL_STATE, read_call_state, write_call_state, asternhaken_call_state_read, asternhaken_call_state_write, 1);
half!(ORIGINATOR, read_originator, write_originator, asternhaken_originator_read, asternhaken_originator_write, 1);
half!(
    STATE_ATTRIBUTES,
    read_state_attributes,
    write_state_attributes,
    asternhaken_state_attributes_read,
    asternhaken_state_attributes_write,
    4
);
half!(SMS, read_sms, write_sms, asternhaken_sms_read, asternhaken_sms_write, 2);
half!(TALKER, read_talker, write_talker, asternhaken_talker_read, asternhaken_talker_write, 1);

const HALVES: [Half; 6] = [MESSAGE_TYPE, CALL_STATE, ORIGINATOR, STATE_ATTRIBUTES, SMS, TALKER];

pub const CALL_REFERENCE: Octets = Octets {
    name: "call_reference",
    numbers: 3,
    read: (archive::asternhaken_call_reference_read, gcc::read_call_reference),
    write: (archive::asternhaken_call_reference_write, gcc::write_call_reference),
};
pub const CAUSE: Octets = Octets {
    name: "cause",
    numbers: gcc::CAUSE_NUMBERS,
    read: (archive::asternhaken_cause_read, gcc::read_cause),
    write: (archive::asternhaken_cause_write, gcc::write_cause),
};
pub const DIGITS: Octets = Octets {
    name: "digits",
    numbers: 12,
    read: (archive::asternhaken_digits_read, gcc::read_digits),
    write: (archive::asternhaken_digits_write, gcc::write_digits),
};

impl Half {
    pub fn compare_read(&self, tally: &mut Tally, octet: u8, places: usize) -> (u32, Vec<u64>) {
        let archive = ffi::read_octet(self.read.0, octet, places);
        let second = filled((self.read.1)(octet), places);
        tally.count_refusal(archive.0);
        tally.same_reading(self.name, || format!("{octet:02x} into {places} numbers"), &archive, &second);
        archive
    }

    pub fn compare_write(&self, tally: &mut Tally, numbers: &[u64]) -> (u32, u8) {
        const BEFORE: u8 = 0xE7;
        let archive = ffi::write_octet(self.write.0, numbers, BEFORE);
        let second = match (self.write.1)(numbers) {
            Ok(octet) => (0, octet),
            Err(refusal) => (refusal, BEFORE),
        };
        tally.count_refusal(archive.0);
        tally.same(self.name, || format!("written from {numbers:?}"), &archive, &second);
        archive
    }

    fn all(&self, tally: &mut Tally) {
        for octet in 0..=255 {
            for places in 0..self.numbers + 3 {
                self.compare_read(tally, octet, places);
            }
        }
        // Each number at every bound beside good ones, and each type beside both sequence numbers.
        for field in 0..self.numbers {
            for other in [0, 1, 0x31] {
                for bound in (0..300).chain(BOUNDS) {
                    let mut numbers = vec![other; self.numbers];
                    numbers[field] = bound;
                    self.compare_write(tally, &numbers);
                }
            }
        }
        for bits in 0..16 {
            let numbers: Vec<u64> = (0..self.numbers).map(|i| bits >> i & 1).collect();
            self.compare_write(tally, &numbers);
        }
        for length in 0..8 {
            self.compare_write(tally, &vec![1; length]);
        }
    }
}

impl Octets {
    pub fn compare_read(&self, tally: &mut Tally, octets: &[u8], places: usize) -> (u32, Vec<u64>) {
        let archive = ffi::read_octets(self.read.0, octets, places);
        let second = filled((self.read.1)(octets), places);
        tally.count_refusal(archive.0);
        tally.same_reading(self.name, || format!("{} into {places} numbers", hex(octets)), &archive, &second);
        archive
    }

    pub fn compare_write(&self, tally: &mut Tally, numbers: &[u64], size: usize) -> (u32, Vec<u8>) {
        let before: Vec<u8> = (0..size).map(|i| 0xC0 ^ i as u8).collect();
        let archive = ffi::write_octets(self.write.0, numbers, &before);
        let mut octets = before;
        let refusal = (self.write.1)(numbers, &mut octets).err().unwrap_or(0);
        tally.count_refusal(archive.0);
        tally.same_writing(self.name, || format!("written from {} into {size} octets", sparse(numbers)), &archive, &(refusal, octets));
        archive
    }

    /// Reads, and writes back what was accepted.
    fn there_and_back(&self, tally: &mut Tally, octets: &[u8]) {
        let (refusal, numbers) = self.compare_read(tally, octets, self.numbers);
        if refusal == 0 {
            self.compare_write(tally, &numbers, octets.len());
        }
    }
}

fn cause_numbers(septets: u64, diagnostics: u64, rng: &mut Rng) -> Vec<u64> {
    let mut numbers = vec![0; gcc::CAUSE_NUMBERS];
    // What it means is not looked at.
    numbers[..2].fill(rng.next());
    numbers[2] = septets;
    numbers[258] = diagnostics;
    for i in 0..septets.min(255) as usize {
        numbers[3 + i] = rng.below(128);
    }
    for i in 0..diagnostics.min(255) as usize {
        numbers[259 + i] = rng.below(256);
    }
    numbers
}

/// Everything that is small enough to be gone through whole.
pub fn fixed(tally: &mut Tally) {
    for half in &HALVES {
        half.all(tally);
    }
    let mut rng = Rng::new(2);
    for element in [&CALL_REFERENCE, &CAUSE, &DIGITS] {
        for length in (0..12).chain([254, 255, 256, 257, 260, 300, 511, 512, 513, 4_097, 65_540]) {
            for fill in [0x00, 0x10, 0x80, 0x90, 0xFF] {
                element.there_and_back(tally, &vec![fill; length]);
                element.there_and_back(tally, &[vec![0x00; length], vec![fill]].concat());
            }
        }
        for places in (0..16).chain([254, 255, 256, 257, 258, 510, 511, 512, 513, 514, 515, 600]) {
            for octets in [&[0x90][..], &[0x10, 0x91, 0x33], &[0x00, 0x00, 0x00, 0x23, 0xA3], &[0x22, 0xD0, 0x0E, 0x16], &[0x10]] {
                element.compare_read(tally, octets, places);
            }
        }
        for length in (0..20).chain([510, 511, 512, 513, 514, 515, 516]) {
            element.compare_write(tally, &vec![1; length], 4);
            element.compare_write(tally, &vec![0x31; length], 5);
        }
    }
    // Call references: flags, priorities and spare bits beside the lowest and highest references.
    for reference in [0, 1, 99_999_999, 100_000_000, (1 << 27) - 1u64] {
        for low in 0..32 {
            CALL_REFERENCE.there_and_back(tally, &((reference << 5 | low) as u32).to_be_bytes());
        }
        for flag in 0..3 {
            for priority in 0..10 {
                for size in 0..7 {
                    CALL_REFERENCE.compare_write(tally, &[reference, flag, priority], size);
                }
            }
        }
    }
    for field in 0..3 {
        for base in [[5, 0, 0], [5, 1, 3], [99_999_999, 1, 7], [100_000_000, 1, 1]] {
            for bound in BOUNDS {
                let mut numbers = base;
                numbers[field] = bound;
                CALL_REFERENCE.compare_write(tally, &numbers, 4);
            }
        }
    }
    // Causes: every first octet, alone and with others behind it.
    for first in 0..=255 {
        for rest in [&[][..], &[0x90], &[0x10], &[0x10, 0x80], &[0x00, 0x7F, 0xFF, 0x01, 0x02]] {
            CAUSE.there_and_back(tally, &[&[first], rest].concat());
        }
    }
    for (septets, diagnostics) in
        [(0, 0), (0, 1), (1, 0), (1, 254), (1, 255), (2, 254), (127, 128), (128, 128), (254, 1), (255, 0), (255, 1), (256, 0)]
    {
        let numbers = cause_numbers(septets, diagnostics, &mut rng);
        for size in [0, (septets + diagnostics) as usize, (septets + diagnostics + 1) as usize, 255, 256] {
            CAUSE.compare_write(tally, &numbers, size);
        }
        for place in [0, 1, 2, 3, 4, 129, 130, 131, 256, 257, 258, 259, 260, 386, 387, 512, 513] {
            for bound in BOUNDS {
                let mut numbers = numbers.clone();
                numbers[place] = bound;
                CAUSE.compare_write(tally, &numbers, (septets + diagnostics) as usize);
            }
        }
    }
    // Digits: around every power of ten and the largest number; each digit just out of range.
    for power in 0..13 {
        for number in [10u64.pow(power) - 1, 10u64.pow(power), 10u64.pow(power) + 1] {
            DIGITS.there_and_back(tally, &number.to_be_bytes()[3..]);
        }
    }
    for place in 0..12 {
        for digit in [0, 9, 0x2F, 0x30, 0x39, 0x3A, 0x130, 0x1_0000_0030, u64::MAX] {
            let mut numbers = vec![0x39; 12];
            numbers[place] = digit;
            for size in 4..7 {
                DIGITS.compare_write(tally, &numbers, size);
            }
        }
    }
}

/// About `count` elements at random.
pub fn run(tally: &mut Tally, rng: &mut Rng, count: u64) {
    for _ in 0..count {
        match rng.below(8) {
            0 => {
                let length = if rng.one_in(10) { rng.below(8) as usize } else { 4 };
                let octets = rng.octets(length);
                CALL_REFERENCE.there_and_back(tally, &octets);
            }
            1 => {
                let reference = if rng.one_in(4) { rng.pick(&BOUNDS) } else { rng.below(100_000_000) };
                let numbers = [reference, rng.below(3) * rng.below(2), rng.below(9) * rng.below(2)];
                CALL_REFERENCE.compare_write(tally, &numbers, if rng.one_in(10) { rng.below(8) as usize } else { 4 });
            }
            2 => {
                // Octets without the closing bit in front, so that causes get long.
                let length = if rng.one_in(4) { rng.below(300) as usize } else { rng.below(6) as usize };
                let mut octets = rng.octets(length);
                let open = rng.below(length as u64 + 1) as usize;
                octets[..open].iter_mut().for_each(|octet| *octet &= 0x7F);
                CAUSE.there_and_back(tally, &octets);
            }
            3 => {
                let septets = if rng.one_in(8) { rng.below(260) } else { 1 + rng.below(4) };
                let diagnostics = if rng.one_in(8) { rng.below(260) } else { rng.below(4) };
                let mut numbers = cause_numbers(septets, diagnostics, rng);
                for _ in 0..rng.below(3) {
                    let place = rng.below(numbers.len() as u64) as usize;
                    numbers[place] = rng.pick(&BOUNDS);
                }
                let size = if rng.one_in(8) { rng.below(300) } else { numbers[2].saturating_add(numbers[258]).min(600) };
                CAUSE.compare_write(tally, &numbers, size as usize);
            }
            4 => {
                let length = if rng.one_in(10) { rng.below(10) as usize } else { 5 };
                let octets = rng.octets(length);
                DIGITS.there_and_back(tally, &octets);
            }
            5 => {
                let mut numbers: Vec<u64> = (0..12).map(|_| 0x30 + rng.below(10)).collect();
                if rng.one_in(2) {
                    numbers[rng.below(12) as usize] = rng.pick(&[0x2F, 0x3A, 0, 9, 0x130, 1 << 32 | 0x30]);
                }
                DIGITS.compare_write(tally, &numbers, if rng.one_in(10) { rng.below(10) as usize } else { 5 });
            }
            6 => {
                let half = &HALVES[rng.below(HALVES.len() as u64) as usize];
                let places = rng.below(6) as usize;
                half.compare_read(tally, rng.next() as u8, places);
            }
            _ => {
                let half = &HALVES[rng.below(HALVES.len() as u64) as usize];
                let numbers: Vec<u64> = (0..half.numbers).map(|_| if rng.one_in(4) { rng.pick(&BOUNDS) } else { rng.below(2) }).collect();
                half.compare_write(tally, &numbers);
            }
        }
    }
}
