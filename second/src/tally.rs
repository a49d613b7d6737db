//! Counting what was compared, and telling differences.

use crate::bits::{number_of, Refusal};
use crate::cover::Cover;
use crate::ffi;
use crate::yard_steps::YardCover;

/// Every refusal and every told number must be met at least this often, or the run proves too little.
pub const ENOUGH: u64 = 100;
const MOST_SHOWN: u64 = 20;

pub struct Tally {
    pub seed: u64,
    /// Stop at the first difference.
    pub stop: bool,
    pub passed: u64,
    pub failed: u64,
    pub refusals: [u64; 16],
    pub told: [u64; 9],
    /// What the event steps met, and what the messages.
    pub cover: Cover,
    pub messages: Cover,
    pub yards: YardCover,
}

pub fn hex(octets: &[u8]) -> String {
    octets.iter().map(|octet| format!("{octet:02x}")).collect()
}

/// An array of numbers, for the reader of a difference: those other than 0, each with its place.
pub fn sparse(numbers: &[u64]) -> String {
    let used = numbers.iter().enumerate().filter(|(_, number)| **number != 0);
    let words: Vec<String> = used.map(|(place, number)| format!("{place}: {number}")).collect();
    format!("{} numbers ({})", numbers.len(), words.join(", "))
}

impl Tally {
    pub fn new(seed: u64, stop: bool) -> Tally {
        Tally {
            seed,
            stop,
            passed: 0,
            failed: 0,
            refusals: [0; 16],
            told: [0; 9],
            cover: Cover::of_steps(),
            messages: Cover::of_messages(),
            yards: YardCover::default(),
        }
    }

    /// What the archive answered. An unheard-of number differs from the second program's and is told there.
    pub fn count_refusal(&mut self, refusal: Refusal) {
        if let Some(count) = self.refusals.get_mut(number_of(refusal) as usize) {
            *count += 1;
        }
    }

    pub fn count_told(&mut self, number: u64) {
        if let Some(count) = self.told.get_mut(number as usize) {
            *count += 1;
        }
    }

    /// One comparison. `tell` gives the input and both answers.
    pub fn check(&mut self, same: bool, tell: impl FnOnce() -> String) -> bool {
        let damage = ffi::take_damage();
        if same && damage.is_none() {
            self.passed += 1;
            return true;
        }
        self.failed += 1;
        if self.failed <= MOST_SHOWN {
            println!("DIFFERENCE (seed {})", self.seed);
            if let Some(damage) = damage {
                println!("  {damage}");
            }
            println!("{}", tell());
        } else if self.failed == MOST_SHOWN + 1 {
            println!("further differences are only counted");
        }
        if self.stop {
            println!("{} passed, {} failed", self.passed, self.failed);
            std::process::exit(1);
        }
        false
    }

    /// A writing: refusal and lent octets afterwards.
    pub fn same_writing(&mut self, what: &str, input: impl FnOnce() -> String, archive: &(u32, Vec<u8>), second: &(u32, Vec<u8>)) -> bool {
        let told = |writing: &(u32, Vec<u8>)| format!("refusal {}, octets {}", writing.0, hex(&writing.1));
        self.check(archive == second, || {
            format!("  {what}\n  input   {}\n  archive {}\n  second  {}", input(), told(archive), told(second))
        })
    }

    pub fn same<T: PartialEq + std::fmt::Debug>(&mut self, what: &str, input: impl FnOnce() -> String, archive: &T, second: &T) -> bool {
        self.check(archive == second, || format!("  {what}\n  input   {}\n  archive {archive:?}\n  second  {second:?}", input()))
    }

    /// A reading: refusal and numbers.
    pub fn same_reading(
        &mut self,
        what: &str,
        input: impl FnOnce() -> String,
        archive: &(u32, Vec<u64>),
        second: &(u32, Vec<u64>),
    ) -> bool {
        let told = |reading: &(u32, Vec<u64>)| format!("refusal {}, {}", reading.0, sparse(&reading.1));
        self.check(archive == second, || {
            format!("  {what}\n  input   {}\n  archive {}\n  second  {}", input(), told(archive), told(second))
        })
    }

    /// Whether everything was met often enough; the last line is the verdict.
    pub fn finish(mut self) -> bool {
        let line = |counts: &[u64], from: usize| {
            let each: Vec<String> = counts.iter().enumerate().map(|(i, count)| format!("{}: {count}", i + from)).collect();
            each.join(", ")
        };
        println!("accepted    {}", self.refusals[0]);
        println!("refusals    {}", line(&self.refusals[1..], 1));
        println!("told        {}", line(&self.told, 0));
        for (what, counts) in [("refusal", &self.refusals[..]), ("told number", &self.told[..])] {
            for (number, count) in counts.iter().enumerate() {
                if *count < ENOUGH {
                    println!("met too seldom: {what} {number}, {count} times");
                    self.failed += 1;
                }
            }
        }
        self.failed += self.cover.finish() + self.messages.finish() + self.yards.finish();
        println!("{} passed, {} failed", self.passed, self.failed);
        self.failed == 0
    }
}
