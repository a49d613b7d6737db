//! The second program: an implementation of document 01 (the scope) and of the requests of document 02 that have landed (§8, §3, §4, §1, §11,
//! §2, §7, §13) that shares nothing with the proved one, and a comparison of the two.
//!
//! It was written from documents, without sight of the proved code: 01, 02, the readings of their open places, the sources 000 to 004,
//! include/asternhaken.h and docs/STATE.md; docs/DECISIONS.md and docs/PROMISES.md had been seen as well. Three places that these leave open,
//! all in states that no setup left, were taken over from the archive once the comparison had shown them: a half under a key that stands twice
//! is under another key unless it is at the place that is found; a joined record has a VSTK_RAND even where the second half held says it has
//! none; and where no half has a count, a joined record keeps the numbers that the first half has behind that flag. Which key a halving looks
//! at first is left open too: of two in the middle the later one, as docs/STATE.md says. Nothing of this is linked into the library. The files:
//!
//! - bits, call, nch, facch, pch, gcc, numbers: readers and writers; receiver, state: the receiver and the octets of its lent state;
//!   one: the receiver of one call on one channel, which knows of nothing else; uplink: §9, with a second reading of it by the history alone;
//!   yard: the yard set (§13), worked out from all that it was told;
//! - ffi: the archive's functions, with guards around everything that is lent; pair: both sides over one state;
//! - listed, rows, scenes: the listed inputs, the vector files, and hand-written scenes for each sentence on the store and on what is told;
//! - draft, messages, elements, steps: messages laid out from the grammar, and random messages, records, elements and event sequences;
//!   more: pairs of setups, the second with more subscriptions (§10); cover: what these must have met; uplink_steps: all of that for the
//!   uplink; yard_steps: the same for the yard set; record: the calls of the archive, written down;
//! - capture: a recorded day, what replaying it answers and what mending leaves of it; captures: random ones, and the programs held against this.
//!
//! To run it, with libasternhaken.a in ../target/lib (on a processor other than x86-64 in ../target/native), or where ASTERNHAKEN_LIB says,
//! and the vectors in ../vectors, or where ASTERNHAKEN_VECTORS says:
//!
//!     cargo run --release
//!     cargo run --release -- --messages 10000000 --steps 1000000 --seed 7
//!
//! `--stop` ends the run at the first difference; `--random` leaves out the listed inputs, the scenes and the vectors. The seed may also
//! stand in the environment, as SEED. A difference is printed with the seed, the input and both answers. `--record FILE` writes down what
//! the archive was asked and what it answered: replay.c asks the same of another build of it, one for another processor too.
//!
//! Compared are: refusal, bit number, record and bits used of every reading; refusal and all lent octets after every writing; refusal, every number of
//! the answer (through asternhaken_read, parts and entries beyond the last too, and entry by entry), who is paged, what is held, with the time that
//! is left, whether it was set up, and all 10,256 octets of the state after every setup and event, also from states that no setup left; where a key is
//! found, and after how many looks; that nothing beside lent memory was written; and, from a setup on, what each subscribed call is told on each
//! channel, and what is held of it, with the one-call receiver. The run fails where a refusal or a told number was met fewer than a hundred times, or where the event steps,
//! or the messages, met something too seldom that cover.rs lists. The last line is `N passed, M failed`.
//!
//! Where the first word is `captures`, `capture`, `replay` or `mend`, this is about recorded days (document 02, §5 and §12) and the archive is
//! not asked: captures.rs has the words. `compare captures --replay ../target/bin/replay --mend ../target/bin/mend` is the comparison.
//!
//! seeded-errors.sh tries the comparison itself: it puts errors into copies of this program, and each must be found.

mod bits;
mod call;
mod capture;
mod captures;
mod cover;
mod draft;
mod elements;
mod facch;
mod ffi;
mod gcc;
mod listed;
mod messages;
mod more;
mod nch;
mod numbers;
mod one;
mod pair;
mod pch;
mod receiver;
mod record;
mod rng;
mod rows;
mod scenes;
mod state;
mod steps;
mod tally;
mod uplink;
mod uplink_steps;
mod yard;
mod yard_steps;

use rng::Rng;
use std::time::Instant;
use tally::Tally;

struct Arguments {
    messages: u64,
    steps: u64,
    seed: u64,
    stop: bool,
    random: bool,
    record: Option<String>,
}

fn arguments() -> Result<Arguments, String> {
    let seed = std::env::var("SEED").ok().and_then(|seed| seed.parse().ok()).unwrap_or(44_018);
    let mut arguments = Arguments { messages: 1_000_000, steps: 100_000, seed, stop: false, random: false, record: None };
    let mut words = std::env::args().skip(1);
    while let Some(word) = words.next() {
        match &word[..] {
            "--stop" => {
                arguments.stop = true;
                continue;
            }
            "--random" => {
                arguments.random = true;
                continue;
            }
            "--record" => {
                arguments.record = Some(words.next().ok_or("--record needs a file")?);
                continue;
            }
            _ => {}
        }
        let number = words.next().and_then(|word| word.parse().ok()).ok_or(format!("{word} needs a number"))?;
        match &word[..] {
            "--messages" => arguments.messages = number,
            "--steps" => arguments.steps = number,
            "--seed" => arguments.seed = number,
            _ => return Err(format!("what is {word}?")),
        }
    }
    Ok(arguments)
}

/// Each round doubles what was done before.
const ROUNDS: u32 = 7;

/// Name, comparisons and seconds of each part.
#[derive(Default)]
struct Parts(Vec<(&'static str, u64, f64)>);

impl Parts {
    fn run(&mut self, tally: &mut Tally, name: &'static str, run: impl FnOnce(&mut Tally)) {
        let (start, passed) = (Instant::now(), tally.passed);
        run(tally);
        let (comparisons, seconds) = (tally.passed - passed, start.elapsed().as_secs_f64());
        match self.0.iter_mut().find(|part| part.0 == name) {
            Some(part) => *part = (name, part.1 + comparisons, part.2 + seconds),
            None => self.0.push((name, comparisons, seconds)),
        }
    }
}

fn main() {
    if let Some(status) = captures::main() {
        std::process::exit(status);
    }
    let arguments = match arguments() {
        Ok(arguments) => arguments,
        Err(error) => {
            eprintln!("{error}\nusage: compare [--messages N] [--steps N] [--seed S] [--stop] [--random] [--record FILE]");
            std::process::exit(2);
        }
    };
    println!("seed {}, {} messages, {} event steps", arguments.seed, arguments.messages, arguments.steps);
    let mut tally = Tally::new(arguments.seed, arguments.stop);
    let start = Instant::now();
    let mut parts = Parts::default();
    if let Some(file) = &arguments.record {
        record::begin(file).expect("the record");
    }
    if !arguments.random {
        parts.run(&mut tally, "listed inputs", listed::listed);
        parts.run(&mut tally, "scenes", scenes::run);
        parts.run(&mut tally, "scenes of the uplink", uplink_steps::scenes);
        parts.run(&mut tally, "vector files", listed::vectors);
    }
    // Each part has random numbers of its own, so that a change to one does not change the others; and the long ones come in rounds, so that
    // a difference in any of them is seen early.
    let rng = |part: u64| Rng::new(arguments.seed.wrapping_mul(8).wrapping_add(part));
    let mut more = more::More::default();
    parts.run(&mut tally, "more subscriptions", |tally| more.run(tally, &mut rng(5), arguments.steps / 5));
    let mut rngs = [rng(1), rng(2), rng(3), rng(4), rng(6)];
    let mut uplink_cover = uplink_steps::Cover::default();
    let elements = arguments.messages / 5;
    for round in 0..ROUNDS {
        let done = |all: u64, rounds: u32| if rounds == 0 { 0 } else { all >> (ROUNDS - rounds) };
        let share = |all: u64| done(all, round + 1) - done(all, round);
        parts.run(&mut tally, "messages and records", |tally| messages::run(tally, &mut rngs[0], share(arguments.messages - elements)));
        parts.run(&mut tally, "elements", |tally| elements::run(tally, &mut rngs[1], share(elements)));
        parts.run(&mut tally, "event steps", |tally| steps::run(tally, &mut rngs[2], share(arguments.steps)));
        parts.run(&mut tally, "event steps of the uplink", |tally| {
            uplink_steps::run(tally, &mut uplink_cover, &mut rngs[3], share(arguments.steps));
        });
        parts.run(&mut tally, "yard set", |tally| yard_steps::run(tally, &mut rngs[4], share(arguments.steps / 2)));
    }
    parts.run(&mut tally, "elements, gone through", elements::fixed);
    parts.run(&mut tally, "fields of records", messages::fields);
    record::end();
    for (name, comparisons, seconds) in &parts.0 {
        println!("{name:24} {comparisons:>9} comparisons {seconds:6.1} s");
    }
    println!("in all {:.1} s", start.elapsed().as_secs_f64());
    more.finish(&mut tally);
    tally.failed += uplink_cover.finish();
    if !tally.finish() {
        std::process::exit(1);
    }
}
