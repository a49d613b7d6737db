//! A recorded day (document 02, §5 and §12): the fields of a capture, what replaying it answers to each of them, and what mending leaves.
//!
//! A field is a tag of one octet, a length of two, top octet first, and so many octets of contents. This program has the whole capture at
//! hand and looks where each field begins and ends; nothing here is read in pieces.

use crate::bits::{number_of, Refusal};
use crate::receiver::{Answer, Channel, Event, Receiver, DEFAULT_TIMERS};

/// An unknown tag, or a length that the tag cannot have.
pub const NO_EVENT: Refusal = 16;
/// What should be the one setup is none, or a setup comes again.
pub const NO_SETUP: Refusal = 17;
/// The input ends inside a field.
pub const TORN: Refusal = 18;

/// Octets before the contents.
pub const HEAD: usize = 3;
pub const TICK: usize = 4;
pub const SETUP_TAG: u8 = 0;

/// A field, and the answer to it.
#[derive(Clone, Debug, PartialEq)]
pub struct Line {
    /// Where its tag stands, and where the next field begins, or the input ends.
    pub start: usize,
    pub end: usize,
    pub tag: u8,
    pub refusal: Refusal,
    /// Expired halves among them.
    pub dropped: u64,
    /// Key and number told of each entry.
    pub told: Vec<(u64, u64)>,
}

/// A number of any octets, top octet first.
pub fn number(octets: &[u8]) -> u32 {
    octets.iter().fold(0, |number, octet| number << 8 | u32::from(*octet))
}

/// The contents of the field that begins there, and where the next one begins. None where the capture ends inside it.
fn contents(capture: &[u8], start: usize) -> Option<(&[u8], usize)> {
    let length = number(capture.get(start + 1..start + HEAD)?) as usize;
    let end = start + HEAD + length;
    Some((capture.get(start + HEAD..end)?, end))
}

/// Tick, T3206, T3208 and the keys, which may stand in any order. T3210 is not recorded, and no group keys are held.
fn setup(contents: &[u8]) -> Option<Receiver> {
    if contents.len() < 8 || contents.len() % 4 != 0 {
        return None;
    }
    let mut keys: Vec<u32> = contents[8..].chunks(4).map(number).collect();
    keys.sort_unstable();
    let mut timers = DEFAULT_TIMERS;
    timers[Channel::Nch as usize] = number(&contents[4..6]);
    timers[Channel::Facch as usize] = number(&contents[6..8]);
    Receiver::setup(&keys, &vec![0; keys.len()], number(&contents[..4]), timers).ok()
}

/// The event that a field's tag and contents say, and its tick. Only messages have a length of their own.
pub fn event(tag: u8, contents: &[u8]) -> Option<(u32, Event)> {
    let (tick, rest) = contents.split_at_checked(TICK)?;
    let event = match (tag, rest.len()) {
        (1, _) => Event::Nch(rest.to_vec()),
        (2, _) => Event::Facch(rest.to_vec()),
        (3, 4) => Event::Joined(number(rest)),
        (4, 0) => Event::Reselected,
        (5, 0) => Event::HandedOver,
        (6, 0) => Event::Reconfigured,
        (7, 0) => Event::Tick,
        _ => return None,
    };
    Some((number(tick), event))
}

/// What a whole field is answered with. A receiver is there once a setup was accepted.
fn answer(receiver: &mut Option<Receiver>, tag: u8, contents: &[u8]) -> Result<Answer, Refusal> {
    match receiver {
        None if tag != SETUP_TAG => Err(NO_SETUP),
        None => {
            *receiver = setup(contents);
            if receiver.is_some() {
                Ok(Answer::default())
            } else {
                Err(NO_SETUP)
            }
        }
        Some(_) if tag == SETUP_TAG => Err(NO_SETUP),
        Some(receiver) => {
            let (tick, event) = event(tag, contents).ok_or(NO_EVENT)?;
            receiver.event(tick, &event).map_err(number_of)
        }
    }
}

/// The fields up to the capture's end, or to the one that ends the run.
pub fn replay(capture: &[u8]) -> Vec<Line> {
    let (mut lines, mut start, mut receiver) = (Vec::new(), 0, None);
    while let Some(&tag) = capture.get(start) {
        let Some((contents, end)) = contents(capture, start) else {
            lines.push(Line { start, end: capture.len(), tag, refusal: TORN, dropped: 0, told: Vec::new() });
            break;
        };
        let (refusal, answer) = match answer(&mut receiver, tag, contents) {
            Ok(answer) => (0, answer),
            Err(refusal) => (refusal, Answer::default()),
        };
        let told = answer.entries.iter().map(|told| (told.key, told.number)).collect();
        lines.push(Line { start, end, tag, refusal, dropped: answer.expired + answer.dropped, told });
        if receiver.is_none() {
            break;
        }
        start = end;
    }
    lines
}

/// What the replay program prints. Field numbers begin with 1.
pub fn text(lines: &[Line]) -> String {
    let mut text = String::from("field tag refusal dropped\n");
    for (number, line) in (1u64..).zip(lines) {
        text += &format!("{number} {} {} {}\n", line.tag, line.refusal, line.dropped);
        for (key, told) in &line.told {
            text += &format!("  {key} {told}\n");
        }
    }
    text
}

/// What the mending program copies, and what it lists: number, offset and refusal of each field that is left out.
pub fn mend(capture: &[u8]) -> (Vec<u8>, String) {
    let (mut copy, mut list) = (Vec::new(), String::new());
    for (number, line) in (1u64..).zip(&replay(capture)) {
        match line.refusal {
            0 => copy.extend(&capture[line.start..line.end]),
            refusal => list += &format!("{number} {} {refusal}\n", line.start),
        }
    }
    (copy, list)
}
