//! What the random event steps met from a setup on, and the random FACCH messages and records, and how often each must be met, or the
//! comparison shows too little.

use crate::bits::Refusal;
use crate::receiver::Channel::{self, Facch, Nch, Pch};
use std::collections::BTreeMap;

/// Why a half went, other than by being joined.
#[derive(Clone, Copy, Debug, PartialEq, Eq, PartialOrd, Ord)]
pub enum Cause {
    RanOut,
    Joined,
    Reselected,
    HandedOver,
    Reconfigured,
    OtherNln,
    LeftIdle,
    /// A PCH entry under another key that is subscribed, or that is not.
    OtherKey,
    StrangeKey,
}

/// What is wrong with the sets of group keys of a setup.
#[derive(Clone, Copy, Debug, PartialEq, Eq, PartialOrd, Ord)]
pub enum Sets {
    Fewer,
    More,
    /// Key number 0 in one of them, or one above 15.
    Zero,
    Above,
}

#[derive(Clone, Copy, Debug, PartialEq, Eq, PartialOrd, Ord)]
pub enum Met {
    /// An entry on this channel was told this number.
    Told(Channel, u64),
    /// A half of this channel went.
    Lost(Cause, Channel),
    /// A join in which the second half had come first. On the FACCH it is not stored, so there is none.
    SecondFirst(Channel),
    /// An entry was told 7 because its reference differs from that of the opposite half.
    Disagreed(Channel),
    /// An NCH half outlived the first NLN of a new cell, which is unlike the last of the cell before.
    Spared,
    /// A lookup among rising keys found the key, or did not, after so many looks.
    Found(bool, u64),
    /// Beside this number told, 2 or 3, an entry of this channel has no key, no count or follow.
    Followed(Channel, u64, u64),
    /// The group key of a complete ciphered call, with a number of 8 or above, is held, or is not.
    HighKey(bool),
    /// A call can be followed with a count that its own message, of this channel, changed.
    Changed(Channel),
    /// A count of this channel came with no call of ours.
    Strange(Channel),
    /// A FACCH count was not taken, since the bit is not known, while a count was kept, or none.
    NotTaken(bool),
    /// A FACCH count was taken: as it was sent, or raised.
    FacchTaken(bool),
    /// Bit 22 was this, 2 where it was not known, and is that now, while a count was kept, or none.
    Bit(u64, u64, bool),
    /// A count of 3 was raised to 0: that of a FACCH message, or the kept one.
    Wrapped(bool),
    /// A kept count, or a bit that was known, was forgotten.
    CountForgotten(Cause),
    BitForgotten(Cause),
    /// A message of this channel with a count was refused for the clock.
    LateCount(Channel),
    /// A setup was refused for its sets of group keys alone.
    SetsRefused(Sets),
    /// A bit above 1 was refused with this number, from a setup on or not.
    BitRefused(Refusal),
    /// An event of this channel was refused with this number, from a setup on or not.
    Refused(Channel, Refusal),
    /// A paging message was accepted: with an identity of this length; with a priority, or without; with this Paging Cause, 2 where there is none.
    Paged(u64),
    PagedWithPriority(bool),
    PagedFor(u64),
    /// It left halves of this channel where they were; halves ran out at it; its count was taken, or not.
    PageBeside(Channel),
    PageExpires,
    PageCounted(bool),
    /// Somebody was paged, and an event was then accepted that pages nobody, or somebody again, or it was refused.
    PageGone,
    PageAgain,
    PageKept,
    /// Somebody was paged, and a setup was then accepted, or refused.
    PageAtSetup(bool),
    /// A paging message was refused for the clock.
    LatePage,
    /// A FACCH message was read: one that pages, with an identity of this length; a call with a Paging Cause of this value.
    PageRead(u64),
    CallCause(u64),
    /// A FACCH message was refused for an identity of this length, 13 standing for all above 12.
    Identity(u64),
    /// The octets of an identity are not all there, or its length octet is not.
    IdentityMissing(bool),
    /// The FACCH writer refused with this number.
    WriteRefused(Refusal),
    /// It wrote so many octets; it wrote a page with an identity of this length.
    Written(u64),
    PageWritten(u64),
    /// It wrote nothing for this release, 6 or 7, since the buffer was used up; it wrote an L for it, in the last bit.
    UsedUp(u64),
    LastBit(u64),
    /// It refused a page, or a call, for nothing but what stands in the other one's places.
    OtherBranch(bool),
}

use Cause::*;
use Met::*;

/// How often each is met at least in 10,000 event steps: about a third to a half of what the usual seed gives. 7 on the FACCH is
/// always a disagreement; 8 is told there alone.
const STEPS_LEAST: &[(Met, u64)] = &[
    (Told(Nch, 0), 270),
    (Told(Nch, 1), 80),
    (Told(Nch, 2), 25),
    (Told(Nch, 3), 50),
    (Told(Nch, 4), 250),
    (Told(Nch, 5), 20),
    (Told(Nch, 6), 560),
    (Told(Nch, 7), 360),
    (Told(Facch, 0), 140),
    (Told(Facch, 1), 85),
    (Told(Facch, 2), 65),
    (Told(Facch, 3), 35),
    (Told(Facch, 4), 200),
    (Told(Facch, 5), 18),
    (Told(Facch, 6), 290),
    (Told(Facch, 7), 12),
    (Told(Facch, 8), 85),
    (Told(Pch, 0), 110),
    (Told(Pch, 1), 70),
    (Told(Pch, 2), 100),
    (Told(Pch, 3), 40),
    (Told(Pch, 4), 240),
    (Told(Pch, 5), 16),
    (Told(Pch, 6), 120),
    (Told(Pch, 7), 65),
    (Lost(RanOut, Nch), 150),
    (Lost(RanOut, Facch), 120),
    (Lost(Joined, Nch), 12),
    (Lost(Joined, Facch), 10),
    (Lost(Reselected, Nch), 11),
    (Lost(HandedOver, Facch), 7),
    (Lost(Reconfigured, Facch), 6),
    (Lost(OtherNln, Nch), 35),
    (Lost(RanOut, Pch), 130),
    (Lost(Joined, Pch), 10),
    (Lost(Reselected, Pch), 6),
    (Lost(LeftIdle, Pch), 7),
    (Lost(OtherKey, Pch), 20),
    (Lost(StrangeKey, Pch), 6),
    (SecondFirst(Nch), 25),
    (SecondFirst(Pch), 20),
    (Disagreed(Nch), 10),
    (Disagreed(Facch), 12),
    (Disagreed(Pch), 7),
    (Spared, 15),
    (Found(true, 1), 20),
    (Found(true, 2), 20),
    (Found(true, 3), 20),
    (Found(true, 4), 20),
    (Found(true, 5), 20),
    (Found(true, 6), 10),
    (Found(false, 0), 10),
    (Found(false, 1), 10),
    (Found(false, 2), 10),
    (Found(false, 3), 10),
    (Found(false, 4), 10),
    (Found(false, 5), 10),
    (Found(false, 6), 10),
    (Followed(Nch, 2, 1), 9),
    (Followed(Nch, 2, 2), 1),
    (Followed(Nch, 2, 3), 10),
    (Followed(Nch, 3, 1), 19),
    (Followed(Nch, 3, 2), 3),
    (Followed(Nch, 3, 3), 18),
    (Followed(Facch, 2, 1), 35),
    (Followed(Facch, 2, 2), 11),
    (Followed(Facch, 2, 3), 25),
    (Followed(Facch, 3, 1), 10),
    (Followed(Facch, 3, 2), 3),
    (Followed(Facch, 3, 3), 9),
    (Followed(Pch, 2, 1), 35),
    (Followed(Pch, 2, 2), 7),
    (Followed(Pch, 2, 3), 35),
    (Followed(Pch, 3, 1), 15),
    (Followed(Pch, 3, 2), 2),
    (Followed(Pch, 3, 3), 16),
    (HighKey(true), 3),
    (HighKey(false), 6),
    (Changed(Nch), 13),
    (Changed(Facch), 9),
    (Changed(Pch), 25),
    (Strange(Nch), 65),
    (Strange(Facch), 10),
    (Strange(Pch), 45),
    (NotTaken(true), 55),
    (NotTaken(false), 40),
    (FacchTaken(false), 55),
    (FacchTaken(true), 20),
    (Bit(0, 0, true), 18),
    (Bit(0, 1, true), 18),
    (Bit(1, 0, true), 20),
    (Bit(1, 0, false), 7),
    (Bit(1, 1, true), 16),
    (Bit(2, 0, true), 30),
    (Bit(2, 1, true), 30),
    (Wrapped(true), 5),
    (Wrapped(false), 5),
    (CountForgotten(Reselected), 70),
    (CountForgotten(HandedOver), 40),
    (BitForgotten(Reselected), 45),
    (BitForgotten(HandedOver), 25),
    (LateCount(Nch), 20),
    (LateCount(Facch), 14),
    (LateCount(Pch), 25),
    (SetsRefused(Sets::Fewer), 11),
    (SetsRefused(Sets::More), 11),
    (SetsRefused(Sets::Zero), 6),
    (SetsRefused(Sets::Above), 15),
    (BitRefused(9), 3),
    (BitRefused(12), 30),
    (Refused(Nch, 2), 100),
    (Refused(Nch, 14), 45),
    (Refused(Nch, 15), 90),
    (Refused(Facch, 2), 90),
    (Refused(Facch, 8), 60),
    (Refused(Facch, 14), 40),
    (Refused(Facch, 15), 8),
    (Refused(Pch, 3), 30),
    (Refused(Pch, 4), 30),
    (Refused(Pch, 5), 14),
    (Refused(Pch, 9), 75),
    (Refused(Pch, 12), 60),
    (Refused(Pch, 13), 25),
    (Paged(1), 7),
    (Paged(2), 7),
    (Paged(3), 6),
    (Paged(4), 6),
    (Paged(5), 40),
    (Paged(6), 6),
    (Paged(7), 7),
    (Paged(8), 35),
    (Paged(9), 20),
    (PagedWithPriority(true), 70),
    (PagedWithPriority(false), 70),
    (PagedFor(0), 10),
    (PagedFor(1), 10),
    (PagedFor(2), 120),
    (PageBeside(Nch), 8),
    (PageBeside(Facch), 6),
    (PageBeside(Pch), 8),
    (PageExpires, 10),
    (PageCounted(true), 16),
    (PageCounted(false), 20),
    (PageGone, 120),
    (PageAgain, 6),
    (PageKept, 50),
    (PageAtSetup(true), 2),
    (PageAtSetup(false), 9),
    (LatePage, 9),
];

/// The same of the random messages and records of the FACCH, in 10,000 messages and records of both channels.
const MESSAGES_LEAST: &[(Met, u64)] = &[
    (PageRead(1), 4),
    (PageRead(2), 4),
    (PageRead(3), 4),
    (PageRead(4), 4),
    (PageRead(5), 40),
    (PageRead(6), 4),
    (PageRead(7), 4),
    (PageRead(8), 40),
    (PageRead(9), 25),
    (CallCause(0), 35),
    (CallCause(1), 35),
    (Identity(0), 20),
    (Identity(10), 8),
    (Identity(11), 8),
    (Identity(12), 8),
    (Identity(13), 45),
    (IdentityMissing(true), 12),
    (IdentityMissing(false), 2),
    (WriteRefused(3), 18),
    (WriteRefused(4), 17),
    (WriteRefused(5), 17),
    (WriteRefused(8), 37),
    (WriteRefused(11), 50),
    (WriteRefused(12), 320),
    (WriteRefused(13), 12),
    (Written(4), 1),
    (Written(5), 4),
    (Written(6), 48),
    (Written(7), 90),
    (Written(8), 25),
    (Written(9), 50),
    (Written(10), 60),
    (Written(11), 50),
    (Written(12), 60),
    (Written(13), 30),
    (Written(14), 22),
    (Written(15), 30),
    (Written(16), 13),
    (Written(17), 20),
    (Written(18), 19),
    (Written(19), 8),
    (Written(20), 5),
    (Written(21), 5),
    (Written(22), 8),
    (Written(23), 280),
    (PageWritten(1), 8),
    (PageWritten(2), 8),
    (PageWritten(3), 8),
    (PageWritten(4), 8),
    (PageWritten(5), 65),
    (PageWritten(6), 8),
    (PageWritten(7), 8),
    (PageWritten(8), 65),
    (PageWritten(9), 39),
    (UsedUp(6), 10),
    (UsedUp(7), 55),
    (LastBit(6), 45),
    (LastBit(7), 48),
    (OtherBranch(true), 20),
    (OtherBranch(false), 54),
];

const STEPS: u64 = 10_000;

/// Counts only while it is on: while the random event steps run, or the random messages.
pub struct Cover {
    what: &'static str,
    least: &'static [(Met, u64)],
    pub on: bool,
    pub steps: u64,
    counts: BTreeMap<Met, u64>,
}

impl Cover {
    pub fn of_steps() -> Cover {
        Cover { what: "random event steps", least: STEPS_LEAST, on: false, steps: 0, counts: BTreeMap::new() }
    }

    pub fn of_messages() -> Cover {
        Cover { what: "random messages and records", least: MESSAGES_LEAST, on: false, steps: 0, counts: BTreeMap::new() }
    }

    pub fn count(&mut self, met: Met, times: u64) {
        if self.on {
            *self.counts.entry(met).or_default() += times;
        }
    }

    /// Shows what was met how often; gives how many were met too seldom.
    pub fn finish(&self) -> u64 {
        println!("met in {} {}, and how often each must be at least:", self.steps, self.what);
        let mut seldom = 0;
        for (met, least) in self.least {
            let (count, least) = (self.counts.get(met).copied().unwrap_or(0), least * self.steps / STEPS);
            println!("  {:28} {count:>8} {least:>8}{}", format!("{met:?}"), if count < least { "  met too seldom" } else { "" });
            seldom += u64::from(count < least);
        }
        seldom
    }
}
