//! Hand-written scenes: each sentence of document 01's "Setup, clock and store" and "What each notified call is told", and of document 02's §8,
//! §3, §4, §1, §11, §2 and §7, with the outcome that it asks for. The outcome is asked of both sides.

use crate::bits::missing;
use crate::draft::{CallDraft, FacchDraft, Hops, NchDraft, PageDraft, PchDraft, SevenDraft, SixDraft, Subject};
use crate::ffi::{self, archive};
use crate::listed::octets_of;
use crate::messages::compare_facch_write;
use crate::pair::{feed, Pair, Said};
use crate::receiver::{Channel, Event, Timers, DEFAULT_TIMERS};
use crate::state::*;
use crate::steps::lookup;
use crate::tally::{hex, Tally};

/// Reference 4711 as VBS and as VGCS, another call, the last key, and one that nobody subscribed.
const VBS: u32 = 9_422;
const VGCS: u32 = 9_423;
const OTHER: u32 = 24_691_357;
const LAST: u32 = 199_999_999;
const STRANGER: u32 = 77_777;
const SUBSCRIBED: [u32; 4] = [VBS, VGCS, OTHER, LAST];

/// Parts of the header that scenes ask for.
const CHANNEL: u32 = 6;
const FREQUENCIES: u32 = 7;
const VSTK_RAND: u32 = 8;
const FULL: u32 = 9;
const SHORT_LIST: u32 = 14;
const SEGMENTED: u32 = 15;
const SEGMENT_ID: u32 = 16;
const RAND_GIVEN: u32 = 17;
const EMERGENCY: u32 = 18;
const COUNTED: u32 = 19;
const B22_COUNT: u32 = 20;
const UPLINK_GIVEN: u32 = 21;
const UPLINK_ACCESS: u32 = 22;
const AMR: u32 = 23;
const FR_AMR_GIVEN: u32 = 24;
const HR_AMR_GIVEN: u32 = 25;
const SMS: u32 = 26;
const SMS_CONFIDENTIALITY: u32 = 27;
const SMS_PRIVACY: u32 = 28;
const CELL_GLOBAL_COUNT: u32 = 32;
const HR_AMR_CONFIG: u32 = 34;

const FOLLOW: u32 = 35;
const KEPT: u32 = 36;

/// Key numbers 1 to 15.
const EVERY_KEY: u32 = 0xFFFE;

const HERE: u64 = 0x0A_4123;
const THERE: u64 = 0x5B_8456;
const HOPPING: u64 = 0x8B_1FFF;

struct Scene<'a> {
    tally: &'a mut Tally,
    name: &'static str,
    pair: Pair,
    said: Option<Said>,
    line: u32,
}

impl<'a> Scene<'a> {
    /// A receiver with the four keys at tick 1,000; T3206 is 5,000 ms, T3208 4,000 ms and T3210 3,000 ms.
    fn new(tally: &'a mut Tally, name: &'static str) -> Scene<'a> {
        Scene::with(tally, name, &SUBSCRIBED, 1_000, [5_000, 4_000, 3_000])
    }

    fn with(tally: &'a mut Tally, name: &'static str, keys: &[u32], tick: u32, timers: Timers) -> Scene<'a> {
        let mut pair = Pair::of(&[0x5A; STATE_LENGTH], 0);
        let refusal = pair.setup(tally, keys, &vec![EVERY_KEY; keys.len()], tick, timers);
        tally.same("scene: setup", || name.to_string(), &refusal, &0);
        Scene { tally, name, pair, said: None, line: 0 }
    }

    /// From here on both sides have the state with these octets put in it, as no setup and no event leaves it.
    fn with_octets(&mut self, octets: &[(usize, u8)]) -> &mut Self {
        let mut state = self.pair.mirror.octets.clone();
        for &(place, octet) in octets {
            state[place] = octet;
        }
        self.pair = Pair::of(&state, 0);
        self
    }

    fn event(&mut self, tick: u32, event: Event) -> &mut Self {
        self.line += 1;
        self.said = Some(self.pair.event(self.tally, tick, &event));
        self
    }

    fn nch(&mut self, tick: u32, draft: NchDraft) -> &mut Self {
        self.event(tick, Event::Nch(draft.octets()))
    }

    fn facch(&mut self, tick: u32, draft: FacchDraft) -> &mut Self {
        self.event(tick, Event::Facch(draft.octets()))
    }

    fn pch(&mut self, tick: u32, draft: PchDraft) -> &mut Self {
        self.event(tick, Event::Pch(draft.numbers()))
    }

    /// What both sides must have said: expired, dropped, and the numbers told.
    fn says(&mut self, expired: u64, dropped: u64, told: &[u64]) -> &mut Self {
        let input = || format!("{}, event {}", self.name, self.line);
        let said = self.said.as_ref().unwrap();
        for (side, answer) in [("archive", &said.archive), ("second", &said.second)] {
            let numbers = answer.as_ref().map(|a| (a.expired, a.dropped, a.entries.iter().map(|entry| entry.1).collect::<Vec<u64>>()));
            let expected = (expired, dropped, told.to_vec());
            self.tally.check(numbers == Ok(expected.clone()), || {
                format!("  scene {}: {side} {numbers:?}, the document asks for {expected:?}", input())
            });
        }
        self
    }

    fn told(&mut self, told: &[u64]) -> &mut Self {
        self.says(0, 0, told)
    }

    /// Who both sides must say is paged, all nine numbers.
    fn pages(&mut self, expected: &[u64; PAGED_NUMBERS]) -> &mut Self {
        let both = (self.pair.archive_paged(), self.pair.mirror.paged().to_vec());
        let input = format!("{}, event {}", self.name, self.line);
        self.tally.check(both == (expected.to_vec(), expected.to_vec()), || {
            format!("  scene {input}: (archive, second) page {both:?}, the document asks for {expected:?}")
        });
        self
    }

    fn refuses(&mut self, refusal: u32) -> &mut Self {
        let said = self.said.as_ref().unwrap();
        let both = (said.archive.as_ref().err().copied(), said.second.as_ref().err().copied());
        let input = format!("{}, event {}", self.name, self.line);
        self.tally.check(both == (Some(refusal), Some(refusal)), || {
            format!("  scene {input}: (archive, second) refuse {both:?}, the document asks for {refusal}")
        });
        self
    }

    /// An octet of the state on both sides.
    fn has_octet(&mut self, place: usize, octet: u8) -> &mut Self {
        let both = (self.pair.archive_octet(place), self.pair.mirror.octets[place]);
        let input = format!("{}, event {}, octet {place}", self.name, self.line);
        self.tally.check(both == (octet, octet), || format!("  scene {input}: (archive, second) {both:?}, docs/STATE.md asks for {octet}"));
        self
    }

    /// Parts of entries: (entry, part, value).
    fn has(&mut self, parts: &[(u32, u32, u64)]) -> &mut Self {
        for &(entry, part, value) in parts {
            let both = (self.pair.value(entry, part), self.pair.mirror.read(entry, part));
            let input = format!("{}, event {}, entry {entry}, part {part}", self.name, self.line);
            self.tally
                .check(both == (value, value), || format!("  scene {input}: (archive, second) {both:?}, the document asks for {value}"));
        }
        self
    }
}

fn call(key: u32) -> CallDraft {
    CallDraft::plain(key, 3)
}

fn clear(key: u32) -> CallDraft {
    CallDraft::plain(key, 0)
}

fn nch(calls: Vec<CallDraft>, random: &[(u64, Option<u64>)]) -> NchDraft {
    let six = (!random.is_empty()).then(|| SixDraft { count: None, reduced: Vec::new(), random: random.to_vec() });
    NchDraft { nln: None, calls, six, seven: None }
}

fn first(key: u32) -> NchDraft {
    nch(vec![call(key).on(HERE)], &[(0, None)])
}

fn second(key: u32, vstk_rand: u64) -> NchDraft {
    nch(vec![call(key)], &[(1, Some(vstk_rand))])
}

fn reduced(key: u32, random: &[(u64, Option<u64>)]) -> NchDraft {
    let six = SixDraft { count: None, reduced: vec![(u64::from(key / 2), u64::from(key % 2))], random: random.to_vec() };
    NchDraft { six: Some(six), ..NchDraft::default() }
}

fn with_nln(nln: u64, draft: NchDraft) -> NchDraft {
    NchDraft { nln: Some(nln), ..draft }
}

fn with_count(count: u64, mut draft: NchDraft) -> NchDraft {
    draft.six.get_or_insert_with(SixDraft::default).count = Some(count);
    draft
}

fn empty() -> NchDraft {
    NchDraft::default()
}

fn facch_first(key: u32) -> FacchDraft {
    FacchDraft::of(call(key).on(HERE))
}

fn facch_second(key: u32, vstk_rand: u64) -> FacchDraft {
    FacchDraft::of(call(key)).rand(vstk_rand)
}

fn pch_first(key: u32) -> PchDraft {
    PchDraft::of(call(key).on(HERE))
}

fn pch_second(key: u32, vstk_rand: u64) -> PchDraft {
    PchDraft::of(call(key)).rand(vstk_rand)
}

fn pch_reduced(key: u32, vstk_rand: u64) -> PchDraft {
    PchDraft::reduced(key).rand(vstk_rand)
}

pub fn run(tally: &mut Tally) {
    setups(tally);
    clock(tally);
    drops(tally);
    nln(tally);
    places(tally);
    without_store(tally);
    halves(tally);
    references(tally);
    joined_records(tally);
    records(tally);
    reading(tally);
    strange_octets(tally);
    pch(tally);
    pch_drops(tally);
    pch_refusals(tally);
    ran_out(tally);
    counts(tally);
    pages(tally);
    pages_ran_out(tally);
    facch_written(tally);
}

const NOBODY: [u64; PAGED_NUMBERS] = [0; PAGED_NUMBERS];

fn paging(identity: &[u8]) -> FacchDraft {
    FacchDraft::page(PageDraft::of(identity))
}

/// Document 02, §7: a paging message is an accepted event that touches no half, and who is paged is told until the next one.
fn pages(tally: &mut Tally) {
    let tmsi = [0xF4, 0x12, 0x34, 0x56, 0x78];
    let mut s = Scene::new(tally, "§7: who is paged, without a priority and a cause");
    s.pages(&NOBODY);
    s.facch(1_000, paging(&tmsi)).told(&[]).pages(&[1, 5, 0xF4, 0x1234_5678, 0, 0, 0, 0, 0]);
    s.has(&[(0, 37, 1), (3, 38, 5), (8, 39, 0xF4), (u32::MAX, 40, 0x1234_5678), (0, 45, 0), (0, 46, 0)]);
    for (place, octet) in [1, 5, 0xF4, 0, 0, 0, 0, 0, 0x78, 0x56, 0x34, 0x12, 0, 0, 0, 0].into_iter().enumerate() {
        s.has_octet(PAGED + place, octet);
    }
    s.event(1_001, Event::Tick).told(&[]).pages(&NOBODY).has_octet(PAGED + 8, 0);

    let mut s = Scene::new(tally, "§7: with a priority and a cause, and identities of every length");
    for length in 1..=9u8 {
        let identity: Vec<u8> = (1..=length).collect();
        let others = identity[1..].iter().fold(0, |number, octet| number << 8 | u64::from(*octet));
        for (priority, cause) in [(None, None), (Some(0), Some(0)), (Some(7), Some(1)), (None, Some(1)), (Some(5), None)] {
            let page = PageDraft { channel_first: u64::from(length % 4), priority, ..PageDraft::of(&identity) };
            let mut draft = FacchDraft::page(page);
            if let Some(cause) = cause {
                draft = draft.cause(cause);
            }
            let [there, caused] = [priority, cause].map(|value| u64::from(value.is_some()));
            let shown = [1, u64::from(length), 1, others, u64::from(length % 4), there, priority.unwrap_or(0), caused, cause.unwrap_or(0)];
            s.facch(1_000, draft).told(&[]).pages(&shown);
        }
    }

    let mut s = Scene::new(tally, "§7: paging touches no half, on any channel, and its tick counts");
    s.nch(1_000, first(VGCS)).told(&[4]);
    s.facch(1_000, facch_first(VGCS)).told(&[4]);
    s.pch(1_000, pch_first(VGCS)).told(&[4]);
    s.facch(3_999, paging(&tmsi)).told(&[]);
    s.facch(4_000, paging(&tmsi)).says(1, 0, &[]);
    s.event(3_999, Event::Tick).refuses(9);
    s.facch(4_999, paging(&tmsi)).told(&[]);
    s.facch(5_000, paging(&tmsi)).says(1, 0, &[]);
    s.nch(5_999, second(VGCS, 7)).told(&[3]).pages(&NOBODY);
    s.facch(6_000, facch_first(VGCS)).told(&[4]);
    s.facch(6_001, paging(&tmsi)).told(&[]);
    s.facch(9_999, facch_second(VGCS, 8)).told(&[3]).has(&[(0, VSTK_RAND, 8)]);

    let mut s = Scene::new(tally, "§7: every accepted event but paging ends it, a refused one leaves it");
    let shown = [1, 5, 0xF4, 0x1234_5678, 0, 0, 0, 0, 0];
    let mut tick = 1_000;
    for event in [
        Event::Nch(empty().octets()),
        Event::Nch(first(VGCS).octets()),
        Event::Facch(FacchDraft::of(clear(STRANGER)).octets()),
        Event::Facch(FacchDraft::of(clear(VGCS).on(HERE)).cause(1).octets()),
        Event::Pch(PchDraft::reduced(STRANGER).numbers()),
        Event::Joined(VGCS),
        Event::Reselected,
        Event::HandedOver,
        Event::Reconfigured,
        Event::LeftIdle,
        Event::Bit(1),
        Event::Tick,
    ] {
        tick += 1;
        s.facch(tick, paging(&tmsi)).told(&[]).pages(&shown);
        s.event(tick - 1, event.clone()).refuses(9).pages(&shown);
        s.event(tick, Event::Facch(octets_of("048000"))).refuses(8).pages(&shown);
        s.event(tick, Event::Facch(octets_of("0482fa"))).refuses(missing(2, 17)).pages(&shown);
        s.event(tick, Event::Nch(vec![0xFF; 20])).refuses(4).pages(&shown);
        s.event(tick, Event::Joined(u32::MAX)).refuses(4).pages(&shown);
        s.event(tick, Event::Bit(2)).refuses(12).pages(&shown);
        s.event(tick, event).pages(&NOBODY);
    }
    s.facch(tick, paging(&tmsi)).told(&[]).pages(&shown);
    s.facch(tick, paging(&[9])).told(&[]).pages(&[1, 1, 9, 0, 0, 0, 0, 0, 0]);
    let keys = [VGCS, VBS];
    let Scene { tally, mut pair, .. } = s;
    let refusal = pair.setup(tally, &keys, &[0, 0], 7, [5_000; 3]);
    tally.same("scene: a refused setup leaves who is paged", String::new, &(refusal, pair.archive_paged()[0]), &(10, 1));
    let refusal = pair.setup(tally, &[VBS], &[0], 7, [5_000; 3]);
    tally.same("scene: an accepted setup pages nobody", String::new, &(refusal, pair.archive_paged()), &(0, NOBODY.to_vec()));

    let mut s = Scene::new(tally, "§7: a paging message's count is taken, with B22 as on the FACCH");
    let one_piece = || nch(vec![call(VGCS).on(HERE)], &[(0, Some(5))]);
    s.facch(1_000, paging(&tmsi).count(2, 0)).told(&[]);
    s.nch(1_000, one_piece()).told(&[2]).has(&[(0, FOLLOW, 2), (0, KEPT, 0)]);
    s.event(1_000, Event::Bit(0)).told(&[]);
    s.facch(1_000, paging(&tmsi).count(2, 0)).told(&[]).has_octet(KEPT_COUNT, 2);
    s.nch(1_000, one_piece()).told(&[2]).has(&[(0, FOLLOW, 3), (0, KEPT, 2)]);
    s.facch(1_000, paging(&tmsi).count(3, 1)).told(&[]).has_octet(KEPT_COUNT, 0);
    s.event(999, Event::Facch(paging(&tmsi).count(1, 0).octets())).refuses(9);
    s.nch(1_000, one_piece()).told(&[2]).has(&[(0, FOLLOW, 3), (0, KEPT, 0)]);

    let mut s = Scene::new(tally, "§7: octets that no setup left are read as they stand, and flags as yes or no");
    let strange = [0, 200, 201, 202, 203, 204, 2, 255, 1, 2, 3, 4, 5, 6, 7, 8];
    let octets: Vec<(usize, u8)> = strange.into_iter().enumerate().map(|(i, octet)| (PAGED + i, octet)).collect();
    s.with_octets(&octets).pages(&[0, 200, 201, 0x0807_0605_0403_0201, 202, 1, 204, 1, 1]);
    s.event(999, Event::Tick).refuses(9).pages(&[0, 200, 201, 0x0807_0605_0403_0201, 202, 1, 204, 1, 1]);
    s.event(1_000, Event::Tick).told(&[]).pages(&NOBODY);
    for (place, _) in octets {
        s.has_octet(place, 0);
    }
}

/// Where the bits of a paging message ran out, and the lengths that no identity has. (Octets, refusal.)
fn pages_ran_out(tally: &mut Tally) {
    let mut s = Scene::new(tally, "§7: 8 right behind the length octet, and where the bits ran out");
    s.facch(1_000, facch_first(VGCS)).told(&[4]);
    for (octets, refusal) in [
        ("0480", missing(2, 9)),
        ("0484", missing(2, 9)),
        ("04ff", missing(2, 9)),
        ("048000", 8),
        ("048500", 8),
        ("04ffff", 8),
        ("048080", missing(2, 17)),
        ("0482fa091a2b3c", missing(2, 17)),
        ("04848889098a0a8b0b8c0c", missing(2, 17)),
        ("0480808d", missing(15, 32)),
        ("04808092", missing(14, 32)),
        ("0482fa091a2b3c27", missing(14, 64)),
        ("0482fa091a2b3c2d", missing(15, 64)),
    ] {
        s.event(1_001, Event::Facch(octets_of(octets))).refuses(refusal);
        s.event(999, Event::Facch(octets_of(octets))).refuses(9);
    }
    s.facch(4_999, facch_second(VGCS, 7)).told(&[3]);
}

/// The writer of the whole message: what an absent release comes to, and the order of the refusals.
fn facch_written(tally: &mut Tally) {
    let mut writes = |what: &str, numbers: &[u64], size: usize, expected: Result<&str, u32>| {
        let (refusal, octets) = compare_facch_write(tally, numbers, size);
        let archive = if refusal == 0 { Ok(hex(&octets)) } else { Err(refusal) };
        tally.same("scene: FACCH written (archive, document)", || what.to_string(), &archive, &expected.map(str::to_string));
    };
    let tmsi = [0xF4, 0x12, 0x34, 0x56, 0x78];
    let page = paging(&tmsi).numbers();
    writes("the first octet is zero, L and L, and padding", &page, 8, Ok("0082fa091a2b3c0b"));
    writes("the same in 9 octets", &page, 9, Ok("0082fa091a2b3c0b2b"));
    writes("the same in 7 octets", &page, 7, Err(11));
    let nine: Vec<u8> = (0x11..0x1A).collect();
    let subject = Subject::Page(PageDraft { priority: Some(7), ..PageDraft::of(&nine) });
    let priority = FacchDraft { subject, ..paging(&nine) }.numbers();
    writes("L in the last bit, and nothing for Release 7", &priority, 12, Ok("00848889098a0a8b0b8c0c9f"));
    writes("the same with a bit left", &priority, 13, Ok("00848889098a0a8b0b8c0c9f2b"));
    writes("the same with a bit too few", &priority, 11, Err(11));
    let hopping = CallDraft { description: Some((0x1000, Hops::Allocation(1, 0xAA))), ..CallDraft::plain(2, 0) };
    let hopping = FacchDraft::of(CallDraft { priority: 0, ..hopping });
    writes("nothing for both releases", &hopping.numbers(), 11, Ok("00000000100400400201aa"));
    writes("L for both", &hopping.numbers(), 12, Ok("00000000100400400201aa2b"));
    writes("Release 7 where only nothing fits", &hopping.clone().cause(0).numbers(), 11, Err(11));

    let with = |base: &[u64], places: &[(usize, u64)]| {
        let mut numbers = base.to_vec();
        places.iter().for_each(|&(place, number)| numbers[place] = number);
        numbers
    };
    let call = FacchDraft::of(call(VGCS).on(HERE)).numbers();
    for (what, numbers, size, refusal) in [
        ("13 before all else", vec![u64::MAX; 29], 0, 13),
        ("12 before 8 and 11", with(&page, &[(13, 10), (16, 4)]), 0, 12),
        ("8 before 11", with(&page, &[(13, 10)]), 0, 8),
        ("8 for length 0", with(&page, &[(13, 0), (14, 0), (15, 0)]), 23, 8),
        ("12 for length 0 with a first octet", with(&page, &[(13, 0), (15, 0)]), 23, 12),
        ("12 for length 0 with others", with(&page, &[(13, 0), (14, 0), (15, 1)]), 23, 12),
        ("8 for length 255", with(&page, &[(13, 255), (15, u64::MAX)]), 23, 8),
        ("12 for length 256", with(&page, &[(13, 256)]), 23, 12),
        ("12 for more octets than the length says", with(&page, &[(13, 4)]), 23, 12),
        ("12 for a call's number beside paging", with(&page, &[(12, 1)]), 23, 12),
        ("12 for an identity beside a call", with(&call, &[(13, 1)]), 23, 12),
        ("12 for a cause without its flag", with(&page, &[(25, 1), (29, 1)]), 23, 12),
        ("12 for B22 without a count", with(&call, &[(19, 1), (22, 1)]), 23, 12),
        ("4 before 5 and 11", with(&call, &[(2, 100_000_000), (8, 0x1000)]), 0, 4),
        ("5 before 11", with(&call, &[(8, 0x1000)]), 24, 5),
        ("3 before 5", with(&call, &[(9, 1), (11, 9)]), 24, 3),
        ("11 for 24 octets", call.clone(), 24, 11),
        ("11 for one octet", call.clone(), 1, 11),
    ] {
        writes(what, &numbers, size, Err(refusal));
    }
    writes("the bits used are not looked at", &with(&page, &[(0, u64::MAX)]), 8, Ok("0082fa091a2b3c0b"));
}

/// Document 02, §2: the kept count, the bit, and whether a call can be followed.
fn counts(tally: &mut Tally) {
    /// Says of a call in one piece on the NCH whether it can be followed.
    fn follows(s: &mut Scene, tick: u32, follow: u64, kept: u64) {
        s.nch(tick, nch(vec![call(VGCS).on(HERE)], &[(0, Some(5))])).told(&[2]).has(&[(0, FOLLOW, follow), (0, KEPT, kept)]);
    }
    let facch_count = |count, b22| FacchDraft::of(clear(STRANGER)).count(count, b22);

    for (sets, refusal) in [
        (vec![0, 2, 1 << 15, EVERY_KEY], 0),
        (vec![0, 2, 1, 4], 10),
        (vec![0, 0, 0, 1 << 16], 10),
        (vec![1 << 31, 0, 0, 0], 10),
        (vec![2, 2, 2], 10),
        (vec![2, 2, 2, 2, 2], 10),
        (vec![], 10),
    ] {
        let mut pair = Pair::of(&[0x5A; STATE_LENGTH], 0);
        let archive = pair.setup(tally, &SUBSCRIBED, &sets, 7, [5_000; 3]);
        tally.same("scene: sets of a setup (archive, document)", || format!("{sets:?}"), &archive, &refusal);
    }

    let mut s = Scene::new(tally, "§2: no count is kept at the start; an NCH or PCH count is taken as it is, before the entries are told");
    follows(&mut s, 1_000, 2, 0);
    s.nch(1_000, with_count(2, nch(vec![call(VGCS).on(HERE)], &[(0, Some(5))]))).told(&[2]);
    s.has(&[(0, FOLLOW, 3), (0, KEPT, 2), (0, COUNTED, 1), (0, CELL_GLOBAL_COUNT, 2)]).has_octet(KEPT_COUNT, 2);
    follows(&mut s, 1_000, 3, 2);
    s.has(&[(0, COUNTED, 0), (0, CELL_GLOBAL_COUNT, 0)]);
    s.pch(1_001, PchDraft::reduced(STRANGER).count(3)).told(&[0]);
    follows(&mut s, 1_002, 3, 3);
    s.nch(1_003, with_count(0, empty())).told(&[]);
    follows(&mut s, 1_003, 3, 0);
    s.nch(1_004, with_count(1, nch(vec![clear(VGCS).on(HERE)], &[]))).told(&[1]).has(&[
        (0, FOLLOW, 0),
        (0, KEPT, 0),
        (0, CELL_GLOBAL_COUNT, 1),
    ]);

    let mut s = Scene::new(tally, "§2: a FACCH count goes with the bit, and is not taken while that is unknown");
    s.facch(1_000, facch_count(1, 0)).told(&[0]);
    follows(&mut s, 1_000, 2, 0);
    s.nch(1_000, with_count(3, empty())).told(&[]);
    s.facch(1_000, facch_count(1, 1)).told(&[0]);
    follows(&mut s, 1_000, 3, 3);
    s.event(1_001, Event::Bit(0)).told(&[]).has_octet(BIT_22, 0);
    follows(&mut s, 1_001, 3, 3);
    s.facch(1_001, facch_count(1, 0)).told(&[0]);
    follows(&mut s, 1_001, 3, 1);
    s.facch(1_001, facch_count(3, 1)).told(&[0]);
    follows(&mut s, 1_001, 3, 0);
    s.event(1_002, Event::Bit(1)).told(&[]);
    s.facch(1_002, facch_count(2, 1)).told(&[0]);
    follows(&mut s, 1_002, 3, 2);
    s.facch(1_002, facch_count(1, 0)).told(&[0]);
    follows(&mut s, 1_002, 3, 1);
    s.event(1_003, Event::Bit(0)).told(&[]);
    follows(&mut s, 1_003, 3, 2);
    s.facch(1_003, facch_first(VGCS).rand(5).count(1, 1)).told(&[2]);
    s.has(&[(0, FOLLOW, 3), (0, KEPT, 2), (0, CELL_GLOBAL_COUNT, 1), (0, B22_COUNT, 1)]);

    let mut s = Scene::new(tally, "§2: each change from 1 to 0 raises the kept count, modulo 4; unknown to 0 is none");
    s.nch(1_000, with_count(2, empty())).told(&[]);
    for (bit, kept) in [(0, 2), (0, 2), (1, 2), (1, 2), (0, 3), (1, 3), (0, 0), (1, 0), (0, 1)] {
        s.event(1_001, Event::Bit(bit)).told(&[]);
        follows(&mut s, 1_001, 3, kept);
    }
    s.event(1_002, Event::Bit(2)).refuses(12);
    s.event(1_000, Event::Bit(2)).refuses(9);
    s.event(1_002, Event::Bit(u32::MAX)).refuses(12);
    let mut s = Scene::new(tally, "§2: where no count is kept there is none to raise");
    s.event(1_000, Event::Bit(1)).told(&[]);
    s.event(1_000, Event::Bit(0)).told(&[]);
    follows(&mut s, 1_000, 2, 0);

    for event in [Event::Reselected, Event::HandedOver] {
        let mut s = Scene::new(tally, "§2: reselection and handover forget the count and the bit");
        s.event(1_000, Event::Bit(1)).told(&[]);
        s.nch(1_000, with_count(2, empty())).told(&[]);
        s.event(1_001, event).told(&[]).has_octet(KEPT_COUNT, 4).has_octet(BIT_22, 2);
        follows(&mut s, 1_002, 2, 0);
        s.facch(1_002, facch_count(1, 0)).told(&[0]);
        follows(&mut s, 1_002, 2, 0);
        s.nch(1_003, with_count(2, empty())).told(&[]);
        s.event(1_003, Event::Bit(0)).told(&[]);
        follows(&mut s, 1_003, 3, 2);
    }
    let mut s = Scene::new(tally, "§2: nothing else forgets them, and a refused message's count is not taken");
    s.event(1_000, Event::Bit(1)).told(&[]);
    s.nch(1_000, with_count(2, with_nln(1, empty()))).told(&[]);
    for event in [Event::Reconfigured, Event::LeftIdle, Event::Joined(LAST), Event::Tick] {
        s.event(1_001, event).told(&[]);
    }
    s.nch(1_002, with_nln(2, empty())).told(&[]);
    s.nch(1_002, with_count(3, nch(vec![clear(OTHER)], &[(0, None)]))).refuses(6);
    s.event(1_001, Event::Reselected).refuses(9);
    follows(&mut s, 1_003, 3, 2);
    s.event(1_003, Event::Bit(0)).told(&[]);
    follows(&mut s, 1_003, 3, 3);

    let mut s = Scene::new(tally, "§2: a joined call, with the count as it stands after this message's own");
    s.nch(1_000, with_count(1, first(VGCS))).told(&[4]).has(&[(0, FOLLOW, 0), (0, KEPT, 0)]);
    s.nch(1_001, with_count(3, second(VGCS, 7))).told(&[3]).has(&[(0, FOLLOW, 3), (0, KEPT, 3), (0, CELL_GLOBAL_COUNT, 3)]);
    s.pch(1_002, pch_reduced(VGCS, 9)).told(&[4]);
    s.pch(1_003, pch_first(VGCS)).told(&[3]).has(&[(0, FOLLOW, 3), (0, KEPT, 3), (0, COUNTED, 0)]);

    let mut pair = Pair::of(&[0x5A; STATE_LENGTH], 0);
    pair.setup(tally, &SUBSCRIBED, &[EVERY_KEY, 1 << 3, EVERY_KEY & !(1 << 3), 0], 1_000, [5_000; 3]);
    let mut s = Scene { tally, name: "§2: no key goes before no count, and by the call's own subscription", pair, said: None, line: 0 };
    let one_piece = |key, cipher| nch(vec![CallDraft { cipher, ..call(key).on(HERE) }], &[(0, Some(5))]);
    for (count, kept) in [(None, None), (Some(2), Some(2))] {
        if let Some(count) = count {
            s.nch(1_001, with_count(count, empty())).told(&[]);
        }
        let known = if kept.is_some() { 3 } else { 2 };
        for (key, cipher, follow) in [
            (VBS, 1, known),
            (VBS, 15, known),
            (VGCS, 3, known),
            (VGCS, 2, 1),
            (VGCS, 4, 1),
            (OTHER, 3, 1),
            (OTHER, 4, known),
            (LAST, 3, 1),
        ] {
            s.nch(1_001, one_piece(key, cipher)).told(&[2]);
            s.has(&[(0, FOLLOW, follow), (0, KEPT, if follow == 3 { kept.unwrap_or(0) } else { 0 })]);
        }
    }

    for (count, bit, kept) in [(4, 1, None), (200, 1, None), (3, 1, Some(0)), (3, 2, Some(3)), (3, 255, Some(3)), (3, 0, Some(3))] {
        let mut s = Scene::new(tally, "§2: octets that no setup left: a count above 3, or a bit above 1, is not known");
        s.with_octets(&[(KEPT_COUNT, count), (BIT_22, bit)]);
        s.event(1_000, Event::Bit(0)).told(&[]);
        follows(&mut s, 1_000, if kept.is_some() { 3 } else { 2 }, kept.unwrap_or(0));
        s.with_octets(&[(KEPT_COUNT, count), (BIT_22, bit)]);
        s.event(1_001, Event::Reselected).told(&[]).has_octet(KEPT_COUNT, 4).has_octet(BIT_22, 2);
    }
}

/// Document 02, §1: the receiver says where the bits ran out. (Octets, number, bit.)
fn ran_out(tally: &mut Tally) {
    let facch: [(&str, u32, usize); 15] = [
        ("042b", 2, 9),
        ("0400000058", 2, 9),
        ("040000005804", 2, 46),
        ("040000005804b2bf", 2, 46),
        ("040000005804004002", 2, 72),
        ("04000000580400400202ff", 2, 80),
        ("04000000580400400380000000000000", 2, 72),
        ("040000005801", 14, 48),
        ("040000005800", 14, 48),
        ("040000005800ff", 14, 49),
        ("04000004d094b2bff8", 14, 72),
        ("040000005802", 15, 48),
        ("04000004d094b2bff87ffffffffd", 15, 112),
        ("04000004d094b2bff8d7", 15, 80),
        ("04000000580147", 15, 56),
    ];
    let mut s = Scene::new(tally, "§1: where the bits ran out, FACCH");
    s.facch(1_000, facch_first(VGCS)).told(&[4]);
    for (octets, number, bit) in facch {
        s.event(1_001, Event::Facch(octets_of(octets))).refuses(missing(number, bit));
        s.event(999, Event::Facch(octets_of(octets))).refuses(9);
    }
    // A length of 200 near the end is 3, and only 2, 14 and 15 have a bit number.
    s.event(1_001, Event::Facch(octets_of("040000005804004002c8"))).refuses(3);
    s.event(1_001, Event::Facch(octets_of("048000"))).refuses(8);
    s.facch(4_999, facch_second(VGCS, 7)).told(&[3]);

    // A fifth call's 36 bits; the flag behind a Segment Id in the last bit; 78 marks to the last bit and no closing 0.
    let nch: [(&str, u32, usize); 3] = [
        ("400000000100000020040000010010000006006b", 2, 154),
        ("0492492492492492492492492492492492492492", 14, 160),
        ("3fffffffffffffffffffffffffffffffffffffff", 15, 160),
    ];
    let mut s = Scene::new(tally, "§1: where the bits ran out, NCH");
    s.nch(1_000, with_nln(1, first(VGCS))).told(&[4]);
    for (octets, number, bit) in nch {
        s.event(1_001, Event::Nch(octets_of(octets))).refuses(missing(number, bit));
    }
    s.nch(5_999, second(VGCS, 7)).told(&[3]);
}

fn setups(tally: &mut Tally) {
    let fifty: Vec<u32> = (0..50).rev().map(|i| LAST - 3 * i).collect();
    let setups: &[(&str, Vec<u32>, Timers, u32)] = &[
        ("no key at all", vec![], [5_000, 5_000, 5_000], 0),
        ("fifty keys", fifty.clone(), [5_000, 5_000, 5_000], 0),
        ("fifty-one keys", [vec![5], fifty.clone()].concat(), [5_000, 5_000, 5_000], 10),
        ("65,541 keys", (0..65_541).collect(), [5_000, 5_000, 5_000], 10),
        ("the lowest and the highest key", vec![0, LAST], [5_000, 5_000, 5_000], 0),
        ("a key above the highest", vec![0, LAST + 1], [5_000, 5_000, 5_000], 10),
        ("the largest number as a key", vec![u32::MAX], [5_000, 5_000, 5_000], 10),
        ("both services of one reference", vec![VBS, VGCS], [5_000, 5_000, 5_000], 0),
        ("a repeat side by side", vec![VBS, VBS], [5_000, 5_000, 5_000], 10),
        ("a repeat from first to last", [fifty[..49].to_vec(), vec![fifty[0]]].concat(), [5_000, 5_000, 5_000], 10),
        ("a repeat in the last two", [fifty[..49].to_vec(), vec![fifty[48]]].concat(), [5_000, 5_000, 5_000], 10),
        ("two keys that fall", vec![VGCS, VBS], [5_000, 5_000, 5_000], 10),
        ("the last two exchanged", [fifty[..48].to_vec(), vec![fifty[49], fifty[48]]].concat(), [5_000, 5_000, 5_000], 10),
        ("the first two exchanged", [vec![fifty[1], fifty[0]], fifty[2..].to_vec()].concat(), [5_000, 5_000, 5_000], 10),
        ("shortest timers", vec![VBS], [1, 1, 1], 0),
        ("longest timers", vec![VBS], [60_000, 60_000, 60_000], 0),
        ("T3206 of 0", vec![VBS], [0, 5_000, 5_000], 10),
        ("T3208 of 0", vec![VBS], [5_000, 0, 5_000], 10),
        ("T3206 too long", vec![VBS], [60_001, 5_000, 5_000], 10),
        ("T3208 too long", vec![VBS], [5_000, 60_001, 5_000], 10),
        ("T3210 of 0", vec![VBS], [5_000, 5_000, 0], 10),
        ("T3210 too long", vec![VBS], [5_000, 5_000, 60_001], 10),
    ];
    for (name, keys, timers, expected) in setups {
        // Whatever the state held: a receiver with a half, or octets that no setup left.
        let mut used = Pair::of(&[0x5A; STATE_LENGTH], 0);
        used.setup(tally, &SUBSCRIBED, &[0, 2, 4, EVERY_KEY], 1_000, [5_000, 4_000, 3_000]);
        used.event(tally, 1_000, &Event::Nch(first(VGCS).octets()));
        for mut pair in [Pair::of(&[0xFF; STATE_LENGTH], 1), used] {
            let sets: Vec<u32> = (0..keys.len() as u32).map(|i| 2 << (i % 15)).collect();
            let refusal = pair.setup(tally, keys, &sets, 7, *timers);
            tally.same("scene: setup (archive, document)", || name.to_string(), &refusal, expected);
        }
    }
    // Six looks for fifty keys, none for none.
    for (keys, key, expected) in [
        (&fifty[..0], 5, (0, 50, 0)),
        (&fifty[..1], fifty[0], (0, 0, 1)),
        (&fifty[..1], fifty[0] - 1, (0, 50, 1)),
        (&fifty[..2], fifty[1], (0, 1, 1)),
        (&fifty[..2], fifty[0], (0, 0, 2)),
        (&fifty, fifty[25], (0, 25, 1)),
        (&fifty, fifty[12], (0, 12, 2)),
        (&fifty, fifty[38], (0, 38, 2)),
        (&fifty, fifty[0], (0, 0, 6)),
        (&fifty, fifty[49], (0, 49, 5)),
        (&fifty, u32::MAX, (0, 50, 5)),
        (&fifty, 0, (0, 50, 6)),
    ] {
        let archive = lookup(tally, keys, key);
        tally.same("scene: find (archive, by hand)", || format!("{key} in {} keys", keys.len()), &archive, &expected);
    }
    let fifty_one: Vec<u32> = (0..51).collect();
    let archive = lookup(tally, &fifty_one, 7);
    tally.same("scene: find in fifty-one keys (archive, by hand)", String::new, &archive, &(10, 0, 0));
    // The state's length goes before all else of a setup and of every event, 9 included.
    for length in [0, STATE_LENGTH - 1, STATE_LENGTH + 1] {
        let mut state = ffi::State::new(&vec![0x5A; length], 3);
        let refusals = [
            state.setup(&[0, 0], &[1], 1, [0; 3]),
            feed(&mut state, 1 << 31, &Event::Nch(vec![])),
            feed(&mut state, 1 << 31, &Event::Facch(vec![])),
            feed(&mut state, 1 << 31, &Event::Pch(vec![u64::MAX; 14])),
            feed(&mut state, 1 << 31, &Event::Pch(vec![])),
            feed(&mut state, 1 << 31, &Event::Joined(u32::MAX)),
            feed(&mut state, 1 << 31, &Event::Reselected),
            feed(&mut state, 1 << 31, &Event::HandedOver),
            feed(&mut state, 1 << 31, &Event::Reconfigured),
            feed(&mut state, 1 << 31, &Event::LeftIdle),
            feed(&mut state, 1 << 31, &Event::Bit(2)),
            feed(&mut state, 1 << 31, &Event::Tick),
            state.read(0, 0).0,
            state.numbers(archive::asternhaken_entry_numbers, 0, 40).0,
            state.numbers(archive::asternhaken_held_numbers, 0, 40).0,
            state.paged(9).0,
            state.number(archive::asternhaken_held_count).0,
            state.number(archive::asternhaken_next_expiry).0,
        ];
        refusals.iter().for_each(|&refusal| tally.count_refusal(refusal));
        let untouched = state.octets().iter().all(|&octet| octet == 0x5A);
        tally.same("scene: a state of a wrong length", || format!("{length} octets"), &(refusals, untouched), &([13; 18], true));
    }
}

fn clock(tally: &mut Tally) {
    let mut s = Scene::with(tally, "a half just before its timer", &SUBSCRIBED, 1_000, [5_000, 5_000, 3_000]);
    s.nch(1_000, first(VGCS)).told(&[4]);
    s.nch(5_999, second(VGCS, 7)).told(&[3]);

    let mut s = Scene::with(tally, "a half at its timer", &SUBSCRIBED, 1_000, [5_000, 5_000, 3_000]);
    s.nch(1_000, first(VGCS)).told(&[4]);
    s.nch(6_000, second(VGCS, 7)).says(1, 0, &[4]);

    let mut s = Scene::with(tally, "§4: ten seconds by default on the NCH, five on the other channels", &SUBSCRIBED, 1_000, DEFAULT_TIMERS);
    s.nch(1_000, first(VGCS)).told(&[4]);
    s.facch(1_000, facch_first(VGCS)).told(&[4]);
    s.pch(1_000, pch_first(VGCS)).told(&[4]);
    s.event(5_999, Event::Tick).told(&[]);
    s.event(6_000, Event::Tick).says(2, 0, &[]);
    s.nch(10_999, second(VGCS, 7)).told(&[3]);
    s.nch(10_999, first(VGCS)).told(&[4]);
    s.event(20_998, Event::Tick).told(&[]);
    s.event(20_999, Event::Tick).says(1, 0, &[]);

    let mut s = Scene::with(tally, "the tick wraps", &SUBSCRIBED, 4_294_967_290, [5_000, 5_000, 3_000]);
    s.event(10, Event::Tick).told(&[]);
    s.event(4_294_967_290, Event::Tick).refuses(9);

    let mut s = Scene::with(tally, "a step of 2^31, and one less", &SUBSCRIBED, 100, [5_000, 5_000, 3_000]);
    s.event(100 + 2_147_483_648, Event::Tick).refuses(9);
    s.event(99, Event::Tick).refuses(9);
    s.event(100 + 2_147_483_647, Event::Tick).told(&[]);
    s.event(100, Event::Tick).refuses(9);
    s.event(98, Event::Tick).told(&[]);

    let mut s = Scene::with(tally, "a half over the wrap", &SUBSCRIBED, u32::MAX - 99, [5_000, 4_000, 3_000]);
    s.nch(u32::MAX - 99, first(VGCS)).told(&[4]);
    s.facch(u32::MAX - 99, facch_first(VGCS)).told(&[4]);
    s.event(3_899, Event::Tick).told(&[]);
    s.event(3_900, Event::Tick).says(1, 0, &[]);
    s.event(4_899, Event::Tick).told(&[]);
    s.event(4_900, Event::Tick).says(1, 0, &[]);

    let mut s = Scene::new(tally, "steps far longer than a timer");
    s.nch(1_000, first(VGCS)).told(&[4]);
    s.event(1_000 + (1 << 30), Event::Tick).says(1, 0, &[]);

    let mut s = Scene::new(tally, "a refused event is no time, and drops nothing");
    s.nch(1_000, first(VGCS)).told(&[4]);
    s.event(9_000, Event::Nch(vec![0x2B; 19])).refuses(1);
    s.event(9_000, Event::Joined(LAST + 1)).refuses(4);
    s.event(999, Event::Joined(LAST + 1)).refuses(9);
    s.event(999, Event::Nch(vec![0x2B; 19])).refuses(9);
    s.event(5_999, Event::Tick).told(&[]);
    s.event(5_998, Event::Tick).refuses(9);
    s.nch(5_999, second(VGCS, 7)).told(&[3]);

    // Each kind of event first drops what has run out.
    let events = [
        Event::Nch(empty().octets()),
        Event::Facch(FacchDraft::of(clear(STRANGER)).octets()),
        Event::Pch(PchDraft::of(clear(STRANGER)).numbers()),
        Event::Joined(VGCS),
        Event::Reselected,
        Event::HandedOver,
        Event::Reconfigured,
        Event::LeftIdle,
        Event::Bit(1),
        Event::Tick,
    ];
    for event in events {
        let mut s = Scene::new(tally, "every event drops what has run out");
        s.nch(1_000, first(VGCS)).told(&[4]);
        s.facch(2_000, facch_first(VGCS)).told(&[4]);
        s.pch(3_000, pch_first(VGCS)).told(&[4]);
        let entries: &[u64] = if matches!(event, Event::Facch(_) | Event::Pch(_)) { &[0] } else { &[] };
        s.event(6_000, event).says(3, 0, entries);
    }

    let mut s = Scene::new(tally, "each channel has its own timer");
    s.nch(1_000, first(VGCS)).told(&[4]);
    s.facch(1_000, facch_first(VGCS)).told(&[4]);
    s.event(4_999, Event::Tick).told(&[]);
    s.event(5_000, Event::Tick).says(1, 0, &[]);
    s.facch(5_000, facch_second(VGCS, 7)).told(&[8]);
    s.nch(5_999, second(VGCS, 7)).told(&[3]);
}

fn drops(tally: &mut Tally) {
    /// Halves of three keys on each channel.
    fn six_halves<'a>(tally: &'a mut Tally, name: &'static str) -> Scene<'a> {
        let mut s = Scene::new(tally, name);
        for key in [VBS, VGCS, OTHER] {
            s.nch(1_000, first(key)).told(&[4]);
            s.facch(1_000, facch_first(key)).told(&[4]);
        }
        s
    }
    let mut s = six_halves(tally, "joined drops halves under another key, on both channels, and keeps its own");
    s.event(1_001, Event::Joined(VGCS)).says(0, 4, &[]);
    s.nch(1_001, second(VGCS, 7)).told(&[3]);
    s.facch(1_001, facch_second(VGCS, 7)).told(&[3]);
    s.facch(1_001, facch_second(VBS, 7)).told(&[8]);
    s.nch(1_001, second(VBS, 7)).told(&[4]);

    let mut s = six_halves(tally, "joined with a key that is not subscribed drops all");
    s.event(1_001, Event::Joined(STRANGER)).says(0, 6, &[]);
    let mut s = six_halves(tally, "joined with a subscribed key that holds nothing drops all");
    s.event(1_001, Event::Joined(LAST)).says(0, 6, &[]);
    s.event(1_001, Event::Joined(LAST)).says(0, 0, &[]);

    let mut s = six_halves(tally, "reselected drops NCH halves");
    s.event(1_001, Event::Reselected).says(0, 3, &[]);
    s.facch(1_001, facch_second(VGCS, 7)).told(&[3]);
    s.nch(1_001, second(VGCS, 7)).told(&[4]);

    let mut s = six_halves(tally, "handed over drops FACCH halves");
    s.event(1_001, Event::HandedOver).says(0, 3, &[]);
    s.facch(1_001, facch_second(VGCS, 7)).told(&[8]);
    s.nch(1_001, second(VGCS, 7)).told(&[3]);

    let mut s = six_halves(tally, "reconfigured drops FACCH halves");
    s.event(1_001, Event::Reconfigured).says(0, 3, &[]);
    s.facch(1_001, facch_second(OTHER, 7)).told(&[8]);
    s.nch(1_001, second(OTHER, 7)).told(&[3]);

    let mut s = six_halves(tally, "a tick alone drops nothing");
    s.event(1_001, Event::Tick).told(&[]);
    s.nch(1_001, second(VGCS, 7)).told(&[3]);
    s.facch(1_001, facch_second(VGCS, 7)).told(&[3]);

    let mut s = six_halves(tally, "what ran out counts as expired, what is left as dropped");
    s.nch(3_000, first(LAST)).told(&[4]);
    s.event(6_000, Event::Joined(STRANGER)).says(6, 1, &[]);

    let mut s = six_halves(tally, "a half that is joined counts in neither");
    s.nch(1_001, second(VGCS, 7)).says(0, 0, &[3]);
}

fn nln(tally: &mut Tally) {
    let mut s = Scene::new(tally, "the first NLN is no change, whatever it is");
    s.nch(1_000, first(VGCS)).told(&[4]);
    s.nch(1_000, with_nln(3, empty())).told(&[]);
    s.nch(1_000, with_nln(3, empty())).told(&[]);
    s.nch(1_000, with_nln(2, empty())).says(0, 1, &[]);

    let mut s = Scene::new(tally, "NLN 0 is a known one");
    s.nch(1_000, with_nln(0, first(VGCS))).told(&[4]);
    s.nch(1_000, with_nln(1, empty())).says(0, 1, &[]);

    let mut s = Scene::new(tally, "a message without NLN changes nothing");
    s.nch(1_000, with_nln(1, first(VGCS))).told(&[4]);
    s.nch(1_000, first(OTHER)).told(&[4]);
    s.nch(1_000, with_nln(1, empty())).told(&[]);
    s.nch(1_000, with_nln(0, empty())).says(0, 2, &[]);

    let mut s = Scene::new(tally, "a change drops NCH halves and no others, before its calls");
    s.nch(1_000, with_nln(1, first(VGCS))).told(&[4]);
    s.facch(1_000, facch_first(VGCS)).told(&[4]);
    s.nch(1_000, with_nln(2, second(VGCS, 7))).says(0, 1, &[4]);
    s.facch(1_000, facch_second(VGCS, 7)).told(&[3]);

    let mut s = Scene::new(tally, "a half dropped and stored again by one message counts as dropped");
    s.nch(1_000, with_nln(1, first(VGCS))).told(&[4]);
    s.nch(1_000, with_nln(2, first(VGCS))).says(0, 1, &[4]);
    s.nch(1_000, second(VGCS, 7)).told(&[3]);

    let mut s = Scene::new(tally, "events other than a reselection leave the NLN");
    s.nch(1_000, with_nln(1, empty())).told(&[]);
    for event in [Event::HandedOver, Event::Reconfigured, Event::LeftIdle, Event::Bit(0), Event::Tick, Event::Joined(LAST)] {
        s.event(1_000, event).told(&[]);
    }
    s.facch(1_000, FacchDraft::of(clear(STRANGER))).told(&[0]);
    s.pch(1_000, PchDraft::of(clear(STRANGER))).told(&[0]);
    s.nch(1_000, first(VGCS)).told(&[4]);
    s.nch(1_000, with_nln(1, empty())).told(&[]);
    s.nch(1_000, with_nln(2, empty())).says(0, 1, &[]);

    let mut s = Scene::new(tally, "§3: a half stored in the new cell stays at its first NLN, and goes at the next, unlike it");
    s.nch(1_000, with_nln(1, first(VGCS))).told(&[4]);
    s.event(1_001, Event::Reselected).says(0, 1, &[]);
    s.nch(1_002, first(VGCS)).told(&[4]);
    s.nch(1_003, with_nln(2, empty())).told(&[]);
    s.nch(1_004, with_nln(2, first(OTHER))).told(&[4]);
    s.nch(1_005, with_nln(1, empty())).says(0, 2, &[]);
    s.event(1_006, Event::Reselected).told(&[]).has_octet(NLN, 4);
    s.nch(1_007, second(VGCS, 7)).told(&[4]);
    s.event(1_008, Event::Reselected).says(0, 1, &[]);
    s.nch(1_009, with_nln(3, second(VGCS, 7))).told(&[4]);
    s.event(1_010, Event::HandedOver).told(&[]).has_octet(NLN, 3);
    s.nch(1_011, with_nln(0, empty())).says(0, 1, &[]);

    let mut s = Scene::new(tally, "§3: a refused reselection forgets nothing");
    s.nch(1_000, with_nln(1, first(VGCS))).told(&[4]);
    s.event(999, Event::Reselected).refuses(9);
    s.nch(1_001, with_nln(2, empty())).says(0, 1, &[]);

    let mut s = Scene::new(tally, "the NLN of a refused message is not seen");
    s.nch(1_000, with_nln(1, first(VGCS))).told(&[4]);
    s.nch(1_000, with_nln(2, nch(vec![clear(OTHER)], &[(0, None)]))).refuses(6);
    s.nch(1_000, with_nln(1, empty())).told(&[]);

    let mut s = Scene::new(tally, "a half that ran out is not dropped by the NLN too");
    s.nch(1_000, with_nln(1, first(VGCS))).told(&[4]);
    s.nch(6_000, with_nln(2, empty())).says(1, 0, &[]);
}

fn places(tally: &mut Tally) {
    let keys: Vec<u32> = (0..50).map(|i| 2 * i + 1).collect();
    let mut s = Scene::with(tally, "a place for each subscription and channel, used again", &keys, 0, [5_000, 5_000, 3_000]);
    for _ in 0..2 {
        for &key in &keys {
            s.nch(0, first(key)).told(&[4]);
            s.facch(0, facch_first(key)).told(&[4]);
        }
        for &key in keys.iter().rev() {
            s.facch(0, facch_second(key, u64::from(key))).told(&[3]).has(&[(0, VSTK_RAND, u64::from(key))]);
            s.nch(0, second(key, u64::from(key))).told(&[3]).has(&[(0, VSTK_RAND, u64::from(key))]);
        }
    }
    for &key in &keys {
        s.nch(0, second(key, 7)).told(&[4]);
        s.facch(0, facch_first(key)).told(&[4]);
    }
    s.event(0, Event::Joined(STRANGER)).says(0, 100, &[]);

    let mut s = Scene::new(tally, "the service flag is part of the key");
    s.nch(1_000, first(VGCS)).told(&[4]);
    s.nch(1_000, second(VBS, 7)).told(&[4]);
    s.nch(1_000, second(VGCS, 8)).told(&[3]);
    s.nch(1_000, first(VBS)).told(&[3]).has(&[(0, VSTK_RAND, 7)]);

    let mut s = Scene::new(tally, "each channel has its own store");
    s.nch(1_000, first(VGCS)).told(&[4]);
    s.facch(1_000, facch_second(VGCS, 7)).told(&[8]);
    s.facch(1_000, facch_first(VGCS)).told(&[4]);
    s.nch(1_000, second(VGCS, 8)).told(&[3]);
    s.facch(1_000, facch_second(VGCS, 9)).told(&[3]).has(&[(0, VSTK_RAND, 9)]);
}

fn without_store(tally: &mut Tally) {
    let mut s = Scene::new(tally, "0 goes before every other number");
    s.nch(1_000, first(STRANGER)).told(&[0]).has(&[(0, 3, u64::from(STRANGER)), (0, CHANNEL, 0), (0, FULL, 0)]);
    s.nch(1_000, nch(vec![clear(STRANGER).on(HERE)], &[])).told(&[0]);
    s.nch(1_000, second(STRANGER, 7)).told(&[0]);
    s.nch(1_000, nch(vec![call(STRANGER).on(HERE)], &[])).told(&[0]);
    s.nch(1_000, nch(vec![call(STRANGER)], &[])).told(&[0]);
    s.nch(1_000, reduced(STRANGER, &[])).told(&[0]);
    s.facch(1_000, facch_second(STRANGER, 7)).told(&[0]);
    s.facch(1_000, facch_first(STRANGER)).told(&[0]);
    s.event(1_000, Event::Joined(LAST)).told(&[]);

    let mut s = Scene::new(tally, "1: not ciphered, described");
    s.nch(1_000, nch(vec![clear(VGCS).on(HERE)], &[])).told(&[1]).has(&[(0, CHANNEL, HERE), (0, SEGMENTED, 0), (0, RAND_GIVEN, 0)]);
    s.facch(1_000, FacchDraft::of(clear(VGCS).on(THERE))).told(&[1]).has(&[(0, CHANNEL, THERE), (0, UPLINK_GIVEN, 0)]);
    s.facch(1_000, FacchDraft::of(clear(VGCS).on(THERE)).rand(5)).told(&[1]).has(&[(0, RAND_GIVEN, 1), (0, VSTK_RAND, 5)]);

    let mut s = Scene::new(tally, "2: ciphered, described, VSTK_RAND; on the NCH Segment Id 0");
    s.nch(1_000, nch(vec![call(VGCS).on(HERE)], &[(0, Some(5))])).told(&[2]).has(&[(0, VSTK_RAND, 5), (0, SEGMENTED, 1)]);
    s.nch(1_000, nch(vec![call(VGCS).on(HERE)], &[(1, Some(5))])).told(&[7]).has(&[(0, VSTK_RAND, 0)]);
    s.facch(1_000, facch_first(VGCS).rand(5)).told(&[2]).has(&[(0, VSTK_RAND, 5), (0, SEGMENTED, 0)]);

    let mut s = Scene::new(tally, "6: a call, not described, and not a second half");
    s.nch(1_000, nch(vec![clear(VGCS)], &[])).told(&[6]);
    s.nch(1_000, nch(vec![call(VGCS)], &[])).told(&[6]);
    s.nch(1_000, nch(vec![call(VGCS)], &[(0, None)])).told(&[6]);
    s.nch(1_000, nch(vec![call(VGCS)], &[(1, None)])).told(&[6]);
    s.nch(1_000, nch(vec![call(VGCS)], &[(0, Some(7))])).told(&[6]);
    s.facch(1_000, FacchDraft::of(clear(VGCS))).told(&[6]);
    s.facch(1_000, FacchDraft::of(call(VGCS))).told(&[6]);
    s.facch(1_000, FacchDraft::of(clear(VGCS)).rand(7)).told(&[6]);
    s.event(1_000, Event::Joined(LAST)).told(&[]);

    let mut s = Scene::new(tally, "7: any other case");
    s.nch(1_000, nch(vec![call(VGCS).on(HERE)], &[])).told(&[7]);
    s.nch(1_000, nch(vec![call(VGCS).on(HERE)], &[(1, None)])).told(&[7]);
    s.nch(1_000, reduced(VGCS, &[])).told(&[7]);
    s.nch(1_000, reduced(VGCS, &[(0, None)])).told(&[7]);
    s.nch(1_000, reduced(VGCS, &[(1, None)])).told(&[7]);
    s.nch(1_000, reduced(VGCS, &[(0, Some(7))])).told(&[7]);
    s.event(1_000, Event::Joined(LAST)).told(&[]);

    let mut s = Scene::new(tally, "1 and 2 do not touch the store");
    s.nch(1_000, first(VGCS)).told(&[4]);
    s.facch(1_000, facch_first(VGCS)).told(&[4]);
    s.nch(2_000, nch(vec![clear(VGCS).on(THERE)], &[])).told(&[1]);
    s.nch(2_000, nch(vec![call(VGCS).on(THERE)], &[(0, Some(5))])).told(&[2]);
    s.facch(2_000, FacchDraft::of(clear(VGCS).on(THERE))).told(&[1]);
    s.facch(2_000, facch_first(VGCS).rand(5)).told(&[2]);
    s.facch(4_999, facch_second(VGCS, 7)).told(&[3]).has(&[(0, CHANNEL, HERE)]);
    s.nch(5_999, second(VGCS, 7)).told(&[3]).has(&[(0, CHANNEL, HERE)]);
}

fn halves(tally: &mut Tally) {
    let mut s = Scene::new(tally, "NCH: first then second, second then first, and by reduced reference");
    s.nch(1_000, first(VGCS)).told(&[4]);
    s.nch(1_001, second(VGCS, 7)).told(&[3]).has(&[(0, CHANNEL, HERE), (0, VSTK_RAND, 7), (0, RAND_GIVEN, 1), (0, FULL, 1)]);
    s.nch(1_002, second(VGCS, 8)).told(&[4]);
    s.nch(1_003, first(VGCS)).told(&[3]).has(&[(0, CHANNEL, HERE), (0, VSTK_RAND, 8), (0, SEGMENTED, 1), (0, SEGMENT_ID, 0)]);
    s.nch(1_004, reduced(VGCS, &[(1, Some(9))])).told(&[4]);
    s.nch(1_005, first(VGCS)).told(&[3]).has(&[(0, CHANNEL, HERE), (0, VSTK_RAND, 9), (0, FULL, 1)]);
    s.nch(1_006, first(VGCS)).told(&[4]);
    s.nch(1_007, reduced(VGCS, &[(1, Some(10))])).told(&[3]).has(&[(0, VSTK_RAND, 10), (0, FULL, 1)]);
    s.event(1_008, Event::Joined(LAST)).told(&[]);

    let mut s = Scene::new(tally, "FACCH: a first half is stored, a second before it is 8 and is not");
    s.facch(1_000, facch_second(VGCS, 7)).told(&[8]);
    s.facch(1_001, facch_first(VGCS)).told(&[4]);
    s.facch(1_002, facch_second(VGCS, 8)).told(&[3]).has(&[(0, CHANNEL, HERE), (0, VSTK_RAND, 8), (0, SEGMENTED, 0)]);
    s.facch(1_003, facch_second(VGCS, 9)).told(&[8]);

    let mut s = Scene::new(tally, "5: the same half again; store and timer stay");
    s.nch(1_000, first(VGCS)).told(&[4]);
    s.nch(5_000, nch(vec![CallDraft { priority: 6, ..call(VGCS).on(THERE) }], &[(0, None)])).told(&[5]);
    s.nch(5_999, second(VGCS, 7)).told(&[3]).has(&[(0, CHANNEL, HERE)]);
    s.nch(6_000, second(VGCS, 8)).told(&[4]);
    s.nch(10_000, second(VGCS, 9)).told(&[5]);
    s.nch(10_001, reduced(VGCS, &[(1, Some(10))])).told(&[5]);
    s.event(10_999, Event::Tick).told(&[]);
    s.event(11_000, Event::Tick).says(1, 0, &[]);
    s.facch(11_000, facch_first(VGCS)).told(&[4]);
    s.facch(14_000, FacchDraft::of(call(VGCS).on(THERE))).told(&[5]);
    s.event(14_999, Event::Tick).told(&[]);
    s.event(15_000, Event::Tick).says(1, 0, &[]);

    let mut s = Scene::new(tally, "entries are taken in order, calls then reduced ones, as the earlier ones left the store");
    let mut message = nch(vec![call(VGCS).on(HERE)], &[(0, None), (1, Some(7))]);
    message.six.as_mut().unwrap().reduced.push((u64::from(VGCS / 2), 1));
    s.nch(1_000, message).told(&[4, 3]).has(&[(0, 3, u64::from(VGCS)), (1, 3, u64::from(VGCS)), (1, VSTK_RAND, 7)]);
    let mut message = nch(vec![clear(OTHER), clear(STRANGER)], &[]);
    message.six = reduced(VBS, &[]).six;
    s.nch(1_000, message).told(&[6, 0, 7]).has(&[(0, 3, u64::from(OTHER)), (1, 3, u64::from(STRANGER)), (2, 3, u64::from(VBS))]);
    s.nch(1_001, nch(vec![call(VGCS).on(HERE), call(VGCS).on(THERE)], &[(0, None), (0, None)])).told(&[4, 5]);
    s.nch(1_002, nch(vec![call(VGCS), call(VGCS)], &[(1, Some(1)), (1, Some(2))]))
        .told(&[3, 4])
        .has(&[(0, CHANNEL, HERE), (0, VSTK_RAND, 1)]);
    s.nch(1_003, first(VGCS)).told(&[3]).has(&[(0, VSTK_RAND, 2)]);
    s.nch(1_004, nch(vec![clear(VBS).on(HERE), clear(VGCS)], &[])).told(&[1, 6]);
}

fn references(tally: &mut Tally) {
    // Each of the bits beyond the key, one at a time.
    let others = [
        CallDraft { acknowledged: 1, ..call(VGCS) },
        CallDraft { priority: 0, ..call(VGCS) },
        CallDraft { priority: 3, ..call(VGCS) },
        CallDraft { priority: 5, ..call(VGCS) },
        CallDraft { cipher: 2, ..call(VGCS) },
        CallDraft { cipher: 1, ..call(VGCS) },
        CallDraft { cipher: 7, ..call(VGCS) },
        CallDraft { cipher: 11, ..call(VGCS) },
    ];
    for other in others {
        let mut s = Scene::new(tally, "two full references must agree in all 36 bits, or the newcomer gets 7 and the store stays");
        s.nch(1_000, first(VGCS)).told(&[4]);
        s.nch(5_000, nch(vec![other.clone()], &[(1, Some(7))])).told(&[7]);
        s.nch(5_999, second(VGCS, 8)).told(&[3]);
        s.nch(6_000, second(VGCS, 9)).told(&[4]);
        s.nch(6_001, nch(vec![other.clone().on(THERE)], &[(0, None)])).told(&[7]);
        s.event(10_999, Event::Tick).told(&[]);
        s.event(11_000, Event::Tick).says(1, 0, &[]);
        s.facch(11_000, facch_first(VGCS)).told(&[4]);
        s.facch(11_001, FacchDraft::of(other.clone()).rand(7)).told(&[7]);
        s.facch(14_999, facch_second(VGCS, 8)).told(&[3]);
        // Only opposite halves are held against each other, and only full references.
        s.nch(15_000, first(VGCS)).told(&[4]);
        s.nch(15_000, nch(vec![other.clone().on(THERE)], &[(0, None)])).told(&[5]);
        s.nch(15_000, reduced(VGCS, &[(1, Some(7))])).told(&[3]);
        s.nch(15_000, reduced(VGCS, &[(1, Some(8))])).told(&[4]);
        s.nch(15_000, nch(vec![other.clone().on(THERE)], &[(0, None)])).told(&[3]).has(&[(0, CHANNEL, THERE), (0, VSTK_RAND, 8)]);
    }
}

fn joined_records(tally: &mut Tally) {
    let all7 = SevenDraft { marks: vec![1], uplink: Some(1), amr: Some((None, Some(9))), sms: Some((1, 0)) };
    let none7 = SevenDraft { marks: vec![], uplink: Some(0), amr: Some((Some(5), None)), sms: Some((0, 1)) };
    let from_first: &[(u32, u32, u64)] = &[
        (0, EMERGENCY, 1),
        (0, UPLINK_GIVEN, 1),
        (0, UPLINK_ACCESS, 1),
        (0, AMR, 1),
        (0, FR_AMR_GIVEN, 0),
        (0, HR_AMR_GIVEN, 1),
        (0, HR_AMR_CONFIG, 9),
        (0, SMS, 1),
        (0, SMS_CONFIDENTIALITY, 1),
        (0, SMS_PRIVACY, 0),
        (0, SEGMENTED, 1),
        (0, SEGMENT_ID, 0),
    ];
    for second_comes_first in [false, true] {
        let mut s = Scene::new(tally, "NCH: everything from the first half, VSTK_RAND from the second");
        let first = NchDraft { seven: Some(all7.clone()), ..first(VGCS) };
        let second = NchDraft { seven: Some(none7.clone()), ..second(VGCS, 7) };
        let (one, two) = if second_comes_first { (second, first) } else { (first, second) };
        s.nch(1_000, one).told(&[4]);
        s.nch(1_001, two).told(&[3]).has(from_first).has(&[(0, VSTK_RAND, 7), (0, COUNTED, 0), (0, CELL_GLOBAL_COUNT, 0)]);

        // The count: (first's, second's, joined).
        for (of_first, of_second, joined) in [
            (None, None, None),
            (Some(1), None, Some(1)),
            (None, Some(2), Some(2)),
            (Some(1), Some(2), Some(2)),
            (Some(3), Some(0), Some(0)),
        ] {
            let mut s = Scene::new(tally, "NCH: the count from the second if there, else the first, else none");
            let counted = |count: Option<u64>, draft| if let Some(count) = count { with_count(count, draft) } else { draft };
            let first = counted(of_first, self::first(VGCS));
            let second = counted(of_second, self::second(VGCS, 7));
            let (one, two) = if second_comes_first { (second, first) } else { (first, second) };
            s.nch(1_000, one).told(&[4]);
            s.nch(1_001, two).told(&[3]);
            s.has(&[(0, COUNTED, u64::from(joined.is_some())), (0, CELL_GLOBAL_COUNT, joined.unwrap_or(0)), (0, B22_COUNT, 0)]);
        }
    }
    for (of_first, of_second, joined) in [
        (None, None, None),
        (Some((1, 1)), None, Some((1, 1))),
        (None, Some((2, 1)), Some((2, 1))),
        (Some((1, 1)), Some((2, 0)), Some((2, 0))),
        (Some((1, 0)), Some((0, 1)), Some((0, 1))),
    ] {
        let mut s = Scene::new(tally, "FACCH: the count with its B22");
        let counted =
            |count: Option<(u64, u64)>, draft: FacchDraft| if let Some((count, b22)) = count { draft.count(count, b22) } else { draft };
        let mut first = counted(of_first, facch_first(VGCS));
        let mut second = counted(of_second, facch_second(VGCS, 7));
        first.seven = Some((1, 1, None));
        second.seven = Some((0, 0, Some(1)));
        s.facch(1_000, first).told(&[4]);
        s.facch(1_001, second).told(&[3]).has(&[(0, EMERGENCY, 1), (0, UPLINK_GIVEN, 1), (0, UPLINK_ACCESS, 1), (0, VSTK_RAND, 7)]);
        let (count, b22) = joined.unwrap_or((0, 0));
        s.has(&[(0, COUNTED, u64::from(joined.is_some())), (0, CELL_GLOBAL_COUNT, count), (0, B22_COUNT, b22)]);
    }
    let mut s = Scene::new(tally, "uplink of the second half alone is not taken over");
    let mut second = facch_second(VGCS, 7);
    second.seven = Some((1, 1, None));
    s.facch(1_000, facch_first(VGCS)).told(&[4]);
    s.facch(1_001, second).told(&[3]).has(&[(0, EMERGENCY, 0), (0, UPLINK_GIVEN, 0), (0, UPLINK_ACCESS, 0)]);
}

fn records(tally: &mut Tally) {
    let mut s = Scene::new(tally, "marks belong to described calls, random entries to ciphered ones");
    let mut message = nch(vec![call(VGCS).on(HERE), clear(OTHER).on(THERE)], &[(0, None)]);
    message.seven = Some(SevenDraft { marks: vec![0, 1], ..SevenDraft::default() });
    s.nch(1_000, message).told(&[4, 1]).has(&[(1, EMERGENCY, 1), (1, SEGMENTED, 0), (1, CHANNEL, THERE)]);
    let mut message = nch(vec![clear(VBS), clear(OTHER).on(THERE)], &[]);
    message.seven = Some(SevenDraft { marks: vec![1], ..SevenDraft::default() });
    s.nch(1_001, message).told(&[6, 1]).has(&[(1, EMERGENCY, 1)]);
    let mut message = nch(vec![clear(OTHER).on(HERE), clear(VBS).on(THERE)], &[]);
    message.seven = Some(SevenDraft { marks: vec![1], ..SevenDraft::default() });
    s.nch(1_002, message).told(&[1, 1]).has(&[(0, EMERGENCY, 1), (1, EMERGENCY, 0)]);
    s.nch(1_003, nch(vec![clear(VBS), call(OTHER).on(HERE)], &[(0, Some(7))])).told(&[6, 2]).has(&[(1, VSTK_RAND, 7)]);

    let mut s = Scene::new(tally, "a record holds the message's count, uplink, AMR and SMS parts");
    let mut message = with_count(3, nch(vec![clear(OTHER).on(HERE)], &[]));
    message.seven = Some(SevenDraft { marks: vec![], uplink: Some(1), amr: Some((Some(0), Some(15))), sms: Some((1, 1)) });
    s.nch(1_000, message).told(&[1]).has(&[
        (0, COUNTED, 1),
        (0, CELL_GLOBAL_COUNT, 3),
        (0, B22_COUNT, 0),
        (0, UPLINK_GIVEN, 1),
        (0, UPLINK_ACCESS, 1),
        (0, AMR, 1),
        (0, FR_AMR_GIVEN, 1),
        (0, HR_AMR_GIVEN, 1),
        (0, HR_AMR_CONFIG, 15),
        (0, SMS, 1),
        (0, SMS_CONFIDENTIALITY, 1),
        (0, SMS_PRIVACY, 1),
    ]);
    let mut message = FacchDraft::of(clear(OTHER).on(HOPPING)).count(2, 1);
    message.seven = Some((0, 1, Some(0)));
    s.facch(1_001, message).told(&[1]).has(&[
        (0, COUNTED, 1),
        (0, CELL_GLOBAL_COUNT, 2),
        (0, B22_COUNT, 1),
        (0, UPLINK_GIVEN, 1),
        (0, UPLINK_ACCESS, 0),
        (0, EMERGENCY, 1),
        (0, AMR, 0),
        (0, SMS, 0),
        (0, SHORT_LIST, 1),
        (0, FREQUENCIES, 0x0123_4567_89AB_CDEF),
    ]);
}

fn reading(tally: &mut Tally) {
    let mut s = Scene::new(tally, "what is not there reads as 0, and an answer stays until the next accepted event");
    s.nch(1_000, nch(vec![clear(VGCS).on(HERE), clear(STRANGER)], &[])).told(&[1, 0]);
    s.has(&[
        (0, 2, 2),
        (9, 2, 2),
        (u32::MAX, 2, 2),
        (2, 3, 0),
        (9, 4, 0),
        (u32::MAX, 3, 0),
        (0, FOLLOW, 0),
        (0, KEPT, 0),
        (0, 37, 0),
        (0, u32::MAX, 0),
        (1, CHANNEL, 0),
    ]);
    s.event(1_000, Event::Nch(vec![0x2B; 19])).refuses(1).has(&[(0, 2, 2), (0, CHANNEL, HERE)]);
    s.event(1_001, Event::Tick).told(&[]).has(&[(0, 2, 0), (0, 3, 0), (0, 4, 0), (0, CHANNEL, 0)]);
}

/// docs/STATE.md on octets that no setup left: each row of its table that reads more than one number alike.
fn strange_octets(tally: &mut Tally) {
    // VGCS is the second of the keys.
    let place = place_number((1, Channel::Nch));
    let (kind_octet, record_octet) = (KINDS + place, RECORDS + RECORD_OCTETS * place);
    let facch_kind = KINDS + place_number((1, Channel::Facch));
    for kind in [3, 127, 128, 255] {
        let mut s = Scene::new(tally, "a kind above 2 is the opposite of whatever half comes");
        s.nch(1_000, second(VGCS, 7)).told(&[4]).with_octets(&[(kind_octet, kind)]);
        s.nch(1_001, first(VGCS)).told(&[3]).has(&[(0, CHANNEL, HERE), (0, VSTK_RAND, 7)]);
        s.nch(1_002, first(VGCS)).told(&[4]).with_octets(&[(kind_octet, kind)]);
        s.nch(1_003, second(VGCS, 8)).told(&[3]).has(&[(0, CHANNEL, HERE), (0, VSTK_RAND, 8)]);
        s.nch(1_004, first(VGCS)).told(&[4]).with_octets(&[(kind_octet, kind)]);
        s.nch(1_005, nch(vec![call(VGCS).on(THERE)], &[(0, None)])).told(&[3]).has(&[(0, CHANNEL, THERE)]);
        s.nch(1_006, second(VGCS, 9)).told(&[4]).with_octets(&[(kind_octet, kind)]);
        s.nch(1_007, nch(vec![CallDraft { priority: 6, ..call(VGCS) }], &[(1, Some(7))])).told(&[7]);
        s.event(6_006, Event::Tick).says(1, 0, &[]);
        s.nch(6_007, second(VGCS, 9)).told(&[4]).with_octets(&[(kind_octet, kind)]);
        s.event(6_008, Event::Reselected).says(0, 1, &[]);
        s.facch(6_009, facch_first(VGCS)).told(&[4]).with_octets(&[(facch_kind, kind)]);
        s.facch(6_010, facch_first(VGCS)).told(&[3]);
    }
    let mut s = Scene::new(tally, "a second half held on the FACCH, as no event leaves it");
    s.facch(1_000, facch_first(VGCS)).told(&[4]).with_octets(&[(facch_kind, 2)]);
    s.facch(1_001, facch_second(VGCS, 9)).told(&[5]);
    s.facch(1_002, FacchDraft::of(call(VGCS).on(THERE))).told(&[3]).has(&[(0, CHANNEL, THERE)]);

    let mut s = Scene::new(tally, "kind 0 is an empty place, whatever stands there");
    s.nch(1_000, first(VGCS)).told(&[4]).with_octets(&[(kind_octet, 0)]);
    s.event(1_001, Event::Reselected).told(&[]);
    s.nch(1_002, second(VGCS, 7)).told(&[4]);

    for flag in [2, 128, 255] {
        let mut s = Scene::new(tally, "a flag is yes unless it is 0");
        s.nch(1_000, first(VGCS)).told(&[4]);
        // Full reference, VGCS, described; emergency; a count of 2 with B22.
        let flags = [24, 25, 27, 33, 34, 35].map(|place| (record_octet + place, flag));
        s.with_octets(&flags).with_octets(&[(record_octet + 47, 2)]);
        s.nch(1_001, second(VGCS, 7)).told(&[3]);
        s.has(&[(0, FULL, 1), (0, 10, 1), (0, 12, 1), (0, EMERGENCY, 1), (0, COUNTED, 1), (0, B22_COUNT, 1), (0, CELL_GLOBAL_COUNT, 2)]);
        s.with_octets(&[(ENTRIES + 16 + 24, flag), (ENTRIES + 16 + 33, 0)]).has(&[(0, FULL, 1), (0, EMERGENCY, 0)]);
    }

    for (octet, nln, dropped) in [(4, 3, 0), (5, 3, 1), (255, 0, 1), (3, 3, 0)] {
        let mut s = Scene::new(tally, "NLN 4 is none; a number above 4 is one that no message has");
        s.nch(1_000, first(VGCS)).told(&[4]).with_octets(&[(NLN, octet)]);
        s.nch(1_001, with_nln(nln, empty())).says(0, dropped, &[]);
    }

    let mut s = Scene::new(tally, "a key that stands twice counts where the halving finds it");
    let key = VGCS.to_le_bytes();
    let octets: Vec<(usize, u8)> = (0..4).map(|i| (KEYS + 4 * 3 + i, key[i])).collect();
    s.nch(1_000, first(LAST)).told(&[4]).with_octets(&octets);
    s.nch(1_001, second(VGCS, 7)).told(&[4]);
    s.nch(1_002, first(LAST)).told(&[0]);
    // What is held at the other place is under another key.
    s.event(1_003, Event::Joined(VGCS)).says(0, 1, &[]);
    s.nch(1_004, first(VGCS)).told(&[3]);

    let mut s = Scene::new(tally, "a key that the halving passes by is not subscribed");
    let octets: Vec<(usize, u8)> = (0..4).map(|i| (KEYS + i, (OTHER + 2).to_le_bytes()[i])).collect();
    s.nch(1_000, first(OTHER)).told(&[4]).with_octets(&octets);
    s.nch(1_001, first(OTHER + 2)).told(&[0]);
    s.nch(1_002, second(OTHER, 7)).told(&[3]);

    // What a first half of the first key, a second of the second and a first of the last are told, and how many halves then go.
    for (count, told, dropped) in
        [(0, [0, 0, 0], 1), (1, [4, 0, 0], 2), (3, [4, 3, 0], 1), (50, [4, 3, 4], 2), (51, [4, 3, 4], 2), (255, [4, 3, 4], 2)]
    {
        let mut s = Scene::new(tally, "so many keys are looked at, and fifty where the number is larger");
        s.nch(1_000, first(VGCS)).told(&[4]).with_octets(&[(N_KEYS, count)]);
        s.nch(1_001, first(VBS)).told(&told[..1]);
        s.nch(1_001, second(VGCS, 7)).told(&told[1..2]);
        s.nch(1_001, first(LAST)).told(&told[2..]);
        s.event(1_002, Event::Reselected).says(0, dropped, &[]);
    }

    let mut s = Scene::new(tally, "any count is read as it stands, of nine entries at most; a record only where 1 to 3 was told");
    s.nch(1_000, nch(vec![clear(VGCS).on(HERE)], &[])).told(&[1]);
    for count in [9, 10, 256, u32::MAX] {
        let octets: Vec<(usize, u8)> = (0..4).map(|i| (COUNT + i, count.to_le_bytes()[i])).collect();
        s.with_octets(&octets).with_octets(&[(ENTRIES + ENTRY_OCTETS * 8, 5), (ENTRIES + ENTRY_OCTETS * 8 + 8, 200)]);
        s.has(&[(0, 2, u64::from(count)), (0, CHANNEL, HERE), (8, 3, 5), (8, 4, 200), (9, 3, 0), (9, 4, 0)]);
    }
    for told in [0, 4, 8, 9, 255] {
        s.with_octets(&[(ENTRIES + 8, told)]).has(&[(0, 4, u64::from(told)), (0, CHANNEL, 0), (0, FULL, 0)]);
    }

    let mut s = Scene::new(tally, "times of any number are times");
    s.nch(1_000, first(VGCS)).told(&[4]).with_octets(&[(4, 255), (5, 255), (6, 255), (7, 255)]);
    s.event(1_000 + (1 << 31) - 1, Event::Tick).told(&[]);
    s.event(998, Event::Tick).told(&[]);
    s.event(999, Event::Tick).says(1, 0, &[]);
    s.nch(1_000, first(VGCS)).told(&[4]).with_octets(&[(4, 0), (5, 0), (6, 0), (7, 0)]);
    s.event(1_000, Event::Tick).says(1, 0, &[]);

    let mut s = Scene::new(tally, "unused octets are not looked at and stay");
    let unused = (MARK..KEYS).chain(KINDS + PLACES..TICKS).chain(COUNT + 4..PAGED).chain(ENTRIES + 11..ENTRIES + 16);
    let octets: Vec<(usize, u8)> = unused.map(|place| (place, 0xEE)).collect();
    s.with_octets(&octets);
    s.nch(1_000, first(VGCS)).told(&[4]);
    s.nch(1_001, second(VGCS, 7)).told(&[3]);
    let stay = octets.iter().all(|&(place, octet)| s.pair.mirror.octets[place] == octet);
    s.tally.check(stay, || "  scene: the second program wrote an unused octet".to_string());
}

/// Document 02, §8: what a PCH entry is told.
fn pch(tally: &mut Tally) {
    let mut s = Scene::new(tally, "PCH: either half may come first, with a full reference or without");
    s.pch(1_000, pch_first(VGCS)).told(&[4]);
    s.pch(1_001, pch_second(VGCS, 7)).told(&[3]);
    s.has(&[(0, CHANNEL, HERE), (0, VSTK_RAND, 7), (0, RAND_GIVEN, 1), (0, FULL, 1), (0, SEGMENTED, 0)]);
    s.pch(1_002, pch_second(VGCS, 8)).told(&[4]);
    s.pch(1_003, pch_first(VGCS)).told(&[3]).has(&[(0, CHANNEL, HERE), (0, VSTK_RAND, 8)]);
    s.pch(1_004, pch_reduced(VGCS, 9)).told(&[4]);
    s.pch(1_005, pch_first(VGCS)).told(&[3]).has(&[(0, CHANNEL, HERE), (0, VSTK_RAND, 9), (0, FULL, 1), (0, 30, 3)]);
    s.pch(1_006, pch_first(VGCS)).told(&[4]);
    s.pch(1_007, pch_reduced(VGCS, 10)).told(&[3]).has(&[(0, VSTK_RAND, 10), (0, FULL, 1)]);
    s.event(1_008, Event::Joined(LAST)).told(&[]);

    let mut s = Scene::new(tally, "PCH: 5, the same half again; store and timer stay");
    s.pch(1_000, pch_first(VGCS)).told(&[4]);
    s.pch(2_000, PchDraft::of(CallDraft { priority: 6, ..call(VGCS).on(THERE) })).told(&[5]);
    s.pch(3_999, pch_second(VGCS, 7)).told(&[3]).has(&[(0, CHANNEL, HERE)]);
    s.pch(4_000, pch_second(VGCS, 8)).told(&[4]);
    s.pch(5_000, pch_reduced(VGCS, 9)).told(&[5]);
    s.event(6_999, Event::Tick).told(&[]);
    s.event(7_000, Event::Tick).says(1, 0, &[]);

    let mut s = Scene::new(tally, "PCH: T3210 is its timer, over the wrap of the tick too");
    s.nch(1_000, first(VGCS)).told(&[4]);
    s.facch(1_000, facch_first(VGCS)).told(&[4]);
    s.pch(1_000, pch_first(VGCS)).told(&[4]);
    s.event(3_999, Event::Tick).told(&[]);
    s.event(4_000, Event::Tick).says(1, 0, &[]);
    s.pch(4_000, pch_second(VGCS, 7)).told(&[4]);
    s.event(5_000, Event::Tick).says(1, 0, &[]);
    s.event(6_000, Event::Tick).says(1, 0, &[]);
    s.pch(6_999, pch_first(VGCS)).told(&[3]);
    let mut s = Scene::with(tally, "PCH: a half over the wrap", &SUBSCRIBED, u32::MAX - 99, [1, 1, 3_000]);
    s.pch(u32::MAX - 99, pch_first(VGCS)).told(&[4]);
    s.event(2_899, Event::Tick).told(&[]);
    s.event(2_900, Event::Tick).says(1, 0, &[]);

    let mut s = Scene::new(tally, "PCH: 0, 1, 2, 6 and 7");
    for draft in [pch_first(STRANGER), pch_second(STRANGER, 7), pch_reduced(STRANGER, 7), PchDraft::of(clear(STRANGER).on(HERE))] {
        s.pch(1_000, draft).told(&[0]).has(&[(0, 3, u64::from(STRANGER)), (0, CHANNEL, 0), (0, FULL, 0)]);
    }
    s.pch(1_000, PchDraft::of(clear(VGCS).on(HERE))).told(&[1]).has(&[(0, CHANNEL, HERE), (0, RAND_GIVEN, 0), (0, COUNTED, 0)]);
    s.pch(1_000, PchDraft::of(clear(VGCS).on(HERE)).rand(5)).told(&[1]).has(&[(0, RAND_GIVEN, 1), (0, VSTK_RAND, 5)]);
    s.pch(1_000, pch_first(VGCS).rand(5).count(3)).told(&[2]);
    s.has(&[(0, VSTK_RAND, 5), (0, COUNTED, 1), (0, CELL_GLOBAL_COUNT, 3), (0, B22_COUNT, 0), (0, SEGMENTED, 0), (0, UPLINK_GIVEN, 0)]);
    s.pch(1_000, PchDraft::of(call(VGCS))).told(&[6]);
    s.pch(1_000, PchDraft::of(clear(VGCS))).told(&[6]);
    s.pch(1_000, PchDraft::of(clear(VGCS)).rand(7)).told(&[6]);
    s.pch(1_000, PchDraft::reduced(VGCS)).told(&[7]);
    s.pch(1_000, PchDraft { ciphered: false, ..PchDraft::reduced(VGCS) }).told(&[7]);
    s.pch(1_000, PchDraft { ciphered: false, ..pch_reduced(VGCS, 7) }).told(&[7]);
    s.event(1_000, Event::LeftIdle).told(&[]);

    let mut s = Scene::new(tally, "PCH: 1 and 2 do not touch the store, nor do other channels");
    s.pch(1_000, pch_first(VGCS)).told(&[4]);
    s.pch(1_001, PchDraft::of(clear(VGCS).on(THERE))).told(&[1]);
    s.pch(1_001, PchDraft::of(call(VGCS).on(THERE)).rand(5)).told(&[2]);
    s.nch(1_002, second(VGCS, 7)).told(&[4]);
    s.facch(1_002, facch_second(VGCS, 7)).told(&[8]);
    s.facch(1_002, facch_first(VGCS)).told(&[4]);
    s.pch(1_003, pch_second(VGCS, 8)).told(&[3]).has(&[(0, CHANNEL, HERE), (0, VSTK_RAND, 8)]);
    s.nch(1_004, first(VGCS)).told(&[3]).has(&[(0, VSTK_RAND, 7)]);
    s.facch(1_005, facch_second(VGCS, 9)).told(&[3]);

    for other in
        [CallDraft { acknowledged: 1, ..call(VGCS) }, CallDraft { priority: 3, ..call(VGCS) }, CallDraft { cipher: 2, ..call(VGCS) }]
    {
        let mut s =
            Scene::new(tally, "PCH: all 36 bits must agree where both halves have them, or the newcomer gets 7 and the store stays");
        s.pch(1_000, pch_first(VGCS)).told(&[4]);
        s.pch(3_000, PchDraft::of(other.clone()).rand(7)).told(&[7]);
        s.pch(3_999, pch_second(VGCS, 8)).told(&[3]);
        s.pch(4_000, pch_second(VGCS, 9)).told(&[4]);
        s.pch(4_001, PchDraft::of(other.clone().on(THERE))).told(&[7]);
        s.event(6_999, Event::Tick).told(&[]);
        s.event(7_000, Event::Tick).says(1, 0, &[]);
        s.pch(7_000, pch_reduced(VGCS, 8)).told(&[4]);
        s.pch(7_001, PchDraft::of(other.clone().on(THERE))).told(&[3]).has(&[(0, CHANNEL, THERE), (0, VSTK_RAND, 8)]);
    }

    // The count: (first's, second's, joined).
    for (of_first, of_second, joined) in
        [(None, None, None), (Some(1), None, Some(1)), (None, Some(2), Some(2)), (Some(1), Some(2), Some(2)), (Some(3), Some(0), Some(0))]
    {
        for second_comes_first in [false, true] {
            let mut s = Scene::new(tally, "PCH: the count from the second if there, else the first, else none");
            let halves = [PchDraft { count: of_first, ..pch_first(VGCS) }, PchDraft { count: of_second, ..pch_second(VGCS, 7) }];
            let [one, two] = if second_comes_first { [halves[1].clone(), halves[0].clone()] } else { halves };
            s.pch(1_000, one).told(&[4]);
            s.pch(1_001, two).told(&[3]);
            s.has(&[(0, COUNTED, u64::from(joined.is_some())), (0, CELL_GLOBAL_COUNT, joined.unwrap_or(0)), (0, B22_COUNT, 0)]);
        }
    }

    let mut s = Scene::new(tally, "PCH: descriptions of each kind");
    let on = |channel, hops| PchDraft::of(CallDraft { description: Some((channel, hops)), ..clear(VGCS) });
    s.pch(1_000, on(HOPPING, Hops::Allocation(8, u64::MAX))).told(&[1]);
    s.has(&[(0, CHANNEL, HOPPING), (0, 13, 1), (0, SHORT_LIST, 0), (0, 31, 8), (0, FREQUENCIES, u64::MAX)]);
    s.pch(1_000, on(HOPPING, Hops::Allocation(1, 0xA5))).told(&[1]).has(&[(0, 13, 1), (0, 31, 1), (0, FREQUENCIES, 0xA5)]);
    s.pch(1_000, on(HOPPING, Hops::List(1 << 63))).told(&[1]).has(&[(0, 13, 1), (0, SHORT_LIST, 1), (0, 31, 0), (0, FREQUENCIES, 1 << 63)]);
}

/// Document 02, §8: what drops PCH halves, and what does not.
fn pch_drops(tally: &mut Tally) {
    /// A half on each channel under one key.
    fn three<'a>(tally: &'a mut Tally, name: &'static str) -> Scene<'a> {
        let mut s = Scene::new(tally, name);
        s.nch(1_000, first(VGCS)).told(&[4]);
        s.facch(1_000, facch_first(VGCS)).told(&[4]);
        s.pch(1_000, pch_first(VGCS)).told(&[4]);
        s
    }
    for (key, told) in [(VBS, 4), (OTHER, 4), (STRANGER, 0)] {
        let mut s = three(tally, "PCH: an entry under another key drops the half, subscribed or not, and no other channel's");
        s.pch(1_001, pch_first(key)).says(0, 1, &[told]);
        s.pch(1_002, pch_second(VGCS, 7)).says(0, u64::from(told == 4), &[4]);
        s.nch(1_002, second(VGCS, 7)).told(&[3]);
        s.facch(1_002, facch_second(VGCS, 7)).told(&[3]);
    }
    let mut s = three(tally, "PCH: whatever the other entry is told");
    s.pch(1_001, PchDraft::of(clear(VBS))).says(0, 1, &[6]);
    s.pch(1_002, PchDraft::of(clear(VBS))).says(0, 0, &[6]);
    s.pch(1_003, pch_second(LAST, 7)).told(&[4]);
    s.pch(1_004, PchDraft { ciphered: false, ..PchDraft::reduced(STRANGER) }).says(0, 1, &[0]);

    let mut s = three(tally, "PCH: a half that ran out is not dropped by the other key too");
    s.pch(4_000, pch_first(VBS)).says(1, 0, &[4]);

    let mut s = three(tally, "PCH: left idle drops PCH halves alone");
    s.event(1_001, Event::LeftIdle).says(0, 1, &[]);
    s.nch(1_002, second(VGCS, 7)).told(&[3]);
    s.facch(1_002, facch_second(VGCS, 7)).told(&[3]);
    s.pch(1_002, pch_second(VGCS, 7)).told(&[4]);

    let mut s = three(tally, "PCH: joined keeps its own half and drops those under another key");
    s.event(1_001, Event::Joined(VGCS)).told(&[]);
    s.pch(1_002, pch_second(VGCS, 7)).told(&[3]);
    let mut s = three(tally, "PCH: joined with another key");
    s.event(1_001, Event::Joined(VBS)).says(0, 3, &[]);
    let mut s = three(tally, "PCH: joined with a key that is not subscribed");
    s.event(1_001, Event::Joined(STRANGER)).says(0, 3, &[]);

    let mut s = three(tally, "PCH: reselected drops all PCH halves");
    s.event(1_001, Event::Reselected).says(0, 2, &[]);
    s.facch(1_002, facch_second(VGCS, 7)).told(&[3]);
    s.pch(1_002, pch_second(VGCS, 7)).told(&[4]);

    for (event, dropped) in [(Event::HandedOver, 1), (Event::Reconfigured, 1), (Event::Tick, 0)] {
        let mut s = three(tally, "PCH: handover, reconfiguration and a tick leave PCH halves");
        s.event(1_001, event).says(0, dropped, &[]);
        s.pch(1_002, pch_second(VGCS, 7)).told(&[3]);
    }
    let mut s = three(tally, "PCH: NLN changes and messages on other channels leave PCH halves");
    s.nch(1_001, with_nln(1, empty())).told(&[]);
    s.nch(1_001, with_nln(2, first(OTHER))).says(0, 1, &[4]);
    s.facch(1_001, facch_first(OTHER)).told(&[4]);
    s.pch(1_002, pch_second(VGCS, 7)).told(&[3]);

    let keys: Vec<u32> = (0..50).map(|i| 2 * i + 1).collect();
    let mut s = Scene::with(tally, "PCH: the last subscription has a place too", &keys, 0, [5_000; 3]);
    for &key in &keys {
        s.nch(0, first(key)).told(&[4]);
        s.facch(0, facch_first(key)).told(&[4]);
        s.pch(0, pch_first(key)).says(0, u64::from(key != 1), &[4]);
    }
    s.pch(0, pch_second(99, 7)).told(&[3]);
    s.event(0, Event::Joined(STRANGER)).says(0, 100, &[]);
}

/// Document 02, §8: refusals of a PCH event, and their order.
fn pch_refusals(tally: &mut Tally) {
    const KEY: usize = 0;
    const CIPHERED: usize = 1;
    const FULL_GIVEN: usize = 2;
    const REFERENCE: usize = 3;
    const DESCRIBED: usize = 4;
    const BITS: usize = 5;
    const HOPS: usize = 6;
    const LIST: usize = 7;
    const OCTETS: usize = 8;
    const NUMBER: usize = 9;
    let rows: &[(&[(usize, u64)], u32)] = &[
        (&[(KEY, 200_000_000)], 4),
        (&[(KEY, u64::from(VGCS) + (1 << 32))], 4),
        (&[(KEY, 200_000_000), (HOPS, 1), (BITS, HOPPING), (OCTETS, 0)], 4),
        (&[(KEY, 200_000_000), (BITS, HOPPING)], 4),
        (&[(KEY, 200_000_000), (CIPHERED, 2)], 4),
        (&[(HOPS, 1), (BITS, HOPPING), (OCTETS, 0)], 3),
        (&[(HOPS, 1), (BITS, HOPPING), (OCTETS, 9)], 3),
        (&[(HOPS, 1), (BITS, HOPPING), (OCTETS, 256 + 1)], 3),
        (&[(HOPS, 1), (BITS, 0), (OCTETS, 9)], 3),
        (&[(HOPS, 2), (BITS, HOPPING), (OCTETS, 9)], 3),
        (&[(DESCRIBED, 2), (HOPS, 1), (BITS, HOPPING), (OCTETS, 9)], 3),
        (&[(FULL_GIVEN, 0), (HOPS, 1), (BITS, HOPPING), (OCTETS, 9), (13, 9)], 3),
        (&[(BITS, HOPPING)], 5),
        (&[(HOPS, 1), (OCTETS, 1)], 5),
        (&[(HOPS, 1), (LIST, 1)], 5),
        (&[(HOPS, 1), (LIST, 2), (OCTETS, 9)], 5),
        (&[(BITS, HOPPING), (CIPHERED, 2)], 5),
        (&[(BITS, HOPPING), (FULL_GIVEN, 0)], 5),
        (&[(DESCRIBED, 2), (BITS, HOPPING)], 5),
        (&[(HOPS, 2), (OCTETS, 1)], 5),
        (&[(CIPHERED, 2)], 12),
        (&[(FULL_GIVEN, 2)], 12),
        (&[(DESCRIBED, 2)], 12),
        (&[(HOPS, 2), (BITS, HOPPING), (OCTETS, 1)], 12),
        (&[(HOPS, 1), (BITS, HOPPING), (LIST, 2)], 12),
        (&[(10, 2)], 12),
        (&[(12, 2)], 12),
        (&[(BITS, HERE + (1 << 24))], 12),
        (&[(HOPS, 1), (BITS, HOPPING), (OCTETS, 1), (NUMBER, 256)], 12),
        (&[(HOPS, 1), (BITS, HOPPING), (OCTETS, 7), (NUMBER, 1 << 56)], 12),
        (&[(10, 1), (11, 1 << 36)], 12),
        (&[(12, 1), (13, 4)], 12),
        (&[(FULL_GIVEN, 0)], 12),
        (&[(KEY, u64::from(VBS))], 12),
        (&[(KEY, u64::from(OTHER))], 12),
        (&[(CIPHERED, 0)], 12),
    ];
    let set = |numbers: &mut Vec<u64>, changes: &[(usize, u64)]| changes.iter().for_each(|&(place, number)| numbers[place] = number);
    let mut s = Scene::new(tally, "PCH: refusals");
    s.pch(1_000, pch_first(VGCS)).told(&[4]);
    for (changes, refusal) in rows {
        let mut numbers = pch_first(VGCS).numbers();
        set(&mut numbers, changes);
        s.event(1_001, Event::Pch(numbers.clone())).refuses(*refusal);
        s.event(999, Event::Pch(numbers)).refuses(9);
    }
    // Each bit of the reference and of the service flag; a bit beyond the 36; the cipher key number against the mark.
    for bit in (8..37).chain([63]) {
        let mut numbers = pch_first(VGCS).numbers();
        numbers[REFERENCE] ^= 1 << bit;
        s.event(1_001, Event::Pch(numbers)).refuses(12);
    }
    let mut numbers = PchDraft::of(clear(VGCS).on(HERE)).numbers();
    numbers[CIPHERED] = 1;
    s.event(1_001, Event::Pch(numbers)).refuses(12);
    for length in [0, 13, 15] {
        s.event(1_001, Event::Pch(vec![u64::MAX; length])).refuses(13);
        // 01: 9 before the rest of an event; only the state's own length goes before it.
        s.event(999, Event::Pch(vec![u64::MAX; length])).refuses(9);
    }
    // None of these took time, dropped a half or was told.
    s.pch(3_999, pch_second(VGCS, 7)).told(&[3]);

    let mut s = Scene::new(tally, "PCH: what stands behind a flag of 0, or what the branch does not use, is not looked at");
    let most = u64::MAX;
    let behind_nothing: [(PchDraft, &[(usize, u64)], u64); 4] = [
        (pch_reduced(VGCS, 7), &[(3, most), (5, most), (6, most), (7, most), (8, most), (9, most), (13, most)], 4),
        (pch_first(VGCS), &[(7, most), (8, most), (9, most), (11, most), (13, most)], 3),
        (PchDraft::of(clear(VGCS).on(HOPPING)), &[(8, most), (11, most), (13, most)], 1),
        (PchDraft::of(clear(VGCS)), &[(5, HOPPING), (6, 1), (8, 9), (11, most), (13, most)], 6),
    ];
    for (draft, changes, told) in behind_nothing {
        let mut numbers = draft.numbers();
        set(&mut numbers, changes);
        s.event(1_000, Event::Pch(numbers)).told(&[told]);
        if told == 1 {
            s.has(&[(0, 31, 0), (0, SHORT_LIST, 1), (0, RAND_GIVEN, 0), (0, VSTK_RAND, 0), (0, COUNTED, 0), (0, CELL_GLOBAL_COUNT, 0)]);
        }
        if told == 3 {
            s.has(&[(0, 13, 0), (0, SHORT_LIST, 0), (0, 31, 0), (0, FREQUENCIES, 0), (0, VSTK_RAND, 7), (0, COUNTED, 0)]);
        }
    }
}
