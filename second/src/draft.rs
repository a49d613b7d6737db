//! Drafts of messages, laid out bit by bit from the grammar, and a generator for them.
//!
//! A draft knows its octets and its numbers without asking the readers and writers of this program, so it can be held against both sides.

use crate::rng::Rng;

/// Octet 2B hex, bit by bit.
const PADDING: [u8; 8] = [0, 0, 1, 0, 1, 0, 1, 1];

/// The bits of a form, and where its fields begin, each with the number that it is refused with where it is missing. The bit that leads a
/// release may be missing: it has the release's own number, 6 or 7.
#[derive(Clone, Default)]
pub struct Bits(pub Vec<u8>, Vec<(usize, u32)>, Part);

#[derive(Clone, Copy, Default)]
enum Part {
    #[default]
    Before,
    Six,
    Seven,
}

impl Bits {
    fn begin(&mut self, refusal: u32) {
        self.1.push((self.0.len(), refusal));
    }

    fn begin_field(&mut self) {
        self.begin(match self.2 {
            Part::Before => 2,
            Part::Six => 14,
            Part::Seven => 15,
        });
    }

    /// The bit that leads a release: its additions follow, or not.
    fn lead(&mut self, part: Part, follow: bool) {
        self.begin(if matches!(part, Part::Seven) { 7 } else { 6 });
        self.2 = part;
        if follow {
            self.high();
        } else {
            self.low();
        }
    }

    /// Where the first `size` bits of this form alone are there: the field that is then missing, its first bit and its number.
    pub fn cut(&self, size: usize) -> Option<(usize, u32)> {
        let ends = self.1.iter().skip(1).map(|next| next.0).chain([self.0.len()]);
        self.1.iter().zip(ends).find(|(_, end)| *end > size).map(|(field, _)| *field)
    }

    fn put(&mut self, value: u64, width: usize) {
        self.begin_field();
        self.more(value, width);
    }

    /// More bits of the same field.
    fn more(&mut self, value: u64, width: usize) {
        for i in 0..width {
            self.0.push((value >> (width - 1 - i)) as u8 & 1);
        }
    }

    fn one(&mut self) {
        self.put(1, 1);
    }

    fn zero(&mut self) {
        self.put(0, 1);
    }

    fn maybe(&mut self, value: Option<u64>, width: usize) {
        match value {
            None => self.zero(),
            Some(value) => {
                self.one();
                self.put(value, width);
            }
        }
    }

    fn low(&mut self) {
        self.0.push(PADDING[self.0.len() % 8]);
    }

    fn high(&mut self) {
        self.0.push(1 - PADDING[self.0.len() % 8]);
    }

    fn coded(&mut self, bit: u64) {
        self.begin_field();
        if bit == 1 {
            self.high()
        } else {
            self.low()
        }
    }

    pub fn octets(&self, octets: usize) -> Vec<u8> {
        octets_of_bits(&self.0, octets)
    }
}

/// At least `octets` octets, filled up with padding.
pub fn octets_of_bits(bits: &[u8], octets: usize) -> Vec<u8> {
    let mut bits = bits.to_vec();
    while bits.len() < 8 * octets || !bits.len().is_multiple_of(8) {
        bits.push(PADDING[bits.len() % 8]);
    }
    bits.chunks(8).map(|eight| (0..8).map(|i| eight[i] << (7 - i)).sum()).collect()
}

#[derive(Clone, Debug)]
pub enum Hops {
    No,
    Allocation(u64, u64),
    List(u64),
}

#[derive(Clone, Debug)]
pub struct CallDraft {
    pub reference: u64,
    pub service: u64,
    pub acknowledged: u64,
    pub priority: u64,
    pub cipher: u64,
    /// The 24 bits and the frequencies.
    pub description: Option<(u64, Hops)>,
}

impl CallDraft {
    /// A call as a scenario needs it: reference, service flag and key number, not described.
    pub fn plain(key: u32, cipher: u64) -> CallDraft {
        CallDraft { reference: u64::from(key / 2), service: u64::from(key % 2), acknowledged: 0, priority: 1, cipher, description: None }
    }

    pub fn on(mut self, channel: u64) -> CallDraft {
        let hops = if channel & 0x1000 == 0 { Hops::No } else { Hops::List(0x0123_4567_89AB_CDEF) };
        self.description = Some((channel, hops));
        self
    }

    fn lay(&self, bits: &mut Bits) {
        bits.put(self.reference, 27);
        bits.more(self.service, 1);
        bits.more(self.acknowledged, 1);
        bits.more(self.priority, 3);
        bits.more(self.cipher, 4);
        let Some((channel, hops)) = &self.description else { return bits.zero() };
        bits.one();
        bits.put(*channel, 24);
        match hops {
            Hops::No => bits.zero(),
            Hops::Allocation(length, octets) => {
                bits.one();
                bits.zero();
                bits.put(*length, 8);
                bits.begin_field();
                for i in (0..*length).rev() {
                    bits.more(if i < 8 { octets >> (8 * i) } else { 0 }, 8);
                }
            }
            Hops::List(list) => {
                bits.one();
                bits.one();
                bits.put(*list, 64);
            }
        }
    }

    fn numbers(&self) -> Vec<u64> {
        let mut numbers = vec![self.reference, self.service, self.acknowledged, self.priority, self.cipher];
        numbers.extend(match &self.description {
            None => [0, 0, 0, 0, 0, 0],
            Some((channel, Hops::No)) => [1, *channel, 0, 0, 0, 0],
            Some((channel, Hops::Allocation(length, octets))) => [1, *channel, 1, 0, *length, *octets],
            Some((channel, Hops::List(list))) => [1, *channel, 1, 1, 0, *list],
        });
        numbers
    }
}

#[derive(Clone, Debug, Default)]
pub struct SixDraft {
    pub count: Option<u64>,
    pub reduced: Vec<(u64, u64)>,
    pub random: Vec<(u64, Option<u64>)>,
}

#[derive(Clone, Debug, Default)]
pub struct SevenDraft {
    pub marks: Vec<u64>,
    pub uplink: Option<u64>,
    pub amr: Option<(Option<u64>, Option<u64>)>,
    pub sms: Option<(u64, u64)>,
}

#[derive(Clone, Debug, Default)]
pub struct NchDraft {
    pub nln: Option<u64>,
    pub calls: Vec<CallDraft>,
    pub six: Option<SixDraft>,
    pub seven: Option<SevenDraft>,
}

impl NchDraft {
    pub fn bits(&self) -> Bits {
        let mut bits = Bits::default();
        bits.maybe(self.nln, 2);
        for call in &self.calls {
            bits.one();
            call.lay(&mut bits);
        }
        bits.zero();
        match &self.six {
            None if bits.0.len() == 160 && self.seven.is_none() => return bits,
            None => bits.lead(Part::Six, false),
            Some(six) => {
                bits.lead(Part::Six, true);
                bits.maybe(six.count, 2);
                for (reference, service) in &six.reduced {
                    bits.one();
                    bits.put(reference << 1 | service, 28);
                }
                bits.zero();
                for (segment, vstk_rand) in &six.random {
                    bits.one();
                    bits.put(*segment, 1);
                    bits.maybe(*vstk_rand, 36);
                }
                bits.zero();
            }
        }
        match &self.seven {
            None if bits.0.len() == 160 => return bits,
            None => bits.lead(Part::Seven, false),
            Some(seven) => {
                bits.lead(Part::Seven, true);
                for mark in &seven.marks {
                    bits.one();
                    bits.put(*mark, 1);
                }
                bits.zero();
                bits.maybe(seven.uplink, 1);
                match seven.amr {
                    None => bits.zero(),
                    Some((fr, hr)) => {
                        bits.one();
                        bits.maybe(fr, 4);
                        bits.maybe(hr, 4);
                    }
                }
                match seven.sms {
                    None => bits.zero(),
                    Some((confidentiality, privacy)) => {
                        bits.one();
                        bits.put(confidentiality, 1);
                        bits.put(privacy, 1);
                    }
                }
            }
        }
        bits
    }

    pub fn octets(&self) -> Vec<u8> {
        self.bits().octets(20)
    }

    /// The bits used and the numbers of the record in the header's order, where all lists fit in their places.
    pub fn numbers(&self) -> Option<Vec<u64>> {
        let pair = |value: Option<u64>| [u64::from(value.is_some()), value.unwrap_or(0)];
        let mut numbers = vec![self.bits().0.len() as u64];
        numbers.extend(pair(self.nln));
        numbers.push(self.calls.len() as u64);
        for call in &self.calls {
            numbers.extend(call.numbers());
        }
        let up_to = |numbers: &mut Vec<u64>, length: usize| {
            let fits = numbers.len() <= length;
            numbers.resize(length, 0);
            fits
        };
        let mut fits = up_to(&mut numbers, 48);
        if let Some(six) = &self.six {
            numbers.push(1);
            numbers.extend(pair(six.count));
            numbers.push(six.reduced.len() as u64);
            numbers.extend(six.reduced.iter().flat_map(|(reference, service)| [*reference, *service]));
            fits &= up_to(&mut numbers, 62);
            numbers.push(six.random.len() as u64);
            for (segment, vstk_rand) in &six.random {
                numbers.push(*segment);
                numbers.extend(pair(*vstk_rand));
            }
        }
        fits &= up_to(&mut numbers, 90);
        if let Some(seven) = &self.seven {
            numbers.push(1);
            numbers.push(seven.marks.len() as u64);
            numbers.extend(&seven.marks);
            fits &= up_to(&mut numbers, 96);
            numbers.extend(pair(seven.uplink));
            numbers.push(u64::from(seven.amr.is_some()));
            let (fr, hr) = seven.amr.unwrap_or_default();
            numbers.extend(pair(fr));
            numbers.extend(pair(hr));
            numbers.push(u64::from(seven.sms.is_some()));
            let (confidentiality, privacy) = seven.sms.unwrap_or_default();
            numbers.extend([confidentiality, privacy]);
        }
        fits &= up_to(&mut numbers, 106);
        fits.then_some(numbers)
    }
}

/// Paging Information. The length octet may say another length than the identity has.
#[derive(Clone, Debug)]
pub struct PageDraft {
    pub length: u64,
    pub identity: Vec<u8>,
    pub channel_first: u64,
    pub priority: Option<u64>,
}

impl PageDraft {
    pub fn of(identity: &[u8]) -> PageDraft {
        PageDraft { length: identity.len() as u64, identity: identity.to_vec(), channel_first: 0, priority: None }
    }

    /// A length that is no length of an identity is refused behind its octet, whatever follows.
    pub fn is_right(&self) -> bool {
        self.length >= 1 && self.length <= 9
    }

    fn lay(&self, bits: &mut Bits) {
        bits.put(self.length, 8);
        if !self.identity.is_empty() {
            bits.begin_field();
        }
        for octet in &self.identity {
            bits.more(u64::from(*octet), 8);
        }
        bits.put(self.channel_first, 2);
        bits.maybe(self.priority, 3);
    }

    fn numbers(&self) -> Vec<u64> {
        let others = self.identity.iter().skip(1).fold(0u64, |number, octet| number.wrapping_mul(256) + u64::from(*octet));
        let first = self.identity.first().copied().unwrap_or(0);
        vec![self.length, u64::from(first), others, self.channel_first, u64::from(self.priority.is_some()), self.priority.unwrap_or(0)]
    }
}

/// What a FACCH message speaks of.
#[derive(Clone, Debug)]
pub enum Subject {
    Call(CallDraft),
    Page(PageDraft),
}

/// Count with B22, VSTK_RAND.
type FacchSix = (Option<(u64, u64)>, Option<u64>);
/// Priority Uplink Access, emergency, Paging Cause.
type FacchSeven = (u64, u64, Option<u64>);

#[derive(Clone, Debug)]
pub struct FacchDraft {
    pub first_octet: u64,
    pub subject: Subject,
    pub six: Option<FacchSix>,
    pub seven: Option<FacchSeven>,
    /// Where both releases may be told by nothing: as few octets as the call takes.
    pub short: bool,
}

impl FacchDraft {
    pub fn of(call: CallDraft) -> FacchDraft {
        FacchDraft::about(Subject::Call(call))
    }

    pub fn page(page: PageDraft) -> FacchDraft {
        FacchDraft::about(Subject::Page(page))
    }

    fn about(subject: Subject) -> FacchDraft {
        FacchDraft { first_octet: 4, subject, six: None, seven: None, short: false }
    }

    /// With a Paging Cause, and L in the two bits before it.
    pub fn cause(mut self, cause: u64) -> FacchDraft {
        self.seven = Some((0, 0, Some(cause)));
        self
    }

    pub fn rand(mut self, vstk_rand: u64) -> FacchDraft {
        let count = self.six.and_then(|six| six.0);
        self.six = Some((count, Some(vstk_rand)));
        self
    }

    pub fn count(mut self, count: u64, b22: u64) -> FacchDraft {
        let vstk_rand = self.six.and_then(|six| six.1);
        self.six = Some((Some((count, b22)), vstk_rand));
        self
    }

    pub fn bits(&self) -> Bits {
        self.form(|bits| self.short && bits % 8 == 0)
    }

    /// What a writer must leave in so many octets; nothing where the form does not fit. The first octet is not the message's to say.
    pub fn written(&self, octets: usize) -> Option<Vec<u8>> {
        let draft = FacchDraft { first_octet: 0, ..self.clone() };
        let bits = draft.form(|bits| bits == 8 * octets);
        (bits.0.len() <= 8 * octets).then(|| bits.octets(octets))
    }

    /// `used_up` says of a number of bits whether a message ends there, so that an absent release is nothing.
    fn form(&self, used_up: impl Fn(usize) -> bool) -> Bits {
        let mut bits = Bits::default();
        bits.put(self.first_octet, 8);
        match &self.subject {
            Subject::Page(page) => {
                bits.one();
                page.lay(&mut bits);
            }
            Subject::Call(call) => {
                bits.zero();
                call.lay(&mut bits);
            }
        }
        if self.six.is_none() && self.seven.is_none() && used_up(bits.0.len()) {
            return bits;
        }
        match self.six {
            None => bits.lead(Part::Six, false),
            Some((count, vstk_rand)) => {
                bits.lead(Part::Six, true);
                match count {
                    None => bits.zero(),
                    Some((count, b22)) => {
                        bits.one();
                        bits.put(count, 2);
                        bits.put(b22, 1);
                    }
                }
                bits.maybe(vstk_rand, 36);
            }
        }
        if self.seven.is_none() && used_up(bits.0.len()) {
            return bits;
        }
        match self.seven {
            None => bits.lead(Part::Seven, false),
            Some((uplink, emergency, cause)) => {
                bits.lead(Part::Seven, true);
                bits.coded(uplink);
                bits.coded(emergency);
                bits.maybe(cause, 1);
            }
        }
        bits
    }

    pub fn octets(&self) -> Vec<u8> {
        self.bits().octets(if self.short { 2 } else { 23 })
    }

    pub fn numbers(&self) -> Vec<u64> {
        let mut numbers = vec![self.bits().0.len() as u64];
        match &self.subject {
            Subject::Call(call) => {
                numbers.push(0);
                numbers.extend(call.numbers());
                numbers.extend([0; 6]);
            }
            Subject::Page(page) => {
                numbers.push(1);
                numbers.extend([0; 11]);
                numbers.extend(page.numbers());
            }
        }
        match self.six {
            None => numbers.extend([0; 6]),
            Some((count, vstk_rand)) => {
                let (value, b22) = count.unwrap_or_default();
                numbers.extend([1, u64::from(count.is_some()), value, b22, u64::from(vstk_rand.is_some()), vstk_rand.unwrap_or(0)]);
            }
        }
        match self.seven {
            None => numbers.extend([0; 5]),
            Some((uplink, emergency, cause)) => {
                numbers.extend([1, uplink, emergency, u64::from(cause.is_some()), cause.unwrap_or(0)]);
            }
        }
        numbers
    }
}

/// An entry of the paging channel. Without the full reference, only the key of the call is told.
#[derive(Clone, Debug)]
pub struct PchDraft {
    pub call: CallDraft,
    pub full: bool,
    pub ciphered: bool,
    pub vstk_rand: Option<u64>,
    pub count: Option<u64>,
}

impl PchDraft {
    pub fn of(call: CallDraft) -> PchDraft {
        PchDraft { ciphered: call.cipher != 0, call, full: true, vstk_rand: None, count: None }
    }

    /// With its key alone, and marked as ciphered.
    pub fn reduced(key: u32) -> PchDraft {
        PchDraft { full: false, ..PchDraft::of(CallDraft::plain(key, 1)) }
    }

    pub fn rand(self, vstk_rand: u64) -> PchDraft {
        PchDraft { vstk_rand: Some(vstk_rand), ..self }
    }

    pub fn count(self, count: u64) -> PchDraft {
        PchDraft { count: Some(count), ..self }
    }

    /// The fourteen numbers in the header's order.
    pub fn numbers(&self) -> Vec<u64> {
        let call = &self.call;
        let mut reference = Bits::default();
        call.lay(&mut reference);
        let reference = reference.0[..36].iter().fold(0, |number, bit| number << 1 | u64::from(*bit));
        let pair = |value: Option<u64>| [u64::from(value.is_some()), value.unwrap_or(0)];
        let mut numbers = vec![2 * call.reference + call.service, u64::from(self.ciphered)];
        numbers.extend(pair(self.full.then_some(reference)));
        numbers.extend(&call.numbers()[5..]);
        numbers.extend(pair(self.vstk_rand));
        numbers.extend(pair(self.count));
        numbers
    }
}

/// What drafts are made of: any calls, or few, so that halves meet.
pub struct Pool {
    pub references: Vec<u64>,
}

impl Pool {
    pub fn wide() -> Pool {
        Pool { references: Vec::new() }
    }

    fn is_wide(&self) -> bool {
        self.references.is_empty()
    }

    pub fn reference(&self, rng: &mut Rng) -> u64 {
        if !self.is_wide() {
            return self.references[rng.below(self.references.len() as u64) as usize];
        }
        match rng.below(16) {
            0 => 99_999_999,
            1 => 0,
            2 => rng.below(100),
            _ => rng.below(100_000_000),
        }
    }

    pub fn call(&self, rng: &mut Rng) -> CallDraft {
        let wide = self.is_wide();
        CallDraft {
            reference: self.reference(rng),
            service: rng.below(2),
            // In a small pool the 36 bits must agree often, and now and then not.
            acknowledged: if wide { rng.below(2) } else { u64::from(rng.one_in(20)) },
            priority: if wide { rng.below(8) } else { 5 + u64::from(rng.one_in(20)) },
            cipher: if rng.one_in(4) {
                0
            } else if wide {
                rng.below(16)
            } else {
                3 + u64::from(rng.one_in(20))
            },
            description: if rng.one_in(2) { Some(Pool::description(rng)) } else { None },
        }
    }

    fn description(rng: &mut Rng) -> (u64, Hops) {
        let channel = rng.below(1 << 24);
        match rng.below(8) {
            0 => {
                let length = if rng.one_in(3) { 1 + rng.below(8) } else { 1 + rng.below(2) };
                let octets = if length == 8 { rng.next() } else { rng.below(1 << (8 * length)) };
                (channel | 0x1000, Hops::Allocation(length, octets))
            }
            1 => (channel | 0x1000, Hops::List(rng.next())),
            _ => (channel & !0x1000, Hops::No),
        }
    }

    /// An NCH draft with as much in it as may fit; its lists mostly agree, so that 6 and 7 are not the usual case.
    pub fn nch(&self, rng: &mut Rng) -> NchDraft {
        let nln = rng.one_in(2).then(|| rng.below(4));
        let calls: Vec<CallDraft> = match rng.below(8) {
            0 => Vec::new(),
            1 | 2 => (0..2).map(|_| self.call(rng)).collect(),
            3 => (0..3).map(|_| self.call(rng)).collect(),
            4 => (0..1 + rng.below(4)).map(|_| CallDraft { description: None, ..self.call(rng) }).collect(),
            _ => vec![self.call(rng)],
        };
        let used: usize = 5 + calls.iter().map(|call| call.numbers()[5] as usize * 25 + 38).sum::<usize>();
        let room = 160usize.saturating_sub(used);
        let six = (room > 8 && !rng.one_in(4)).then(|| self.six(rng, &calls, room - 5));
        let seven = rng.one_in(2).then(|| Pool::seven(rng, &calls));
        NchDraft { nln, calls, six, seven }
    }

    fn six(&self, rng: &mut Rng, calls: &[CallDraft], room: usize) -> SixDraft {
        let count = rng.one_in(2).then(|| rng.below(4));
        let most = if rng.one_in(2) { 0 } else { room / 29 };
        let reduced: Vec<(u64, u64)> = (0..rng.below(most as u64 + 1)).map(|_| (self.reference(rng), rng.below(2))).collect();
        let owners = calls.iter().filter(|call| call.cipher != 0).map(|call| call.description.is_some());
        let owners: Vec<bool> = owners.chain(reduced.iter().map(|_| false)).collect();
        let mut left = room as i64 - 29 * reduced.len() as i64;
        let mut random = Vec::new();
        for described in &owners {
            if rng.one_in(6) {
                break;
            }
            // Usually what fits the entry: a first half or one piece for a described call, a second half for another.
            let segment = if rng.one_in(8) { rng.below(2) } else { u64::from(!described) };
            let wanted = if *described { rng.one_in(2) } else { !rng.one_in(8) };
            let vstk_rand = (wanted && left >= 39).then(|| rng.below(1 << 36));
            left -= if vstk_rand.is_some() { 39 } else { 3 };
            random.push((segment, vstk_rand));
        }
        if rng.one_in(16) {
            // Refusal 6: an entry too many, or very many.
            let most = if rng.one_in(4) { 60 } else { 3 };
            random.extend((0..1 + rng.below(most)).map(|_| (rng.below(2), None)));
        }
        SixDraft { count, reduced, random }
    }

    fn seven(rng: &mut Rng, calls: &[CallDraft]) -> SevenDraft {
        let described = calls.iter().filter(|call| call.description.is_some()).count() as u64;
        // Refusal 7: marks too many, or very many.
        let most = if !rng.one_in(16) {
            described + 1
        } else if rng.one_in(4) {
            80
        } else {
            6
        };
        let count = rng.below(most);
        SevenDraft {
            marks: (0..count).map(|_| rng.below(2)).collect(),
            uplink: rng.one_in(2).then(|| rng.below(2)),
            amr: rng.one_in(2).then(|| (rng.one_in(2).then(|| rng.below(16)), rng.one_in(2).then(|| rng.below(16)))),
            sms: rng.one_in(2).then(|| (rng.below(2), rng.below(2))),
        }
    }

    /// Identities of every length, those of a TMSI and of an IMSI more often; now and then a length that none has, with octets or without.
    pub fn page(rng: &mut Rng) -> PageDraft {
        let length = match rng.below(12) {
            0 => 0,
            1 => 10 + rng.below(3),
            2 => rng.pick(&[13, 16, 64, 128, 200, 254, 255]),
            3 | 4 => 5,
            5 | 6 => 8,
            7 => 9,
            _ => 1 + rng.below(9),
        };
        let octets = if length > 9 && rng.one_in(2) { rng.below(10) } else { length.min(12) };
        let identity = rng.octets(octets as usize);
        PageDraft { length, identity, channel_first: rng.below(4), priority: rng.one_in(2).then(|| rng.below(8)) }
    }

    pub fn facch(&self, rng: &mut Rng) -> FacchDraft {
        // Where halves are to meet, it is a call.
        let page = self.is_wide() && rng.one_in(3);
        FacchDraft {
            first_octet: rng.below(256),
            subject: if page { Subject::Page(Pool::page(rng)) } else { Subject::Call(self.call(rng)) },
            six: rng.one_in(2).then(|| {
                let count = rng.one_in(2).then(|| (rng.below(4), rng.below(2)));
                (count, rng.one_in(2).then(|| rng.below(1 << 36)))
            }),
            seven: rng.one_in(2).then(|| (rng.below(2), rng.below(2), rng.one_in(3).then(|| rng.below(2)))),
            short: rng.one_in(2),
        }
    }

    pub fn pch(&self, rng: &mut Rng) -> PchDraft {
        let call = self.call(rng);
        let full = call.description.is_some() || !rng.one_in(3);
        PchDraft {
            ciphered: if full { call.cipher != 0 } else { !rng.one_in(4) },
            full,
            vstk_rand: rng.one_in(2).then(|| rng.below(1 << 36)),
            count: rng.one_in(2).then(|| rng.below(4)),
            call,
        }
    }
}
