//! NT/N Rest Octets (source 000, 10.5.2.22c): the reader and the writer.

use crate::bits::*;
use crate::call::*;
use crate::numbers::Numbers;

pub const OCTETS: usize = 20;
/// Numbers of an array: the bits used, which only a reader says, and the record behind them.
pub const NUMBERS: usize = 106;

#[derive(Clone, Debug, PartialEq)]
pub struct Reduced {
    pub reference: u64,
    pub vgcs: bool,
}

#[derive(Clone, Debug, PartialEq)]
pub struct RandomEntry {
    pub segment_id: bool,
    pub vstk_rand: Option<u64>,
}

#[derive(Clone, Debug, PartialEq)]
pub struct Release6 {
    pub cell_global_count: Option<u64>,
    pub reduced: Vec<Reduced>,
    pub random: Vec<RandomEntry>,
}

/// The two AMR parts, each with its own flag.
#[derive(Clone, Copy, Debug, PartialEq)]
pub struct Amr {
    pub fr: Option<u64>,
    pub hr: Option<u64>,
}

#[derive(Clone, Copy, Debug, PartialEq)]
pub struct Sms {
    pub confidentiality: bool,
    pub privacy: bool,
}

#[derive(Clone, Debug, PartialEq)]
pub struct Release7 {
    pub marks: Vec<bool>,
    pub uplink_access: Option<u64>,
    pub amr: Option<Amr>,
    pub sms: Option<Sms>,
}

#[derive(Clone, Debug, PartialEq)]
pub struct Nch {
    pub nln: Option<u64>,
    pub calls: Vec<Call>,
    pub release6: Option<Release6>,
    pub release7: Option<Release7>,
}

impl Nch {
    pub fn reduced(&self) -> &[Reduced] {
        self.release6.as_ref().map_or(&[], |six| &six.reduced)
    }

    pub fn random(&self) -> &[RandomEntry] {
        self.release6.as_ref().map_or(&[], |six| &six.random)
    }

    pub fn marks(&self) -> &[bool] {
        self.release7.as_ref().map_or(&[], |seven| &seven.marks)
    }

    /// Ciphered calls, and all reduced references.
    fn ciphered(&self) -> usize {
        self.calls.iter().filter(|call| call.is_ciphered()).count() + self.reduced().len()
    }

    fn described(&self) -> usize {
        self.calls.iter().filter(|call| call.description.is_some()).count()
    }

    /// Refusals 6 and 7, in this order, over the whole message.
    fn lists_agree(&self) -> Result<(), Refusal> {
        if self.random().len() > self.ciphered() {
            return Err(RANDOM_ENTRIES);
        }
        if self.marks().len() > self.described() {
            return Err(EMERGENCY_MARKS);
        }
        Ok(())
    }

    /// The bits used and the record in the header's order, all its places.
    pub fn numbers(&self, used: usize) -> Vec<u64> {
        let mut numbers = vec![0; NUMBERS];
        numbers[0] = used as u64;
        let announced = |value: Option<u64>| (u64::from(value.is_some()), value.unwrap_or(0));
        (numbers[1], numbers[2]) = announced(self.nln);
        numbers[3] = self.calls.len() as u64;
        for (i, call) in self.calls.iter().enumerate() {
            numbers[4 + CALL_NUMBERS * i..][..CALL_NUMBERS].copy_from_slice(&call.numbers());
        }
        if let Some(six) = &self.release6 {
            numbers[48] = 1;
            (numbers[49], numbers[50]) = announced(six.cell_global_count);
            numbers[51] = six.reduced.len() as u64;
            for (i, reduced) in six.reduced.iter().enumerate() {
                numbers[52 + 2 * i] = reduced.reference;
                numbers[53 + 2 * i] = u64::from(reduced.vgcs);
            }
            numbers[62] = six.random.len() as u64;
            for (i, entry) in six.random.iter().enumerate() {
                numbers[63 + 3 * i] = u64::from(entry.segment_id);
                (numbers[64 + 3 * i], numbers[65 + 3 * i]) = announced(entry.vstk_rand);
            }
        }
        if let Some(seven) = &self.release7 {
            numbers[90] = 1;
            numbers[91] = seven.marks.len() as u64;
            for (i, mark) in seven.marks.iter().enumerate() {
                numbers[92 + i] = u64::from(*mark);
            }
            (numbers[96], numbers[97]) = announced(seven.uplink_access);
            if let Some(amr) = seven.amr {
                numbers[98] = 1;
                (numbers[99], numbers[100]) = announced(amr.fr);
                (numbers[101], numbers[102]) = announced(amr.hr);
            }
            if let Some(sms) = seven.sms {
                numbers[103] = 1;
                numbers[104] = u64::from(sms.confidentiality);
                numbers[105] = u64::from(sms.privacy);
            }
        }
        numbers
    }
}

fn read_release6(r: &mut Reader) -> Result<Release6, Refusal> {
    let cell_global_count = r.optional(2)?;
    let mut reduced = Vec::new();
    while r.flag()? {
        let bits = r.number(28)?;
        if bits >> 1 > LAST_REFERENCE {
            return Err(REFERENCE);
        }
        reduced.push(Reduced { reference: bits >> 1, vgcs: bits & 1 == 1 });
    }
    let mut random = Vec::new();
    while r.flag()? {
        random.push(RandomEntry { segment_id: r.flag()?, vstk_rand: r.optional(36)? });
    }
    Ok(Release6 { cell_global_count, reduced, random })
}

fn read_release7(r: &mut Reader) -> Result<Release7, Refusal> {
    let mut marks = Vec::new();
    while r.flag()? {
        marks.push(r.flag()?);
    }
    let uplink_access = r.optional(1)?;
    let amr = if r.flag()? { Some(Amr { fr: r.optional(4)?, hr: r.optional(4)? }) } else { None };
    let sms = if r.flag()? { Some(Sms { confidentiality: r.flag()?, privacy: r.flag()? }) } else { None };
    Ok(Release7 { marks, uplink_access, amr, sms })
}

/// The message and the number of bits used.
pub fn read(octets: &[u8]) -> Result<(Nch, usize), Refusal> {
    if octets.len() != OCTETS {
        return Err(MESSAGE_LENGTH);
    }
    let mut r = Reader::new(octets, 0);
    let nln = r.optional(2)?;
    let mut calls = Vec::new();
    while r.flag()? {
        calls.push(Call::read(&mut r)?);
    }
    let release6 = if r.release(RAN_OUT_6)? { Some(read_release6(&mut r)?) } else { None };
    let release7 = if r.release(RAN_OUT_7)? { Some(read_release7(&mut r)?) } else { None };
    let message = Nch { nln, calls, release6, release7 };
    message.lists_agree()?;
    Ok((message, r.place))
}

/// The record that the numbers stand for; nothing where one is out of its range (12). The bits used are not looked at.
fn from_numbers(numbers: &[u64]) -> Option<Nch> {
    let mut n = Numbers::new(&numbers[1..]);
    let nln = n.optional(true, 3);
    let count = n.up_to(4);
    let calls = list(&mut n, count, 4, CALL_NUMBERS, Call::from_numbers);

    let six = n.flag();
    let cell_global_count = n.optional(six, 3);
    let count = n.absent_unless(six, 5);
    let reduced = list(&mut n, count, 5, 2, |n| Reduced { reference: n.up_to((1 << 27) - 1), vgcs: n.flag() });
    let count = n.absent_unless(six, 9);
    let random = list(&mut n, count, 9, 3, |n| RandomEntry { segment_id: n.flag(), vstk_rand: n.optional(true, (1 << 36) - 1) });
    let release6 = six.then_some(Release6 { cell_global_count, reduced, random });

    let seven = n.flag();
    let count = n.absent_unless(seven, 4);
    let marks = list(&mut n, count, 4, 1, |n| n.flag());
    let uplink_access = n.optional(seven, 1);
    let amr = n.absent_unless(seven, 1) == 1;
    let parts = Amr { fr: n.optional(amr, 15), hr: n.optional(amr, 15) };
    let sms = n.absent_unless(seven, 1) == 1;
    let bits = Sms { confidentiality: n.absent_unless(sms, 1) == 1, privacy: n.absent_unless(sms, 1) == 1 };
    let release7 = seven.then_some(Release7 { marks, uplink_access, amr: amr.then_some(parts), sms: sms.then_some(bits) });

    n.in_range.then_some(Nch { nln, calls, release6, release7 })
}

/// A list of `count` entries in `places` places of `width` numbers each.
fn list<T>(n: &mut Numbers, count: u64, places: usize, width: usize, entry: impl Fn(&mut Numbers) -> T) -> Vec<T> {
    let count = count as usize;
    let entries = (0..count).map(|_| entry(n)).collect();
    n.unused((places - count) * width);
    entries
}

fn form(message: &Nch) -> Writer {
    let mut w = Writer::default();
    w.optional(message.nln, 2);
    for call in &message.calls {
        w.flag(true);
        call.write(&mut w);
    }
    w.flag(false);
    w.release(message.release6.is_some(), 8 * OCTETS);
    if let Some(six) = &message.release6 {
        w.optional(six.cell_global_count, 2);
        for reduced in &six.reduced {
            w.flag(true);
            w.number(reduced.reference, 27);
            w.flag(reduced.vgcs);
        }
        w.flag(false);
        for entry in &six.random {
            w.flag(true);
            w.flag(entry.segment_id);
            w.optional(entry.vstk_rand, 36);
        }
        w.flag(false);
    }
    w.release(message.release7.is_some(), 8 * OCTETS);
    if let Some(seven) = &message.release7 {
        for mark in &seven.marks {
            w.flag(true);
            w.flag(*mark);
        }
        w.flag(false);
        w.optional(seven.uplink_access, 1);
        w.flag(seven.amr.is_some());
        if let Some(amr) = seven.amr {
            w.optional(amr.fr, 4);
            w.optional(amr.hr, 4);
        }
        w.flag(seven.sms.is_some());
        if let Some(sms) = seven.sms {
            w.flag(sms.confidentiality);
            w.flag(sms.privacy);
        }
    }
    w
}

/// Writes into the lent octets, or leaves them untouched and refuses.
pub fn write(numbers: &[u64], octets: &mut [u8]) -> Result<(), Refusal> {
    if numbers.len() != NUMBERS {
        return Err(LENGTH);
    }
    let message = from_numbers(numbers).ok_or(RANGE)?;
    let descriptions = || message.calls.iter().filter_map(|call| call.description.as_ref());
    let references = message.calls.iter().map(|call| call.reference).chain(message.reduced().iter().map(|reduced| reduced.reference));
    if references.into_iter().any(|reference| reference > LAST_REFERENCE) {
        return Err(REFERENCE);
    }
    if !descriptions().all(|description| description.length_is_right()) {
        return Err(ALLOCATION_LENGTH);
    }
    if !descriptions().all(|description| description.hopping_agrees()) {
        return Err(HOPPING);
    }
    message.lists_agree()?;
    let form = form(&message);
    if form.length() > 8 * OCTETS || octets.len() != OCTETS {
        return Err(FORM_SIZE);
    }
    octets.copy_from_slice(&form.octets(OCTETS));
    Ok(())
}
