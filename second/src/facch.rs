//! NOTIFICATION/FACCH (source 003, 9.1.21a): the reader and the writer (document 02, §7).

use crate::bits::*;
use crate::call::*;
use crate::numbers::Numbers;

pub const SHORTEST: usize = 2;
pub const LONGEST: usize = 23;
/// Numbers of an array: the bits used, which only a reader says, and the record behind them.
pub const NUMBERS: usize = 30;

/// The mobile identity: octets 2 to n of its information element, the length octet first.
#[derive(Clone, Debug, PartialEq)]
pub struct Identity {
    pub length: u64,
    pub first_octet: u64,
    /// The octets behind the first as one number, of which the first of them is the highest.
    pub other_octets: u64,
}

/// Paging Information.
#[derive(Clone, Debug, PartialEq)]
pub struct Page {
    pub identity: Identity,
    pub channel_first: u64,
    pub priority: Option<u64>,
}

#[derive(Clone, Debug, PartialEq)]
pub enum Notified {
    Call(Call),
    Page(Page),
}

#[derive(Clone, Debug, PartialEq)]
pub struct Count {
    pub cell_global_count: u64,
    pub b22_count: bool,
}

#[derive(Clone, Debug, PartialEq)]
pub struct Release6 {
    pub count: Option<Count>,
    pub vstk_rand: Option<u64>,
}

#[derive(Clone, Debug, PartialEq)]
pub struct Release7 {
    pub uplink_access: bool,
    pub emergency: bool,
    /// A call may have one too: it is kept, and means nothing there.
    pub paging_cause: Option<u64>,
}

#[derive(Clone, Debug, PartialEq)]
pub struct Facch {
    pub notified: Notified,
    pub release6: Option<Release6>,
    pub release7: Option<Release7>,
}

impl Identity {
    pub fn length_is_right(&self) -> bool {
        (1..=9).contains(&self.length)
    }

    fn read(r: &mut Reader) -> Result<Identity, Refusal> {
        let length = r.number(8)?;
        if !(1..=9).contains(&length) {
            return Err(IDENTITY_LENGTH);
        }
        let octets = r.octets(length as usize)?;
        let other_octets = octets[1..].iter().fold(0, |number, &octet| number << 8 | u64::from(octet));
        Ok(Identity { length, first_octet: u64::from(octets[0]), other_octets })
    }

    fn write(&self, w: &mut Writer) {
        w.number(self.length, 8);
        w.number(self.first_octet, 8);
        w.number(self.other_octets, 8 * (self.length as usize - 1));
    }
}

impl Page {
    fn read(r: &mut Reader) -> Result<Page, Refusal> {
        Ok(Page { identity: Identity::read(r)?, channel_first: r.number(2)?, priority: r.optional(3)? })
    }

    fn write(&self, w: &mut Writer) {
        self.identity.write(w);
        w.number(self.channel_first, 2);
        w.optional(self.priority, 3);
    }

    /// The page that six numbers stand for; `numbers` remembers what was out of range.
    fn from_numbers(numbers: &mut Numbers) -> Page {
        let length = numbers.up_to(255);
        // Length 0 holds no octet; behind 10 to 255 any octets are let through to refusal 8.
        let first_octet = numbers.absent_unless(length > 0, 255);
        let other_octets = numbers.up_to(match length {
            0 | 1 => 0,
            2..=8 => (1 << (8 * (length - 1))) - 1,
            _ => u64::MAX,
        });
        let identity = Identity { length, first_octet, other_octets };
        Page { identity, channel_first: numbers.up_to(3), priority: numbers.optional(true, 7) }
    }
}

/// How many numbers of a record are the page's.
const PAGE_NUMBERS: usize = 6;

impl Facch {
    pub fn count(&self) -> Option<&Count> {
        self.release6.as_ref()?.count.as_ref()
    }

    /// The bits used and the record in the header's order, all its places.
    pub fn numbers(&self, used: usize) -> Vec<u64> {
        let mut numbers = vec![0; NUMBERS];
        let announced = |value: Option<u64>| (u64::from(value.is_some()), value.unwrap_or(0));
        numbers[0] = used as u64;
        match &self.notified {
            Notified::Call(call) => numbers[2..13].copy_from_slice(&call.numbers()),
            Notified::Page(page) => {
                numbers[1] = 1;
                numbers[13] = page.identity.length;
                numbers[14] = page.identity.first_octet;
                numbers[15] = page.identity.other_octets;
                numbers[16] = page.channel_first;
                (numbers[17], numbers[18]) = announced(page.priority);
            }
        }
        if let Some(six) = &self.release6 {
            numbers[19] = 1;
            if let Some(count) = &six.count {
                numbers[20] = 1;
                numbers[21] = count.cell_global_count;
                numbers[22] = u64::from(count.b22_count);
            }
            (numbers[23], numbers[24]) = announced(six.vstk_rand);
        }
        if let Some(seven) = &self.release7 {
            numbers[25] = 1;
            numbers[26] = u64::from(seven.uplink_access);
            numbers[27] = u64::from(seven.emergency);
            (numbers[28], numbers[29]) = announced(seven.paging_cause);
        }
        numbers
    }
}

fn read_release6(r: &mut Reader) -> Result<Release6, Refusal> {
    let count = if r.flag()? { Some(Count { cell_global_count: r.number(2)?, b22_count: r.flag()? }) } else { None };
    Ok(Release6 { count, vstk_rand: r.optional(36)? })
}

fn read_release7(r: &mut Reader) -> Result<Release7, Refusal> {
    // 003 writes these two bits as L and H, unlike their namesakes on the NCH, and Paging Cause as 0 and 1.
    let uplink_access = r.high()?;
    let emergency = r.high()?;
    let paging_cause = r.optional(1)?;
    Ok(Release7 { uplink_access, emergency, paging_cause })
}

/// The message and the number of bits used, the first octet among them, which is not looked at.
pub fn read(octets: &[u8]) -> Result<(Facch, usize), Refusal> {
    if octets.len() < SHORTEST || octets.len() > LONGEST {
        return Err(MESSAGE_LENGTH);
    }
    let mut r = Reader::new(octets, 8);
    let paging = r.flag()?;
    let notified = if paging { Notified::Page(Page::read(&mut r)?) } else { Notified::Call(Call::read(&mut r)?) };
    let release6 = if r.release(RAN_OUT_6)? { Some(read_release6(&mut r)?) } else { None };
    let release7 = if r.release(RAN_OUT_7)? { Some(read_release7(&mut r)?) } else { None };
    Ok((Facch { notified, release6, release7 }, r.place))
}

/// The record that the numbers stand for; nothing where one is out of its range (12). The bits used are not looked at.
fn from_numbers(numbers: &[u64]) -> Option<Facch> {
    let mut n = Numbers::new(&numbers[1..]);
    let paging = n.flag();
    let notified = if paging {
        n.unused(CALL_NUMBERS);
        Notified::Page(Page::from_numbers(&mut n))
    } else {
        let call = Call::from_numbers(&mut n);
        n.unused(PAGE_NUMBERS);
        Notified::Call(call)
    };

    let six = n.flag();
    let counted = n.absent_unless(six, 1) == 1;
    let count = Count { cell_global_count: n.absent_unless(counted, 3), b22_count: n.absent_unless(counted, 1) == 1 };
    let vstk_rand = n.optional(six, (1 << 36) - 1);
    let release6 = six.then_some(Release6 { count: counted.then_some(count), vstk_rand });

    let seven = n.flag();
    let uplink_access = n.absent_unless(seven, 1) == 1;
    let emergency = n.absent_unless(seven, 1) == 1;
    let paging_cause = n.optional(seven, 1);
    let release7 = seven.then_some(Release7 { uplink_access, emergency, paging_cause });

    n.in_range.then_some(Facch { notified, release6, release7 })
}

/// The form in a buffer of so many bits: what a release that is absent comes to depends on whether that is used up.
fn form(message: &Facch, size: usize) -> Writer {
    let mut w = Writer::default();
    w.number(0, 8);
    match &message.notified {
        Notified::Call(call) => {
            w.flag(false);
            call.write(&mut w);
        }
        Notified::Page(page) => {
            w.flag(true);
            page.write(&mut w);
        }
    }
    w.release(message.release6.is_some(), size);
    if let Some(six) = &message.release6 {
        w.flag(six.count.is_some());
        if let Some(count) = &six.count {
            w.number(count.cell_global_count, 2);
            w.flag(count.b22_count);
        }
        w.optional(six.vstk_rand, 36);
    }
    w.release(message.release7.is_some(), size);
    if let Some(seven) = &message.release7 {
        w.high(seven.uplink_access);
        w.high(seven.emergency);
        w.optional(seven.paging_cause, 1);
    }
    w
}

/// Writes into the lent octets and says how many bits are used, or leaves them untouched and refuses.
pub fn write(numbers: &[u64], octets: &mut [u8]) -> Result<usize, Refusal> {
    if numbers.len() != NUMBERS {
        return Err(LENGTH);
    }
    let message = from_numbers(numbers).ok_or(RANGE)?;
    if let Notified::Call(call) = &message.notified {
        if call.reference > LAST_REFERENCE {
            return Err(REFERENCE);
        }
        if call.description.as_ref().is_some_and(|description| !description.length_is_right()) {
            return Err(ALLOCATION_LENGTH);
        }
    }
    if let Notified::Page(page) = &message.notified {
        if !page.identity.length_is_right() {
            return Err(IDENTITY_LENGTH);
        }
    }
    if let Notified::Call(call) = &message.notified {
        if call.description.as_ref().is_some_and(|description| !description.hopping_agrees()) {
            return Err(HOPPING);
        }
    }
    let size = 8 * octets.len();
    if octets.len() < SHORTEST || octets.len() > LONGEST {
        return Err(FORM_SIZE);
    }
    let form = form(&message, size);
    let used = form.length();
    if used > size {
        return Err(FORM_SIZE);
    }
    octets.copy_from_slice(&form.octets(size / 8));
    Ok(used)
}
