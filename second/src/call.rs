//! Group Call information (source 003, 9.1.21a): a call of 36 bits, perhaps with a channel description.

use crate::bits::*;
use crate::numbers::Numbers;

#[derive(Clone, Debug, PartialEq)]
pub enum Frequencies {
    NotHopping,
    Allocation { length: u64, octets: u64 },
    ShortList(u64),
}

#[derive(Clone, Debug, PartialEq)]
pub struct Description {
    pub channel: u64,
    pub frequencies: Frequencies,
}

#[derive(Clone, Debug, PartialEq)]
pub struct Call {
    pub reference: u64,
    pub vgcs: bool,
    pub acknowledged: bool,
    pub priority: u64,
    pub cipher_key_number: u64,
    pub description: Option<Description>,
}

pub const CALL_NUMBERS: usize = 11;

impl Description {
    fn hops(&self) -> bool {
        self.frequencies != Frequencies::NotHopping
    }

    /// Bit 11 of the 24, counted from the top.
    fn hopping_bit(&self) -> bool {
        self.channel >> 12 & 1 == 1
    }

    pub fn hopping_agrees(&self) -> bool {
        self.hops() == self.hopping_bit()
    }

    pub fn length_is_right(&self) -> bool {
        match self.frequencies {
            Frequencies::Allocation { length, .. } => (1..=8).contains(&length),
            _ => true,
        }
    }

    fn read(r: &mut Reader) -> Result<Description, Refusal> {
        let channel = r.number(24)?;
        let hops = r.flag()?;
        if hops != (channel >> 12 & 1 == 1) {
            return Err(HOPPING);
        }
        let frequencies = if !hops {
            Frequencies::NotHopping
        } else if r.flag()? {
            Frequencies::ShortList(r.number(64)?)
        } else {
            let length = r.number(8)?;
            if !(1..=8).contains(&length) {
                return Err(ALLOCATION_LENGTH);
            }
            Frequencies::Allocation { length, octets: r.number(8 * length as usize)? }
        };
        Ok(Description { channel, frequencies })
    }

    fn write(&self, w: &mut Writer) {
        w.number(self.channel, 24);
        w.flag(self.hops());
        match self.frequencies {
            Frequencies::NotHopping => {}
            Frequencies::Allocation { length, octets } => {
                w.flag(false);
                w.number(length, 8);
                w.number(octets, 8 * length as usize);
            }
            Frequencies::ShortList(list) => {
                w.flag(true);
                w.number(list, 64);
            }
        }
    }
}

impl Call {
    pub fn is_ciphered(&self) -> bool {
        self.cipher_key_number != 0
    }

    pub fn read(r: &mut Reader) -> Result<Call, Refusal> {
        let reference = r.number(36)?;
        let mut call = Call {
            reference: reference >> 9,
            vgcs: reference >> 8 & 1 == 1,
            acknowledged: reference >> 7 & 1 == 1,
            priority: reference >> 4 & 7,
            cipher_key_number: reference & 15,
            description: None,
        };
        if call.reference > LAST_REFERENCE {
            return Err(REFERENCE);
        }
        if r.flag()? {
            call.description = Some(Description::read(r)?);
        }
        Ok(call)
    }

    pub fn write(&self, w: &mut Writer) {
        w.number(self.reference, 27);
        w.flag(self.vgcs);
        w.flag(self.acknowledged);
        w.number(self.priority, 3);
        w.number(self.cipher_key_number, 4);
        w.flag(self.description.is_some());
        if let Some(description) = &self.description {
            description.write(w);
        }
    }

    /// The eleven numbers of a call in the header's order.
    pub fn numbers(&self) -> [u64; CALL_NUMBERS] {
        let mut numbers = [0; CALL_NUMBERS];
        numbers[0] = self.reference;
        numbers[1] = u64::from(self.vgcs);
        numbers[2] = u64::from(self.acknowledged);
        numbers[3] = self.priority;
        numbers[4] = self.cipher_key_number;
        if let Some(description) = &self.description {
            numbers[5] = 1;
            numbers[6] = description.channel;
            numbers[7] = u64::from(description.hops());
            match description.frequencies {
                Frequencies::NotHopping => {}
                Frequencies::Allocation { length, octets } => {
                    numbers[9] = length;
                    numbers[10] = octets;
                }
                Frequencies::ShortList(list) => {
                    numbers[8] = 1;
                    numbers[10] = list;
                }
            }
        }
        numbers
    }

    /// The call that eleven numbers stand for; `numbers` remembers what was out of range.
    pub fn from_numbers(numbers: &mut Numbers) -> Call {
        let reference = numbers.up_to((1 << 27) - 1);
        let vgcs = numbers.flag();
        let acknowledged = numbers.flag();
        let priority = numbers.up_to(7);
        let cipher_key_number = numbers.up_to(15);
        let described = numbers.flag();
        let channel = numbers.absent_unless(described, (1 << 24) - 1);
        let hops = numbers.absent_unless(described, 1) == 1;
        let short_list = numbers.absent_unless(hops, 1) == 1;
        let length = numbers.absent_unless(hops && !short_list, 255);
        // Length 0 holds no octet; behind 9 to 255 any octets are let through to refusal 3.
        let most = match length {
            _ if short_list => u64::MAX,
            0 => 0,
            1..=7 => (1 << (8 * length)) - 1,
            _ => u64::MAX,
        };
        let number = numbers.up_to(most);
        let frequencies = match (hops, short_list) {
            (false, _) => Frequencies::NotHopping,
            (true, false) => Frequencies::Allocation { length, octets: number },
            (true, true) => Frequencies::ShortList(number),
        };
        let description = described.then_some(Description { channel, frequencies });
        Call { reference, vgcs, acknowledged, priority, cipher_key_number, description }
    }
}
