//! Bits of a message: numbered from 0, the top bit of the first octet. And the refusal numbers, which everything here shares.

/// A refusal as a result of the library has it: the number of document 01 in the low octet; above it, with 2, 14 and 15, the bit number
/// where the missing field begins (document 02, §1).
pub type Refusal = u32;

pub fn number_of(refusal: Refusal) -> u32 {
    refusal & 255
}

pub fn bit_of(refusal: Refusal) -> u32 {
    refusal >> 8
}

/// `number` is 2, 14 or 15.
pub fn missing(number: Refusal, bit: usize) -> Refusal {
    number | (bit as u32) << 8
}

pub const MESSAGE_LENGTH: Refusal = 1;
pub const RAN_OUT: Refusal = 2;
pub const ALLOCATION_LENGTH: Refusal = 3;
pub const REFERENCE: Refusal = 4;
pub const HOPPING: Refusal = 5;
pub const RANDOM_ENTRIES: Refusal = 6;
pub const EMERGENCY_MARKS: Refusal = 7;
pub const IDENTITY_LENGTH: Refusal = 8;
pub const CLOCK: Refusal = 9;
pub const SETUP: Refusal = 10;
pub const FORM_SIZE: Refusal = 11;
pub const RANGE: Refusal = 12;
pub const LENGTH: Refusal = 13;
/// Bits ran out inside Release 6, and inside Release 7; before them it is RAN_OUT.
pub const RAN_OUT_6: Refusal = 14;
pub const RAN_OUT_7: Refusal = 15;
/// What a yard set does not take.
pub const NOT_FOR_YARD: Refusal = 19;

/// References have eight decimal digits.
pub const LAST_REFERENCE: u64 = 99_999_999;

/// The bit of octet 2B hex at a place of the message.
pub fn padding_bit(place: usize) -> u8 {
    (0x2B >> (7 - place % 8)) & 1
}

/// A message and a place in it, and the number for bits that are missing there.
pub struct Reader<'a> {
    message: &'a [u8],
    pub place: usize,
    ran_out: Refusal,
}

impl<'a> Reader<'a> {
    pub fn new(message: &'a [u8], place: usize) -> Self {
        Reader { message, place, ran_out: RAN_OUT }
    }

    fn size(&self) -> usize {
        8 * self.message.len()
    }

    fn bit(&mut self) -> Result<u8, Refusal> {
        if self.place >= self.size() {
            return Err(missing(self.ran_out, self.place));
        }
        let bit = (self.message[self.place / 8] >> (7 - self.place % 8)) & 1;
        self.place += 1;
        Ok(bit)
    }

    /// A field of up to 64 bits, top bit first. It is there whole, or missing from its first bit on.
    pub fn number(&mut self, width: usize) -> Result<u64, Refusal> {
        let mut value = 0;
        if self.place + width > self.size() {
            return Err(missing(self.ran_out, self.place));
        }
        for _ in 0..width {
            value = (value << 1) | u64::from(self.bit()?);
        }
        Ok(value)
    }

    /// So many octets, which are one field.
    pub fn octets(&mut self, count: usize) -> Result<Vec<u8>, Refusal> {
        if self.place + 8 * count > self.size() {
            return Err(missing(self.ran_out, self.place));
        }
        (0..count).map(|_| Ok(self.number(8)? as u8)).collect()
    }

    pub fn flag(&mut self) -> Result<bool, Refusal> {
        Ok(self.bit()? == 1)
    }

    /// A field that a flag announces.
    pub fn optional(&mut self, width: usize) -> Result<Option<u64>, Refusal> {
        Ok(if self.flag()? { Some(self.number(width)?) } else { None })
    }

    /// H is the inverse of the padding bit at its own place, L the padding bit.
    pub fn high(&mut self) -> Result<bool, Refusal> {
        let low = padding_bit(self.place);
        Ok(self.bit()? != low)
    }

    /// Whether a release's additions follow: nothing (all bits are used) and L say no, H says yes. From the bit behind the H on, what is
    /// missing has a number of its own.
    pub fn release(&mut self, ran_out: Refusal) -> Result<bool, Refusal> {
        if self.place == self.size() {
            return Ok(false);
        }
        let follows = self.high()?;
        if follows {
            self.ran_out = ran_out;
        }
        Ok(follows)
    }
}

/// Bits to be written, one number each.
#[derive(Default)]
pub struct Writer {
    bits: Vec<u8>,
}

impl Writer {
    pub fn length(&self) -> usize {
        self.bits.len()
    }

    pub fn number(&mut self, value: u64, width: usize) {
        for place in (0..width).rev() {
            self.bits.push((value >> place & 1) as u8);
        }
    }

    pub fn flag(&mut self, flag: bool) {
        self.bits.push(u8::from(flag));
    }

    /// H where it is so, L where it is not.
    pub fn high(&mut self, high: bool) {
        let low = padding_bit(self.bits.len());
        self.bits.push(if high { 1 - low } else { low });
    }

    pub fn optional(&mut self, value: Option<u64>, width: usize) {
        self.flag(value.is_some());
        if let Some(value) = value {
            self.number(value, width);
        }
    }

    /// H before a release's additions, L where there are none and a bit is left for it.
    pub fn release(&mut self, follows: bool, size: usize) {
        let low = padding_bit(self.bits.len());
        if follows {
            self.bits.push(1 - low);
        } else if self.bits.len() < size {
            self.bits.push(low);
        }
    }

    /// The bits as octets, filled up with padding.
    pub fn octets(mut self, count: usize) -> Vec<u8> {
        while self.bits.len() < 8 * count {
            self.bits.push(padding_bit(self.bits.len()));
        }
        self.bits.chunks(8).map(|bits| bits.iter().fold(0, |octet, bit| octet << 1 | bit)).collect()
    }
}
