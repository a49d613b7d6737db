//! Information elements of Group Call Control (source 004, clause 9): readers and writers.
//!
//! A reader gives the element's numbers in the header's order; a writer takes them and gives the octets of the form.

use crate::bits::*;

fn range(ok: bool) -> Result<(), Refusal> {
    if ok {
        Ok(())
    } else {
        Err(RANGE)
    }
}

/// Writers of octets take an array of exactly the record's length, and lent octets of exactly the form's size.
fn put(form: Vec<u8>, octets: &mut [u8]) -> Result<(), Refusal> {
    if octets.len() != form.len() {
        return Err(FORM_SIZE);
    }
    octets.copy_from_slice(&form);
    Ok(())
}

fn exactly(numbers: &[u64], count: usize) -> Result<(), Refusal> {
    if numbers.len() == count {
        Ok(())
    } else {
        Err(LENGTH)
    }
}

// Message type (9.3): bit 8 zero, bit 7 the send sequence number, the rest the type.

fn is_message_type(number: u64) -> bool {
    matches!(number, 0x31..=0x36 | 0x38..=0x3B)
}

pub fn read_message_type(octet: u8) -> Result<Vec<u64>, Refusal> {
    let kind = u64::from(octet & 0x3F);
    range(octet < 0x80 && is_message_type(kind))?;
    Ok(vec![u64::from(octet >> 6), kind])
}

pub fn write_message_type(numbers: &[u64]) -> Result<u8, Refusal> {
    exactly(numbers, 2)?;
    range(numbers[0] <= 1 && is_message_type(numbers[1]))?;
    Ok((numbers[0] << 6 | numbers[1]) as u8)
}

// Call reference (9.4.1): reference 27, flag, then priority 3 and spare 1, or spare 4.

pub fn read_call_reference(octets: &[u8]) -> Result<Vec<u64>, Refusal> {
    let octets: [u8; 4] = octets.try_into().map_err(|_| LENGTH)?;
    let bits = u64::from(u32::from_be_bytes(octets));
    let reference = bits >> 5;
    if reference > LAST_REFERENCE {
        return Err(REFERENCE);
    }
    let flag = bits >> 4 & 1;
    Ok(vec![reference, flag, if flag == 1 { bits >> 1 & 7 } else { 0 }])
}

pub fn write_call_reference(numbers: &[u64], octets: &mut [u8]) -> Result<(), Refusal> {
    exactly(numbers, 3)?;
    let (reference, flag, priority) = (numbers[0], numbers[1], numbers[2]);
    // Behind a 0 the priority is absent; behind a 1 the priority 0 is reserved and not written.
    let fits = match flag {
        0 => priority == 0,
        1 => (1..=7).contains(&priority),
        _ => false,
    };
    range(reference < 1 << 27 && fits)?;
    if reference > LAST_REFERENCE {
        return Err(REFERENCE);
    }
    let bits = reference << 5 | flag << 4 | priority << 1;
    put((bits as u32).to_be_bytes().to_vec(), octets)
}

// Call state (9.4.2), 0 to 11; 12 stands for every reserved one.

pub fn read_call_state(half: u8) -> Result<Vec<u64>, Refusal> {
    range(half <= 15)?;
    Ok(vec![u64::from(half.min(12))])
}

pub fn write_call_state(numbers: &[u64]) -> Result<u8, Refusal> {
    exactly(numbers, 1)?;
    range(numbers[0] <= 11)?;
    Ok(numbers[0] as u8)
}

// Cause (9.4.3): septets, each octet led by 1 if it is the last, then diagnostics.

/// What it means, in two numbers, which only a reader says; then septets and diagnostics, each with their number before them.
pub const CAUSE_NUMBERS: usize = 514;
const CAUSE_MOST: usize = 255;

/// The causes of table 9.4.
fn is_listed(cause: u64) -> bool {
    matches!(
        cause,
        3 | 5 | 6 | 8 | 9 | 10 | 16 | 17 | 20 | 22 | 23 | 24 | 30 | 32 | 33 | 34 | 38 | 48..=63 | 81 | 95..=100 | 112
    )
}

pub fn read_cause(octets: &[u8]) -> Result<Vec<u64>, Refusal> {
    if octets.is_empty() || octets.len() > CAUSE_MOST {
        return Err(LENGTH);
    }
    let last = octets.iter().position(|octet| octet & 0x80 != 0).ok_or(LENGTH)?;
    let (septets, diagnostics) = octets.split_at(last + 1);
    let mut numbers = vec![0; CAUSE_NUMBERS];
    numbers[2] = septets.len() as u64;
    for (i, octet) in septets.iter().enumerate() {
        numbers[3 + i] = u64::from(octet & 0x7F);
    }
    numbers[258] = diagnostics.len() as u64;
    for (i, octet) in diagnostics.iter().enumerate() {
        numbers[259 + i] = u64::from(*octet);
    }
    let specific = septets.len() == 1 && is_listed(numbers[3]);
    numbers[0] = if specific { 1 } else { 2 };
    numbers[1] = if specific { numbers[3] } else { 0 };
    Ok(numbers)
}

pub fn write_cause(numbers: &[u64], octets: &mut [u8]) -> Result<(), Refusal> {
    exactly(numbers, CAUSE_NUMBERS)?;
    let (septets, diagnostics) = (numbers[2], numbers[258]);
    // A count that no array holds is a cause of over 255 octets, and 13 goes before 12.
    if septets == 0 || septets.saturating_add(diagnostics) > CAUSE_MOST as u64 {
        return Err(LENGTH);
    }
    let (septets, diagnostics) = (septets as usize, diagnostics as usize);
    range(numbers[3..3 + septets].iter().all(|&septet| septet <= 127))?;
    range(numbers[3 + septets..258].iter().all(|&unused| unused == 0))?;
    range(numbers[259..259 + diagnostics].iter().all(|&octet| octet <= 255))?;
    range(numbers[259 + diagnostics..].iter().all(|&unused| unused == 0))?;
    let mut form: Vec<u8> = numbers[3..3 + septets].iter().map(|&septet| septet as u8).collect();
    form[septets - 1] |= 0x80;
    form.extend(numbers[259..259 + diagnostics].iter().map(|&octet| octet as u8));
    put(form, octets)
}

// Half octets whose fields are single bits; spare bits are ignored when read and zero when written.

fn read_bits(half: u8, count: usize) -> Result<Vec<u64>, Refusal> {
    range(half <= 15)?;
    Ok((0..count).rev().map(|place| u64::from(half >> place & 1)).collect())
}

fn write_bits(numbers: &[u64], count: usize) -> Result<u8, Refusal> {
    exactly(numbers, count)?;
    range(numbers.iter().all(|&bit| bit <= 1))?;
    Ok(numbers.iter().fold(0, |half, &bit| half << 1 | bit as u8))
}

// Originator indication (9.4.4): OI.

pub fn read_originator(half: u8) -> Result<Vec<u64>, Refusal> {
    read_bits(half, 1)
}

pub fn write_originator(numbers: &[u64]) -> Result<u8, Refusal> {
    write_bits(numbers, 1)
}

// State attributes (9.4.7): DA, UA, COMM, OI.

pub fn read_state_attributes(half: u8) -> Result<Vec<u64>, Refusal> {
    read_bits(half, 4)
}

pub fn write_state_attributes(numbers: &[u64]) -> Result<u8, Refusal> {
    write_bits(numbers, 4)
}

// SMS indications (9.4.10): DC, GP.

pub fn read_sms(half: u8) -> Result<Vec<u64>, Refusal> {
    read_bits(half, 2)
}

pub fn write_sms(numbers: &[u64]) -> Result<u8, Refusal> {
    write_bits(numbers, 2)
}

// Talker priority (9.4.9): a spare bit and three bits, of which 3 to 7 read as normal.

pub fn read_talker(half: u8) -> Result<Vec<u64>, Refusal> {
    range(half <= 15)?;
    Ok(vec![match half & 7 {
        1 => 1,
        2 => 2,
        _ => 0,
    }])
}

pub fn write_talker(numbers: &[u64]) -> Result<u8, Refusal> {
    exactly(numbers, 1)?;
    range(numbers[0] <= 2)?;
    Ok(numbers[0] as u8)
}

// Originator-to-dispatcher (9.4.8): 40 bits, twelve ASCII digits.

pub fn read_digits(octets: &[u8]) -> Result<Vec<u64>, Refusal> {
    if octets.len() != 5 {
        return Err(LENGTH);
    }
    let number = octets.iter().fold(0, |number, &octet| number << 8 | u64::from(octet));
    range(number <= 999_999_999_999)?;
    Ok(format!("{number:012}").bytes().map(u64::from).collect())
}

pub fn write_digits(numbers: &[u64], octets: &mut [u8]) -> Result<(), Refusal> {
    exactly(numbers, 12)?;
    range(numbers.iter().all(|digit| (0x30..=0x39).contains(digit)))?;
    let number = numbers.iter().fold(0, |number, digit| 10 * number + (digit - 0x30));
    put(number.to_be_bytes()[3..].to_vec(), octets)
}
