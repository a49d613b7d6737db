//! An entry of the paging channel (document 02, §8): what the paging head found in P1 Rest Octets, as numbers.

use crate::bits::*;
use crate::call::{Call, Description, Frequencies};
use crate::receiver::LAST_KEY;

/// Key, ciphered; full reference there, its 36 bits; described, channel, hopping flag, short list flag, length of the mobile allocation,
/// frequencies; VSTK_RAND there, VSTK_RAND; count there, CELL_GLOBAL_COUNT.
pub const NUMBERS: usize = 14;

#[derive(Clone, Debug, PartialEq)]
pub struct Pch {
    pub key: u32,
    pub ciphered: bool,
    /// The full reference, with the description; a description never comes without it.
    pub call: Option<Call>,
    pub vstk_rand: Option<u64>,
    pub cell_global_count: Option<u64>,
}

/// The largest number that a mobile allocation of so many octets, 1 to 8, can be.
fn most_of(length: u64) -> u64 {
    u64::MAX >> (64 - 8 * length)
}

/// What stands behind a flag of 0, or in a part that the description's branch does not use, is not looked at.
pub fn read(numbers: &[u64]) -> Result<Pch, Refusal> {
    let numbers: &[u64; NUMBERS] = numbers.try_into().map_err(|_| LENGTH)?;
    let [key, ciphered, full, bits, described, channel, hops, short_list, length, frequencies, rand_given, vstk_rand, counted, count] =
        *numbers;
    // A flag above 1 counts as set, until it is refused for what it is.
    let set = |flag: u64| flag != 0;
    let hopping = set(described) && set(hops);
    let allocated = hopping && !set(short_list);
    if key > u64::from(LAST_KEY) {
        return Err(REFERENCE);
    }
    if allocated && !(1..=8).contains(&length) {
        return Err(ALLOCATION_LENGTH);
    }
    if set(described) && (channel >> 12 & 1 == 1) != set(hops) {
        return Err(HOPPING);
    }
    // Whether it is looked at, the number, and the largest that it may be.
    let fields = [
        (true, ciphered, 1),
        (true, full, 1),
        (set(full), bits, (1 << 36) - 1),
        (true, described, 1),
        (set(described), channel, (1 << 24) - 1),
        (set(described), hops, 1),
        (hopping, short_list, 1),
        (allocated, frequencies, if allocated { most_of(length) } else { 0 }),
        (true, rand_given, 1),
        (set(rand_given), vstk_rand, (1 << 36) - 1),
        (true, counted, 1),
        (set(counted), count, 3),
    ];
    if fields.iter().any(|&(looked_at, number, most)| looked_at && number > most) {
        return Err(RANGE);
    }
    if set(described) && !set(full) {
        return Err(RANGE);
    }
    if set(full) && bits >> 8 != key {
        return Err(RANGE);
    }
    if set(full) && set(bits & 15) != set(ciphered) {
        return Err(RANGE);
    }
    let description = set(described).then(|| Description {
        channel,
        frequencies: match (hopping, allocated) {
            (false, _) => Frequencies::NotHopping,
            (true, true) => Frequencies::Allocation { length, octets: frequencies },
            (true, false) => Frequencies::ShortList(frequencies),
        },
    });
    let call = Call {
        reference: bits >> 9,
        vgcs: set(bits >> 8 & 1),
        acknowledged: set(bits >> 7 & 1),
        priority: bits >> 4 & 7,
        cipher_key_number: bits & 15,
        description,
    };
    Ok(Pch {
        key: key as u32,
        ciphered: set(ciphered),
        call: set(full).then_some(call),
        vstk_rand: set(rand_given).then_some(vstk_rand),
        cell_global_count: set(counted).then_some(count),
    })
}
