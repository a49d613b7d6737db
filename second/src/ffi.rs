//! The functions of include/asternhaken.h, but for those that say words and the traces, called with guard octets around everything that is lent.

use crate::record;
use std::cell::Cell;

pub mod archive {
    macro_rules! exported {
        ($( fn $name:ident($($arg:ident: $type:ty),*); )*) => {
            extern "C" { $( pub fn $name($($arg: $type),*) -> u32; )* }

            /// Which of the functions below it is, from 0 on.
            pub fn number_of(function: *const ()) -> u8 {
                [$( $name as *const () ),*].iter().position(|&each| each == function).unwrap() as u8
            }
        };
    }
    exported! {
        fn asternhaken_setup(state: *mut u8, state_length: usize, keys: *const u32, n_keys: usize, sets: *const u32, n_sets: usize, tick: u32, t3206: u32, t3208: u32, t3210: u32);
        fn asternhaken_nch(state: *mut u8, state_length: usize, tick: u32, octets: *const u8, n: usize);
        fn asternhaken_facch(state: *mut u8, state_length: usize, tick: u32, octets: *const u8, n: usize);
        fn asternhaken_pch(state: *mut u8, state_length: usize, tick: u32, entry: *const u64, n: usize);
        fn asternhaken_joined(state: *mut u8, state_length: usize, tick: u32, key: u32);
        fn asternhaken_reselected(state: *mut u8, state_length: usize, tick: u32);
        fn asternhaken_handed_over(state: *mut u8, state_length: usize, tick: u32);
        fn asternhaken_reconfigured(state: *mut u8, state_length: usize, tick: u32);
        fn asternhaken_left_idle(state: *mut u8, state_length: usize, tick: u32);
        fn asternhaken_bit_22(state: *mut u8, state_length: usize, tick: u32, value: u32);
        fn asternhaken_tick(state: *mut u8, state_length: usize, tick: u32);
        fn asternhaken_read(state: *const u8, state_length: usize, entry: u32, part: u32, value: *mut u64);
        fn asternhaken_entry_numbers(state: *const u8, state_length: usize, entry: u32, numbers: *mut u64, n: usize);
        fn asternhaken_held_numbers(state: *const u8, state_length: usize, i: u32, numbers: *mut u64, n: usize);
        fn asternhaken_paged_numbers(state: *const u8, state_length: usize, numbers: *mut u64, n: usize);
        fn asternhaken_held_count(state: *const u8, state_length: usize, count: *mut u64);
        fn asternhaken_next_expiry(state: *const u8, state_length: usize, ms: *mut u64);
        fn asternhaken_is_set_up(state: *const u8, state_length: usize);
        fn asternhaken_nch_read(octets: *const u8, n: usize, numbers: *mut u64, n_numbers: usize);
        fn asternhaken_nch_write(numbers: *const u64, n_numbers: usize, octets: *mut u8, n: usize);
        fn asternhaken_facch_read(octets: *const u8, n: usize, numbers: *mut u64, n_numbers: usize);
        fn asternhaken_facch_write(numbers: *const u64, n_numbers: usize, octets: *mut u8, n: usize);
        fn asternhaken_message_type_read(octet: u8, numbers: *mut u64, n_numbers: usize);
        fn asternhaken_message_type_write(numbers: *const u64, n_numbers: usize, octet: *mut u8);
        fn asternhaken_call_reference_read(octets: *const u8, n: usize, numbers: *mut u64, n_numbers: usize);
        fn asternhaken_call_reference_write(numbers: *const u64, n_numbers: usize, octets: *mut u8, n: usize);
        fn asternhaken_call_state_read(half: u8, numbers: *mut u64, n_numbers: usize);
        fn asternhaken_call_state_write(numbers: *const u64, n_numbers: usize, half: *mut u8);
        fn asternhaken_cause_read(octets: *const u8, n: usize, numbers: *mut u64, n_numbers: usize);
        fn asternhaken_cause_write(numbers: *const u64, n_numbers: usize, octets: *mut u8, n: usize);
        fn asternhaken_originator_read(half: u8, numbers: *mut u64, n_numbers: usize);
        fn asternhaken_originator_write(numbers: *const u64, n_numbers: usize, half: *mut u8);
        fn asternhaken_state_attributes_read(half: u8, numbers: *mut u64, n_numbers: usize);
        fn asternhaken_state_attributes_write(numbers: *const u64, n_numbers: usize, half: *mut u8);
        fn asternhaken_sms_read(half: u8, numbers: *mut u64, n_numbers: usize);
        fn asternhaken_sms_write(numbers: *const u64, n_numbers: usize, half: *mut u8);
        fn asternhaken_talker_read(half: u8, numbers: *mut u64, n_numbers: usize);
        fn asternhaken_talker_write(numbers: *const u64, n_numbers: usize, half: *mut u8);
        fn asternhaken_digits_read(octets: *const u8, n: usize, numbers: *mut u64, n_numbers: usize);
        fn asternhaken_digits_write(numbers: *const u64, n_numbers: usize, octets: *mut u8, n: usize);
        fn asternhaken_find(keys: *const u32, n_keys: usize, key: u32, place: *mut u64, looks: *mut u64);
        fn asternhaken_uplink_setup(uplink: *mut u8, uplink_length: usize, tick: u32, t3128: u32);
        fn asternhaken_uplink_free(uplink: *mut u8, uplink_length: usize, tick: u32);
        fn asternhaken_uplink_busy(uplink: *mut u8, uplink_length: usize, tick: u32);
        fn asternhaken_uplink_request(uplink: *mut u8, uplink_length: usize, tick: u32);
        fn asternhaken_uplink_tick(uplink: *mut u8, uplink_length: usize, tick: u32);
        // Those that a yard set does not take have a const state in the header; they are lent it as the others are, which shows that they leave it.
        fn asternhaken_yard_setup(state: *mut u8, state_length: usize, keys: *const u32, n_keys: usize, sets: *const u32, n_sets: usize, tick: u32, t3206: u32, t3208: u32, t3210: u32);
        fn asternhaken_yard_nch(state: *mut u8, state_length: usize, tick: u32, octets: *const u8, n: usize);
        fn asternhaken_yard_facch(state: *mut u8, state_length: usize, tick: u32, octets: *const u8, n: usize);
        fn asternhaken_yard_pch(state: *mut u8, state_length: usize, tick: u32, entry: *const u64, n: usize);
        fn asternhaken_yard_joined(state: *mut u8, state_length: usize, tick: u32, key: u32);
        fn asternhaken_yard_reselected(state: *mut u8, state_length: usize, tick: u32);
        fn asternhaken_yard_handed_over(state: *mut u8, state_length: usize, tick: u32);
        fn asternhaken_yard_reconfigured(state: *mut u8, state_length: usize, tick: u32);
        fn asternhaken_yard_left_idle(state: *mut u8, state_length: usize, tick: u32);
        fn asternhaken_yard_bit_22(state: *mut u8, state_length: usize, tick: u32, value: u32);
        fn asternhaken_yard_tick(state: *mut u8, state_length: usize, tick: u32);
        fn asternhaken_yard_call_numbers(state: *const u8, state_length: usize, i: u32, numbers: *mut u64, n: usize);
        fn asternhaken_yard_count(state: *const u8, state_length: usize, count: *mut u64);
    }
}

pub type OctetsReader = unsafe extern "C" fn(*const u8, usize, *mut u64, usize) -> u32;
pub type OctetsWriter = unsafe extern "C" fn(*const u64, usize, *mut u8, usize) -> u32;
pub type OctetReader = unsafe extern "C" fn(u8, *mut u64, usize) -> u32;
pub type OctetWriter = unsafe extern "C" fn(*const u64, usize, *mut u8) -> u32;
/// What looks at a state: by many numbers of the i-th of something, or by one.
pub type NumbersView = unsafe extern "C" fn(*const u8, usize, u32, *mut u64, usize) -> u32;
pub type NumberView = unsafe extern "C" fn(*const u8, usize, *mut u64) -> u32;
/// The setups of the receiver and of the yard set, and their events by what they are lent or given.
pub type Setup = unsafe extern "C" fn(*mut u8, usize, *const u32, usize, *const u32, usize, u32, u32, u32, u32) -> u32;
pub type OctetsEvent = unsafe extern "C" fn(*mut u8, usize, u32, *const u8, usize) -> u32;
pub type EntryEvent = unsafe extern "C" fn(*mut u8, usize, u32, *const u64, usize) -> u32;
pub type NumberEvent = unsafe extern "C" fn(*mut u8, usize, u32, u32) -> u32;
pub type PlainEvent = unsafe extern "C" fn(*mut u8, usize, u32) -> u32;

thread_local! {
    static DAMAGE: Cell<Option<&'static str>> = const { Cell::new(None) };
}

/// What the calls since the last question did to memory they had no business with.
pub fn take_damage() -> Option<&'static str> {
    DAMAGE.with(Cell::take)
}

fn note_damage(what: &'static str) {
    DAMAGE.with(|damage| damage.set(Some(what)));
}

const GUARD: usize = 16;

/// Lent memory with guards on both sides.
struct Lent<T> {
    all: Vec<T>,
    start: usize,
    length: usize,
    guard: T,
}

impl<T: Copy + PartialEq> Lent<T> {
    /// The guard also varies the start, so that octets are lent at every alignment.
    fn new(content: &[T], guard: T, shift: usize) -> Lent<T> {
        let start = GUARD + shift;
        let mut all = Vec::with_capacity(start + content.len() + GUARD);
        all.resize(start, guard);
        all.extend_from_slice(content);
        all.resize(start + content.len() + GUARD, guard);
        Lent { all, start, length: content.len(), guard }
    }

    fn content(&self) -> &[T] {
        &self.all[self.start..self.start + self.length]
    }

    fn pointer(&self) -> *const T {
        self.all[self.start..].as_ptr()
    }

    fn pointer_mut(&mut self) -> *mut T {
        self.all[self.start..].as_mut_ptr()
    }

    fn check_guards(&self) {
        let around = self.all[..self.start].iter().chain(&self.all[self.start + self.length..]);
        if !around.into_iter().all(|octet| *octet == self.guard) {
            note_damage("memory beside a lent buffer was written");
        }
    }

    /// Memory lent to be read must stay as it was.
    fn check_all(&self, content: &[T]) {
        self.check_guards();
        if self.content() != content {
            note_damage("memory lent only to be read was written");
        }
    }
}

const OCTET_GUARD: u8 = 0xA5;
const NUMBER_GUARD: u64 = 0xA5A5_5A5A_C3C3_3C3C;
/// What stands in an array before a reader fills it.
const STALE: u64 = 0xDEAD_BEEF_0BAD_F00D;

pub fn read_octets(function: OctetsReader, octets: &[u8], n_numbers: usize) -> (u32, Vec<u64>) {
    let input = Lent::new(octets, OCTET_GUARD, octets.len() % 8);
    let mut numbers = Lent::new(&vec![STALE; n_numbers], NUMBER_GUARD, 0);
    let refusal = unsafe { function(input.pointer(), octets.len(), numbers.pointer_mut(), n_numbers) };
    input.check_all(octets);
    numbers.check_guards();
    record::with(|record| {
        record.function(archive::number_of(function as *const ()));
        record.octets(octets);
        record.small(&[n_numbers as u32, refusal]);
        record.large(numbers.content());
    });
    (refusal, numbers.content().to_vec())
}

pub fn read_octet(function: OctetReader, octet: u8, n_numbers: usize) -> (u32, Vec<u64>) {
    let mut numbers = Lent::new(&vec![STALE; n_numbers], NUMBER_GUARD, 0);
    let refusal = unsafe { function(octet, numbers.pointer_mut(), n_numbers) };
    numbers.check_guards();
    record::with(|record| {
        record.function(archive::number_of(function as *const ()));
        record.small(&[u32::from(octet), n_numbers as u32, refusal]);
        record.large(numbers.content());
    });
    (refusal, numbers.content().to_vec())
}

/// The refusal, and the lent octets afterwards.
pub fn write_octets(function: OctetsWriter, numbers: &[u64], before: &[u8]) -> (u32, Vec<u8>) {
    let input = Lent::new(numbers, NUMBER_GUARD, 0);
    let mut octets = Lent::new(before, OCTET_GUARD, numbers.len() % 8);
    let refusal = unsafe { function(input.pointer(), numbers.len(), octets.pointer_mut(), before.len()) };
    input.check_all(numbers);
    octets.check_guards();
    record::with(|record| {
        record.function(archive::number_of(function as *const ()));
        record.small(&[numbers.len() as u32]);
        record.large(numbers);
        record.octets(before);
        record.small(&[refusal]);
        record.plain(octets.content());
    });
    (refusal, octets.content().to_vec())
}

pub fn write_octet(function: OctetWriter, numbers: &[u64], before: u8) -> (u32, u8) {
    let input = Lent::new(numbers, NUMBER_GUARD, 0);
    let mut octet = Lent::new(&[before], OCTET_GUARD, numbers.len() % 8);
    let refusal = unsafe { function(input.pointer(), numbers.len(), octet.pointer_mut()) };
    input.check_all(numbers);
    octet.check_guards();
    record::with(|record| {
        record.function(archive::number_of(function as *const ()));
        record.small(&[numbers.len() as u32]);
        record.large(numbers);
        record.small(&[u32::from(before), refusal]);
        record.plain(octet.content());
    });
    (refusal, octet.content()[0])
}

/// The refusal, the place where a key is found, and how many keys it was compared with.
pub fn find(keys: &[u32], key: u32) -> (u32, u64, u64) {
    let lent = Lent::new(keys, 0xA5A5_A5A5, 0);
    let mut place = Lent::new(&[STALE], NUMBER_GUARD, 0);
    let mut looks = Lent::new(&[STALE], NUMBER_GUARD, 0);
    let refusal = unsafe { archive::asternhaken_find(lent.pointer(), keys.len(), key, place.pointer_mut(), looks.pointer_mut()) };
    lent.check_all(keys);
    place.check_guards();
    looks.check_guards();
    let (place, looks) = (place.content()[0], looks.content()[0]);
    record::with(|record| {
        record.function(archive::number_of(archive::asternhaken_find as *const ()));
        record.octets(&keys.iter().flat_map(|key| key.to_le_bytes()).collect::<Vec<u8>>());
        record.small(&[key, refusal]);
        record.large(&[place, looks]);
    });
    (refusal, place, looks)
}

/// A lent state. Its length may be a wrong one.
pub struct State {
    lent: Lent<u8>,
    /// Which one it is, from 1 on.
    which: u64,
}

thread_local! {
    static STATES: Cell<u64> = const { Cell::new(0) };
}

impl State {
    pub fn new(octets: &[u8], shift: usize) -> State {
        let which = STATES.get() + 1;
        STATES.set(which);
        State { lent: Lent::new(octets, OCTET_GUARD, shift % 8), which }
    }

    pub fn octets(&self) -> &[u8] {
        self.lent.content()
    }

    /// A call with the state lent; `given` are the other numbers that it gets, and `lent` the octets.
    fn call(&mut self, number: *const (), given: &[u32], lent: &[u8], function: impl FnOnce(*mut u8, usize) -> u32) -> u32 {
        let length = self.lent.length;
        record::with(|record| record.state(self.which, self.lent.content()));
        let refusal = function(self.lent.pointer_mut(), length);
        self.lent.check_guards();
        record::with(|record| {
            record.function(archive::number_of(number));
            record.octets(lent);
            record.small(given);
            record.small(&[refusal]);
            record.plain(self.lent.content());
        });
        refusal
    }

    pub fn setup(&mut self, keys: &[u32], sets: &[u32], tick: u32, timers: [u32; 3]) -> u32 {
        self.setup_by(archive::asternhaken_setup, keys, sets, tick, timers)
    }

    pub fn setup_by(&mut self, function: Setup, keys: &[u32], sets: &[u32], tick: u32, [t3206, t3208, t3210]: [u32; 3]) -> u32 {
        let lent = Lent::new(keys, 0xA5A5_A5A5, 0);
        let lent_sets = Lent::new(sets, 0x5A5A_5A5A, 0);
        let octets: Vec<u8> = keys.iter().chain(sets).flat_map(|number| number.to_le_bytes()).collect();
        let given = [tick, t3206, t3208, t3210, keys.len() as u32];
        let refusal = self.call(function as *const (), &given, &octets, |state, n| unsafe {
            let (keys, sets) = ((lent.pointer(), keys.len()), (lent_sets.pointer(), sets.len()));
            function(state, n, keys.0, keys.1, sets.0, sets.1, tick, t3206, t3208, t3210)
        });
        lent.check_all(keys);
        lent_sets.check_all(sets);
        refusal
    }

    /// An event with a message.
    pub fn with_octets(&mut self, function: OctetsEvent, tick: u32, octets: &[u8]) -> u32 {
        let lent = Lent::new(octets, OCTET_GUARD, tick as usize % 8);
        let refusal =
            self.call(function as *const (), &[tick], octets, |state, n| unsafe { function(state, n, tick, lent.pointer(), octets.len()) });
        lent.check_all(octets);
        refusal
    }

    /// An event with the numbers of an entry.
    pub fn with_entry(&mut self, function: EntryEvent, tick: u32, entry: &[u64]) -> u32 {
        let lent = Lent::new(entry, NUMBER_GUARD, 0);
        let octets: Vec<u8> = entry.iter().flat_map(|number| number.to_le_bytes()).collect();
        let refusal =
            self.call(function as *const (), &[tick], &octets, |state, n| unsafe { function(state, n, tick, lent.pointer(), entry.len()) });
        lent.check_all(entry);
        refusal
    }

    /// An event with a key or a bit.
    pub fn with_number(&mut self, function: NumberEvent, tick: u32, number: u32) -> u32 {
        self.call(function as *const (), &[tick, number], &[], |state, n| unsafe { function(state, n, tick, number) })
    }

    /// An event that is a tick alone.
    pub fn plain(&mut self, function: PlainEvent, tick: u32) -> u32 {
        self.call(function as *const (), &[tick], &[], |state, n| unsafe { function(state, n, tick) })
    }

    /// One number of the answer. The caller sees to it that the state stayed as it was, here and below.
    pub fn read(&self, entry: u32, part: u32) -> (u32, u64) {
        let mut value = [NUMBER_GUARD, STALE, NUMBER_GUARD];
        let refusal =
            unsafe { archive::asternhaken_read(self.lent.pointer(), self.lent.length, entry, part, value.as_mut_ptr().wrapping_add(1)) };
        if value[0] != NUMBER_GUARD || value[2] != NUMBER_GUARD {
            note_damage("memory beside a lent number was written");
        }
        record::with(|record| {
            record.state(self.which, self.lent.content());
            record.function(archive::number_of(archive::asternhaken_read as *const ()));
            record.small(&[entry, part, refusal]);
            record.large(&[value[1]]);
        });
        (refusal, value[1])
    }

    /// A call that looks at the state and fills `n` numbers; `given` are the numbers that it gets.
    fn look(&self, number: *const (), given: &[u32], n: usize, function: impl FnOnce(*mut u64) -> u32) -> (u32, Vec<u64>) {
        let mut numbers = Lent::new(&vec![STALE; n], NUMBER_GUARD, 0);
        let refusal = function(numbers.pointer_mut());
        numbers.check_guards();
        record::with(|record| {
            record.state(self.which, self.lent.content());
            record.function(archive::number_of(number));
            record.small(given);
            record.small(&[refusal]);
            record.large(numbers.content());
        });
        (refusal, numbers.content().to_vec())
    }

    /// All numbers of the i-th of something, into `n` places.
    pub fn numbers(&self, view: NumbersView, i: u32, n: usize) -> (u32, Vec<u64>) {
        self.look(view as *const (), &[i, n as u32], n, |numbers| unsafe { view(self.lent.pointer(), self.lent.length, i, numbers, n) })
    }

    /// All numbers of who is paged, into `n` places. It is recorded as if the number of something were given, which is not looked at.
    pub fn paged(&self, n: usize) -> (u32, Vec<u64>) {
        let paged = archive::asternhaken_paged_numbers;
        self.look(paged as *const (), &[0, n as u32], n, |numbers| unsafe { paged(self.lent.pointer(), self.lent.length, numbers, n) })
    }

    pub fn number(&self, view: NumberView) -> (u32, u64) {
        let (refusal, value) = self.look(view as *const (), &[], 1, |value| unsafe { view(self.lent.pointer(), self.lent.length, value) });
        (refusal, value[0])
    }

    /// It answers 1 or 0, and no refusal.
    pub fn is_set_up(&self) -> u32 {
        let is_set_up = archive::asternhaken_is_set_up;
        self.look(is_set_up as *const (), &[], 0, |_| unsafe { is_set_up(self.lent.pointer(), self.lent.length) }).0
    }

    pub fn check_guards(&self) {
        self.lent.check_guards();
    }
}

/// The uplink's functions, on a lent state of its own.
impl State {
    pub fn uplink_setup(&mut self, tick: u32, t3128: u32) -> u32 {
        self.call(archive::asternhaken_uplink_setup as *const (), &[tick, t3128], &[], |uplink, n| unsafe {
            archive::asternhaken_uplink_setup(uplink, n, tick, t3128)
        })
    }

    pub fn uplink_free(&mut self, tick: u32) -> u32 {
        self.call(archive::asternhaken_uplink_free as *const (), &[tick], &[], |uplink, n| unsafe {
            archive::asternhaken_uplink_free(uplink, n, tick)
        })
    }

    pub fn uplink_busy(&mut self, tick: u32) -> u32 {
        self.call(archive::asternhaken_uplink_busy as *const (), &[tick], &[], |uplink, n| unsafe {
            archive::asternhaken_uplink_busy(uplink, n, tick)
        })
    }

    pub fn uplink_request(&mut self, tick: u32) -> u32 {
        self.call(archive::asternhaken_uplink_request as *const (), &[tick], &[], |uplink, n| unsafe {
            archive::asternhaken_uplink_request(uplink, n, tick)
        })
    }

    pub fn uplink_tick(&mut self, tick: u32) -> u32 {
        self.call(archive::asternhaken_uplink_tick as *const (), &[tick], &[], |uplink, n| unsafe {
            archive::asternhaken_uplink_tick(uplink, n, tick)
        })
    }
}
