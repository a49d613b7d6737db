//! Taking a record to be written out of an array of numbers, one after the other.

/// An array of numbers, the place in it, and whether all numbers so far were in range (else the writer refuses with 12).
pub struct Numbers<'a> {
    numbers: &'a [u64],
    place: usize,
    pub in_range: bool,
}

impl<'a> Numbers<'a> {
    pub fn new(numbers: &'a [u64]) -> Self {
        Numbers { numbers, place: 0, in_range: true }
    }

    /// A number out of range stands as 0 from here on, so that nothing is done with it.
    pub fn up_to(&mut self, most: u64) -> u64 {
        let number = self.numbers[self.place];
        self.place += 1;
        if number > most {
            self.in_range = false;
            return 0;
        }
        number
    }

    pub fn flag(&mut self) -> bool {
        self.up_to(1) == 1
    }

    /// What is absent must be zero.
    pub fn absent_unless(&mut self, there: bool, most: u64) -> u64 {
        self.up_to(if there { most } else { 0 })
    }

    pub fn optional(&mut self, announced: bool, most: u64) -> Option<u64> {
        let there = self.absent_unless(announced, 1) == 1;
        let number = self.absent_unless(there, most);
        there.then_some(number)
    }

    /// Unused places must be zero.
    pub fn unused(&mut self, count: usize) {
        for _ in 0..count {
            self.up_to(0);
        }
    }
}
