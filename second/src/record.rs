//! A record of what the archive was asked and what it answered, for ../replay.c, which asks another build of the archive the same.
//!
//! A call is the number of its function in ffi's list, what was lent and given, the refusal, and what stood in lent memory afterwards.
//! Numbers have the low octet first; a list has its length before it. The state is given only where another one is lent than before.

use std::cell::RefCell;
use std::fs::File;
use std::io::{BufWriter, Write};

/// Stands before a state, in the place of a function's number.
const STATE: u8 = 255;

pub struct Record {
    into: BufWriter<File>,
    state: u64,
}

thread_local! {
    static RECORD: RefCell<Option<Record>> = const { RefCell::new(None) };
}

/// From here on every call is recorded.
pub fn begin(file: &str) -> std::io::Result<()> {
    let into = BufWriter::with_capacity(1 << 16, File::create(file)?);
    RECORD.with(|record| *record.borrow_mut() = Some(Record { into, state: 0 }));
    Ok(())
}

pub fn end() {
    RECORD.with(|record| {
        if let Some(mut record) = record.borrow_mut().take() {
            record.into.flush().expect("the record");
        }
    });
}

/// Does nothing where nothing is recorded.
pub fn with(put: impl FnOnce(&mut Record)) {
    RECORD.with(|record| {
        if let Some(record) = record.borrow_mut().as_mut() {
            put(record);
        }
    });
}

impl Record {
    fn put(&mut self, octets: &[u8]) {
        self.into.write_all(octets).expect("the record");
    }

    pub fn function(&mut self, number: u8) {
        self.put(&[number]);
    }

    /// The state that the next calls are lent, unless they were lent it before.
    pub fn state(&mut self, which: u64, octets: &[u8]) {
        if self.state != which {
            self.state = which;
            self.put(&[STATE]);
            self.octets(octets);
        }
    }

    pub fn small(&mut self, numbers: &[u32]) {
        numbers.iter().for_each(|number| self.put(&number.to_le_bytes()));
    }

    pub fn large(&mut self, numbers: &[u64]) {
        numbers.iter().for_each(|number| self.put(&number.to_le_bytes()));
    }

    /// Octets without their length, which the reader knows.
    pub fn plain(&mut self, octets: &[u8]) {
        self.put(octets);
    }

    pub fn octets(&mut self, octets: &[u8]) {
        self.small(&[octets.len() as u32]);
        self.put(octets);
    }
}
