//! The storage table as a map from keys to values, and the slots of kernel storage by name.

use super::rights::Type;
use super::words::{Word, ZERO};
use std::collections::BTreeMap;

pub type Key = [u8; 24];
pub type Address = [u8; 20];

/// The bytes of a record, and of its key.
pub const RECORD: usize = 64;
const RECORD_KEY: usize = 32;

/// The most bytes that a table may have.
pub const LONGEST_TABLE: usize = 65_536;

/// "Its length is a multiple of 64, at most 65,536 bytes."
pub fn has_right_length(table: &[u8]) -> bool {
    table.len() % RECORD == 0 && table.len() <= LONGEST_TABLE
}

/// What a table holds: each key that is present, with its value, which is not zero.
#[derive(Clone, Default)]
pub struct Storage(BTreeMap<Word, Word>);

impl Storage {
    /// The records of a table, if it has the record form.
    pub fn read(table: &[u8]) -> Option<Storage> {
        if !has_right_length(table) {
            return None;
        }
        let records: Vec<(Word, Word)> = table.chunks_exact(RECORD).map(split).collect();
        // The occupied ones come first: none has a value of zero.
        let occupied = records
            .iter()
            .take_while(|(_, value)| *value != ZERO)
            .count();
        let (occupied, rest) = records.split_at(occupied);
        let ascending = occupied.windows(2).all(|pair| pair[0].0 < pair[1].0);
        let rest_is_zero = rest.iter().all(|record| *record == (ZERO, ZERO));
        (ascending && rest_is_zero).then(|| Storage(occupied.iter().copied().collect()))
    }

    /// The records in order, and zeros after them.
    pub fn write(&self, table: &mut [u8]) {
        table.fill(0);
        for (record, (key, value)) in table.chunks_exact_mut(RECORD).zip(&self.0) {
            record[..RECORD_KEY].copy_from_slice(key);
            record[RECORD_KEY..].copy_from_slice(value);
        }
    }

    /// "A key not present has value zero."
    pub fn value(&self, key: &Word) -> Word {
        self.0.get(key).copied().unwrap_or(ZERO)
    }

    /// "Storing zero removes a record."
    pub fn store(&mut self, key: Word, value: Word) {
        if value == ZERO {
            self.0.remove(&key);
        } else {
            self.0.insert(key, value);
        }
    }

    /// Keeps the records whose key is wanted.
    pub fn keep(&mut self, wanted: impl Fn(&Word) -> bool) {
        self.0.retain(|key, _| wanted(key));
    }

    /// How many records there are.
    pub fn records(&self) -> usize {
        self.0.len()
    }

    pub fn keys(&self) -> impl Iterator<Item = &Word> {
        self.0.keys()
    }
}

/// A record's key and value.
fn split(record: &[u8]) -> (Word, Word) {
    let (key, value) = record.split_at(RECORD_KEY);
    (key.try_into().unwrap(), value.try_into().unwrap())
}

/// "Kernel storage is every key whose first four bytes are ff ff ff ff."
pub fn in_kernel_storage(slot: &Word) -> bool {
    slot[..4] == [0xff; 4]
}

/// A key of kernel storage. "Byte 4 is the region, bytes 5 to 28 the middle, bytes 29 to 31 the
/// end."
pub fn slot(region: u8, middle: &Key, end: [u8; 3]) -> Word {
    let mut slot = [0xff; 32];
    slot[4] = region;
    slot[5..29].copy_from_slice(middle);
    slot[29..].copy_from_slice(&end);
    slot
}

/// The parts of a key of kernel storage: region, middle, end.
pub fn parts(slot: &Word) -> (u8, Key, [u8; 3]) {
    (
        slot[4],
        slot[5..29].try_into().unwrap(),
        slot[29..].try_into().unwrap(),
    )
}

pub const PROCEDURES: u8 = 0;
pub const LIST: u8 = 1;
const NO_MIDDLE: Key = [0; 24];
pub const ADDRESS_END: [u8; 3] = [0, 0, 0];
pub const INDEX_END: [u8; 3] = [0, 0, 1];

pub fn address_slot(key: &Key) -> Word {
    slot(PROCEDURES, key, ADDRESS_END)
}

pub fn index_slot(key: &Key) -> Word {
    slot(PROCEDURES, key, INDEX_END)
}

/// The number of capabilities of a type.
pub fn count_slot(key: &Key, of: Type) -> Word {
    slot(PROCEDURES, key, [of.number(), 0, 0])
}

/// Word k, from 0, of the i-th capability, i from 1.
pub fn word_slot(key: &Key, of: Type, i: usize, k: usize) -> Word {
    slot(
        PROCEDURES,
        key,
        [of.number(), u8::try_from(i).unwrap(), k as u8],
    )
}

/// The n-th place of the list. What stands at place 0 is the list's length.
pub fn place_slot(n: usize) -> Word {
    let mut middle = NO_MIDDLE;
    middle[16..].copy_from_slice(&(n as u64).to_be_bytes());
    slot(LIST, &middle, [0; 3])
}

pub fn length_slot() -> Word {
    place_slot(0)
}

pub fn kernel_address_slot() -> Word {
    slot(2, &NO_MIDDLE, [0; 3])
}

pub fn current_slot() -> Word {
    slot(3, &NO_MIDDLE, [0; 3])
}

pub fn entry_slot() -> Word {
    slot(4, &NO_MIDDLE, [0; 3])
}
