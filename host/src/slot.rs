//! The slots of kernel storage, for [`Table::look`](crate::Table::look).
//!
//! ```
//! use beaker::{slot, Address, Key, Table};
//!
//! let mut table = Table::full();
//! table.set_up(Key::from(1), Address::from(0x11), Address::from(0x22))?;
//! assert_eq!(table.read(slot::list_length())?.to_u64(), Some(1));
//! assert_eq!(table.read(slot::list_place(1))?.to_key(), Some(Key::from(1)));
//! assert_eq!(table.read(slot::address(Key::from(1)))?.to_address(), Some(Address::from(0x11)));
//! # Ok::<(), beaker::Refusal>(())
//! ```

use crate::{Key, Kind, Word};

const PROCEDURES: u8 = 0;
const LIST: u8 = 1;
const KERNEL_ADDRESS: u8 = 2;
const CURRENT: u8 = 3;
const ENTRY: u8 = 4;

/// Four bytes ff, the region, the middle, the end.
fn slot(region: u8, middle: Key, end: [u8; 3]) -> Word {
    let mut word = [0xff; Word::BYTES];
    word[4] = region;
    word[5..29].copy_from_slice(middle.as_bytes());
    word[29..].copy_from_slice(&end);
    Word::from(word)
}

/// How many procedures are listed.
pub fn list_length() -> Word {
    slot(LIST, Key::ZERO, [0; 3])
}

/// The key at a place of the list, counted from 1.
pub fn list_place(place: u64) -> Word {
    slot(LIST, Key::from(place), [0; 3])
}

/// The kernel's address.
pub fn kernel_address() -> Word {
    slot(KERNEL_ADDRESS, Key::ZERO, [0; 3])
}

/// The running procedure's key.
pub fn current_key() -> Word {
    slot(CURRENT, Key::ZERO, [0; 3])
}

/// The entry procedure's key.
pub fn entry_key() -> Word {
    slot(ENTRY, Key::ZERO, [0; 3])
}

/// The address of a procedure's contract; zero if it is not listed.
pub fn address(key: Key) -> Word {
    slot(PROCEDURES, key, [0, 0, 0])
}

/// A procedure's place in the list; zero if it is not listed.
pub fn index(key: Key) -> Word {
    slot(PROCEDURES, key, [0, 0, 1])
}

/// How many capabilities of a type a procedure holds.
pub fn capability_count(key: Key, kind: Kind) -> Word {
    slot(PROCEDURES, key, [kind.number(), 0, 0])
}

/// A word, counted from 0, of a procedure's capability of a type, counted from 1.
pub fn capability_word(key: Key, kind: Kind, capability: u8, word: u8) -> Word {
    slot(PROCEDURES, key, [kind.number(), capability, word])
}
