//! Ways to make a sound table unsound, each by one clause of the document, and named for it.

use super::inputs::small_key;
use crate::independent::rights::{Type, GREATEST_PREFIX, MOST_OF_A_TYPE};
use crate::independent::soundness::Sound;
use crate::independent::storage::*;
use crate::independent::words::{number, right, Word, ZERO};

/// Breaks the record form. The table has several records, and free ones after them.
pub type OfForm = (&'static str, fn(&mut Vec<u8>));

pub const OF_FORM: [OfForm; 8] = [
    ("two records exchanged", |table| {
        table[..2 * RECORD].rotate_left(RECORD)
    }),
    ("the last two records exchanged", |table| {
        let end = occupied(table);
        table[end - 2 * RECORD..end].rotate_left(RECORD);
    }),
    ("a key twice", |table| {
        let end = occupied(table);
        table[..end + RECORD].rotate_right(RECORD);
        table.copy_within(RECORD..2 * RECORD, 0);
    }),
    ("a value of zero among the records", |table| {
        table[RECORD + 32..2 * RECORD].fill(0)
    }),
    ("an empty record among the records", |table| {
        table[RECORD..2 * RECORD].fill(0)
    }),
    ("an empty record first", |table| {
        let end = occupied(table);
        table[..end + RECORD].rotate_right(RECORD);
    }),
    ("a key without a value after the records", |table| {
        let end = occupied(table);
        table[end] = 0xff;
    }),
    ("the last byte set", |table| *table.last_mut().unwrap() = 1),
];

/// The bytes of the occupied records.
fn occupied(table: &[u8]) -> usize {
    table
        .chunks_exact(RECORD)
        .take_while(|record| record[32..] != ZERO)
        .count()
        * RECORD
}

/// Breaks a clause about what is stored: values stored in slots, in the record form.
pub struct OfStorage {
    pub name: String,
    pub stores: Vec<(Word, Word)>,
}

/// Every such mutation of a sound table whose first procedure holds capabilities of every type.
pub fn of_storage(sound: &Sound) -> Vec<OfStorage> {
    let mut all = Vec::new();
    of_length(&mut all, sound.keys.len());
    of_places(&mut all, &sound.keys);
    for (before, key) in sound.keys.iter().enumerate() {
        of_address_and_index(&mut all, key, before + 1);
        of_capabilities(&mut all, key);
        of_other_ends(&mut all, sound, key);
        of_other_middles(&mut all, key);
    }
    of_single_slots(&mut all, sound);
    all
}

fn add(all: &mut Vec<OfStorage>, name: &str, slot: Word, value: Word) {
    add_together(all, name, vec![(slot, value)]);
}

fn add_together(all: &mut Vec<OfStorage>, name: &str, stores: Vec<(Word, Word)>) {
    all.push(OfStorage {
        name: name.to_string(),
        stores,
    });
}

/// A word with one more byte.
fn with_byte(mut word: Word, at: usize) -> Word {
    word[at] = 1;
    word
}

/// The last byte of a key that is not listed.
const STRANGER: u8 = 0x77;

/// "The length N is at least 1", and places 1 to N are there.
fn of_length(all: &mut Vec<OfStorage>, n: usize) {
    let lengths = [
        ("no length", ZERO),
        ("the length one more", number(n + 1)),
        ("the length one less", number(n - 1)),
        ("the length with a higher byte", with_byte(number(n), 23)),
        ("the length with its first byte", with_byte(number(n), 0)),
    ];
    for (name, length) in lengths {
        add(all, name, length_slot(), length);
    }
}

/// "List places 1 to N hold distinct non-zero 24-byte keys."
fn of_places(all: &mut Vec<OfStorage>, keys: &[Key]) {
    let n = keys.len();
    let (first, last) = (right(&keys[0]), right(&keys[n - 1]));
    let stranger = right(&small_key(STRANGER));
    let places = [
        ("no key in the first place", 1, ZERO),
        ("no key in the last place", n, ZERO),
        ("a key of 25 bytes in a place", 1, with_byte(first, 7)),
        ("a key in two places", 1, last),
        ("a key in a place past the length", n + 1, stranger),
        ("a listed key in a place past the length", n + 1, first),
        ("a key with nothing stored in a place", n, stranger),
    ];
    for (name, place, key) in places {
        add(all, name, place_slot(place), key);
    }
    let listed_properly = vec![
        (length_slot(), number(n + 1)),
        (place_slot(n + 1), stranger),
    ];
    add_together(
        all,
        "a key listed with nothing else stored",
        listed_properly,
    );
}

/// "Each listed key has a non-zero 20-byte address, and an index equal to its place."
fn of_address_and_index(all: &mut Vec<OfStorage>, key: &Key, place: usize) {
    let (address, index) = (address_slot(key), index_slot(key));
    let facts = [
        ("no address", address, ZERO),
        ("an address of 21 bytes", address, with_byte(ZERO, 11)),
        ("an address of 32 bytes", address, [1; 32]),
        ("no index", index, ZERO),
        ("the index of the next place", index, number(place + 1)),
        (
            "an index with a higher byte",
            index,
            with_byte(number(place), 23),
        ),
    ];
    for (name, slot, value) in facts {
        add(all, name, slot, value);
    }
}

/// "Each count is at most 255; every prefix is in range."
fn of_capabilities(all: &mut Vec<OfStorage>, key: &Key) {
    for of in Type::ALL {
        let count = count_slot(key, of);
        let too_many = number(MOST_OF_A_TYPE + 1);
        add(all, "a count of 256", count, too_many);
        let long = with_byte(number(1), 0);
        add(all, "a count with its first byte", count, long);
        if !of.has_prefix() {
            continue;
        }
        for prefix in [GREATEST_PREFIX + 1, u8::MAX] {
            let mut word = ZERO;
            word[0] = prefix;
            let last = (word_slot(key, of, MOST_OF_A_TYPE, 0), word);
            let stores = vec![(count, number(MOST_OF_A_TYPE)), last];
            add_together(all, &format!("a prefix of {prefix}"), stores);
        }
    }
}

/// "Current and entry keys are listed; the kernel address is non-zero and 20 bytes."
fn of_single_slots(all: &mut Vec<OfStorage>, sound: &Sound) {
    let singles = [
        (current_slot(), right(&sound.current())),
        (entry_slot(), right(&sound.entry())),
    ];
    for (slot, key) in singles {
        let keys = [
            ("no current or entry key", ZERO),
            (
                "a current or entry key that is not listed",
                right(&small_key(STRANGER)),
            ),
            ("a current or entry key of 25 bytes", with_byte(key, 7)),
            (
                "a current or entry key with its first byte",
                with_byte(key, 0),
            ),
        ];
        for (name, value) in keys {
            add(all, name, slot, value);
        }
    }
    let addresses = [
        ("no kernel address", ZERO),
        ("a kernel address of 21 bytes", with_byte(ZERO, 11)),
        ("a kernel address of 32 bytes", [1; 32]),
    ];
    for (name, value) in addresses {
        add(all, name, kernel_address_slot(), value);
    }
}

/// "No other key of kernel storage is present": none of a listed key with another end.
fn of_other_ends(all: &mut Vec<OfStorage>, sound: &Sound, key: &Key) {
    let mut other = |name: &str, end| add(all, name, slot(PROCEDURES, key, end), number(1));
    for end in [[0, 0, 2], [0, 1, 0], [0, 1, 1], [0, 255, 255]] {
        other("a third fact about a procedure", end);
    }
    for number in [1, 2, 8, 9, 255] {
        other("a count of another type", [number, 0, 0]);
        other("a word of another type", [number, 1, 0]);
    }
    for of in Type::ALL {
        let count = sound.storage.value(&count_slot(key, of))[31];
        let (of, words) = (of.number(), of.words() as u8);
        other("a word past the count", [of, count + 1, 0]);
        other("a word past the type's words", [of, count.max(1), words]);
        other("a word past a count", [of, 0, 1]);
    }
}

/// "No other key of kernel storage is present": none of an unlisted key, none with a middle or an
/// end where there is none, and no other region.
fn of_other_middles(all: &mut Vec<OfStorage>, key: &Key) {
    let mut other = |name: &str, region, middle: &Key, end| {
        add(all, name, slot(region, middle, end), number(1))
    };
    let (stranger, zero) = (small_key(STRANGER), [0; 24]);
    for end in [ADDRESS_END, INDEX_END, [3, 0, 0], [3, 1, 0]] {
        other("a record of an unlisted key", PROCEDURES, &stranger, end);
        other("a record of the key zero", PROCEDURES, &zero, end);
    }
    for end in [[0, 0, 1], [1, 0, 0]] {
        other("a place with an end", LIST, &small_key(1), end);
        other("a length with an end", LIST, &zero, end);
    }
    for region in 2..=4 {
        other("a single slot with a middle", region, key, [0; 3]);
        other("a single slot with an end", region, &zero, [0, 0, 1]);
    }
    for region in [5, 0x80, 0xff] {
        other("another region", region, &zero, [0; 3]);
        other("another region", region, key, [0xff; 3]);
    }
}
