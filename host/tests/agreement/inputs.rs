//! Messages, capabilities and tables to make calls with.

use super::comparison::Call;
use crate::independent::calls::{self, append};
use crate::independent::rights::{Capability, Type, GREATEST_PREFIX};
use crate::independent::storage::*;
use crate::independent::words::{number, right, Word, ZERO};

/// The records of a table of full size.
pub const FULL: usize = LONGEST_TABLE / RECORD;

/// Codes and a mask that pass and fail together: the mask allows 00 and 60 alone.
pub const GOOD_CODE: [u8; 3] = [0x60, 0xf4, 0x00];
pub const BAD_CODE: [u8; 1] = [0xf4];

pub fn mask() -> Vec<u8> {
    let mut mask = vec![0; 32];
    mask[0] = 1;
    mask[0x60 / 8] = 1;
    mask
}

/// A key whose first bytes are given, the rest zero.
pub fn key(first: &[u8]) -> Key {
    let mut key = [0; 24];
    key[..first.len()].copy_from_slice(first);
    key
}

/// A key whose last byte is given.
pub fn small_key(last: u8) -> Key {
    let mut key = [0; 24];
    key[23] = last;
    key
}

/// 2^e, for e from 0 to 255.
pub fn power(e: usize) -> Word {
    let mut word = ZERO;
    word[31 - e / 8] = 1 << (e % 8);
    word
}

/// 2^256 - 1 - n, for a small n.
pub fn from_top(n: u8) -> Word {
    let mut word = [0xff; 32];
    word[31] -= n;
    word
}

pub fn prefix(of: Type, bits: u8, base: &Key) -> Capability {
    let mut word = right(base);
    word[0] = bits;
    Capability::new(of, &[word])
}

pub fn set_entry() -> Capability {
    Capability::new(Type::SetEntry, &[])
}

pub fn range(a: Word, n: Word) -> Capability {
    Capability::new(Type::Write, &[a, n])
}

/// A message: its type byte, then words.
pub fn message(of: Type, words: &[Word]) -> Vec<u8> {
    let mut message = vec![of.number()];
    message.extend(words.concat());
    message
}

/// A system call whose code passes.
pub fn system(message: Vec<u8>) -> Call {
    Call::System {
        message,
        code: GOOD_CODE.to_vec(),
        mask: mask(),
    }
}

/// A call of a type that names a key: Call, Delete or Set Entry.
pub fn on_key(of: Type, index: usize, key: &Key) -> Call {
    system(message(of, &[number(index), right(key)]))
}

pub fn write(index: usize, address: Word, value: Word) -> Call {
    system(message(Type::Write, &[number(index), address, value]))
}

pub fn register(index: usize, key: &Key, capabilities: &[Capability]) -> Call {
    register_series(index, key, &series(capabilities))
}

/// Register with any bytes for a series.
pub fn register_series(index: usize, key: &Key, series: &[u8]) -> Call {
    let mut message = message(
        Type::Register,
        &[number(index), right(key), right(&[0x33; 20])],
    );
    message.extend_from_slice(series);
    system(message)
}

pub fn series(capabilities: &[Capability]) -> Vec<u8> {
    capabilities.iter().flat_map(request).collect()
}

/// CapSize, CapType, the words.
pub fn request(capability: &Capability) -> Vec<u8> {
    let mut words = vec![
        number(1 + capability.of.words()),
        number(usize::from(capability.of.number())),
    ];
    words.extend_from_slice(&capability.words);
    words.concat()
}

pub fn turn(key: &Key) -> Call {
    Call::Turn { key: key.to_vec() }
}

pub fn look(slot: &Word) -> Call {
    Call::Look {
        slot: slot.to_vec(),
    }
}

pub fn set_up() -> Call {
    let (key, address, kernel_address) = (FIRST.to_vec(), vec![0x11; 20], vec![0x22; 20]);
    Call::SetUp {
        key,
        address,
        kernel_address,
    }
}

/// The key of the procedure that `set_up` makes.
pub const FIRST: Key = [1; 24];

/// One call of every kind, none of which needs more than a sound table to be judged further.
pub fn one_of_each() -> Vec<Call> {
    vec![
        turn(&FIRST),
        look(&current_slot()),
        system(vec![0]),
        on_key(Type::Call, 0, &FIRST),
        register(0, &small_key(0xee), &[set_entry()]),
        on_key(Type::Delete, 0, &small_key(2)),
        on_key(Type::SetEntry, 0, &FIRST),
        write(0, number(7), number(8)),
    ]
}

/// A table after set-up.
pub fn fresh(records: usize) -> Vec<u8> {
    let mut table = vec![0; RECORD * records];
    calls::set_up(&mut table, &FIRST, &[0x11; 20], &[0x22; 20]);
    table
}

/// Makes calls that must succeed on a table that is being prepared.
pub fn prepare(table: &mut [u8], calls: impl IntoIterator<Item = Call>) {
    for call in calls {
        assert_eq!(call.by_document(table).flag, 1);
    }
}

/// A table of so many records whose only procedure holds these capabilities. It is written slot by
/// slot, so that capabilities which nobody could pass on may be held.
pub fn holding(records: usize, capabilities: &[Capability]) -> Vec<u8> {
    let mut storage = Storage::read(&fresh(records)).unwrap();
    for of in Type::ALL {
        let held: Vec<_> = capabilities
            .iter()
            .filter(|capability| capability.of == of)
            .collect();
        storage.store(count_slot(&FIRST, of), number(held.len()));
        storage.store(word_slot(&FIRST, of, 1, 1), ZERO);
        for (before, capability) in held.iter().enumerate() {
            for (k, word) in capability.words.iter().enumerate() {
                storage.store(word_slot(&FIRST, of, before + 1, k), *word);
            }
        }
    }
    assert!(storage.records() <= records);
    table_of(&storage, records)
}

/// The table of so many records that holds what is stored.
pub fn table_of(storage: &Storage, records: usize) -> Vec<u8> {
    let mut table = vec![0; RECORD * records];
    storage.write(&mut table);
    table
}

/// A table without a free record: the procedure of set-up, these others, and data from slot `DATA`
/// on.
pub fn full_table(
    records: usize,
    procedures: impl IntoIterator<Item = (Key, Vec<Capability>)>,
) -> Vec<u8> {
    let mut storage = Storage::read(&fresh(records)).unwrap();
    for ((key, capabilities), place) in procedures.into_iter().zip(2..) {
        append(&mut storage, place, &key, &[0x33; 20], &capabilities);
    }
    for n in 0..records - storage.records() {
        storage.store(number(DATA + n), number(n + 1));
    }
    table_of(&storage, records)
}

/// The first slot of a full table's data.
pub const DATA: usize = 30;

/// A table with several procedures, some data, and capabilities of every type, of which some words
/// are zero, unread bytes are not, and no call could have made some.
pub fn varied(records: usize) -> Vec<u8> {
    let mut table = holding(records, &varied_capabilities());
    prepare(&mut table, varied_procedures());
    prepare(
        &mut table,
        [
            write(0, ZERO, number(1)),
            write(0, number(5), from_top(0)),
            write(0, power(255), power(255)),
            on_key(Type::SetEntry, 0, &small_key(3)),
        ],
    );
    table
}

/// What the first procedure of a varied table holds.
fn varied_capabilities() -> Vec<Capability> {
    let mut capabilities = vec![
        set_entry(),
        set_entry(),
        range(ZERO, from_top(0)),
        range(power(255), ZERO),
        range(from_top(0), number(7)),
    ];
    for of in [Type::Call, Type::Register, Type::Delete] {
        capabilities.extend([
            prefix(of, 0, &key(&[])),
            prefix(of, 8, &key(&[0xa0, 0x55])),
            prefix(of, 9, &key(&[0xa0, 0x80])),
        ]);
        capabilities.last_mut().unwrap().words[0][1..8].fill(0x77);
    }
    capabilities
}

/// How it registers the others.
fn varied_procedures() -> [Call; 3] {
    let with_two_words = [set_entry(), range(number(5), number(6))];
    let with_longest_prefix = [prefix(Type::Call, GREATEST_PREFIX, &key(&[0xa0, 0x80, 1]))];
    let with_zero_word = [
        prefix(Type::Delete, 0, &key(&[])),
        prefix(Type::Register, 7, &key(&[2])),
    ];
    [
        register(0, &small_key(2), &with_two_words),
        register(0, &key(&[0xa0, 0x80]), &with_longest_prefix),
        register(0, &small_key(3), &with_zero_word),
    ]
}
