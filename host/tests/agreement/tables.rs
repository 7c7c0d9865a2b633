//! Tables of every length, damaged tables, full ones and large ones.

use super::comparison::{Call, Comparison};
use super::inputs::*;
use super::mutations;
use crate::independent::answers::{NOT_SOUND, NO_ROOM};
use crate::independent::rights::{Capability, Type};
use crate::independent::soundness::Sound;
use crate::independent::storage::*;
use crate::independent::words::{number, ZERO};

pub const ON_FLIPPED_BYTES: usize = 36_000;

/// Any byte of a table changed: wherever it falls, all say the same about the table.
#[test]
fn flipped_bytes() {
    let mut comparison = Comparison::new("flipped bytes");
    let tables = [fresh(14), varied(52), varied(60)];
    let calls = one_of_each();
    for _ in 0..ON_FLIPPED_BYTES {
        let mut table = comparison.random.one_of(&tables);
        for _ in 0..comparison.random.within(1..=2) {
            let at = comparison.random.below(table.len());
            table[at] = match comparison.random.below(3) {
                0 => 0,
                1 => table[at] ^ 1 << comparison.random.below(8),
                _ => comparison.random.byte(),
            };
        }
        let call = comparison.random.one_of(&calls);
        comparison.try_on(&table, &call);
    }
    comparison.finish(ON_FLIPPED_BYTES);
    assert!(comparison.count("Look", &[]) > 100);
    assert!(comparison.count("Look", NOT_SOUND) > 1_000);
}

pub const ON_UNSOUND: usize = 2_000;

/// Tables that break one clause: every call but set-up refuses them, and set-up overwrites them.
#[test]
fn unsound_tables() {
    let mut comparison = Comparison::new("unsound tables");
    let sound_table = varied(60);
    let sound = Sound::read(&sound_table).unwrap();
    for call in one_of_each() {
        assert_ne!(comparison.try_on(&sound_table, &call).code, NOT_SOUND);
    }
    for (name, mutate) in mutations::OF_FORM {
        let mut table = sound_table.clone();
        mutate(&mut table);
        refused_by_all(&mut comparison, name, &table);
    }
    for mutation in mutations::of_storage(&sound) {
        let mut storage = sound.storage.clone();
        mutation
            .stores
            .into_iter()
            .for_each(|(slot, value)| storage.store(slot, value));
        refused_by_all(&mut comparison, &mutation.name, &table_of(&storage, 60));
    }
    comparison.finish(ON_UNSOUND);
}

fn refused_by_all(comparison: &mut Comparison, name: &str, table: &[u8]) {
    for call in one_of_each() {
        assert_eq!(comparison.try_on(table, &call).code, NOT_SOUND, "{name}");
    }
    assert_eq!(comparison.try_on(table, &set_up()).flag, 1, "{name}");
}

pub const ON_LENGTHS: usize = 3_000;

/// Tables of every class of lengths: empty, sound where the length allows, and filled with
/// anything.
#[test]
fn table_lengths() {
    let mut comparison = Comparison::new("table lengths");
    let full = fresh(FULL);
    let short = [127, 128, 767, 768, 831, 832, 833, 895, 896];
    let long = [65_472, 65_535, 65_536, 65_537, 65_600, 131_072];
    for length in (0..=70).chain(short).chain(long) {
        let mut started = full.clone();
        started.resize(length, 0);
        let filled = comparison.random.bytes(length);
        for table in [vec![0; length], started, filled, vec![0xff; length]] {
            for call in one_of_each().into_iter().chain([set_up()]) {
                comparison.try_on(&table, &call);
            }
        }
    }
    comparison.finish(ON_LENGTHS);
}

/// Tables without a free record, short and of full size, with data, many procedures or many
/// capabilities.
#[test]
fn full_tables() {
    let mut comparison = Comparison::new("full tables");
    for records in [13, 14, 20, 60, FULL] {
        on_full_table(&mut comparison, &full_table(records, []));
    }
    on_full_table(&mut comparison, &with_many_procedures());
    on_full_table(&mut comparison, &with_many_capabilities());
    comparison.finish(300);
}

/// Calls that need room, need none, or give some back, and after each two that need room.
fn on_full_table(comparison: &mut Comparison, table: &[u8]) {
    for call in for_full_table(table) {
        let mut after = table.to_vec();
        if comparison.make(&mut after, &call).flag == 1 {
            comparison.try_on(&after, &write(0, number(0x1001), number(1)));
            comparison.try_on(&after, &register(0, &small_key(9), &[]));
        }
    }
}

fn for_full_table(table: &[u8]) -> Vec<Call> {
    let sound = Sound::read(table).unwrap();
    assert_eq!(
        sound.storage.records(),
        table.len() / RECORD,
        "the table is full"
    );
    let mut calls = one_of_each();
    for address in [ZERO, number(DATA), number(0x1001), from_top(0)] {
        calls.extend([write(0, address, number(1)), write(0, address, ZERO)]);
    }
    for listed in [&sound.keys[0], sound.keys.last().unwrap(), &small_key(9)] {
        calls.extend([Type::Call, Type::SetEntry, Type::Delete].map(|of| on_key(of, 0, listed)));
    }
    let zero_words = vec![prefix(Type::Delete, 0, &key(&[])); 255];
    for rights in [vec![], vec![set_entry()], zero_words] {
        calls.push(register(0, &small_key(9), &rights));
    }
    calls
}

/// Tables with each number of free records, about what each of some calls needs.
#[test]
fn free_records() {
    let mut comparison = Comparison::new("free records");
    let zero_words = vec![range(ZERO, ZERO), prefix(Type::Call, 0, &key(&[]))];
    let words = vec![
        range(number(1), number(1)),
        prefix(Type::Call, 1, &key(&[])),
    ];
    for records in 11..=24 {
        let table = fresh(records);
        for rights in [&[][..], &[set_entry()], &zero_words, &words, &words[1..]] {
            comparison.try_on(&table, &register(0, &small_key(9), rights));
        }
        comparison.try_on(&table, &write(0, number(1), number(1)));
        comparison.try_on(&table, &set_up());
    }
    comparison.finish(90);
    assert!(comparison.count("Register", &[]) > 20);
    assert!(comparison.count("Register", NO_ROOM) > 20);
}

/// A full table of more than 300 procedures.
fn with_many_procedures() -> Vec<u8> {
    let keys = (1..=330_u16).map(|n| key(&n.wrapping_mul(40_503).to_be_bytes()));
    full_table(FULL, keys.map(|key| (key, vec![])))
}

/// A full table of few procedures that hold hundreds of capabilities each, some with words of
/// zero.
fn with_many_capabilities() -> Vec<u8> {
    let many = |of, count: u8| (0..count).map(move |n| prefix(of, n % 193, &key(&[n, n])));
    let ranges = (0..100).map(|n| range(number(n % 7), number(n % 5)));
    let calls: Vec<Capability> = many(Type::Call, 255).collect();
    let mixed = many(Type::Delete, 120)
        .chain(many(Type::Register, 120))
        .chain(ranges);
    let first = (small_key(2), calls.clone());
    full_table(
        FULL,
        [first, (small_key(3), mixed.collect()), (key(&[7]), calls)],
    )
}

/// A long list, from which keys are deleted at any place.
#[test]
fn many_procedures() {
    let mut comparison = Comparison::new("many procedures");
    let mut table = with_many_procedures();
    for _ in 0..100 {
        let keys = Sound::read(&table).unwrap().keys;
        let key = comparison.random.one_of(&keys);
        comparison.make(&mut table, &on_key(Type::Call, 0, &key));
        comparison.make(&mut table, &on_key(Type::Delete, 0, &key));
    }
    comparison.finish(200);
}

/// Holders of many capabilities, who use each of them and pass them on.
#[test]
fn many_capabilities() {
    let mut comparison = Comparison::new("many capabilities");
    let mut table = with_many_capabilities();
    for n in 0..5 {
        comparison.make(&mut table, &write(0, number(DATA + n), ZERO));
    }
    for holder in [small_key(2), small_key(3)] {
        comparison.make(&mut table, &turn(&holder));
        let sound = Sound::read(&table).unwrap();
        for of in Type::ALL {
            let held = sound.held(of);
            for requests in [&held[..], &held[held.len() / 2..]] {
                comparison.try_on(&table, &register(0, &small_key(9), requests));
            }
            for index in [0, 1, 99, 100, 119, 120, 254, 255, 256] {
                let call = match of {
                    Type::Register => register(index, &key(&[7, 7]), &[]),
                    Type::Write => write(index, number(3), number(1)),
                    _ => on_key(of, index, &key(&[7])),
                };
                comparison.try_on(&table, &call);
            }
        }
    }
    comparison.finish(100);
}

/// 255 requests, each of which is within one held capability alone, at some place among 255.
#[test]
fn longest_search() {
    let mut comparison = Comparison::new("longest search");
    let mut held = vec![prefix(Type::Register, 0, &key(&[]))];
    held.extend((1..=255).map(|n| prefix(Type::Call, 8, &key(&[n]))));
    let table = holding(FULL, &held);
    for place in [1, 2, 128, 255] {
        let requests = vec![prefix(Type::Call, 9, &key(&[place])); 255];
        let answer = comparison.try_on(&table, &register(0, &small_key(9), &requests));
        assert_eq!(answer.tests, 255 * u64::from(place));
    }
    comparison.finish(4);
}
