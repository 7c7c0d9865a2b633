//! Long sequences of calls from a set-up.

use super::comparison::Comparison;
use super::drawing::{effect, Scene};
use super::inputs::fresh;
use crate::independent::answers::*;
use crate::independent::soundness::Sound;
use crate::independent::storage::RECORD;
use std::collections::BTreeMap;

pub const CALLS: usize = 96_800;
const IN_A_SEQUENCE: usize = 400;

/// The answers that every system call may give before its type is known.
const GENERAL: [Code; 3] = [WRONG_SIZE, NOT_SOUND, TOO_LONG];

/// The answers of each row; no code is a success. 66 e8 is left out: no table has room for a list
/// that long.
const ROWS: [(&str, &[Code]); 11] = [
    ("Set-up", &[&[], WRONG_SIZE, NOT_SOUND, ZERO_FIELD, NO_ROOM]),
    ("Turn", &[&[], WRONG_SIZE, NOT_SOUND, NOT_LISTED]),
    ("Look", &[&[], WRONG_SIZE, NOT_SOUND]),
    ("empty", &[WRONG_SIZE, NOT_SOUND, TOO_SHORT]),
    ("unknown", &[UNKNOWN_TYPE]),
    ("Null", &[&[], OVERLONG]),
    (
        "Call",
        &[&[], TOO_SHORT, LEADING_BYTES, NO_RIGHT, NOT_LISTED],
    ),
    (
        "Set Entry",
        &[
            &[],
            TOO_SHORT,
            OVERLONG,
            LEADING_BYTES,
            NO_RIGHT,
            NOT_LISTED,
        ],
    ),
    (
        "Delete",
        &[
            &[],
            TOO_SHORT,
            OVERLONG,
            LEADING_BYTES,
            NO_RIGHT,
            IS_ENTRY,
            NOT_LISTED,
            IS_CURRENT,
        ],
    ),
    ("Write", &[&[], TOO_SHORT, OVERLONG, NO_RIGHT, NO_ROOM]),
    ("Register", REGISTER),
];
const REGISTER: &[Code] = &[
    &[],
    TOO_SHORT,
    LEADING_BYTES,
    ZERO_FIELD,
    NO_RIGHT,
    CODE_FAILS,
    MALFORMED,
    TOO_MANY,
    ALREADY_LISTED,
    NO_ROOM,
];

/// Every kind of success.
const EFFECTS: [&str; 16] = [
    "Set-up",
    "Turn",
    "Look",
    "Null",
    "Call without a payload",
    "Call with a payload",
    "Register without capabilities",
    "Register with capabilities",
    "Write of a new slot",
    "Write over a slot",
    "Write of zero over a slot",
    "Write of zero to an absent slot",
    "Delete of the last place",
    "Delete that moves a key",
    "Set Entry",
    "Set Entry that changes nothing",
];

/// The tables are short, so that they are often full. Every answer of every row occurs often, and
/// every kind of success.
#[test]
fn sequences_of_calls() {
    let mut comparison = Comparison::new("sequences of calls");
    let mut effects = BTreeMap::new();
    for _ in 0..CALLS / IN_A_SEQUENCE {
        sequence(&mut comparison, &mut effects);
    }
    comparison.finish(CALLS);
    println!("{effects:#?}");
    for (row, codes) in ROWS {
        let is_system_call = !["Set-up", "Turn", "Look", "empty"].contains(&row);
        let general = if is_system_call { &GENERAL[..] } else { &[] };
        for code in codes.iter().chain(general) {
            let times = comparison.count(row, code);
            assert!(times >= 10, "{row} answers {code:02x?} {times} times");
        }
    }
    for effect in EFFECTS {
        assert!(effects.get(effect) >= Some(&200), "{effect} too seldom");
    }
}

/// One sequence. Some calls meet a damaged copy of the table.
fn sequence(comparison: &mut Comparison, effects: &mut BTreeMap<&str, usize>) {
    let scene = Scene::new(&mut comparison.random);
    let records = comparison.random.within(13..=48);
    let mut table = fresh(records);
    let mut sound = Sound::read(&table).unwrap();
    for _ in 0..IN_A_SEQUENCE {
        let call = scene.call(&mut comparison.random, &sound);
        let share = if call.name() == "Set-up" { 300 } else { 30 };
        if comparison.random.per_mille(share) {
            let damaged = damaged(comparison, &table);
            comparison.try_on(&damaged, &call);
            continue;
        }
        let before = table.clone();
        if comparison.make(&mut table, &call).flag == 1 {
            *effects
                .entry(effect(&call, &before, &table, &sound))
                .or_default() += 1;
        }
        if table != before {
            sound = Sound::read(&table).unwrap();
        }
    }
}

/// A copy of a table with one bit changed, with one byte less, or with less room than any sound
/// table has.
fn damaged(comparison: &mut Comparison, table: &[u8]) -> Vec<u8> {
    let random = &mut comparison.random;
    let mut damaged = table.to_vec();
    match random.below(4) {
        0 => drop(damaged.pop()),
        1 => damaged.truncate(12 * RECORD),
        _ => damaged[random.below(table.len())] ^= 1 << random.below(8),
    }
    damaged
}
