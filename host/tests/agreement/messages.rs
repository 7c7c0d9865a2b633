//! Fields of every size, damaged messages, and series malformed in every way.

use super::comparison::{Call, Comparison};
use super::inputs::*;
use crate::independent::answers::{MALFORMED, TOO_MANY};
use crate::independent::messages::LONGEST_MESSAGE;
use crate::independent::rights::{Capability, Type, GREATEST_PREFIX, MOST_OF_A_TYPE};
use crate::independent::words::{number, right, Word, ZERO};

pub const ON_SIZES: usize = 2_500;

/// Each field of each call with every number of bytes, on a sound table and on others: its size
/// is judged before the table.
#[test]
fn field_sizes() {
    let mut comparison = Comparison::new("field sizes");
    for table in [fresh(16), vec![], vec![0; 63], vec![1; 832]] {
        for size in 0..=70 {
            for call in with_a_field_of(size) {
                comparison.try_on(&table, &call);
            }
        }
    }
    comparison.finish(ON_SIZES);
}

fn with_a_field_of(size: usize) -> Vec<Call> {
    let field = vec![1; size];
    let (key, address) = (FIRST.to_vec(), vec![5; 20]);
    let set_up = |key: &[u8], address: &[u8], kernel_address: &[u8]| Call::SetUp {
        key: key.to_vec(),
        address: address.to_vec(),
        kernel_address: kernel_address.to_vec(),
    };
    let mut calls = vec![
        set_up(&field, &address, &address),
        set_up(&key, &field, &address),
    ];
    calls.push(set_up(&key, &address, &field));
    calls.extend([
        Call::Turn { key: field.clone() },
        Call::Look {
            slot: field.clone(),
        },
    ]);
    for message in [
        vec![],
        vec![0],
        vec![9],
        message(Type::Call, &[ZERO, right(&FIRST)]),
    ] {
        calls.push(Call::System {
            message,
            code: vec![],
            mask: field.clone(),
        });
    }
    calls
}

/// How many damaged messages there are at least.
pub const DAMAGED: usize = 12_000;

/// Good messages cut at every byte, lengthened, with every bit changed, and with every type byte.
#[test]
fn damaged_messages() {
    let mut comparison = Comparison::new("damaged messages");
    let table = varied(52);
    let rights = [
        prefix(Type::Call, 9, &key(&[0xa0])),
        set_entry(),
        range(number(5), number(1)),
    ];
    let mut calls = one_of_each();
    calls.extend([
        register(1, &key(&[0xa0, 1]), &rights),
        write(1, power(255), ZERO),
    ]);
    calls.push(on_key(Type::Call, 0, &small_key(3)));
    calls.push(on_key(Type::Delete, 2, &key(&[0xa0, 0x80])));
    for call in calls {
        let Call::System {
            message,
            code,
            mask,
        } = call
        else {
            continue;
        };
        for message in damaged(&message) {
            let (code, mask) = (code.clone(), mask.clone());
            comparison.try_on(
                &table,
                &Call::System {
                    message,
                    code,
                    mask,
                },
            );
        }
    }
    comparison.finish(DAMAGED);
}

fn damaged(message: &[u8]) -> Vec<Vec<u8>> {
    let mut all: Vec<_> = (0..=message.len())
        .map(|length| message[..length].to_vec())
        .collect();
    let to_longest = LONGEST_MESSAGE - message.len();
    for more in [1, 31, 32, 33, 64, to_longest, to_longest + 1] {
        all.push([message, &vec![0; more]].concat());
    }
    for bit in 0..8 * message.len() {
        let mut changed = message.to_vec();
        changed[bit / 8] ^= 1 << (bit % 8);
        all.push(changed);
    }
    all.extend((0..=255).map(|of| [&[of], &message[1..]].concat()));
    all
}

/// Register's series malformed in each way, at each place, alone and with what would be refused
/// later.
#[test]
fn malformed_series() {
    let mut comparison = Comparison::new("malformed series");
    let good = [
        set_entry(),
        prefix(Type::Call, GREATEST_PREFIX, &key(&[0xa0])),
        range(number(1), number(1)),
        prefix(Type::Register, 24, &key(&[2])),
        prefix(Type::Delete, 0, &key(&[])),
    ];
    let not_held = [prefix(Type::Call, 0, &key(&[]))];
    let table = holding(40, &good);
    let mut register = |key, series: Vec<u8>| {
        comparison.try_on(&table, &register_series(0, key, &series));
    };
    let (new, listed) = (key(&[2, 0, 0, 9]), key(&[2]));
    for at in 0..good.len() {
        for bad in malformed(&good[at]) {
            for before in [&good[..at], &not_held] {
                register(
                    &new,
                    [series(before), bad.clone(), series(&good[at + 1..])].concat(),
                );
                register(&listed, [series(before), bad.clone()].concat());
            }
        }
    }
    let whole = series(&good);
    (0..=whole.len()).for_each(|length| register(&new, whole[..length].to_vec()));
    comparison.finish(950);
    assert!(comparison.count("Register", MALFORMED) > 900);
}

/// A request wrong in its size, its type, its prefix or its leading bytes.
fn malformed(capability: &Capability) -> Vec<Vec<u8>> {
    let (good_size, good_type) = (
        1 + capability.of.words(),
        usize::from(capability.of.number()),
    );
    let words = capability.words.concat();
    let other_sizes = (0..=4)
        .chain([255, 256, 65_537])
        .filter(|size| *size != good_size);
    let other_types = (0..=9)
        .chain([255, 256 + good_type])
        .filter(|of| *of != good_type);
    let sizes = other_sizes.map(number).chain(with_leading_byte(good_size));
    let types = other_types.map(number).chain(with_leading_byte(good_type));
    let mut bad: Vec<_> = sizes
        .map(|size| [&size, &number(good_type)[..], &words].concat())
        .collect();
    bad.extend(types.map(|of| [&number(good_size), &of[..], &words].concat()));
    if capability.of.has_prefix() {
        for prefix in [GREATEST_PREFIX + 1, 194, 200, 224, 255] {
            let mut request = request(capability);
            request[64] = prefix;
            bad.push(request);
        }
    }
    bad
}

/// A number with one more byte that is not zero: the first, or the last but one.
fn with_leading_byte(n: usize) -> [Word; 2] {
    [0, 30].map(|at| {
        let mut word = number(n);
        word[at] = 1;
        word
    })
}

/// About 255 requests of one type: on tables with room and without, alone or with a request more,
/// with a cut end or not.
#[test]
fn many_of_one_type() {
    let mut comparison = Comparison::new("many of one type");
    let held = [
        prefix(Type::Register, 0, &key(&[])),
        set_entry(),
        range(number(1), from_top(1)),
    ];
    let mut requests = vec![
        prefix(Type::Register, 0, &key(&[])),
        prefix(Type::Register, 3, &FIRST),
    ];
    requests.extend([set_entry(), range(number(1), ZERO), range(ZERO, ZERO)]);
    requests.push(prefix(Type::Call, 3, &FIRST));
    let more = [
        vec![],
        request(&set_entry()),
        request(&range(ZERO, ZERO)),
        vec![0],
    ];
    for records in [20, 40, 270, 300] {
        let table = holding(records, &held);
        for request in &requests {
            for count in [MOST_OF_A_TYPE - 1, MOST_OF_A_TYPE, MOST_OF_A_TYPE + 1] {
                let many = series(&vec![request.clone(); count]);
                for last in &more {
                    let series = [&many[..], last].concat();
                    comparison.try_on(&table, &register_series(0, &small_key(9), &series));
                }
            }
        }
    }
    comparison.finish(250);
    assert!(comparison.count("Register", TOO_MANY) > 50);
    assert!(comparison.count("Register", &[]) > 20);
}
