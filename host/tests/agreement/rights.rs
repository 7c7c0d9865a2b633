//! What capabilities cover and contain at their bounds, and what code passes.

use super::comparison::{Call, Comparison};
use super::inputs::*;
use crate::independent::answers::CODE_FAILS;
use crate::independent::rights::{Capability, Type, GREATEST_PREFIX};
use crate::independent::words::{number, Word, ZERO};

const OF_PREFIX: [Type; 3] = [Type::Call, Type::Register, Type::Delete];

pub const ON_PREFIXES: usize = 7_000;

/// Every prefix, with keys that differ in one bit: the first of a key, the last of the prefix, the
/// next or the last of a key; and containment, where the requested prefix is shorter, as long,
/// longer or out of range.
#[test]
fn prefixes() {
    let mut comparison = Comparison::new("prefixes");
    let base = [0xa5; 24];
    for held in 0..=GREATEST_PREFIX {
        let table = holding(20, &OF_PREFIX.map(|of| prefix(of, held, &base)));
        let (shorter, longer) = (held.saturating_sub(1), held + 1);
        for bit in [0, shorter, held.min(191), 191] {
            let mut other = base;
            other[usize::from(bit / 8)] ^= 0x80 >> (bit % 8);
            comparison.try_on(&table, &on_key(Type::Call, 0, &other));
            comparison.try_on(&table, &on_key(Type::Delete, 0, &other));
            comparison.try_on(&table, &register(0, &other, &[]));
            for requested in [0, shorter, held, longer, 192, 193, 255] {
                let of = comparison.random.one_of(&OF_PREFIX);
                let request = prefix(of, requested, &other);
                comparison.try_on(&table, &register(0, &base, &[request]));
            }
        }
    }
    comparison.finish(ON_PREFIXES);
}

pub const ON_RANGES: usize = 16_000;

/// Write ranges that begin and end at the bounds of words, wrap, or miss by one: what they cover,
/// and what lies within them.
#[test]
fn ranges() {
    let mut comparison = Comparison::new("ranges");
    let mut below_half = [0xff; 32];
    below_half[0] = 0x7f;
    let bounds = [
        ZERO,
        number(1),
        number(2),
        number(0x85),
        below_half,
        power(255),
    ];
    let bounds = [&bounds[..], &[from_top(2), from_top(1), from_top(0)]].concat();
    let all: Vec<_> = bounds
        .iter()
        .flat_map(|a| bounds.iter().map(|n| range(*a, *n)))
        .collect();
    for held in &all {
        on_range(&mut comparison, held, &bounds, &all);
    }
    for _ in 0..ON_RANGES / 2 {
        let [held, requested] = [0; 2].map(|_| [0; 3].map(|_| comparison.random.one_of(&all)));
        comparison.try_on(
            &holding_ranges(&held),
            &register(0, &small_key(9), &requested),
        );
    }
    comparison.finish(ON_RANGES);
}

fn holding_ranges(ranges: &[Capability]) -> Vec<u8> {
    holding(
        24,
        &[ranges, &[prefix(Type::Register, 0, &key(&[]))]].concat(),
    )
}

/// One held range against every requested one and every address.
fn on_range(comparison: &mut Comparison, held: &Capability, bounds: &[Word], all: &[Capability]) {
    let table = holding_ranges(std::slice::from_ref(held));
    for requested in all {
        let requested = std::slice::from_ref(requested);
        comparison.try_on(&table, &register(0, &small_key(9), requested));
    }
    let near = [number(0x80), number(0x86), power(224), power(254)];
    for address in bounds.iter().chain(&near) {
        for value in [ZERO, number(1)] {
            comparison.try_on(&table, &write(0, *address, value));
        }
    }
}

/// How many codes are random, and how many there are at least.
const RANDOM_CODES: usize = 24_000;
pub const ON_CODE: usize = RANDOM_CODES + 2_900;

/// Code of every bounding length, push data cut at every byte, every opcode, and random code under
/// random masks.
#[test]
fn code() {
    let mut comparison = Comparison::new("code");
    for length in [0, 1, 2, 24_575, 24_576, 24_577, 65_536] {
        for opcode in [0x00, 0x60, 0x7f, 0xf4] {
            passes(&mut comparison, vec![opcode; length], mask());
            passes(&mut comparison, vec![opcode; length], vec![0xff; 32]);
        }
    }
    for opcode in 0..=255 {
        let only = only_opcodes(&[opcode]);
        let all_others = only.iter().map(|byte| !byte).collect();
        assert!(passes(&mut comparison, vec![opcode; 33], only));
        assert!(!passes(&mut comparison, vec![opcode], all_others));
    }
    cut_push_data(&mut comparison);
    random_code(&mut comparison);
    assert!(comparison.count("Register", &[]) > 1_000);
    assert!(comparison.count("Register", CODE_FAILS) > 1_000);
    comparison.finish(ON_CODE);
}

/// Whether code passes, as all three say.
fn passes(comparison: &mut Comparison, code: Vec<u8>, mask: Vec<u8>) -> bool {
    let Call::System { message, .. } = register(0, &small_key(9), &[]) else {
        unreachable!()
    };
    comparison
        .try_on(
            &fresh(16),
            &Call::System {
                message,
                code,
                mask,
            },
        )
        .flag
        == 1
}

/// Each push, and its neighbours, before every number of bytes that are not allowed, and then the
/// end or one opcode that is.
fn cut_push_data(comparison: &mut Comparison) {
    for push in 0x5f..=0x80 {
        for data in 0..=34 {
            let code = [vec![push], vec![0xf4; data]].concat();
            for end in [&[][..], &[0x00]] {
                passes(
                    comparison,
                    [&code[..], end].concat(),
                    only_opcodes(&[push, 0x00]),
                );
            }
        }
    }
}

/// Random code of few opcodes, most of them pushes, under masks that allow most of them.
fn random_code(comparison: &mut Comparison) {
    for _ in 0..RANDOM_CODES {
        let random = &mut comparison.random;
        let opcodes = [0x00, 0x5f, 0x60, 0x61, 0x6f, 0x7f, 0x80, random.byte()];
        let code = (0..random.below(60))
            .map(|_| random.one_of(&opcodes))
            .collect();
        let mask = match random.below(3) {
            0 => random.bytes(32),
            1 => only_opcodes(&opcodes[..random.within(4..=8)]),
            _ => only_opcodes(&opcodes),
        };
        passes(comparison, code, mask);
    }
}

fn only_opcodes(opcodes: &[u8]) -> Vec<u8> {
    let mut mask = vec![0; 32];
    opcodes
        .iter()
        .for_each(|opcode| mask[usize::from(opcode / 8)] |= 1 << (opcode % 8));
    mask
}
