//! The capabilities: how many words each type has, and what contains what.

use super::records::{Key, Limbs};

pub const CALL: usize = 3;
pub const REGISTER: usize = 4;
pub const DELETE: usize = 5;
pub const SET_ENTRY: usize = 6;
pub const WRITE: usize = 7;

/// The words of a capability, by type.
pub const WORDS: [usize; 8] = [0, 0, 0, 1, 1, 1, 0, 2];

pub const GREATEST_PREFIX: u64 = 192;
pub const MOST_OF_A_TYPE: usize = 255;

pub fn is_type(of: usize) -> bool {
    (CALL..=WRITE).contains(&of)
}

/// Whether a capability's words may be so: a type with a prefix has it in range.
pub fn in_range(of: usize, first_word: &Limbs) -> bool {
    of > DELETE || prefix(first_word) <= GREATEST_PREFIX
}

fn prefix(word: &Limbs) -> u64 {
    word[0] >> 56
}

/// A capability made ready for many tests.
pub trait Right: Copy {
    fn of(words: [Limbs; 2]) -> Self;
    fn contains(&self, other: &Self) -> bool;
}

/// Call, Register or Delete.
#[derive(Clone, Copy)]
pub struct Prefix {
    bits: u64,
    mask: Key,
    base: Key,
}

impl Prefix {
    pub fn covers(&self, key: &Key) -> bool {
        (0..3).all(|i| (key[i] ^ self.base[i]) & self.mask[i] == 0)
    }
}

impl Right for Prefix {
    fn of(words: [Limbs; 2]) -> Prefix {
        let [_, a, b, c] = words[0];
        let bits = prefix(&words[0]);
        Prefix {
            bits,
            mask: [0, 64, 128].map(|before| first_bits(bits.saturating_sub(before))),
            base: [a, b, c],
        }
    }

    /// The bases are compared first, for they tell most pairs apart.
    fn contains(&self, other: &Prefix) -> bool {
        self.covers(&other.base) && other.bits >= self.bits
    }
}

/// A limb whose first bits are set.
fn first_bits(bits: u64) -> u64 {
    match bits {
        0 => 0,
        1..=63 => u64::MAX << (64 - bits),
        _ => u64::MAX,
    }
}

/// Write: the first address, and the last, which may lie beyond all words.
#[derive(Clone, Copy)]
pub struct Range {
    first: Limbs,
    last: (bool, Limbs),
}

impl Range {
    pub fn covers(&self, address: &Limbs) -> bool {
        self.first <= *address && (false, *address) <= self.last
    }
}

impl Right for Range {
    fn of(words: [Limbs; 2]) -> Range {
        Range {
            first: words[0],
            last: sum(&words[0], &words[1]),
        }
    }

    fn contains(&self, other: &Range) -> bool {
        other.first >= self.first && other.last <= self.last
    }
}

/// The sum, and whether it is one limb longer.
fn sum(a: &Limbs, b: &Limbs) -> (bool, Limbs) {
    let mut total = [0; 4];
    let mut carry = false;
    for i in (0..4).rev() {
        let (half, over) = a[i].overflowing_add(b[i]);
        let (whole, again) = half.overflowing_add(u64::from(carry));
        total[i] = whole;
        carry = over || again;
    }
    (carry, total)
}
