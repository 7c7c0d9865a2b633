//! The capabilities: what each covers, and what lies within it.

use super::storage::Key;
use super::words::{sum, Word};

/// The greatest prefix, in bits: "Prefixes now run from 0 to 192" (02, No. 2).
pub const GREATEST_PREFIX: u8 = 192;

/// The most capabilities of one type that a procedure holds.
pub const MOST_OF_A_TYPE: usize = 255;

#[derive(Clone, Copy, Debug, PartialEq, Eq)]
pub enum Type {
    Call = 3,
    Register = 4,
    Delete = 5,
    SetEntry = 6,
    Write = 7,
}

impl Type {
    pub const ALL: [Type; 5] = [
        Type::Call,
        Type::Register,
        Type::Delete,
        Type::SetEntry,
        Type::Write,
    ];

    pub fn number(self) -> u8 {
        self as u8
    }

    pub fn of(number: u8) -> Option<Type> {
        Type::ALL.into_iter().find(|of| of.number() == number)
    }

    /// The words of a capability of this type.
    pub fn words(self) -> usize {
        match self {
            Type::Call | Type::Register | Type::Delete => 1,
            Type::SetEntry => 0,
            Type::Write => 2,
        }
    }

    /// Whether byte 0 of its word is a prefix.
    pub fn has_prefix(self) -> bool {
        self.words() == 1
    }
}

/// A capability: its type, and as many words as the type has.
#[derive(Clone, Debug, PartialEq, Eq)]
pub struct Capability {
    pub of: Type,
    pub words: Vec<Word>,
}

impl Capability {
    pub fn new(of: Type, words: &[Word]) -> Capability {
        let words = words.to_vec();
        Capability { of, words }
    }

    /// Prefix s, for a type that has one.
    fn prefix(&self) -> u8 {
        self.words[0][0]
    }

    /// Base key b, for a type that has a prefix.
    fn base(&self) -> Key {
        self.words[0][8..].try_into().unwrap()
    }

    /// Whether each prefix is in range.
    pub fn prefix_in_range(&self) -> bool {
        !self.of.has_prefix() || self.prefix() <= GREATEST_PREFIX
    }

    /// Whether it covers a procedure key: the first s bits of the key equal those of b.
    pub fn covers_key(&self, key: &Key) -> bool {
        same_first_bits(self.prefix(), key, &self.base())
    }

    /// Whether it, a Write, covers address x: a ≤ x ≤ a+n.
    pub fn covers_address(&self, x: &Word) -> bool {
        let (a, n) = (&self.words[0], &self.words[1]);
        a <= x && whole(x) <= sum(a, n)
    }

    /// Whether B, the other, lies within A, this one.
    pub fn contains(&self, other: &Capability) -> bool {
        if self.of != other.of {
            return false;
        }
        match self.of {
            Type::Call | Type::Register | Type::Delete => {
                other.prefix() >= self.prefix()
                    && same_first_bits(self.prefix(), &other.base(), &self.base())
            }
            Type::SetEntry => true,
            Type::Write => {
                let (a, n) = (&self.words[0], &self.words[1]);
                let (b, m) = (&other.words[0], &other.words[1]);
                b >= a && sum(b, m) <= sum(a, n)
            }
        }
    }
}

/// A word with the leading byte that sums have.
fn whole(x: &Word) -> [u8; 33] {
    sum(x, &[0; 32])
}

/// Whether the first bits of two keys are equal, most significant first.
fn same_first_bits(count: u8, one: &Key, other: &Key) -> bool {
    (0..usize::from(count)).all(|i| bit(one, i) == bit(other, i))
}

/// Bit i of a key, the most significant being bit 0.
fn bit(key: &Key, i: usize) -> bool {
    key[i / 8] & (0x80 >> (i % 8)) != 0
}
