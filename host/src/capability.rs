//! What a procedure may do: capabilities, as Register's message requests them.

use crate::{Key, Word};
use std::fmt;

/// A type of capability; messages that use one have the same number.
#[derive(Clone, Copy, Debug, PartialEq, Eq, Hash)]
pub enum Kind {
    /// Call a procedure.
    Call = 3,
    /// Register a procedure.
    Register = 4,
    /// Delete a procedure.
    Delete = 5,
    /// Name the entry procedure.
    SetEntry = 6,
    /// Write to storage.
    Write = 7,
}

impl Kind {
    /// Every type that there is.
    pub const ALL: [Kind; 5] = [
        Kind::Call,
        Kind::Register,
        Kind::Delete,
        Kind::SetEntry,
        Kind::Write,
    ];

    /// The type's number.
    pub const fn number(self) -> u8 {
        self as u8
    }
}

/// A set of keys: all those that begin with the same bits as a base key.
///
/// ```
/// use beaker::{Key, Prefix};
///
/// let ward_a = Prefix::new(8, Key::starting_with(&[0xa0]))?;
/// assert_eq!((ward_a.bits(), ward_a.base().as_bytes()[0]), (8, 0xa0));
/// assert!(Prefix::new(Prefix::GREATEST + 1, Key::ZERO).is_err());
/// # Ok::<(), beaker::PrefixTooLong>(())
/// ```
#[derive(Clone, Copy, Debug, PartialEq, Eq, Hash)]
pub struct Prefix {
    bits: u8,
    base: Key,
}

impl Prefix {
    /// The longest prefix that the kernel takes, in bits: all those of a key.
    pub const GREATEST: u8 = 192;

    /// Every key: no bit has to be the same.
    pub const EVERY_KEY: Prefix = Prefix {
        bits: 0,
        base: Key::ZERO,
    };

    /// One key alone: every bit has to be the same. So a ward can be given the right to close one
    /// referral, and no other.
    ///
    /// ```
    /// use beaker::{Capability, Key, Prefix};
    ///
    /// let referral = Key::starting_with(&[0xa0, 0x17]);
    /// let may_close_it = Capability::Delete(Prefix::one_key(referral));
    /// # assert_eq!(Prefix::one_key(referral), Prefix::new(Prefix::GREATEST, referral)?);
    /// # Ok::<(), beaker::PrefixTooLong>(())
    /// ```
    pub const fn one_key(key: Key) -> Prefix {
        Prefix {
            bits: Prefix::GREATEST,
            base: key,
        }
    }

    /// The keys whose first bits, most significant first, are those of the base. The kernel refuses
    /// a message with a longer prefix than [`GREATEST`](Prefix::GREATEST) (66 e5), so none is made
    /// here.
    pub fn new(bits: u8, base: Key) -> Result<Prefix, PrefixTooLong> {
        if bits > Prefix::GREATEST {
            return Err(PrefixTooLong { bits });
        }
        Ok(Prefix { bits, base })
    }

    /// How many first bits are the same.
    pub const fn bits(self) -> u8 {
        self.bits
    }

    /// The base: the key that they are the same as.
    pub const fn base(self) -> Key {
        self.base
    }

    /// Byte 0 is the number of bits, bytes 8 to 31 are the base; the bytes between are unread.
    fn word(self) -> Word {
        let mut word = *Word::from(self.base).as_bytes();
        word[0] = self.bits;
        Word::from(word)
    }
}

/// A prefix of more bits than the kernel takes.
#[derive(Clone, Copy, Debug, PartialEq, Eq)]
pub struct PrefixTooLong {
    /// The bits that were asked for.
    pub bits: u8,
}

impl fmt::Display for PrefixTooLong {
    fn fmt(&self, f: &mut fmt::Formatter<'_>) -> fmt::Result {
        write!(
            f,
            "a prefix of {} bits is too long: it has at most {}",
            self.bits,
            Prefix::GREATEST
        )
    }
}

impl std::error::Error for PrefixTooLong {}

/// A capability to request for a new procedure. The registrar must hold one of the same type that
/// contains it.
///
/// ```
/// use beaker::{Capability, Key, Prefix, Word};
///
/// let ward_a = Prefix::new(8, Key::starting_with(&[0xa0]))?;
/// let requested = [
///     Capability::Register(ward_a),
///     Capability::Delete(ward_a),
///     Capability::write_starting_with(&[0xa0]),
///     Capability::write(Word::from(0x8000), Word::from(0x8005))?,
/// ];
/// # Ok::<(), Box<dyn std::error::Error>>(())
/// ```
#[derive(Clone, Copy, Debug, PartialEq, Eq, Hash)]
pub enum Capability {
    /// May call these procedures.
    Call(Prefix),
    /// May register procedures with these keys.
    Register(Prefix),
    /// May delete these procedures.
    Delete(Prefix),
    /// May name the entry procedure.
    SetEntry,
    /// May write to the addresses from `base` to `base + additional`, both included. Kernel storage
    /// is never among them. [`write`](Capability::write) makes it of the first and the last.
    Write {
        /// The first address.
        base: Word,
        /// How many more follow it.
        additional: Word,
    },
}

impl Capability {
    /// May write to the addresses from the first to the last, both included.
    ///
    /// ```
    /// use beaker::{Capability, Word};
    ///
    /// let beds = Capability::write(Word::from(0x8000), Word::from(0x8005))?;
    /// let (base, additional) = (Word::from(0x8000), Word::from(5));
    /// assert_eq!(beds, Capability::Write { base, additional });
    /// assert!(Capability::write(Word::from(0x8005), Word::from(0x8000)).is_err());
    /// # Ok::<(), beaker::LastBelowFirst>(())
    /// ```
    pub fn write(first: Word, last: Word) -> Result<Capability, LastBelowFirst> {
        let additional = last
            .checked_sub(first)
            .ok_or(LastBelowFirst { first, last })?;
        Ok(Capability::Write {
            base: first,
            additional,
        })
    }

    /// May write to every address that begins with these bytes; without any, to all addresses.
    ///
    /// ```
    /// use beaker::{Capability, Word};
    ///
    /// let last: Word = "a0ffffffffffffffffffffffffffffffffffffffffffffffffffffffffffffff".parse()?;
    /// let notes = Capability::write(Word::starting_with(&[0xa0]), last)?;
    /// assert_eq!(Capability::write_starting_with(&[0xa0]), notes);
    /// # Ok::<(), Box<dyn std::error::Error>>(())
    /// ```
    ///
    /// # Panics
    ///
    /// If there are more bytes than an address has, which is 32.
    pub fn write_starting_with(front: &[u8]) -> Capability {
        let mut additional = *Word::MAX.as_bytes();
        additional[..front.len()].fill(0);
        Capability::Write {
            base: Word::starting_with(front),
            additional: Word::from(additional),
        }
    }

    /// Its type.
    pub const fn kind(self) -> Kind {
        match self {
            Capability::Call(_) => Kind::Call,
            Capability::Register(_) => Kind::Register,
            Capability::Delete(_) => Kind::Delete,
            Capability::SetEntry => Kind::SetEntry,
            Capability::Write { .. } => Kind::Write,
        }
    }

    /// Its words, as they are sent and stored.
    pub fn words(self) -> Vec<Word> {
        match self {
            Capability::Call(keys) | Capability::Register(keys) | Capability::Delete(keys) => {
                vec![keys.word()]
            }
            Capability::SetEntry => vec![],
            Capability::Write { base, additional } => vec![base, additional],
        }
    }
}

/// A range of addresses whose last is below its first.
#[derive(Clone, Copy, Debug, PartialEq, Eq)]
pub struct LastBelowFirst {
    /// The first address that was asked for.
    pub first: Word,
    /// The last.
    pub last: Word,
}

impl fmt::Display for LastBelowFirst {
    fn fmt(&self, f: &mut fmt::Formatter<'_>) -> fmt::Result {
        write!(
            f,
            "the last address, {}, is below the first, {}",
            self.last, self.first
        )
    }
}

impl std::error::Error for LastBelowFirst {}
