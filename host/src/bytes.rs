//! Keys, addresses and words: big-endian numbers of a fixed number of bytes.

use std::array::TryFromSliceError;
use std::fmt;
use std::str::FromStr;

/// Text that is not the right number of hexadecimal digits.
#[derive(Clone, Copy, Debug, PartialEq, Eq)]
pub struct NotHex {
    /// How many digits were expected.
    pub digits: usize,
}

impl fmt::Display for NotHex {
    fn fmt(&self, f: &mut fmt::Formatter<'_>) -> fmt::Result {
        write!(
            f,
            "this is not a number of {} hexadecimal digits",
            self.digits
        )
    }
}

impl std::error::Error for NotHex {}

/// Reads exactly two digits for each byte, of either case, with or without a leading `0x`.
fn from_hex<const N: usize>(text: &str) -> Result<[u8; N], NotHex> {
    let digits = text.strip_prefix("0x").unwrap_or(text).as_bytes();
    let digit = |c: u8| (c as char).to_digit(16).ok_or(NotHex { digits: 2 * N });
    if digits.len() != 2 * N {
        return Err(NotHex { digits: 2 * N });
    }
    let mut bytes = [0; N];
    for (byte, pair) in bytes.iter_mut().zip(digits.chunks(2)) {
        *byte = (16 * digit(pair[0])? + digit(pair[1])?) as u8;
    }
    Ok(bytes)
}

macro_rules! number {
    ($(#[$doc:meta])* $name:ident, $bytes:literal) => {
        $(#[$doc])*
        #[derive(Clone, Copy, PartialEq, Eq, PartialOrd, Ord, Hash)]
        pub struct $name([u8; $bytes]);

        impl $name {
            /// How many bytes it has.
            pub const BYTES: usize = $bytes;

            /// All bytes zero.
            pub const ZERO: $name = $name([0; $bytes]);

            /// These bytes first, then zeros.
            ///
            /// # Panics
            ///
            /// If there are more bytes than it has.
            pub fn starting_with(front: &[u8]) -> $name {
                let mut bytes = [0; $bytes];
                bytes[..front.len()].copy_from_slice(front);
                $name(bytes)
            }

            /// Its bytes, most significant first.
            pub fn as_bytes(&self) -> &[u8; $bytes] {
                &self.0
            }
        }

        impl From<[u8; $bytes]> for $name {
            fn from(bytes: [u8; $bytes]) -> $name {
                $name(bytes)
            }
        }

        /// Its bytes again, most significant first.
        impl From<$name> for [u8; $bytes] {
            fn from(number: $name) -> [u8; $bytes] {
                number.0
            }
        }

        /// These bytes, if they are as many as it has.
        impl TryFrom<&[u8]> for $name {
            type Error = TryFromSliceError;

            fn try_from(bytes: &[u8]) -> Result<$name, TryFromSliceError> {
                bytes.try_into().map($name)
            }
        }

        /// Its bytes, most significant first.
        impl AsRef<[u8]> for $name {
            fn as_ref(&self) -> &[u8] {
                &self.0
            }
        }

        /// The number stands right; the bytes before it are zero.
        impl From<u64> for $name {
            fn from(number: u64) -> $name {
                let mut bytes = [0; $bytes];
                bytes[$bytes - 8..].copy_from_slice(&number.to_be_bytes());
                $name(bytes)
            }
        }

        /// Two hexadecimal digits for each byte, of either case, with or without a leading `0x`.
        impl FromStr for $name {
            type Err = NotHex;

            fn from_str(text: &str) -> Result<$name, NotHex> {
                from_hex(text).map($name)
            }
        }

        /// Two hexadecimal digits for each byte, in lower case.
        impl fmt::Display for $name {
            fn fmt(&self, f: &mut fmt::Formatter<'_>) -> fmt::Result {
                self.0.iter().try_for_each(|byte| write!(f, "{byte:02x}"))
            }
        }

        impl fmt::Debug for $name {
            fn fmt(&self, f: &mut fmt::Formatter<'_>) -> fmt::Result {
                write!(f, "{}({self})", stringify!($name))
            }
        }
    };
}

number! {
    /// The key of a procedure: 24 bytes.
    ///
    /// ```
    /// use beaker::Key;
    ///
    /// let first = Key::from(1);
    /// assert_eq!(first.to_string(), "000000000000000000000000000000000000000000000001");
    /// assert_eq!("0x000000000000000000000000000000000000000000000001".parse(), Ok(first));
    /// assert_eq!(Key::starting_with(&[0xa0]).as_bytes()[0], 0xa0);
    /// ```
    Key, 24
}

number! {
    /// The address of a contract: 20 bytes.
    ///
    /// ```
    /// use beaker::Address;
    ///
    /// let address: Address = "00000000000000000000000000000000000000ff".parse()?;
    /// assert_eq!(address, Address::from(0xff));
    ///
    /// // Bytes that came from elsewhere, and back.
    /// let sent = vec![0x51; 20];
    /// let address = Address::try_from(&sent[..])?;
    /// assert_eq!(address.as_ref(), sent);
    /// assert_eq!(<[u8; 20]>::from(address), [0x51; 20]);
    /// assert!(Address::try_from(&sent[1..]).is_err());
    /// # Ok::<(), Box<dyn std::error::Error>>(())
    /// ```
    Address, 20
}

number! {
    /// A word of storage: 32 bytes. Slots (the storage's keys) and values are words.
    ///
    /// ```
    /// use beaker::{Key, Word};
    ///
    /// let key = Key::from(7);
    /// assert_eq!(Word::from(key).to_key(), Some(key));
    /// assert_eq!(Word::from(8000).to_u64(), Some(8000));
    /// assert_eq!(Word::MAX.to_u64(), None);
    /// ```
    Word, 32
}

impl Word {
    /// All bytes ff: 2^256 − 1.
    pub const MAX: Word = Word([0xff; Word::BYTES]);

    /// The word as a number, if it is below 2^64.
    pub fn to_u64(self) -> Option<u64> {
        self.right().map(u64::from_be_bytes)
    }

    /// The key that stands right in the word, if the bytes before it are zero.
    pub fn to_key(self) -> Option<Key> {
        self.right().map(Key)
    }

    /// The address that stands right in the word, if the bytes before it are zero.
    pub fn to_address(self) -> Option<Address> {
        self.right().map(Address)
    }

    /// The last bytes, if those before them are zero.
    fn right<const N: usize>(self) -> Option<[u8; N]> {
        let (leading, last) = self.0.split_at(Word::BYTES - N);
        if leading.iter().any(|&byte| byte != 0) {
            return None;
        }
        last.try_into().ok()
    }

    /// The difference of two words as numbers, unless it is below zero.
    pub(crate) fn checked_sub(self, less: Word) -> Option<Word> {
        let (mut difference, mut borrowed) = ([0; Word::BYTES], false);
        for i in (0..Word::BYTES).rev() {
            let (once, first) = self.0[i].overflowing_sub(less.0[i]);
            let (twice, second) = once.overflowing_sub(u8::from(borrowed));
            (difference[i], borrowed) = (twice, first || second);
        }
        (!borrowed).then_some(Word(difference))
    }

    /// A word with these bytes last.
    fn with_right(bytes: &[u8]) -> Word {
        let mut word = [0; Word::BYTES];
        word[Word::BYTES - bytes.len()..].copy_from_slice(bytes);
        Word(word)
    }
}

/// The key stands right in the word.
impl From<Key> for Word {
    fn from(key: Key) -> Word {
        Word::with_right(&key.0)
    }
}

/// The address stands right in the word.
impl From<Address> for Word {
    fn from(address: Address) -> Word {
        Word::with_right(&address.0)
    }
}
