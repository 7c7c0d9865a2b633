//! Words of 32 bytes, big-endian. Arrays of bytes compare as the numbers they spell.

pub type Word = [u8; 32];

pub const ZERO: Word = [0; 32];

/// A number as a word.
pub fn number(n: usize) -> Word {
    right(&(n as u64).to_be_bytes())
}

/// Bytes that stand right in a word: the unused leading bytes are zero.
pub fn right(bytes: &[u8]) -> Word {
    let mut word = ZERO;
    word[32 - bytes.len()..].copy_from_slice(bytes);
    word
}

/// The last N bytes of a word whose leading bytes are all zero; nothing of any other word.
pub fn from_right<const N: usize>(word: &Word) -> Option<[u8; N]> {
    let (leading, last) = word.split_at(32 - N);
    if leading.iter().any(|&byte| byte != 0) {
        return None;
    }
    Some(last.try_into().unwrap())
}

/// A word that is at most `most`, as a number.
pub fn at_most(word: &Word, most: usize) -> Option<usize> {
    if *word > number(most) {
        return None;
    }
    from_right(word).map(|bytes| u64::from_be_bytes(bytes) as usize)
}

/// The sum of two words as a whole number: it has a byte more than they, so it never wraps.
pub fn sum(a: &Word, b: &Word) -> [u8; 33] {
    let mut total = [0; 33];
    let mut carry = 0;
    for i in (0..32).rev() {
        let digit = u16::from(a[i]) + u16::from(b[i]) + carry;
        total[i + 1] = (digit % 256) as u8;
        carry = digit / 256;
    }
    total[0] = carry as u8;
    total
}
