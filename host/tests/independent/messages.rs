//! The data of a message, Register's series of capabilities, and the judgement of code.

use super::rights::{Capability, Type};
use super::words::{number, Word};

pub const LONGEST_MESSAGE: usize = 65_536;
pub const MASK: usize = 32;

/// The type of a message that does nothing.
pub const NULL: u8 = 0;

/// The least data that a message of a type needs, after its type byte.
pub fn least_data(of: Type) -> usize {
    match of {
        Type::Call | Type::Delete | Type::SetEntry => 64,
        Type::Register | Type::Write => 96,
    }
}

/// Whether data of a type may go on after that: "Null, Set Entry, Delete and Write now refuse data
/// beyond their format; Call and Register stay open-ended."
pub fn open_ended(of: Type) -> bool {
    matches!(of, Type::Call | Type::Register)
}

/// Where Call's payload begins and where Register's series begins, counted from the message's first
/// byte.
pub const PAYLOAD: usize = 65;
pub const SERIES: usize = 97;

/// The n-th word of a message's data. The data follows the type byte at once.
pub fn word(message: &[u8], n: usize) -> Word {
    message[1 + 32 * n..][..32].try_into().unwrap()
}

/// The capabilities that a series requests, or nothing if it is malformed.
pub fn requested(series: &[u8]) -> Option<Vec<Capability>> {
    if series.len() % 32 != 0 {
        return None;
    }
    let words: Vec<Word> = series
        .chunks_exact(32)
        .map(|word| word.try_into().unwrap())
        .collect();
    let mut rest = &words[..];
    let mut capabilities = Vec::new();
    while !rest.is_empty() {
        let (capability, after) = first_capability(rest)?;
        capabilities.push(capability);
        rest = after;
    }
    Some(capabilities)
}

/// The first capability of a series and what follows it: "CapSize, CapType, then its words".
/// CapSize and CapType are compared as whole words, so that their leading bytes are zero.
fn first_capability(series: &[Word]) -> Option<(Capability, &[Word])> {
    let (size, after_size) = series.split_first()?;
    let (type_word, after_type) = after_size.split_first()?;
    let of = Type::ALL
        .into_iter()
        .find(|of| *type_word == number(usize::from(of.number())))?;
    if *size != number(1 + of.words()) || after_type.len() < of.words() {
        return None;
    }
    let (words, after) = after_type.split_at(of.words());
    let capability = Capability::new(of, words);
    capability.prefix_in_range().then_some((capability, after))
}

const LONGEST_CODE: usize = 24_576;
const FIRST_PUSH: u8 = 0x60;
const LAST_PUSH: u8 = 0x7f;

/// "Code passes when it has 1 to 24,576 bytes and every walked opcode is allowed."
pub fn code_passes(code: &[u8], mask: &[u8]) -> bool {
    if code.is_empty() || code.len() > LONGEST_CODE {
        return false;
    }
    let mut at = 0;
    while at < code.len() {
        let opcode = code[at];
        if !allowed(opcode, mask) {
            return false;
        }
        at += 1 + pushed(opcode);
    }
    true
}

/// "Opcode k is allowed when bit k mod 8 (lowest is 0) of byte k div 8 is set."
fn allowed(opcode: u8, mask: &[u8]) -> bool {
    mask[usize::from(opcode) / 8] >> (opcode % 8) & 1 == 1
}

/// "An opcode 60 to 7f (hex) is followed by 1 to 32 data bytes."
fn pushed(opcode: u8) -> usize {
    match opcode {
        FIRST_PUSH..=LAST_PUSH => usize::from(opcode - FIRST_PUSH) + 1,
        _ => 0,
    }
}
