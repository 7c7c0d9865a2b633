//! The messages of the system calls, byte for byte, so that nobody counts them by hand.
//!
//! `index` says which capability of the message's type the running procedure uses, counted from 0.
//!
//! A message is a `Vec<u8>`. One that these functions cannot make, such as one that is cut short,
//! is made from bytes: every list of bytes may be sent, and has its answer. Only Call and Register
//! are open-ended; bytes after the end of any other message are refused (66 eb).

use crate::{Address, Capability, Key, Kind, Word};

/// The type of the message that does nothing.
const NULL: u8 = 0;

/// The type byte, then the words.
fn with_words(kind: Kind, words: &[Word]) -> Vec<u8> {
    let mut message = vec![kind.number()];
    push_words(&mut message, words);
    message
}

fn push_words(message: &mut Vec<u8>, words: &[Word]) {
    for word in words {
        message.extend_from_slice(word.as_bytes());
    }
}

/// Null: does nothing, and succeeds.
///
/// ```
/// assert_eq!(beaker::message::null(), [0]);
/// ```
pub fn null() -> Vec<u8> {
    vec![NULL]
}

/// Call: asks for a procedure's address, to pass it the payload. It changes nothing; the host makes
/// the call.
///
/// ```
/// use beaker::{message, Key};
///
/// let message = message::call(0, Key::from(2), b"bed 12");
/// assert_eq!(message.len(), 1 + 32 + 32 + 6);
/// ```
pub fn call(index: u64, key: Key, payload: &[u8]) -> Vec<u8> {
    let mut message = with_words(Kind::Call, &[index.into(), key.into()]);
    message.extend_from_slice(payload);
    message
}

/// Register: lists a procedure, with its contract's address and the capabilities that it shall
/// hold.
///
/// The contract's code and the opcode mask are not in the message: they are lent beside it, with
/// [`Table::call`](crate::Table::call).
///
/// ```
/// use beaker::{message, Address, Capability, Key, Prefix};
///
/// let requested = [Capability::Call(Prefix::EVERY_KEY), Capability::SetEntry];
/// let message = message::register(0, Key::from(2), Address::from(0x33), &requested);
/// assert_eq!(message.len(), 1 + 3 * 32 + 3 * 32 + 2 * 32);
/// ```
pub fn register(index: u64, key: Key, address: Address, capabilities: &[Capability]) -> Vec<u8> {
    let mut message = with_words(Kind::Register, &[index.into(), key.into(), address.into()]);
    for capability in capabilities {
        let words = capability.words();
        let size = 1 + words.len() as u64;
        let type_number = capability.kind().number();
        push_words(&mut message, &[size.into(), u64::from(type_number).into()]);
        push_words(&mut message, &words);
    }
    message
}

/// Delete: takes a procedure off the list, with all that it holds. What it has written stays.
///
/// ```
/// use beaker::{message, Key};
///
/// assert_eq!(message::delete(0, Key::from(2)).len(), 1 + 64);
/// ```
pub fn delete(index: u64, key: Key) -> Vec<u8> {
    with_words(Kind::Delete, &[index.into(), key.into()])
}

/// Set Entry: names the procedure that receives what comes from outside.
///
/// ```
/// use beaker::{message, Key};
///
/// assert_eq!(message::set_entry(0, Key::from(2)).len(), 1 + 64);
/// ```
pub fn set_entry(index: u64, key: Key) -> Vec<u8> {
    with_words(Kind::SetEntry, &[index.into(), key.into()])
}

/// Write: stores a value at an address of storage. Zero removes what stood there.
///
/// ```
/// use beaker::{message, Word};
///
/// assert_eq!(message::write(0, Word::from(0x8000), Word::from(7)).len(), 1 + 96);
/// ```
pub fn write(index: u64, address: Word, value: Word) -> Vec<u8> {
    with_words(Kind::Write, &[index.into(), address, value])
}
