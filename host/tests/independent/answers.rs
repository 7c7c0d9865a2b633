//! The result's fields, and the codes.

use super::storage::{Address, Storage};
use super::words::Word;

/// The bytes of a refusal.
pub type Code = &'static [u8];

pub const WRONG_SIZE: Code = &[0x66, 0xed];
pub const NOT_SOUND: Code = &[0x66, 0xef];
pub const TOO_SHORT: Code = &[0x66, 0xe0];
pub const TOO_LONG: Code = &[0x66, 0xea];
pub const UNKNOWN_TYPE: Code = &[0xaa];
pub const OVERLONG: Code = &[0x66, 0xeb];
pub const LEADING_BYTES: Code = &[0x66, 0xe6];
pub const ZERO_FIELD: Code = &[0x66, 0xe4];
pub const NO_RIGHT: Code = &[0x33];
pub const CODE_FAILS: Code = &[0x66, 0xe9];
pub const MALFORMED: Code = &[0x66, 0xe5];
pub const TOO_MANY: Code = &[0x66, 0x77];
pub const ALREADY_LISTED: Code = &[0x66, 0xe1];
pub const IS_ENTRY: Code = &[0x66, 0xe2];
pub const IS_CURRENT: Code = &[0x66, 0xe3];
pub const NOT_LISTED: Code = &[0x66, 0x33];
pub const LIST_FULL: Code = &[0x66, 0xe8];
pub const NO_ROOM: Code = &[0x66, 0xe7];

/// Every field of a result. "Result fields that an answer does not name are zero or empty."
#[derive(Clone, Debug, Default, PartialEq, Eq)]
pub struct Answer {
    pub flag: u8,
    pub code: Vec<u8>,
    pub tests: u64,
    pub address: Address,
    pub payload_at: usize,
    pub payload_len: usize,
    pub value: Word,
}

/// What a permitted call gives: the answer, and what is stored after, if that changed.
#[derive(Default)]
pub struct Success {
    pub answer: Answer,
    pub after: Option<Storage>,
}

/// A success without result fields that leaves the table alone.
pub fn unchanged() -> Success {
    answering(Answer::default())
}

/// A success that leaves the table alone.
pub fn answering(answer: Answer) -> Success {
    Success {
        answer: Answer { flag: 1, ..answer },
        after: None,
    }
}

/// A success without result fields.
pub fn storing(after: Storage) -> Success {
    Success {
        after: Some(after),
        ..unchanged()
    }
}

/// One check of a row.
pub fn refuse_if(condition: bool, code: Code) -> Result<(), Code> {
    if condition {
        Err(code)
    } else {
        Ok(())
    }
}

/// The answer, and the table after in place of the one lent. "A refusal is flag 0 with these bytes,
/// no other result, and a table equal byte for byte to the one lent."
pub fn settle(table: &mut [u8], result: Result<Success, Code>) -> Answer {
    match result {
        Ok(success) => {
            if let Some(after) = success.after {
                after.write(table);
            }
            success.answer
        }
        Err(code) => Answer {
            code: code.to_vec(),
            ..Answer::default()
        },
    }
}
