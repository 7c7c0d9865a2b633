//! Document 01, with what 02 has changed, read once more, as plain Rust: what the kernel must
//! answer and leave behind.
//!
//! It shares nothing with the kernel: no code, no order of steps beyond the printed one. It copies
//! the table into a map, tries every clause in turn and never minds how long that takes. Read it
//! beside them, in this order:
//!
//! - `words`: numbers of 32 bytes, and sums that never wrap
//! - `storage`: the storage table, and the slots of kernel storage
//! - `rights`: the capabilities, what one covers and what lies within it
//! - `soundness`: when a table is sound
//! - `messages`: the data of a message, Register's series, and the code
//! - `calls`: each call as its row of checks
//! - `answers`: the result's fields, and the codes

pub mod answers;
pub mod calls;
pub mod messages;
pub mod rights;
pub mod soundness;
pub mod storage;
pub mod words;
