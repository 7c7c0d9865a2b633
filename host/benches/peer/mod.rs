//! The same promise in plain Rust, written for speed: what the kernel's times are measured against.
//!
//! Like the kernel it works on the lent bytes and judges everything on every call, for no call may
//! assume a sound table. It reads numbers as limbs of 64 bits, judges soundness in one pass over
//! the sorted records, finds slots by halving, and moves records together. Only Register copies
//! anything: the held capabilities that it tests against. `tests/agreement.rs` compares it with
//! the independent implementation.

mod calls;
mod code;
mod records;
mod register;
mod rights;
mod sound;

pub use calls::{look, set_up, system_call, turn};
