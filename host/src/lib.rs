//! The proved Beaker kernel, for a Rust host.
//!
//! The kernel keeps a list of *procedures*, each with the capabilities that it holds, in a storage
//! table that the host lends. It is written and proved in Rattle; this package links it and gives
//! it the shape that a Rust program expects. The kernel does not run contracts: the host does, and
//! asks the kernel what each may do.
//!
//! # A first program
//!
//! In `Cargo.toml`:
//!
//! ```toml
//! [dependencies]
//! beaker = { path = "../khiaosuwit/host" }
//! ```
//!
//! In `src/main.rs`:
//!
//! ```
//! use beaker::{message, portal_mask, Address, Key, Refusal, Table, Word};
//!
//! fn main() -> Result<(), Refusal> {
//!     let mut table = Table::full();
//!     table.set_up(Key::from(1), Address::from(0x11), Address::from(0x22))?;
//!     let bed = Word::from(0x8000);
//!     table.call(&message::write(0, bed, Word::from(12)), &[], &portal_mask())?;
//!     println!("{bed} holds {}", table.read(bed)?);
//!     Ok(())
//! }
//! ```
//!
//! `cargo run --example referral_desk`, in this package, tells a longer story.
//!
//! # What to know
//!
//! - A [`Table`] owns or borrows its bytes and has the four calls: [`set_up`](Table::set_up),
//!   [`turn`](Table::turn), [`look`](Table::look) and [`call`](Table::call). Each gives an
//!   [`Answer`], or a [`Refusal`] that has changed no byte; docs/HANDBOOK.md explains every code.
//! - [`message`] makes the six messages, [`Capability`] and [`Prefix`] what a Register requests,
//!   [`slot`] the slots to look at.
//! - [`Key`], [`Address`], [`Word`] and [`Mask`] always have their number of bytes. [`raw`] has the
//!   exported functions themselves, on slices of any length.
//! - No call needs a test before it, none panics on what it is lent, and none keeps anything: all
//!   state is in the table.
//!
//! # What to have
//!
//! `rt` of the Rattle kit proves the whole kernel, from the leaves to the exported functions, and
//! builds its archive; cargo has `tools/archive` of the repository do so. The first time takes a
//! while, in which cargo shows nothing. With `BEAKER_ARCHIVE` set to the full path of a
//! `libbeaker.a`, that one is linked instead, whatever it is; docs/PROMISES.md says how to check
//! one, and what a host owes the kernel.
//!
//! The archive is code for x86-64 Linux. On an Arm machine `../khiaosuwit/host/cross cargo run`
//! stands for `cargo run`, in any package: it builds x86-64 code too, and runs it by an emulator.

#![warn(missing_docs)]
#![deny(unsafe_code)]

mod bytes;
mod capability;
mod mask;
pub mod message;
#[allow(unsafe_code)]
pub mod raw;
mod refusal;
pub mod slot;
mod table;

pub use bytes::{Address, Key, NotHex, Word};
pub use capability::{Capability, Kind, LastBelowFirst, Prefix, PrefixTooLong};
pub use mask::{portal_mask, whitelist_mask, Mask};
pub use refusal::Refusal;
pub use table::{Answer, Table};

/// The program in the repository's README, run with the examples of this package.
#[cfg(doctest)]
#[doc = include_str!("../../README.md")]
struct Readme;

/// The programs in the handbook; its blocks of other languages are not run here.
#[cfg(doctest)]
#[doc = include_str!("../../docs/HANDBOOK.md")]
struct Handbook;
