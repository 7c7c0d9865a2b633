//! One call made three times: by the archive, by the independent implementation, and by the
//! benchmarks' peer. Every field of the results and every byte of the tables must be the same, and
//! the bytes before and after a lent table must stay.

use super::random::Random;
use crate::independent::answers::Answer;
use crate::independent::calls;
use crate::independent::storage::RECORD;
use crate::peer;
use beaker::raw::{self, Reply};
use std::collections::BTreeMap;
use std::io::{stderr, Write};

/// The seed, unless the variable BEAKER_SEED names another.
const SEED: u64 = 1;

fn seed() -> u64 {
    match std::env::var("BEAKER_SEED") {
        Ok(named) => named.parse().expect("BEAKER_SEED is a number"),
        Err(_) => SEED,
    }
}

/// How many bytes stand before and after a lent table: more than a record, and an odd number, so
/// that the table is not aligned.
const GUARD: usize = RECORD + 1;
const GUARD_BYTE: u8 = 0xa5;

/// A table with guard bytes on both sides.
fn guarded(table: &[u8]) -> Vec<u8> {
    let guard = [GUARD_BYTE; GUARD];
    [&guard[..], table, &guard].concat()
}

/// The part of guarded bytes that is lent.
fn table_in(guarded: &mut [u8]) -> &mut [u8] {
    let end = guarded.len() - GUARD;
    let table = &mut guarded[GUARD..end];
    assert_eq!(table.as_ptr() as usize % 2, 1, "the table is aligned");
    table
}

/// A call with all that it is lent but the table.
#[derive(Clone)]
pub enum Call {
    SetUp {
        key: Vec<u8>,
        address: Vec<u8>,
        kernel_address: Vec<u8>,
    },
    Turn {
        key: Vec<u8>,
    },
    Look {
        slot: Vec<u8>,
    },
    System {
        message: Vec<u8>,
        code: Vec<u8>,
        mask: Vec<u8>,
    },
}

impl Call {
    /// The name of the row that judges it.
    pub fn name(&self) -> &'static str {
        match self {
            Call::SetUp { .. } => "Set-up",
            Call::Turn { .. } => "Turn",
            Call::Look { .. } => "Look",
            Call::System { message, .. } => match message.first() {
                None => "empty",
                Some(0) => "Null",
                Some(3) => "Call",
                Some(4) => "Register",
                Some(5) => "Delete",
                Some(6) => "Set Entry",
                Some(7) => "Write",
                Some(_) => "unknown",
            },
        }
    }

    fn by_archive(&self, table: &mut [u8]) -> Reply {
        match self {
            Call::SetUp {
                key,
                address,
                kernel_address,
            } => raw::set_up(table, key, address, kernel_address),
            Call::Turn { key } => raw::turn(table, key),
            Call::Look { slot } => raw::look(table, slot),
            Call::System {
                message,
                code,
                mask,
            } => raw::system_call(table, message, code, mask),
        }
    }

    fn by_peer(&self, table: &mut [u8]) -> Reply {
        match self {
            Call::SetUp {
                key,
                address,
                kernel_address,
            } => peer::set_up(table, key, address, kernel_address),
            Call::Turn { key } => peer::turn(table, key),
            Call::Look { slot } => peer::look(table, slot),
            Call::System {
                message,
                code,
                mask,
            } => peer::system_call(table, message, code, mask),
        }
    }

    pub fn by_document(&self, table: &mut [u8]) -> Answer {
        match self {
            Call::SetUp {
                key,
                address,
                kernel_address,
            } => calls::set_up(table, key, address, kernel_address),
            Call::Turn { key } => calls::turn(table, key),
            Call::Look { slot } => calls::look(table, slot),
            Call::System {
                message,
                code,
                mask,
            } => calls::system_call(table, message, code, mask),
        }
    }

    /// Its fields in hex.
    fn print(&self) -> String {
        match self {
            Call::SetUp {
                key,
                address,
                kernel_address,
            } => {
                format!(
                    "key {}\naddress {}\nkernel address {}",
                    hex(key),
                    hex(address),
                    hex(kernel_address)
                )
            }
            Call::Turn { key } => format!("key {}", hex(key)),
            Call::Look { slot } => format!("slot {}", hex(slot)),
            Call::System {
                message,
                code,
                mask,
            } => {
                format!(
                    "message {}\ncode {}\nmask {}",
                    hex(message),
                    hex(code),
                    hex(mask)
                )
            }
        }
    }
}

/// The calls of one family: what they answered, and how to make one again.
pub struct Comparison {
    family: &'static str,
    seed: u64,
    pub random: Random,
    calls: usize,
    answers: BTreeMap<(&'static str, Vec<u8>), usize>,
}

impl Comparison {
    pub fn new(family: &'static str) -> Comparison {
        let seed = seed();
        let own = family.bytes().fold(seed, |sum, byte| {
            sum.wrapping_mul(257).wrapping_add(u64::from(byte))
        });
        Comparison {
            family,
            seed,
            random: Random::new(own),
            calls: 0,
            answers: BTreeMap::new(),
        }
    }

    /// Makes a call, compares, and leaves the table as the call left it.
    pub fn make(&mut self, table: &mut Vec<u8>, call: &Call) -> Answer {
        let [mut by_archive, mut by_peer] = [guarded(table), guarded(table)];
        let mut table_after = table.clone();
        let answer = call.by_document(&mut table_after);
        let archive = call.by_archive(table_in(&mut by_archive));
        let peer = call.by_peer(table_in(&mut by_peer));
        self.calls += 1;
        let after = guarded(&table_after);
        let expected = (reply_of(&answer), &after[..]);
        self.check("the archive", table, call, (archive, &by_archive), expected);
        self.check("the peer", table, call, (peer, &by_peer), expected);
        *self
            .answers
            .entry((call.name(), answer.code.clone()))
            .or_default() += 1;
        *table = table_after;
        answer
    }

    /// The same on a copy: the table stays as it is.
    pub fn try_on(&mut self, table: &[u8], call: &Call) -> Answer {
        self.make(&mut table.to_vec(), call)
    }

    /// Found and expected are a reply and the guarded table after.
    fn check(
        &self,
        who: &str,
        before: &[u8],
        call: &Call,
        found: (Reply, &[u8]),
        expected: (Reply, &[u8]),
    ) {
        if found == expected {
            return;
        }
        let differs = found
            .1
            .iter()
            .zip(expected.1)
            .position(|(found, expected)| found != expected)
            .map(|at| at as isize - GUARD as isize);
        panic!(
            "{who} differs from the document: {}, BEAKER_SEED={}, call {}: {}\n\
             table of {} bytes, zeros after: {}\n{}\n\
             expected {:?}\nfound    {:?}\n\
             first byte that differs after, counted from the table's start: {differs:?}",
            self.family,
            self.seed,
            self.calls,
            call.name(),
            before.len(),
            hex(without_zeros(before)),
            call.print(),
            expected.0,
            found.0,
        );
    }

    /// How often a row gave an answer; a success has no code bytes.
    pub fn count(&self, row: &'static str, code: &[u8]) -> usize {
        self.answers
            .get(&(row, code.to_vec()))
            .copied()
            .unwrap_or(0)
    }

    /// Says what was done, and asserts that it was as many calls as the family is counted for. The
    /// first line goes past the test harness, which shows nothing printed by a test that passes.
    pub fn finish(&self, least: usize) {
        writeln!(
            stderr(),
            "{}: {} calls agree (BEAKER_SEED={})",
            self.family,
            self.calls,
            self.seed
        )
        .expect("the standard error takes a line");
        for ((row, code), times) in &self.answers {
            println!(
                "  {row:9} {:4} {times:7}",
                if code.is_empty() {
                    "1".to_string()
                } else {
                    hex(code)
                }
            );
        }
        assert!(self.calls >= least, "{} calls of {least}", self.calls);
    }
}

/// The answer in the archive's form. Code bytes that are not there are zero.
fn reply_of(answer: &Answer) -> Reply {
    let mut code = [0; 2];
    code[..answer.code.len()].copy_from_slice(&answer.code);
    Reply {
        tests: answer.tests,
        payload_at: answer.payload_at,
        payload_len: answer.payload_len,
        address: answer.address,
        value: answer.value,
        flag: answer.flag,
        code_len: answer.code.len() as u8,
        code,
    }
}

fn hex(bytes: &[u8]) -> String {
    bytes.iter().map(|byte| format!("{byte:02x}")).collect()
}

fn without_zeros(table: &[u8]) -> &[u8] {
    let end = table
        .iter()
        .rposition(|&byte| byte != 0)
        .map_or(0, |last| last + 1);
    &table[..end]
}
