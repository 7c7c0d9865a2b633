//! 1,722 calls, whose answers come from readings of document 01, with what 02 has changed, that
//! share nothing with the archive and the independent implementation: both must give them.
//!
//! `vectors/calls.txt` carries one table from line to line; it is empty at first. A line is a name
//! and its fields in lower-case hex, each after one space; a field of no bytes is `-`:
//!
//! ```text
//! n LENGTH                        a new table of zeros (the length in 4 bytes)
//! p OFFSET BYTES                  bytes put into the table (the offset in 4 bytes)
//! u KEY ADDRESS KERNEL_ADDRESS    set-up
//! t KEY                           Turn
//! l SLOT                          Look
//! s MESSAGE CODE MASK             a system call
//! ```
//!
//! `vectors/answers.txt` has a line for each call: flag, code, tests, address, payload, value, and
//! the checksum of the table after.

mod independent;
#[path = "vectors/lines.rs"]
mod lines;

use beaker::raw::Reply;
use independent::{answers::Answer, calls};
use lines::{each_call, Call};

const ANSWERS: &str = include_str!("vectors/answers.txt");

#[test]
fn the_archive_answers_as_written_down() {
    compare(|call, table| of_reply(call.by_archive(table)));
}

#[test]
fn the_independent_implementation_answers_as_written_down() {
    compare(|Call { name, fields }, table| match *name {
        "u" => calls::set_up(table, &fields[0], &fields[1], &fields[2]),
        "t" => calls::turn(table, &fields[0]),
        "l" => calls::look(table, &fields[0]),
        _ => calls::system_call(table, &fields[0], &fields[1], &fields[2]),
    });
}

/// The archive's result in the independent implementation's form.
fn of_reply(reply: Reply) -> Answer {
    Answer {
        flag: reply.flag,
        code: reply.code[..usize::from(reply.code_len)].to_vec(),
        tests: reply.tests,
        address: reply.address,
        payload_at: reply.payload_at,
        payload_len: reply.payload_len,
        value: reply.value,
    }
}

/// Makes every call and compares each answer with the line written down for it.
fn compare(make: impl Fn(&Call, &mut [u8]) -> Answer) {
    let mut answers = ANSWERS.lines();
    let mut calls = 0;
    each_call(|line, call, table| {
        let answer = make(call, table);
        let line_of_answer = print(&answer, &call.fields[0], table);
        calls += 1;
        assert_eq!(
            Some(line_of_answer.as_str()),
            answers.next(),
            "call {calls}: {line}"
        );
    });
    assert_eq!(answers.next(), None);
    assert_eq!(calls, 1_722);
}

/// The line of an answer. A payload is a part of the call's first field.
fn print(answer: &Answer, first_field: &[u8], table: &[u8]) -> String {
    let payload = &first_field[answer.payload_at..][..answer.payload_len];
    format!(
        "{} {} {:016x} {} {} {} {:08x}",
        answer.flag,
        hex(&answer.code),
        answer.tests,
        hex(&answer.address),
        hex(payload),
        hex(&answer.value),
        checksum(table)
    )
}

fn hex(bytes: &[u8]) -> String {
    if bytes.is_empty() {
        return "-".to_string();
    }
    bytes.iter().map(|byte| format!("{byte:02x}")).collect()
}

/// Of each byte of the table: 31 times the sum before, and the byte, modulo 2^32.
fn checksum(table: &[u8]) -> u32 {
    table.iter().fold(0, |sum: u32, &byte| {
        sum.wrapping_mul(31).wrapping_add(u32::from(byte))
    })
}
