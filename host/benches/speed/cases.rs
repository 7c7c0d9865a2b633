//! The tables and the calls that are timed.

use crate::peer;
use beaker::raw::{self, Reply};
use std::cell::RefCell;

/// The bytes of a table of full size.
pub const LENGTH: usize = 65_536;
const RECORD: usize = 64;

/// The records of a full table.
pub const RECORDS: usize = LENGTH / RECORD;

/// The bytes of the longest code that passes.
const LONGEST_CODE: usize = 24_576;

/// The records that Register with one capability needs.
pub const FREE: usize = 5;

type Key = [u8; 24];
type Word = [u8; 32];

const CALL: u8 = 3;
const REGISTER: u8 = 4;
const DELETE: u8 = 5;
const SET_ENTRY: u8 = 6;
const WRITE: u8 = 7;

/// A call with all that it is lent but the table.
pub enum Call {
    SetUp,
    Turn(Key),
    Look(Word),
    System { message: Vec<u8>, code: Vec<u8> },
}

const FIRST: Key = [0x40; 24];
const ADDRESS: [u8; 20] = [0x11; 20];
const MASK: [u8; 32] = [0xff; 32];

impl Call {
    pub fn by_archive(&self, table: &mut [u8]) -> Reply {
        match self {
            Call::SetUp => raw::set_up(table, &FIRST, &ADDRESS, &ADDRESS),
            Call::Turn(key) => raw::turn(table, key),
            Call::Look(slot) => raw::look(table, slot),
            Call::System { message, code } => raw::system_call(table, message, code, &MASK),
        }
    }

    pub fn by_peer(&self, table: &mut [u8]) -> Reply {
        match self {
            Call::SetUp => peer::set_up(table, &FIRST, &ADDRESS, &ADDRESS),
            Call::Turn(key) => peer::turn(table, key),
            Call::Look(slot) => peer::look(table, slot),
            Call::System { message, code } => peer::system_call(table, message, code, &MASK),
        }
    }
}

/// A call to be timed, the table before it, and the bytes that are lent to it.
pub struct Case {
    pub name: &'static str,
    pub table: Vec<u8>,
    pub lent: RefCell<Vec<u8>>,
    pub call: Call,
}

impl Case {
    fn new(name: &'static str, table: &[u8], call: Call) -> Case {
        Case {
            name,
            table: table.to_vec(),
            lent: RefCell::new(table.to_vec()),
            call,
        }
    }
}

/// A table as most calls meet it, and as those do that need new records.
struct Tables {
    table: Vec<u8>,
    with_room: Vec<u8>,
}

/// Every case, by table.
pub fn all() -> [(String, Vec<Case>); 5] {
    let fresh = Tables {
        table: fresh(),
        with_room: fresh(),
    };
    let procedures = filled(many_procedures(fresh.table.clone()));
    let capabilities = filled(many_capabilities(fresh.table.clone()));
    let data = filled(fresh.table.clone());
    let mut on_fresh = plain_cases(&fresh);
    on_fresh.extend(large_cases(&fresh.table));
    on_fresh.push(long_code_case(&fresh.table));
    let mut on_capabilities = plain_cases(&capabilities);
    on_capabilities.extend(large_cases(&without_one_holder(&capabilities.table)));
    let searches = search_cases(&capabilities);
    [
        (
            title("fresh, with one more procedure and one slot", &fresh),
            on_fresh,
        ),
        (
            title("many procedures", &procedures),
            plain_cases(&procedures),
        ),
        (
            title("few procedures with many capabilities", &capabilities),
            on_capabilities,
        ),
        (
            title("the same, while a holder of 255 runs", &capabilities),
            searches,
        ),
        (title("mostly data", &data), plain_cases(&data)),
    ]
}

fn title(name: &str, tables: &Tables) -> String {
    format!("{name}: {} of {RECORDS} records", occupied(&tables.table))
}

/// The calls that each table meets.
fn plain_cases(tables: &Tables) -> Vec<Case> {
    let Tables { table, with_room } = tables;
    let register = register(&NEW, &one_request());
    vec![
        Case::new("set-up", table, Call::SetUp),
        Case::new("Turn", table, Call::Turn(OTHER)),
        Case::new("Look", table, Call::Look(number(DATA))),
        Case::new("Null", table, system(vec![0])),
        Case::new("Call", table, on_key(CALL, 0, &OTHER)),
        Case::new("Set Entry", table, on_key(SET_ENTRY, 0, &OTHER)),
        Case::new("Delete", table, on_key(DELETE, 0, &OTHER)),
        Case::new("Write of a new slot", with_room, write(DATA - 1)),
        Case::new("Write over a slot", table, write(DATA)),
        Case::new("Register with one capability", with_room, register),
    ]
}

/// Register of a procedure with 255 capabilities, and Delete of it.
fn large_cases(table: &[u8]) -> [Case; 2] {
    let register = register(&HOLDER, &many_requests());
    let with_holder = after(table, &register);
    let delete = on_key(DELETE, 0, &HOLDER);
    [
        Case::new("Register with 255 capabilities", table, register),
        Case::new("Delete of a holder of 255", &with_holder, delete),
    ]
}

/// Register with code of the greatest length, of which every byte is an opcode that passes.
fn long_code_case(table: &[u8]) -> Case {
    let call = Call::System {
        message: register_message(&NEW, &[]),
        code: vec![0; LONGEST_CODE],
    };
    Case::new("Register with 24,576 bytes of code", table, call)
}

/// Calls of a procedure that holds 255 Call capabilities, of which only the last will do.
fn search_cases(tables: &Tables) -> Vec<Case> {
    let Tables { table, with_room } = tables;
    let new_case = |name, table: &[u8], call| {
        let turned = after(table, &Call::Turn(SEARCHER));
        Case::new(name, &turned, call)
    };
    let one = register(&NEW, &one_request());
    let many = register(&HOLDER, &many_requests());
    vec![
        new_case("Call with index 254", table, on_key(CALL, 254, &OTHER)),
        new_case("Register with one, 255 tests", with_room, one),
        new_case(
            "Register with 255, 65,025 tests",
            &without_one_holder(table),
            many,
        ),
    ]
}

/// A procedure that every table has, one that none has, one that holds many capabilities, and one
/// that has to search among those it holds.
const OTHER: Key = [0x80; 24];
const NEW: Key = [0x81; 24];
const HOLDER: Key = [0x90; 24];
const SEARCHER: Key = [0x70; 24];

/// The first slot of the data; every table has something there.
const DATA: usize = 0x1000;

fn number(n: usize) -> Word {
    let mut word = [0; 32];
    word[24..].copy_from_slice(&(n as u64).to_be_bytes());
    word
}

/// A message: its type, then words that stand right.
fn message(of: u8, fields: &[&[u8]]) -> Vec<u8> {
    let mut message = vec![of];
    for field in fields {
        message.extend(vec![0; 32 - field.len()]);
        message.extend_from_slice(field);
    }
    message
}

/// A system call with one byte of code.
fn system(message: Vec<u8>) -> Call {
    let code = vec![0];
    Call::System { message, code }
}

fn on_key(of: u8, index: u8, key: &Key) -> Call {
    system(message(of, &[&[index], key]))
}

fn write(slot: usize) -> Call {
    system(message(WRITE, &[&[0], &number(slot), &[7; 32]]))
}

fn register(key: &Key, series: &[u8]) -> Call {
    system(register_message(key, series))
}

fn register_message(key: &Key, series: &[u8]) -> Vec<u8> {
    let mut message = message(REGISTER, &[&[0], key, &ADDRESS]);
    message.extend_from_slice(series);
    message
}

/// A request for a prefix capability, by the first two bytes of its base.
fn request(of: u8, bits: u8, base: [u8; 2]) -> Vec<u8> {
    let mut word = [0; 32];
    word[0] = bits;
    word[8..10].copy_from_slice(&base);
    [number(2), number(usize::from(of)), word].concat()
}

/// A Call capability for some of the keys that begin like OTHER.
fn one_request() -> Vec<u8> {
    request(CALL, 16, [OTHER[0], 0])
}

/// 255 of them.
fn many_requests() -> Vec<u8> {
    (1..=255)
        .flat_map(|n| request(CALL, 16, [OTHER[0], n]))
        .collect()
}

/// 255 Call capabilities, of which the last alone is for keys that begin like OTHER, and the right
/// to register any key.
fn searched() -> Vec<u8> {
    (1..=255)
        .flat_map(|n: u8| request(CALL, 8, [OTHER[0].wrapping_add(n).wrapping_add(1), 0]))
        .chain(request(REGISTER, 0, [0, 0]))
        .collect()
}

/// A table after set-up, one more procedure and one slot of data.
fn fresh() -> Vec<u8> {
    let mut table = vec![0; LENGTH];
    must_succeed(&mut table, &Call::SetUp);
    must_succeed(&mut table, &register(&OTHER, &[]));
    must_succeed(&mut table, &write(DATA));
    table
}

fn many_procedures(mut table: Vec<u8>) -> Vec<u8> {
    let mut n: u64 = 0;
    while occupied(&table) + 3 <= RECORDS - FREE {
        n += 1;
        let mut key = [0; 24];
        // Spread over the keys, so that new records go anywhere.
        key[..8].copy_from_slice(&n.wrapping_mul(0x9e37_79b9_7f4a_7c15).to_be_bytes());
        must_succeed(&mut table, &register(&key, &[]));
    }
    table
}

fn many_capabilities(mut table: Vec<u8>) -> Vec<u8> {
    must_succeed(&mut table, &register(&SEARCHER, &searched()));
    for key in [[0x20; 24], HOLDER] {
        must_succeed(&mut table, &register(&key, &many_requests()));
    }
    table
}

/// The same table before the last holder of many capabilities was registered.
fn without_one_holder(table: &[u8]) -> Vec<u8> {
    after(table, &on_key(DELETE, 0, &HOLDER))
}

/// Fills a table with data.
fn filled(table: Vec<u8>) -> Tables {
    let with_room = with_data(table, RECORDS - FREE);
    let table = with_data(with_room.clone(), RECORDS);
    Tables { table, with_room }
}

/// Writes new slots until so many records are there.
fn with_data(mut table: Vec<u8>, records: usize) -> Vec<u8> {
    for n in occupied(&table)..records {
        must_succeed(&mut table, &write(DATA + n));
    }
    table
}

fn occupied(table: &[u8]) -> usize {
    table
        .chunks_exact(RECORD)
        .filter(|record| record.iter().any(|&byte| byte != 0))
        .count()
}

/// A copy of the table, after a call.
fn after(table: &[u8], call: &Call) -> Vec<u8> {
    let mut table = table.to_vec();
    must_succeed(&mut table, call);
    table
}

/// The plain Rust prepares the tables, for it is the faster.
fn must_succeed(table: &mut [u8], call: &Call) {
    assert_eq!(call.by_peer(table).flag, 1);
}
