//! The calls that `calls.txt` writes down, in their order.

use beaker::raw::{self, Reply};

const CALLS: &str = include_str!("calls.txt");

/// A call with all that it is lent but the table.
pub struct Call {
    pub name: &'static str,
    pub fields: Vec<Vec<u8>>,
}

impl Call {
    pub fn by_archive(&self, table: &mut [u8]) -> Reply {
        let fields = &self.fields;
        match self.name {
            "u" => raw::set_up(table, &fields[0], &fields[1], &fields[2]),
            "t" => raw::turn(table, &fields[0]),
            "l" => raw::look(table, &fields[0]),
            _ => raw::system_call(table, &fields[0], &fields[1], &fields[2]),
        }
    }
}

/// Has each call made, on the table that the lines before its own have left.
pub fn each_call(mut make: impl FnMut(&str, &Call, &mut [u8])) {
    let mut table = Vec::new();
    for line in CALLS.lines() {
        let call = parse(line);
        let fields = &call.fields;
        match call.name {
            "n" => table = vec![0; number(&fields[0])],
            "p" => table[number(&fields[0])..][..fields[1].len()].copy_from_slice(&fields[1]),
            _ => make(line, &call, &mut table),
        }
    }
}

/// A line's name and its fields.
fn parse(line: &'static str) -> Call {
    let mut words = line.split(' ');
    let name = words.next().unwrap();
    let fields = words.map(bytes).collect();
    Call { name, fields }
}

fn bytes(field: &str) -> Vec<u8> {
    if field == "-" {
        return Vec::new();
    }
    let digits = (0..field.len() / 2).map(|i| &field[2 * i..][..2]);
    digits
        .map(|pair| u8::from_str_radix(pair, 16).unwrap())
        .collect()
}

fn number(field: &[u8]) -> usize {
    u32::from_be_bytes(field.try_into().unwrap()) as usize
}
