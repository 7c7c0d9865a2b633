//! Runs every block of docs/HANDBOOK.md that shows lines of the program, so that the handbook's examples stay true.

use beaker::raw::{self, Reply};

const HANDBOOK: &str = include_str!("../../docs/HANDBOOK.md");

/// The program's table of document 01: key, address and kernel address all zero but last bytes 01, 11, 22.
fn program_table() -> Vec<u8> {
    let mut table = vec![0; 65_536];
    let right = |size: usize, last: u8| {
        let mut bytes = vec![0; size];
        bytes[size - 1] = last;
        bytes
    };
    let reply = raw::set_up(
        &mut table,
        &right(24, 0x01),
        &right(20, 0x11),
        &right(20, 0x22),
    );
    assert_eq!(reply.flag, 1);
    table
}

/// The message of a line: lower-case hex, an even number of digits up to 4,096.
fn message_of(line: &str) -> Option<Vec<u8>> {
    let digit = |at: usize| match line.as_bytes()[at] {
        digit @ b'0'..=b'9' => Some(digit - b'0'),
        letter @ b'a'..=b'f' => Some(letter - b'a' + 10),
        _ => None,
    };
    if line.len() % 2 == 1 || line.len() > 4_096 {
        return None;
    }
    (0..line.len() / 2)
        .map(|i| Some(digit(2 * i)? * 16 + digit(2 * i + 1)?))
        .collect()
}

fn hex(bytes: &[u8]) -> String {
    bytes.iter().map(|byte| format!("{byte:02x}")).collect()
}

/// What the program prints for an answer to a message.
fn printed(message: &[u8], reply: &Reply) -> String {
    if reply.flag == 0 {
        return format!("0 {}", hex(&reply.code[..reply.code_len as usize]));
    }
    match message[0] {
        3 => {
            let payload = &message[reply.payload_at..][..reply.payload_len];
            format!("1 {} {}", hex(&reply.address), hex(payload))
                .trim_end()
                .to_string()
        }
        4 => format!("1 {}", reply.tests),
        _ => "1".to_string(),
    }
}

#[test]
fn every_example_answers_as_printed() {
    let mut mask = [0; 32];
    mask[0] = 1;
    let mut lines = 0;
    for block in HANDBOOK.split("```portal\n").skip(1) {
        let block = block.split("```").next().expect("a block ends");
        let mut table = program_table();
        let mut rows = block.lines();
        while let Some(row) = rows.next() {
            let line = row.strip_prefix('>').expect("a line of input comes first");
            let line = line.strip_prefix(' ').unwrap_or(line);
            let answer = match message_of(line) {
                Some(message) => {
                    let reply = raw::system_call(&mut table, &message, &[0], &mask);
                    printed(&message, &reply)
                }
                None => "?".to_string(),
            };
            assert_eq!(rows.next(), Some(answer.as_str()), "{line}");
            lines += 1;
        }
    }
    assert!(lines > 20, "the handbook has lost its examples");
}
