//! The judgement of code by the mask.

const LONGEST_CODE: usize = 24_576;

pub fn passes(code: &[u8], mask: &[u8; 32]) -> bool {
    if code.is_empty() || code.len() > LONGEST_CODE {
        return false;
    }
    let mut rest = code;
    // Opcodes that push nothing follow each other at once: a processor reads ahead of the search.
    while let Some(at) = rest
        .iter()
        .position(|&opcode| is_push(opcode) || !allowed(opcode, mask))
    {
        let opcode = rest[at];
        if !allowed(opcode, mask) {
            return false;
        }
        let next = at + usize::from(opcode & 0x1f) + 2;
        rest = rest.get(next..).unwrap_or(&[]);
    }
    true
}

fn allowed(opcode: u8, mask: &[u8; 32]) -> bool {
    mask[usize::from(opcode >> 3)] >> (opcode & 7) & 1 == 1
}

fn is_push(opcode: u8) -> bool {
    opcode & 0xe0 == 0x60
}
