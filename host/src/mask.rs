//! Which opcodes a contract's code may use: the mask that Register judges code by.

/// A set of opcodes: 32 bytes, where opcode k is bit k mod 8, the lowest being 0, of byte k div 8.
///
/// ```
/// use beaker::Mask;
///
/// let mask = Mask::NONE.with(0x00).with(0x60);
/// assert!(mask.allows(0x60) && !mask.allows(0xf4));
/// assert_eq!((mask.as_bytes()[0], mask.as_bytes()[12]), (1, 1));
/// ```
#[derive(Clone, Copy, Debug, PartialEq, Eq, Hash)]
pub struct Mask([u8; 32]);

impl Mask {
    /// Allows no opcode.
    pub const NONE: Mask = Mask([0; 32]);

    /// The same, and this opcode too.
    pub const fn with(mut self, opcode: u8) -> Mask {
        self.0[opcode as usize / 8] |= 1 << (opcode % 8);
        self
    }

    /// Whether it allows the opcode.
    pub const fn allows(&self, opcode: u8) -> bool {
        self.0[opcode as usize / 8] >> (opcode % 8) & 1 == 1
    }

    /// Its bytes, as the kernel reads them.
    pub const fn as_bytes(&self) -> &[u8; 32] {
        &self.0
    }
}

impl From<[u8; 32]> for Mask {
    fn from(bytes: [u8; 32]) -> Mask {
        Mask(bytes)
    }
}

/// Its bytes again.
impl From<Mask> for [u8; 32] {
    fn from(mask: Mask) -> [u8; 32] {
        mask.0
    }
}

/// Its bytes, as the kernel reads them.
impl AsRef<[u8]> for Mask {
    fn as_ref(&self) -> &[u8] {
        &self.0
    }
}

/// Table 24 of section 5.1: first and last opcode of each range, in the table's order.
const WHITELIST: [(u8, u8); 15] = [
    (0x00, 0x0b), // stop and arithmetic
    (0x10, 0x1a), // comparison and bitwise logic
    (0x20, 0x20), // SHA3
    (0x30, 0x3e), // environmental information
    (0x40, 0x45), // block information
    (0x50, 0x53), // stack, memory, storage and flow, part 1
    (0x54, 0x54), // SLOAD
    (0x56, 0x5b), // stack, memory, storage and flow, part 2
    (0x80, 0x8f), // duplication
    (0x90, 0x9f), // exchange
    (0xf3, 0xf3), // RETURN
    (0x60, 0x7f), // push
    (0xfa, 0xfa), // STATICCALL
    (0xfd, 0xfd), // REVERT
    (0xfe, 0xfe), // INVALID
];

/// The opcode by which a procedure reaches the kernel.
const DELEGATECALL: u8 = 0xf4;

/// The whitelist of section 5.1 of the Beaker Specification (document 001, Table 24), and nothing
/// else.
///
/// In hexadecimal: 00 to 0b, 10 to 1a, 20, 30 to 3e, 40 to 45, 50 to 54 (54 is SLOAD), 56 to 5b, 60
/// to 9f, f3 (RETURN), fa (STATICCALL), fd (REVERT), fe (INVALID). Documents 000 and 002 print the
/// same table. Opcodes that came to the EVM later are not on it (such as 1b to 1d, 3f, 46 to 48):
/// the section says that a new opcode stays out until somebody adds it.
///
/// **DELEGATECALL (f4) is not on it**, although a procedure needs it to make a system call: section
/// 5 allows it where it is part of one, and a mask cannot say that. For contracts that make system
/// calls use [`portal_mask`].
///
/// ```
/// let mask = beaker::whitelist_mask();
/// assert!(mask.allows(0x54)); // SLOAD reads storage
/// assert!(!mask.allows(0x55)); // SSTORE changes it
/// assert!(!mask.allows(0xf4)); // DELEGATECALL
/// ```
pub const fn whitelist_mask() -> Mask {
    let mut mask = Mask::NONE;
    let mut range = 0;
    while range < WHITELIST.len() {
        let (first, last) = WHITELIST[range];
        let mut opcode = first;
        while opcode < last {
            mask = mask.with(opcode);
            opcode += 1;
        }
        mask = mask.with(last);
        range += 1;
    }
    mask
}

/// The whitelist with DELEGATECALL (f4), so that procedures reach the kernel. It allows any
/// delegate call, since the mask alone decides.
///
/// ```
/// assert_eq!(beaker::portal_mask(), beaker::whitelist_mask().with(0xf4));
/// ```
pub const fn portal_mask() -> Mask {
    whitelist_mask().with(DELEGATECALL)
}
