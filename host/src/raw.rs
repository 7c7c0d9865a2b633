//! The kernel's four exported functions as they are: byte slices in, a [`Reply`] out.
//!
//! Nothing is asked of what is lent: every input has an answer, and docs/HANDBOOK.md explains every
//! code. Use this level where the rest of the crate is too polite: a key of 23 bytes, which answers
//! 66 ed, can only be lent here.
//!
//! ```
//! let mut table = vec![0; 65_536];
//! let reply = beaker::raw::turn(&mut table, &[0; 23]);
//! assert_eq!((reply.flag, &reply.code[..reply.code_len as usize]), (0, &[0x66, 0xed][..]));
//! ```

/// What a call answers. Fields that an answer does not name are zero.
///
/// It is the struct `beaker_reply` of `include/beaker.h`.
#[repr(C)]
#[derive(Clone, Copy, Debug, PartialEq, Eq)]
pub struct Reply {
    /// Register: how many held capabilities were compared with requested ones.
    pub tests: u64,
    /// Call: where in the caller's message the payload begins, which is 65, also when it is empty;
    /// 0 for every other answer.
    pub payload_at: usize,
    /// Call: how many bytes the payload has.
    pub payload_len: usize,
    /// Call: the callee's address.
    pub address: [u8; 20],
    /// Look: the slot's value, most significant byte first; zero if nothing is stored there.
    pub value: [u8; 32],
    /// 1 for a success, 0 for a refusal.
    pub flag: u8,
    /// How many bytes the refusal's code has: 1 or 2; 0 for a success.
    pub code_len: u8,
    /// The refusal's code, from the left.
    pub code: [u8; 2],
}

/// How many bytes of stack a call needs at most, below its caller's frame.
///
/// No proof speaks of it. `tests/stack.rs` measures it and adds it up from the archive's code;
/// docs/PROMISES.md has the figures. A thread has far more, unless it was given less.
pub const STACK_BYTES: usize = 20_480;

// Each slice is lent as a pointer and a length.
extern "C" {
    fn beaker_set_up(
        table: *mut u8,
        table_len: usize,
        key: *const u8,
        key_len: usize,
        address: *const u8,
        address_len: usize,
        kernel_address: *const u8,
        kernel_address_len: usize,
    ) -> Reply;

    fn beaker_turn(table: *mut u8, table_len: usize, key: *const u8, key_len: usize) -> Reply;

    fn beaker_look(table: *const u8, table_len: usize, slot: *const u8, slot_len: usize) -> Reply;

    fn beaker_system_call(
        table: *mut u8,
        table_len: usize,
        message: *const u8,
        message_len: usize,
        code: *const u8,
        code_len: usize,
        mask: *const u8,
        mask_len: usize,
    ) -> Reply;
}

// The exports assume of their caller what Rust's slices promise: each pointer is not null and is
// good for as many bytes as its length says, for the whole call; the bytes lent for reading do not
// change meanwhile; and the table, where it is lent for writing, is nobody else's and overlaps
// nothing else that is lent. They keep no pointer. This is why the four calls below are safe.

/// Set-up: writes the first table, whatever it held. One procedure, `key`, is listed, current and
/// entry.
pub fn set_up(table: &mut [u8], key: &[u8], address: &[u8], kernel_address: &[u8]) -> Reply {
    // SAFETY: pointers and lengths of live slices; the table is borrowed exclusively.
    unsafe {
        beaker_set_up(
            table.as_mut_ptr(),
            table.len(),
            key.as_ptr(),
            key.len(),
            address.as_ptr(),
            address.len(),
            kernel_address.as_ptr(),
            kernel_address.len(),
        )
    }
}

/// Turn: the host names the running procedure.
pub fn turn(table: &mut [u8], key: &[u8]) -> Reply {
    // SAFETY: pointers and lengths of live slices; the table is borrowed exclusively.
    unsafe { beaker_turn(table.as_mut_ptr(), table.len(), key.as_ptr(), key.len()) }
}

/// Look: reads one slot.
pub fn look(table: &[u8], slot: &[u8]) -> Reply {
    // SAFETY: pointers and lengths of live slices; nothing is written.
    unsafe { beaker_look(table.as_ptr(), table.len(), slot.as_ptr(), slot.len()) }
}

/// A system call: the message decides which. Only Register uses what code and mask hold.
pub fn system_call(table: &mut [u8], message: &[u8], code: &[u8], mask: &[u8]) -> Reply {
    // SAFETY: pointers and lengths of live slices; the table is borrowed exclusively.
    unsafe {
        beaker_system_call(
            table.as_mut_ptr(),
            table.len(),
            message.as_ptr(),
            message.len(),
            code.as_ptr(),
            code.len(),
            mask.as_ptr(),
            mask.len(),
        )
    }
}
