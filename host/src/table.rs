//! The lent storage table, and the kernel's calls on it.

use crate::raw::{self, Reply};
use crate::{Address, Key, Kind, Mask, Refusal, Word};
use std::fmt;

/// What a call that succeeded answers.
#[derive(Clone, Copy, Debug, PartialEq, Eq, Hash)]
pub enum Answer<'m> {
    /// It is done, and there is nothing to tell: set-up, Turn, Null, Delete, Set Entry and Write.
    Done,
    /// Call is permitted. The host may now run the callee.
    Called {
        /// The address of the callee's contract.
        address: Address,
        /// What to pass to it: a part of the caller's own message, and no copy.
        payload: &'m [u8],
    },
    /// Register is done.
    Registered {
        /// How many held capabilities were compared with requested ones.
        tests: u64,
    },
    /// What Look saw.
    Looked {
        /// The slot's value; zero if nothing is stored there.
        value: Word,
    },
}

/// A storage table, and the kernel's calls on it.
///
/// A table is a list of bytes: records of 64 bytes, at most 1,024 of them. It may own its bytes
/// (`Table::full()`) or borrow them from wherever the host keeps them (`Table::over(&mut bytes)`);
/// the calls are the same. Every call but set-up judges the whole table first, so bytes from a file
/// or another machine need no test beforehand: what is not a sound table answers 66 ef and stays as
/// it is.
///
/// ```
/// use beaker::{message, Address, Answer, Key, Mask, Refusal, Table, Word};
///
/// let mut bytes = vec![0; Table::FULL];
/// let mut table = Table::over(&mut bytes[..]);
/// assert_eq!(table.turn(Key::from(1)), Err(Refusal::Unsound)); // nothing is set up yet
/// table.set_up(Key::from(1), Address::from(0x11), Address::from(0x22))?;
///
/// let message = message::call(0, Key::from(1), b"bed 12");
/// let answer = table.call(&message, &[], &Mask::NONE)?;
/// assert_eq!(answer, Answer::Called { address: Address::from(0x11), payload: b"bed 12" });
/// # Ok::<(), Refusal>(())
/// ```
#[derive(Clone, PartialEq, Eq)]
pub struct Table<B = Vec<u8>> {
    bytes: B,
}

/// The length alone: 64 KiB would bury every other word.
impl<B: AsRef<[u8]>> fmt::Debug for Table<B> {
    fn fmt(&self, f: &mut fmt::Formatter<'_>) -> fmt::Result {
        write!(f, "Table of {} bytes", self.as_bytes().len())
    }
}

impl Table {
    /// The bytes of a record: a slot and its value.
    pub const RECORD: usize = 64;

    /// The bytes of a table of full size: 1,024 records.
    pub const FULL: usize = 1024 * Table::RECORD;

    /// A table of full size, all zero. Set-up comes next.
    pub fn full() -> Table {
        Table::over(vec![0; Table::FULL])
    }

    /// A smaller table, with room for this many records, all zero. (A larger one than a full one
    /// answers every call 66 ef.)
    ///
    /// # Panics
    ///
    /// If a list of bytes cannot be so long.
    ///
    /// ```
    /// use beaker::{Address, Key, Refusal, Table};
    ///
    /// let mut table = Table::with_records(12);
    /// let answer = table.set_up(Key::from(1), Address::from(0x11), Address::from(0x22));
    /// assert_eq!(answer, Err(Refusal::NoRoom));
    /// ```
    pub fn with_records(records: usize) -> Table {
        Table::over(vec![0; records.saturating_mul(Table::RECORD)])
    }
}

impl<B: AsRef<[u8]>> Table<B> {
    /// The table in these bytes, whatever they hold: a `Vec<u8>`, a `&mut [u8]`, or for Look alone
    /// a `&[u8]`.
    pub fn over(bytes: B) -> Table<B> {
        Table { bytes }
    }

    /// Its bytes, to keep or to send.
    pub fn as_bytes(&self) -> &[u8] {
        self.bytes.as_ref()
    }

    /// Its bytes, given back as they were lent: a `Vec<u8>` if it owned them.
    ///
    /// ```
    /// use beaker::Table;
    ///
    /// let bytes: Vec<u8> = Table::full().into_bytes();
    /// assert_eq!(bytes.len(), Table::FULL);
    /// ```
    pub fn into_bytes(self) -> B {
        self.bytes
    }

    /// Look: reads one slot, of kernel storage too. The answer is [`Answer::Looked`].
    pub fn look(&self, slot: Word) -> Result<Answer<'static>, Refusal> {
        self.read(slot).map(|value| Answer::Looked { value })
    }

    /// Look, for those who want the value alone.
    pub fn read(&self, slot: Word) -> Result<Word, Refusal> {
        let reply = accepted(raw::look(self.as_bytes(), slot.as_bytes()))?;
        Ok(Word::from(reply.value))
    }
}

impl<B: AsRef<[u8]> + AsMut<[u8]>> Table<B> {
    /// Set-up: makes this the table of a new kernel, whatever it held. Its one procedure is current
    /// and entry, and may do everything but write kernel storage. The answer is [`Answer::Done`].
    pub fn set_up(
        &mut self,
        key: Key,
        address: Address,
        kernel_address: Address,
    ) -> Result<Answer<'static>, Refusal> {
        let reply = raw::set_up(
            self.bytes.as_mut(),
            key.as_bytes(),
            address.as_bytes(),
            kernel_address.as_bytes(),
        );
        accepted(reply).map(|_| Answer::Done)
    }

    /// Turn: says which procedure runs from now on. The answer is [`Answer::Done`].
    pub fn turn(&mut self, key: Key) -> Result<Answer<'static>, Refusal> {
        accepted(raw::turn(self.bytes.as_mut(), key.as_bytes())).map(|_| Answer::Done)
    }

    /// A system call of the running procedure. [`message`](crate::message) makes the messages.
    ///
    /// Only Register uses what `code` and `mask` hold: the code of the contract that is registered,
    /// and the opcodes that it may use ([`portal_mask`](crate::portal_mask)). For every other
    /// message `&[]` and any mask will do.
    pub fn call<'m>(
        &mut self,
        message: &'m [u8],
        code: &[u8],
        mask: &Mask,
    ) -> Result<Answer<'m>, Refusal> {
        let reply = accepted(raw::system_call(
            self.bytes.as_mut(),
            message,
            code,
            mask.as_bytes(),
        ))?;
        Ok(answer_to(message, reply))
    }
}

/// The reply of a success, or else the refusal.
fn accepted(reply: Reply) -> Result<Reply, Refusal> {
    if reply.flag == 1 {
        return Ok(reply);
    }
    let code = &reply.code[..usize::from(reply.code_len)];
    match Refusal::from_code(code) {
        Some(refusal) => Err(refusal),
        None => {
            panic!("the kernel's code {code:02x?} is unknown: its archive is of another version")
        }
    }
}

/// What a message that succeeded answers. It goes by the message's type: Null and a Register
/// without tests have equal replies.
fn answer_to(message: &[u8], reply: Reply) -> Answer<'_> {
    const CALL: u8 = Kind::Call.number();
    const REGISTER: u8 = Kind::Register.number();
    match message[0] {
        CALL => Answer::Called {
            address: Address::from(reply.address),
            payload: &message[reply.payload_at..][..reply.payload_len],
        },
        REGISTER => Answer::Registered { tests: reply.tests },
        _ => Answer::Done,
    }
}
