//! Records of the table, and words as limbs of 64 bits.

/// A 32-byte key, then a 32-byte value, both big-endian.
pub type Record = [u8; 64];

/// A word's limbs, the most significant first: arrays of them compare as the numbers.
pub type Limbs = [u64; 4];

/// A procedure key's limbs.
pub type Key = [u64; 3];

pub const ZERO: Limbs = [0; 4];
pub const NO_KEY: Key = [0; 3];

const LONGEST_TABLE: usize = 65_536;
const RECORD: usize = 64;

/// The number of records of a table, if its length is right.
fn capacity(table: &[u8]) -> Option<usize> {
    (table.len() % RECORD == 0 && table.len() <= LONGEST_TABLE).then_some(table.len() / RECORD)
}

/// The table's records, if its length is right.
pub fn records(table: &[u8]) -> Option<&[Record]> {
    let count = capacity(table)?;
    // SAFETY: the same bytes, as arrays of bytes, which need no alignment; together they are as
    // long as the table.
    Some(unsafe { std::slice::from_raw_parts(table.as_ptr().cast(), count) })
}

pub fn records_mut(table: &mut [u8]) -> Option<&mut [Record]> {
    let count = capacity(table)?;
    // SAFETY: as above; the table is lent to the result alone.
    Some(unsafe { std::slice::from_raw_parts_mut(table.as_mut_ptr().cast(), count) })
}

/// The limb at an offset.
pub fn limb(bytes: &[u8], at: usize) -> u64 {
    u64::from_be_bytes(bytes[at..at + 8].try_into().unwrap())
}

/// The word at an offset.
pub fn word(bytes: &[u8], at: usize) -> Limbs {
    let bytes: &[u8; 32] = bytes[at..at + 32].try_into().unwrap();
    [
        limb(bytes, 0),
        limb(bytes, 8),
        limb(bytes, 16),
        limb(bytes, 24),
    ]
}

pub fn key(record: &Record) -> Limbs {
    word(record, 0)
}

pub fn value(record: &Record) -> Limbs {
    word(record, 32)
}

/// Whether the second key is above the first: the first limbs that differ decide.
pub fn ascends(before: &Record, record: &Record) -> bool {
    let mut limbs = (0..32)
        .step_by(8)
        .map(|at| (limb(before, at), limb(record, at)));
    limbs.find(|(a, b)| a != b).is_some_and(|(a, b)| a < b)
}

/// Whether a record's value is zero. Most values are small numbers, so the last limb is judged first.
pub fn holds_zero(record: &Record) -> bool {
    limb(record, 56) == 0 && value(record) == ZERO
}

pub fn record(key: Limbs, value: Limbs) -> Record {
    let mut record = [0; RECORD];
    set_word(&mut record[..32], key);
    set_value(&mut record, value);
    record
}

pub fn set_value(record: &mut Record, value: Limbs) {
    set_word(&mut record[32..], value);
}

fn set_word(bytes: &mut [u8], word: Limbs) {
    for (bytes, limb) in bytes.chunks_exact_mut(8).zip(word) {
        bytes.copy_from_slice(&limb.to_be_bytes());
    }
}

pub fn number(n: usize) -> Limbs {
    [0, 0, 0, n as u64]
}

/// A key that stands right in a word.
pub fn right(key: Key) -> Limbs {
    [0, key[0], key[1], key[2]]
}

/// The limbs of a procedure key of 24 bytes.
pub fn key_of_bytes(bytes: &[u8]) -> Key {
    [limb(bytes, 0), limb(bytes, 8), limb(bytes, 16)]
}

/// Where a key stands among sorted records, or where it would.
pub fn find(records: &[Record], wanted: &Limbs) -> Result<usize, usize> {
    records.binary_search_by(|record| key(record).cmp(wanted))
}

const PROCEDURES: u64 = 0;
const LIST: u64 = 1;

/// The first four bytes of a key of kernel storage.
pub const KERNEL: u64 = 0xffff_ffff;

/// A key of kernel storage: ff ff ff ff, the region, 24 bytes, an end of 3 bytes.
fn slot(region: u64, middle: Key, end: u64) -> Limbs {
    let [a, b, c] = middle;
    [
        KERNEL << 32 | region << 24 | a >> 40,
        a << 24 | b >> 40,
        b << 24 | c >> 40,
        c << 24 | end,
    ]
}

/// A slot of a procedure.
pub fn procedure_slot(key: Key, end: u64) -> Limbs {
    slot(PROCEDURES, key, end)
}

/// The end of a slot, and the middle.
pub fn end(slot: &Limbs) -> u64 {
    slot[3] & 0xff_ffff
}

pub fn middle(slot: &Limbs) -> Key {
    let [a, b, c, d] = *slot;
    [a << 40 | b >> 24, b << 40 | c >> 24, c << 40 | d >> 24]
}

/// Whether a slot is in the region of the procedures.
pub fn is_of_procedures(slot: &Limbs) -> bool {
    slot[0] >> 24 == KERNEL << 8 | PROCEDURES
}

pub const ADDRESS: u64 = 0;
pub const INDEX: u64 = 1;

/// The end of a count's slot, and of a capability word's.
pub fn count_end(of: usize) -> u64 {
    (of as u64) << 16
}

pub fn word_end(of: usize, i: usize, k: usize) -> u64 {
    (of as u64) << 16 | (i as u64) << 8 | k as u64
}

/// A place of the list; place 0 has the length.
pub fn place_slot(n: usize) -> Limbs {
    slot(LIST, [0, 0, n as u64], 0)
}

/// The slots of the kernel address, the current key and the entry key, which stand last in a sound
/// table.
pub fn last_slots() -> [Limbs; 3] {
    [slot(2, NO_KEY, 0), slot(3, NO_KEY, 0), slot(4, NO_KEY, 0)]
}
