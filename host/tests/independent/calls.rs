//! Each call as its row of checks, in the printed order.

use super::answers::*;
use super::messages::*;
use super::rights::{Capability, Type, MOST_OF_A_TYPE};
use super::soundness::Sound;
use super::storage::*;
use super::words::{from_right, number, right, Word, ZERO};

/// The longest list.
const LONGEST_LIST: usize = 16_777_215;

pub fn set_up(table: &mut [u8], key: &[u8], address: &[u8], kernel_address: &[u8]) -> Answer {
    settle(table, judge_set_up(table, key, address, kernel_address))
}

pub fn turn(table: &mut [u8], key: &[u8]) -> Answer {
    settle(table, judge_turn(table, key))
}

pub fn look(table: &[u8], slot: &[u8]) -> Answer {
    settle(&mut [], judge_look(table, slot))
}

pub fn system_call(table: &mut [u8], message: &[u8], code: &[u8], mask: &[u8]) -> Answer {
    settle(table, judge_system_call(table, message, code, mask))
}

/// "Set-up: ef, e4, e7." It judges the table's length only: it overwrites the table whatever it
/// held.
fn judge_set_up(
    table: &[u8],
    key: &[u8],
    address: &[u8],
    kernel_address: &[u8],
) -> Result<Success, Code> {
    let key: Key = sized(key)?;
    let address: Address = sized(address)?;
    let kernel_address: Address = sized(kernel_address)?;
    refuse_if(!has_right_length(table), NOT_SOUND)?;
    refuse_if(
        key == [0; 24] || address == [0; 20] || kernel_address == [0; 20],
        ZERO_FIELD,
    )?;
    let mut after = Storage::default();
    append(&mut after, 1, &key, &address, &set_up_capabilities());
    after.store(kernel_address_slot(), right(&kernel_address));
    after.store(current_slot(), right(&key));
    after.store(entry_slot(), right(&key));
    refuse_if(after.records() > room(table), NO_ROOM)?;
    Ok(storing(after))
}

/// "Call(0,0), Register(0,0), Delete(0,0), Set Entry and Write(0, 2^256−1)."
fn set_up_capabilities() -> Vec<Capability> {
    vec![
        Capability::new(Type::Call, &[ZERO]),
        Capability::new(Type::Register, &[ZERO]),
        Capability::new(Type::Delete, &[ZERO]),
        Capability::new(Type::SetEntry, &[]),
        Capability::new(Type::Write, &[ZERO, [0xff; 32]]),
    ]
}

/// "Turn: ef, 66 33."
fn judge_turn(table: &[u8], key: &[u8]) -> Result<Success, Code> {
    let key: Key = sized(key)?;
    let before = Sound::read(table).ok_or(NOT_SOUND)?;
    refuse_if(!before.lists(&key), NOT_LISTED)?;
    let mut after = before.storage;
    after.store(current_slot(), right(&key));
    Ok(storing(after))
}

/// "Look: ef."
fn judge_look(table: &[u8], slot: &[u8]) -> Result<Success, Code> {
    let slot: Word = sized(slot)?;
    let before = Sound::read(table).ok_or(NOT_SOUND)?;
    Ok(answering(Answer {
        value: before.storage.value(&slot),
        ..Answer::default()
    }))
}

/// "System calls: ef, empty, ea, aa, then Null succeeds; short data; e6; then" the row of the type.
/// Document 02, No. 1: "66 eb, directly after short data and before 66 e6; for Null, where it would
/// have succeeded."
fn judge_system_call(
    table: &[u8],
    message: &[u8],
    code: &[u8],
    mask: &[u8],
) -> Result<Success, Code> {
    let mask: [u8; MASK] = sized(mask)?;
    let before = Sound::read(table).ok_or(NOT_SOUND)?;
    refuse_if(message.is_empty(), TOO_SHORT)?;
    refuse_if(message.len() > LONGEST_MESSAGE, TOO_LONG)?;
    let data = message.len() - 1;
    if message[0] == NULL {
        refuse_if(data > 0, OVERLONG)?;
        return Ok(unchanged());
    }
    let of = Type::of(message[0]).ok_or(UNKNOWN_TYPE)?;
    refuse_if(data < least_data(of), TOO_SHORT)?;
    refuse_if(!open_ended(of) && data > least_data(of), OVERLONG)?;
    match of {
        Type::Call => call(&before, message, key_word(message)?),
        Type::SetEntry => set_entry(before, message, key_word(message)?),
        Type::Delete => delete(before, message, key_word(message)?),
        Type::Write => write(before, message, room(table)),
        Type::Register => {
            let (key, address) = (key_word(message)?, address_word(message)?);
            register(
                before,
                message,
                key,
                address,
                code_passes(code, &mask),
                room(table),
            )
        }
    }
}

/// "Call 33, 66 33." It changes nothing.
fn call(before: &Sound, message: &[u8], key: Key) -> Result<Success, Code> {
    let held = indexed(before, Type::Call, message)?;
    refuse_if(!held.covers_key(&key), NO_RIGHT)?;
    refuse_if(!before.lists(&key), NOT_LISTED)?;
    let address = from_right(&before.storage.value(&address_slot(&key))).unwrap();
    let payload_len = message.len() - PAYLOAD;
    Ok(answering(Answer {
        address,
        payload_at: PAYLOAD,
        payload_len,
        ..Answer::default()
    }))
}

/// "Set Entry 33, 66 33."
fn set_entry(before: Sound, message: &[u8], key: Key) -> Result<Success, Code> {
    indexed(&before, Type::SetEntry, message)?;
    refuse_if(!before.lists(&key), NOT_LISTED)?;
    let mut after = before.storage;
    after.store(entry_slot(), right(&key));
    Ok(storing(after))
}

/// "Delete 33, e2, 66 33, e3."
fn delete(before: Sound, message: &[u8], key: Key) -> Result<Success, Code> {
    let held = indexed(&before, Type::Delete, message)?;
    refuse_if(!held.covers_key(&key), NO_RIGHT)?;
    refuse_if(key == before.entry(), IS_ENTRY)?;
    refuse_if(!before.lists(&key), NOT_LISTED)?;
    refuse_if(key == before.current(), IS_CURRENT)?;
    let listed_before = before.keys.iter().position(|listed| *listed == key);
    let place = 1 + listed_before.unwrap();
    let last_place = before.keys.len();
    let last_key = before.keys[last_place - 1];
    let mut after = before.storage;
    after.store(place_slot(place), right(&last_key));
    after.store(index_slot(&last_key), number(place));
    after.store(length_slot(), number(last_place - 1));
    after.store(place_slot(last_place), ZERO);
    // Last: if the deleted key stood in the last place, what was just written for it goes with its
    // other records.
    after.keep(|slot| !is_of_procedure(slot, &key));
    Ok(storing(after))
}

/// "Write 33, e7." The parts of 33 are the index, the cover, and kernel storage.
fn write(before: Sound, message: &[u8], room: usize) -> Result<Success, Code> {
    let (address, value) = (word(message, 1), word(message, 2));
    let held = indexed(&before, Type::Write, message)?;
    refuse_if(!held.covers_address(&address), NO_RIGHT)?;
    refuse_if(in_kernel_storage(&address), NO_RIGHT)?;
    let mut after = before.storage;
    after.store(address, value);
    refuse_if(after.records() > room, NO_ROOM)?;
    Ok(storing(after))
}

/// "Register e4, 33 (index, cover), e9, e5, 77, 33 (requested), e1, e8, e7."
fn register(
    before: Sound,
    message: &[u8],
    key: Key,
    address: Address,
    passes: bool,
    room: usize,
) -> Result<Success, Code> {
    refuse_if(key == [0; 24] || address == [0; 20], ZERO_FIELD)?;
    let held = indexed(&before, Type::Register, message)?;
    refuse_if(!held.covers_key(&key), NO_RIGHT)?;
    refuse_if(!passes, CODE_FAILS)?;
    let requests = requested(&message[SERIES..]).ok_or(MALFORMED)?;
    let too_many = |of| of_type(&requests, of).count() > MOST_OF_A_TYPE;
    refuse_if(Type::ALL.into_iter().any(too_many), TOO_MANY)?;
    let tests = tests(&before, &requests).ok_or(NO_RIGHT)?;
    refuse_if(before.lists(&key), ALREADY_LISTED)?;
    refuse_if(before.keys.len() == LONGEST_LIST, LIST_FULL)?;
    let mut after = before.storage;
    append(&mut after, before.keys.len() + 1, &key, &address, &requests);
    refuse_if(after.records() > room, NO_ROOM)?;
    let mut success = storing(after);
    success.answer.tests = tests;
    Ok(success)
}

/// "The tests: for each requested capability in order, held ones of its type in order, up to and
/// including the first that contains it." Nothing if one is within none held.
fn tests(before: &Sound, requests: &[Capability]) -> Option<u64> {
    let held = Type::ALL.map(|of| (of, before.held(of)));
    let mut tests = 0;
    for request in requests {
        let (_, of_its_type) = held.iter().find(|(of, _)| *of == request.of)?;
        let tested_before = of_its_type.iter().position(|held| held.contains(request))?;
        tests += tested_before as u64 + 1;
    }
    Some(tests)
}

/// "Register appends the key, raises the length and stores the address, the index, the counts, and
/// each type's capabilities in the order requested."
pub fn append(
    after: &mut Storage,
    place: usize,
    key: &Key,
    address: &Address,
    capabilities: &[Capability],
) {
    after.store(place_slot(place), right(key));
    after.store(length_slot(), number(place));
    after.store(address_slot(key), right(address));
    after.store(index_slot(key), number(place));
    for of in Type::ALL {
        after.store(
            count_slot(key, of),
            number(of_type(capabilities, of).count()),
        );
        for (before, capability) in of_type(capabilities, of).enumerate() {
            for (k, word) in capability.words.iter().enumerate() {
                after.store(word_slot(key, of, before + 1, k), *word);
            }
        }
    }
}

fn of_type(capabilities: &[Capability], of: Type) -> impl Iterator<Item = &Capability> {
    capabilities
        .iter()
        .filter(move |capability| capability.of == of)
}

/// A field that must have a fixed number of bytes.
fn sized<const N: usize>(field: &[u8]) -> Result<[u8; N], Code> {
    field.try_into().map_err(|_| WRONG_SIZE)
}

/// The records that a table has room for.
fn room(table: &[u8]) -> usize {
    table.len() / RECORD
}

/// The key word of a message: its first 8 bytes must be zero.
fn key_word(message: &[u8]) -> Result<Key, Code> {
    from_right(&word(message, 1)).ok_or(LEADING_BYTES)
}

/// Register's address word: its first 12 bytes must be zero.
fn address_word(message: &[u8]) -> Result<Address, Code> {
    from_right(&word(message, 2)).ok_or(LEADING_BYTES)
}

/// The current procedure's capability that a message names: "A capability index is a whole word
/// counted from 0; it must be below the current procedure's count for that type."
fn indexed(before: &Sound, of: Type, message: &[u8]) -> Result<Capability, Code> {
    let index = word(message, 0);
    let held = before.held(of);
    refuse_if(index >= number(held.len()), NO_RIGHT)?;
    // A count is at most 255, so an index below it is its last byte.
    Ok(held[usize::from(index[31])].clone())
}

fn is_of_procedure(slot: &Word, key: &Key) -> bool {
    in_kernel_storage(slot) && parts(slot).0 == PROCEDURES && parts(slot).1 == *key
}
