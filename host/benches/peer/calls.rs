//! The calls, each with its checks in the printed order.

use super::records::*;
use super::register::register;
use super::rights::*;
use super::sound::{layout, Layout};
use beaker::raw::Reply;

/// One or two code bytes as a number.
pub type Code = u16;

pub const NO_RIGHT: Code = 0x33;
pub const NO_ROOM: Code = 0x66e7;
pub const ZERO_FIELD: Code = 0x66e4;
const NOT_SOUND: Code = 0x66ef;
const WRONG_SIZE: Code = 0x66ed;
const TOO_SHORT: Code = 0x66e0;
const TOO_LONG: Code = 0x66ea;
const UNKNOWN_TYPE: Code = 0xaa;
const OVERLONG: Code = 0x66eb;
const LEADING_BYTES: Code = 0x66e6;
const NOT_LISTED: Code = 0x6633;
const IS_ENTRY: Code = 0x66e2;
const IS_CURRENT: Code = 0x66e3;

const LONGEST_MESSAGE: usize = 65_536;

/// The type of a message that does nothing.
const NULL: usize = 0;

/// The least data of a message, by type.
const LEAST_DATA: [usize; 8] = [0, 0, 0, 64, 96, 64, 64, 96];

/// The most data of a message, by type: Call and Register have only the message's own limit.
const MOST_DATA: [usize; 8] = [0, 0, 0, LONGEST_MESSAGE, LONGEST_MESSAGE, 64, 64, 96];
const PAYLOAD: usize = 65;

/// Offsets of a message's words.
const INDEX_AT: usize = 1;
pub const KEY_AT: usize = 33;
pub const ADDRESS_AT: usize = 65;

pub const SUCCESS: Reply = Reply {
    tests: 0,
    payload_at: 0,
    payload_len: 0,
    address: [0; 20],
    value: [0; 32],
    flag: 1,
    code_len: 0,
    code: [0; 2],
};

fn settle(result: Result<Reply, Code>) -> Reply {
    result.unwrap_or_else(|code| match code.to_be_bytes() {
        [0, only] => Reply {
            flag: 0,
            code_len: 1,
            code: [only, 0],
            ..SUCCESS
        },
        both => Reply {
            flag: 0,
            code_len: 2,
            code: both,
            ..SUCCESS
        },
    })
}

pub fn refuse_if(condition: bool, code: Code) -> Result<(), Code> {
    if condition {
        Err(code)
    } else {
        Ok(())
    }
}

#[inline(never)]
pub fn set_up(table: &mut [u8], key: &[u8], address: &[u8], kernel_address: &[u8]) -> Reply {
    settle(judge_set_up(table, key, address, kernel_address))
}

#[inline(never)]
pub fn turn(table: &mut [u8], key: &[u8]) -> Reply {
    settle(judge_turn(table, key))
}

#[inline(never)]
pub fn look(table: &[u8], slot: &[u8]) -> Reply {
    settle(judge_look(table, slot))
}

#[inline(never)]
pub fn system_call(table: &mut [u8], message: &[u8], code: &[u8], mask: &[u8]) -> Reply {
    settle(judge_system_call(table, message, code, mask))
}

fn judge_set_up(
    table: &mut [u8],
    key: &[u8],
    address: &[u8],
    kernel_address: &[u8],
) -> Result<Reply, Code> {
    refuse_if(
        key.len() != 24 || address.len() != 20 || kernel_address.len() != 20,
        WRONG_SIZE,
    )?;
    let records = records_mut(table).ok_or(NOT_SOUND)?;
    let has_zero = [key, address, kernel_address]
        .iter()
        .any(|field| field.iter().all(|&byte| byte == 0));
    refuse_if(has_zero, ZERO_FIELD)?;
    let first = first_records(
        key_of_bytes(key),
        address_word(address),
        address_word(kernel_address),
    );
    refuse_if(records.len() < first.len(), NO_ROOM)?;
    let (occupied, free) = records.split_at_mut(first.len());
    occupied.copy_from_slice(&first);
    free.fill([0; 64]);
    Ok(SUCCESS)
}

/// The table that set-up writes. Words of zero are absent.
fn first_records(key: Key, address: Limbs, kernel_address: Limbs) -> [Record; 13] {
    let of_key = |end, value| record(procedure_slot(key, end), value);
    let [kernel_address_slot, current_slot, entry_slot] = last_slots();
    [
        of_key(ADDRESS, address),
        of_key(INDEX, number(1)),
        of_key(count_end(CALL), number(1)),
        of_key(count_end(REGISTER), number(1)),
        of_key(count_end(DELETE), number(1)),
        of_key(count_end(SET_ENTRY), number(1)),
        of_key(count_end(WRITE), number(1)),
        of_key(word_end(WRITE, 1, 1), [u64::MAX; 4]),
        record(place_slot(0), number(1)),
        record(place_slot(1), right(key)),
        record(kernel_address_slot, kernel_address),
        record(current_slot, right(key)),
        record(entry_slot, right(key)),
    ]
}

fn address_word(address: &[u8]) -> Limbs {
    let high = u32::from_be_bytes(address[..4].try_into().unwrap());
    [0, u64::from(high), limb(address, 4), limb(address, 12)]
}

fn judge_turn(table: &mut [u8], key: &[u8]) -> Result<Reply, Code> {
    refuse_if(key.len() != 24, WRONG_SIZE)?;
    let records = records_mut(table).ok_or(NOT_SOUND)?;
    let at = layout(records).ok_or(NOT_SOUND)?;
    let key = key_of_bytes(key);
    at.find(records, key).map_err(|_| NOT_LISTED)?;
    set_value(&mut records[at.occupied - 2], right(key));
    Ok(SUCCESS)
}

fn judge_look(table: &[u8], slot: &[u8]) -> Result<Reply, Code> {
    refuse_if(slot.len() != 32, WRONG_SIZE)?;
    let records = records(table).ok_or(NOT_SOUND)?;
    let at = layout(records).ok_or(NOT_SOUND)?;
    let mut reply = SUCCESS;
    if let Ok(found) = find(&records[..at.occupied], &word(slot, 0)) {
        reply.value.copy_from_slice(&records[found][32..]);
    }
    Ok(reply)
}

fn judge_system_call(
    table: &mut [u8],
    message: &[u8],
    code: &[u8],
    mask: &[u8],
) -> Result<Reply, Code> {
    let mask: &[u8; 32] = mask.try_into().map_err(|_| WRONG_SIZE)?;
    let records = records_mut(table).ok_or(NOT_SOUND)?;
    let at = layout(records).ok_or(NOT_SOUND)?;
    let of = usize::from(*message.first().ok_or(TOO_SHORT)?);
    refuse_if(message.len() > LONGEST_MESSAGE, TOO_LONG)?;
    refuse_if(of != NULL && !is_type(of), UNKNOWN_TYPE)?;
    refuse_if(message.len() - 1 < LEAST_DATA[of], TOO_SHORT)?;
    refuse_if(message.len() - 1 > MOST_DATA[of], OVERLONG)?;
    if of == NULL {
        return Ok(SUCCESS);
    }
    refuse_if(of != WRITE && limb(message, KEY_AT) != 0, LEADING_BYTES)?;
    match of {
        CALL => call(records, &at, message),
        REGISTER => {
            let [first, second, ..] = word(message, ADDRESS_AT);
            refuse_if(first != 0 || second >> 32 != 0, LEADING_BYTES)?;
            register(records, &at, message, code, mask)
        }
        DELETE => delete(records, &at, message),
        SET_ENTRY => set_entry(records, &at, message),
        _ => write(records, &at, message),
    }
}

/// The key of a message's key word.
pub fn message_key(message: &[u8]) -> Key {
    key_of_bytes(&message[KEY_AT + 8..])
}

/// The current procedure's count of a type.
pub fn count(records: &[Record], at: &Layout, of: usize) -> usize {
    let slot = procedure_slot(at.current_key(records), count_end(of));
    find(&records[at.current..at.list], &slot)
        .map_or(0, |found| value(&records[at.current + found])[3] as usize)
}

/// The current procedure's capability that a message names.
pub fn indexed<R: Right>(
    records: &[Record],
    at: &Layout,
    of: usize,
    message: &[u8],
) -> Result<R, Code> {
    let index = word(message, INDEX_AT);
    refuse_if(index >= number(count(records, at, of)), NO_RIGHT)?;
    let i = index[3] as usize + 1;
    let own = &records[at.current..at.list];
    let mut words = [ZERO; 2];
    for (k, word) in words[..WORDS[of]].iter_mut().enumerate() {
        let slot = procedure_slot(at.current_key(records), word_end(of, i, k));
        *word = find(own, &slot).map_or(ZERO, |found| value(&own[found]));
    }
    Ok(R::of(words))
}

fn call(records: &[Record], at: &Layout, message: &[u8]) -> Result<Reply, Code> {
    let key = message_key(message);
    let held: Prefix = indexed(records, at, CALL, message)?;
    refuse_if(!held.covers(&key), NO_RIGHT)?;
    let found = at.find(records, key).map_err(|_| NOT_LISTED)?;
    let mut reply = Reply {
        payload_at: PAYLOAD,
        payload_len: message.len() - PAYLOAD,
        ..SUCCESS
    };
    reply.address.copy_from_slice(&records[found][44..]);
    Ok(reply)
}

fn set_entry(records: &mut [Record], at: &Layout, message: &[u8]) -> Result<Reply, Code> {
    let key = message_key(message);
    refuse_if(
        word(message, INDEX_AT) >= number(count(records, at, SET_ENTRY)),
        NO_RIGHT,
    )?;
    at.find(records, key).map_err(|_| NOT_LISTED)?;
    set_value(&mut records[at.occupied - 1], right(key));
    Ok(SUCCESS)
}

fn delete(records: &mut [Record], at: &Layout, message: &[u8]) -> Result<Reply, Code> {
    let deleted = message_key(message);
    let held: Prefix = indexed(records, at, DELETE, message)?;
    refuse_if(!held.covers(&deleted), NO_RIGHT)?;
    refuse_if(deleted == at.entry_key(records), IS_ENTRY)?;
    let first = at.find(records, deleted).map_err(|_| NOT_LISTED)?;
    refuse_if(deleted == at.current_key(records), IS_CURRENT)?;
    unlist(records, at, value(&records[first + 1])[3] as usize);
    let last_slot = procedure_slot(deleted, 0xff_ffff);
    let own = records[first..at.list].partition_point(|record| key(record) <= last_slot);
    remove(records, at, first, own);
    Ok(SUCCESS)
}

/// Moves the last key into a freed place and lowers the length.
fn unlist(records: &mut [Record], at: &Layout, place: usize) {
    let last = value(&records[at.list_end() - 1]);
    set_value(&mut records[at.list + place], last);
    if let Ok(moved) = at.find(records, [last[1], last[2], last[3]]) {
        set_value(&mut records[moved + 1], number(place));
    }
    set_value(&mut records[at.list], number(at.procedures - 1));
}

/// Takes out the deleted procedure's own records and the last place.
fn remove(records: &mut [Record], at: &Layout, first: usize, own: usize) {
    let last_place = at.list_end() - 1;
    records.copy_within(first + own..last_place, first);
    records.copy_within(last_place + 1..at.occupied, last_place - own);
    records[at.occupied - own - 1..at.occupied].fill([0; 64]);
}

fn write(records: &mut [Record], at: &Layout, message: &[u8]) -> Result<Reply, Code> {
    let (address, value) = (word(message, 33), word(message, 65));
    let held: Range = indexed(records, at, WRITE, message)?;
    refuse_if(
        !held.covers(&address) || address[0] >> 32 == KERNEL,
        NO_RIGHT,
    )?;
    match (find(&records[..at.heap], &address), value == ZERO) {
        (Ok(found), false) => set_value(&mut records[found], value),
        (Ok(found), true) => {
            records.copy_within(found + 1..at.occupied, found);
            records[at.occupied - 1] = [0; 64];
        }
        (Err(_), true) => {}
        (Err(place), false) => {
            refuse_if(at.occupied == records.len(), NO_ROOM)?;
            records.copy_within(place..at.occupied, place + 1);
            records[place] = record(address, value);
        }
    }
    Ok(SUCCESS)
}
