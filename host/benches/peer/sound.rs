//! Whether a table is sound, in one pass over its sorted records, and where its parts begin.

use super::records::*;
use super::rights::{in_range, is_type, MOST_OF_A_TYPE, WORDS};

/// Where the parts of a sound table stand, as numbers of records. Sorting puts the data first, then
/// the procedures, the list and the three single slots.
pub struct Layout {
    /// The first record of the procedures.
    pub heap: usize,
    /// The length's record; place n is n records after it.
    pub list: usize,
    pub procedures: usize,
    pub occupied: usize,
    /// The address record of the current procedure: its other records follow.
    pub current: usize,
}

impl Layout {
    /// The record after the list.
    pub fn list_end(&self) -> usize {
        self.list + self.procedures + 1
    }

    /// The address record of a listed key, or where it would stand.
    pub fn find(&self, records: &[Record], key: Key) -> Result<usize, usize> {
        let found = find(
            &records[self.heap..self.list],
            &procedure_slot(key, ADDRESS),
        );
        found.map(|at| self.heap + at).map_err(|at| self.heap + at)
    }

    pub fn entry_key(&self, records: &[Record]) -> Key {
        key_in(&value(&records[self.occupied - 1]))
    }

    pub fn current_key(&self, records: &[Record]) -> Key {
        key_in(&value(&records[self.occupied - 2]))
    }
}

fn key_in(word: &Limbs) -> Key {
    [word[1], word[2], word[3]]
}

/// The layout of a sound table; nothing for any other.
pub fn layout(records: &[Record]) -> Option<Layout> {
    // A guess if the table has not the record form: every record is looked at below.
    let occupied = records.partition_point(|record| !holds_zero(record));
    let list_end = occupied.checked_sub(3)?;
    let list = find(&records[..list_end], &place_slot(0)).ok()?;
    let procedures = list_end - 1 - list;
    let heap = data_end(&records[..list])?;
    let places = &records[list + 1..list_end];
    let good = is_zero(&records[occupied..])
        && value(&records[list]) == number(procedures)
        && places_are_sound(places)
        && heap_is_sound(&records[heap..list], places)
        && single_slots_are_sound(&records[list_end..occupied]);
    if !good {
        return None;
    }
    let mut layout = Layout {
        heap,
        list,
        procedures,
        occupied,
        current: 0,
    };
    layout.current = layout.find(records, layout.current_key(records)).ok()?;
    layout.find(records, layout.entry_key(records)).ok()?;
    Some(layout)
}

/// Whether every byte is zero.
fn is_zero(records: &[Record]) -> bool {
    records.iter().all(|record| {
        record
            .chunks_exact(8)
            .fold(0, |all, bytes| all | limb(bytes, 0))
            == 0
    })
}

/// The number of records before kernel storage, if they ascend and none has a value of zero.
fn data_end(records: &[Record]) -> Option<usize> {
    for (at, record) in records.iter().enumerate() {
        if limb(record, 0) >> 32 == KERNEL {
            return Some(at);
        }
        if holds_zero(record) || (at > 0 && !ascends(&records[at - 1], record)) {
            return None;
        }
    }
    Some(records.len())
}

/// Whether the places are there. That each holds the key of its own procedure is seen from the
/// heap.
fn places_are_sound(places: &[Record]) -> bool {
    let mut places = places.iter().zip(1..);
    places.all(|(place, n)| key(place) == place_slot(n))
}

/// Whether the kernel address, the current key and the entry key are there and stand right.
fn single_slots_are_sound(records: &[Record]) -> bool {
    let keys_match = records
        .iter()
        .zip(last_slots())
        .all(|(record, slot)| key(record) == slot);
    keys_match
        && is_address(&value(&records[0]))
        && records[1..].iter().all(|record| value(record)[0] == 0)
}

fn is_address(word: &Limbs) -> bool {
    word[0] == 0 && word[1] >> 32 == 0 && *word != ZERO
}

/// Whether the heap has one sound procedure for each place, in ascending order, and nothing else.
/// The keys are then distinct, and each stands at its own place, so every place has one.
fn heap_is_sound(mut heap: &[Record], places: &[Record]) -> bool {
    let mut last = NO_KEY;
    let mut procedures = 0;
    while let Some(first) = heap.first() {
        let slot = key(first);
        let this = middle(&slot);
        if this <= last || !is_of_procedures(&slot) {
            return false;
        }
        let Some(records) = procedure(heap, this, places) else {
            return false;
        };
        heap = &heap[records..];
        last = this;
        procedures += 1;
    }
    procedures == places.len()
}

/// The number of records of the first procedure of the heap, if it is sound.
fn procedure(heap: &[Record], this: Key, places: &[Record]) -> Option<usize> {
    let (address, index) = (heap.first()?, heap.get(1)?);
    let place = value(index)[3] as usize;
    let good = key(address) == procedure_slot(this, ADDRESS)
        && is_address(&value(address))
        && key(index) == procedure_slot(this, INDEX)
        && value(index) == number(place)
        && place >= 1
        && value(places.get(place - 1)?) == right(this);
    if !good {
        return None;
    }
    Some(2 + capability_records(&heap[2..], &key(address))?)
}

/// The number of records of a procedure's counts and capability words, if they ascend and each
/// belongs to it.
fn capability_records(records: &[Record], address: &Limbs) -> Option<usize> {
    let (mut last, mut of, mut count) = (INDEX, 0, 0);
    for (at, record) in records.iter().enumerate() {
        let slot = key(record);
        let same_procedure = slot[..3] == address[..3] && slot[3] >> 24 == address[3] >> 24;
        if !same_procedure {
            return Some(at);
        }
        let word = value(record);
        let end = end(&slot);
        let (i, k) = ((end >> 8 & 0xff) as usize, (end & 0xff) as usize);
        if i == 0 {
            (of, count) = (end as usize >> 16, word[3] as usize);
            if k != 0 || !is_type(of) || word != number(count) || count > MOST_OF_A_TYPE {
                return None;
            }
        } else if end as usize >> 16 != of || i > count || k >= WORDS[of] || !in_range(of, &word) {
            return None;
        }
        if end <= last || word == ZERO {
            return None;
        }
        last = end;
    }
    Some(records.len())
}
