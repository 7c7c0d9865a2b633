//! When a table is sound, clause by clause, and what a sound table says about its procedures.

use super::rights::{Capability, Type, MOST_OF_A_TYPE};
use super::storage::*;
use super::words::{at_most, from_right, number, right, Word, ZERO};
use std::collections::BTreeSet;

/// What is stored in a sound table.
pub struct Sound {
    pub storage: Storage,
    /// The listed keys: place n holds `keys[n - 1]`.
    pub keys: Vec<Key>,
}

impl Sound {
    /// What a table holds, if the table is sound.
    pub fn read(table: &[u8]) -> Option<Sound> {
        let storage = Storage::read(table)?;
        let keys = listed_keys(&storage)?;
        let is_sound = keys
            .iter()
            .enumerate()
            .all(|(before, key)| procedure_is_sound(&storage, key, before + 1))
            && is_listed_key(&storage.value(&current_slot()), &keys)
            && is_listed_key(&storage.value(&entry_slot()), &keys)
            && is_address(&storage.value(&kernel_address_slot()))
            && no_other_key_is_present(&storage, &keys);
        is_sound.then_some(Sound { storage, keys })
    }

    pub fn lists(&self, key: &Key) -> bool {
        self.keys.contains(key)
    }

    pub fn current(&self) -> Key {
        from_right(&self.storage.value(&current_slot())).unwrap()
    }

    pub fn entry(&self) -> Key {
        from_right(&self.storage.value(&entry_slot())).unwrap()
    }

    /// The capabilities of a type that the current procedure holds, in order.
    pub fn held(&self, of: Type) -> Vec<Capability> {
        capabilities(&self.storage, &self.current(), of)
    }
}

/// "The length N is at least 1; list places 1 to N hold distinct non-zero 24-byte keys."
fn listed_keys(storage: &Storage) -> Option<Vec<Key>> {
    // More places than there are records cannot all hold a key.
    let length = at_most(&storage.value(&length_slot()), storage.records())?;
    let places = (1..=length).map(|n| storage.value(&place_slot(n)));
    let keys: Vec<Key> = places.map(|word| key_of(&word)).collect::<Option<_>>()?;
    let distinct: BTreeSet<&Key> = keys.iter().collect();
    (length >= 1 && distinct.len() == length).then_some(keys)
}

/// The clauses about one listed key: its address, its index, its counts and its prefixes.
fn procedure_is_sound(storage: &Storage, key: &Key, place: usize) -> bool {
    let mut with_prefix = Type::ALL.into_iter().filter(|of| of.has_prefix());
    is_address(&storage.value(&address_slot(key)))
        && storage.value(&index_slot(key)) == number(place)
        && Type::ALL
            .into_iter()
            .all(|of| count(storage, key, of).is_some())
        && with_prefix.all(|of| prefixes_are_in_range(storage, key, of))
}

fn prefixes_are_in_range(storage: &Storage, key: &Key, of: Type) -> bool {
    capabilities(storage, key, of)
        .iter()
        .all(Capability::prefix_in_range)
}

/// A non-zero 24-byte key that stands right in a word.
fn key_of(word: &Word) -> Option<Key> {
    from_right(word).filter(|key| *key != [0; 24])
}

fn is_listed_key(word: &Word, keys: &[Key]) -> bool {
    key_of(word).is_some_and(|key| keys.contains(&key))
}

/// Whether a word holds a non-zero address of 20 bytes.
fn is_address(word: &Word) -> bool {
    *word != ZERO && from_right::<20>(word).is_some()
}

/// How many capabilities of a type a procedure holds, if "each count is at most 255".
fn count(storage: &Storage, key: &Key, of: Type) -> Option<usize> {
    at_most(&storage.value(&count_slot(key, of)), MOST_OF_A_TYPE)
}

/// The capabilities of a type that a procedure holds. "A capability word that is zero is absent
/// from the table, and still belongs to the capability."
fn capabilities(storage: &Storage, key: &Key, of: Type) -> Vec<Capability> {
    let word = |i, k| storage.value(&word_slot(key, of, i, k));
    let capability = |i| Capability {
        of,
        words: (0..of.words()).map(|k| word(i, k)).collect(),
    };
    (1..=count(storage, key, of).unwrap_or(0))
        .map(capability)
        .collect()
}

/// "No other key of kernel storage is present."
fn no_other_key_is_present(storage: &Storage, keys: &[Key]) -> bool {
    let listed: BTreeSet<&Key> = keys.iter().collect();
    storage
        .keys()
        .filter(|slot| in_kernel_storage(slot))
        .all(|slot| {
            let (region, middle, end) = parts(slot);
            match region {
                PROCEDURES => {
                    listed.contains(&middle) && belongs_to_procedure(storage, &middle, end)
                }
                LIST => end == [0; 3] && at_most(&right(&middle), keys.len()).is_some(),
                _ => is_single_slot(slot),
            }
        })
}

/// Whether an end names something of a procedure: its address, its index, a count, or a word of a
/// counted capability.
fn belongs_to_procedure(storage: &Storage, key: &Key, end: [u8; 3]) -> bool {
    if end == ADDRESS_END || end == INDEX_END {
        return true;
    }
    let [number, i, k] = end.map(usize::from);
    let Some(of) = Type::of(number as u8) else {
        return false;
    };
    let is_count = i == 0 && k == 0;
    is_count || (i >= 1 && i <= count(storage, key, of).unwrap_or(0) && k < of.words())
}

fn is_single_slot(slot: &Word) -> bool {
    [kernel_address_slot(), current_slot(), entry_slot()].contains(slot)
}
