//! Register: the series judged in one pass, the containment tests, and the records moved apart
//! once.

use super::calls::*;
use super::code;
use super::records::*;
use super::rights::*;
use super::sound::Layout;
use beaker::raw::Reply;

const CODE_FAILS: Code = 0x66e9;
const MALFORMED: Code = 0x66e5;
const TOO_MANY: Code = 0x6677;
const ALREADY_LISTED: Code = 0x66e1;

const SERIES: usize = 97;

pub fn register(
    records: &mut [Record],
    at: &Layout,
    message: &[u8],
    code: &[u8],
    mask: &[u8; 32],
) -> Result<Reply, Code> {
    let key = message_key(message);
    let address = word(message, ADDRESS_AT);
    refuse_if(key == NO_KEY || address == ZERO, ZERO_FIELD)?;
    let held: Prefix = indexed(records, at, REGISTER, message)?;
    refuse_if(!held.covers(&key), NO_RIGHT)?;
    refuse_if(!code::passes(code, mask), CODE_FAILS)?;
    let series = Series::read(&message[SERIES..]).ok_or(MALFORMED)?;
    refuse_if(
        series.counts.iter().any(|&count| count > MOST_OF_A_TYPE),
        TOO_MANY,
    )?;
    let tests = tests(records, at, &series).ok_or(NO_RIGHT)?;
    let place = at.find(records, key).err().ok_or(ALREADY_LISTED)?;
    // The list cannot be at its longest: no table has room for so many places.
    let own = 2 + series.records();
    refuse_if(at.occupied + own + 1 > records.len(), NO_ROOM)?;
    let end = at.list_end();
    records.copy_within(end..at.occupied, end + own + 1);
    records.copy_within(place..end, place + own);
    store(
        &mut records[place..place + own],
        key,
        address,
        at.procedures + 1,
        &series,
    );
    records[end + own] = record(place_slot(at.procedures + 1), right(key));
    set_value(&mut records[at.list + own], number(at.procedures + 1));
    Ok(Reply { tests, ..SUCCESS })
}

/// A well-formed series: its bytes, how many capabilities of each type it has, and how many of
/// their words are not zero.
struct Series<'a> {
    bytes: &'a [u8],
    counts: [usize; 8],
    words: usize,
}

impl<'a> Series<'a> {
    fn read(bytes: &'a [u8]) -> Option<Series<'a>> {
        let mut series = Series {
            bytes,
            counts: [0; 8],
            words: 0,
        };
        let mut rest = bytes;
        while !rest.is_empty() {
            let (size, of_word) = (rest.get(..32)?, rest.get(32..64)?);
            let of = word(of_word, 0)[3] as usize;
            if word(of_word, 0) != number(of)
                || !is_type(of)
                || word(size, 0) != number(1 + WORDS[of])
            {
                return None;
            }
            let words = rest.get(64..64 + 32 * WORDS[of])?;
            if WORDS[of] > 0 && !in_range(of, &word(words, 0)) {
                return None;
            }
            series.counts[of] += 1;
            series.words += words
                .chunks_exact(32)
                .filter(|bytes| word(bytes, 0) != ZERO)
                .count();
            rest = &rest[64 + words.len()..];
        }
        Some(series)
    }

    /// The records that its counts and words need.
    fn records(&self) -> usize {
        self.words + self.counts.iter().filter(|&&count| count > 0).count()
    }

    /// The words of each capability of a type, in order.
    fn of_type(&self, wanted: usize) -> impl Iterator<Item = [Limbs; 2]> + 'a {
        let mut rest = self.bytes;
        std::iter::from_fn(move || loop {
            let of = usize::from(*rest.get(63)?);
            let (this, after) = rest.split_at(64 + 32 * WORDS[of]);
            rest = after;
            if of == wanted {
                let mut words = [ZERO; 2];
                (0..WORDS[of]).for_each(|k| words[k] = word(this, 64 + 32 * k));
                return Some(words);
            }
        })
    }
}

/// The containment tests made, or nothing if a request is within none held. Types never cover each
/// other, so that the tests of one type can be made before those of the next.
fn tests(records: &[Record], at: &Layout, series: &Series) -> Option<u64> {
    let mut tests = 0;
    for of in CALL..=WRITE {
        if series.counts[of] == 0 {
            continue;
        }
        tests += match of {
            SET_ENTRY if count(records, at, of) == 0 => return None,
            SET_ENTRY => series.counts[of] as u64,
            WRITE => tests_among::<Range>(records, at, series, of)?,
            _ => tests_among::<Prefix>(records, at, series, of)?,
        };
    }
    Some(tests)
}

/// The same for one type.
fn tests_among<R: Right>(
    records: &[Record],
    at: &Layout,
    series: &Series,
    of: usize,
) -> Option<u64> {
    let mut held = Held::new(records, at, of);
    let mut ready: Vec<R> = Vec::with_capacity(held.count);
    let mut tests = 0;
    for words in series.of_type(of) {
        tests += 1 + before(&R::of(words), &mut ready, &mut held)? as u64;
    }
    Some(tests)
}

/// How many held capabilities stand before the first that contains a request. Each is made ready
/// when the search first reaches it, and kept for the next request.
fn before<R: Right>(request: &R, ready: &mut Vec<R>, held: &mut Held) -> Option<usize> {
    let mut found = ready.iter().position(|right| right.contains(request));
    while found.is_none() {
        let next = R::of(held.next()?);
        found = next.contains(request).then_some(ready.len());
        ready.push(next);
    }
    found
}

/// Reads the current procedure's capabilities of a type in order. Words of zero are absent.
struct Held<'a> {
    rest: &'a [Record],
    key: Key,
    of: usize,
    count: usize,
    i: usize,
}

impl<'a> Held<'a> {
    fn new(records: &'a [Record], at: &Layout, of: usize) -> Held<'a> {
        let key = at.current_key(records);
        let own = &records[at.current..at.list];
        let after_count =
            find(own, &procedure_slot(key, count_end(of))).map_or(own.len(), |found| found + 1);
        Held {
            rest: &own[after_count..],
            key,
            of,
            count: count(records, at, of),
            i: 0,
        }
    }

    /// The words of the next capability, if there is one.
    fn next(&mut self) -> Option<[Limbs; 2]> {
        if self.i == self.count {
            return None;
        }
        self.i += 1;
        let mut words = [ZERO; 2];
        for (k, word) in words[..WORDS[self.of]].iter_mut().enumerate() {
            let slot = procedure_slot(self.key, word_end(self.of, self.i, k));
            if let Some((first, after)) = self
                .rest
                .split_first()
                .filter(|(first, _)| key(first) == slot)
            {
                *word = value(first);
                self.rest = after;
            }
        }
        Some(words)
    }
}

/// Writes the new procedure's records, which stand together.
fn store(own: &mut [Record], key: Key, address: Limbs, index: usize, series: &Series) {
    let mut at = 0;
    let mut put = |end, value| {
        own[at] = record(procedure_slot(key, end), value);
        at += 1;
    };
    put(ADDRESS, address);
    put(INDEX, number(index));
    for of in (CALL..=WRITE).filter(|&of| series.counts[of] > 0) {
        put(count_end(of), number(series.counts[of]));
        for (words, i) in series.of_type(of).zip(1..) {
            let present = words
                .into_iter()
                .enumerate()
                .take(WORDS[of])
                .filter(|(_, word)| *word != ZERO);
            present.for_each(|(k, word)| put(word_end(of, i, k), word));
        }
    }
}
