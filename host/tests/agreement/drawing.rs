//! Calls drawn so that most of them mean something on the table they meet, and every check of every
//! row decides often.

use super::comparison::Call;
use super::inputs::*;
use super::random::Random;
use crate::independent::messages::LONGEST_MESSAGE;
use crate::independent::rights::{Capability, Type, GREATEST_PREFIX, MOST_OF_A_TYPE};
use crate::independent::soundness::Sound;
use crate::independent::storage::*;
use crate::independent::words::{number, right, sum, Word, ZERO};

/// The keys, addresses and values that a sequence speaks of. They are few, so that calls meet
/// again.
pub struct Scene {
    keys: Vec<Key>,
    slots: Vec<Word>,
}

const PREFIXES: [u8; 16] = [
    0, 1, 7, 8, 9, 16, 17, 24, 25, 64, 128, 184, 190, 191, 192, 193,
];

impl Scene {
    pub fn new(random: &mut Random) -> Scene {
        let mut keys = vec![
            FIRST,
            [0xff; 24],
            key(&[0xa0]),
            key(&[0xa1]),
            key(&[0xa0, 0x7f]),
            key(&[0xa0, 0x80]),
        ];
        keys.extend([
            small_key(1),
            small_key(2),
            small_key(3),
            key(&[0xa0, 0x80, 1]),
            key(&[0xa0, 0x80, 0, 1]),
        ]);
        keys.extend((0..3).map(|_| random.array::<24>()));
        let mut slots = vec![
            ZERO,
            number(1),
            number(0x80),
            number(0x85),
            number(0x86),
            number(0x8a),
        ];
        slots.extend([
            power(255),
            power(224),
            from_top(0),
            from_top(1),
            data_end(),
            kernel_start(),
            current_slot(),
        ]);
        slots.extend((0..3).map(|_| random.array::<32>()));
        Scene { keys, slots }
    }

    /// The next call on a sound table.
    pub fn call(&self, random: &mut Random, sound: &Sound) -> Call {
        let draw = Draw { scene: self, sound };
        let mut call = match random.below(100) {
            0 => draw.set_up(random),
            1..=9 => Call::Turn {
                key: draw.any_key(random).to_vec(),
            },
            10..=14 => Call::Look {
                slot: draw.slot(random).to_vec(),
            },
            _ => draw.system_call(random),
        };
        if random.per_mille(40) {
            spoil_a_size(random, &mut call);
        }
        call
    }
}

/// The last slot before kernel storage, and the first of it.
fn data_end() -> Word {
    let mut slot = [0xff; 32];
    slot[3] = 0xfe;
    slot
}

fn kernel_start() -> Word {
    let mut slot = ZERO;
    slot[..4].fill(0xff);
    slot
}

/// Makes one field a byte shorter, a byte longer, or empty.
fn spoil_a_size(random: &mut Random, call: &mut Call) {
    let field = match call {
        Call::SetUp {
            key,
            address,
            kernel_address,
        } => match random.below(3) {
            0 => key,
            1 => address,
            _ => kernel_address,
        },
        Call::Turn { key } => key,
        Call::Look { slot } => slot,
        Call::System { mask, .. } => mask,
    };
    match random.below(3) {
        0 => drop(field.pop()),
        1 => field.push(0),
        _ => field.clear(),
    }
}

/// Draws the parts of one call, by what the table holds.
struct Draw<'a> {
    scene: &'a Scene,
    sound: &'a Sound,
}

impl Draw<'_> {
    fn set_up(&self, random: &mut Random) -> Call {
        let field = |random: &mut Random, bytes: Vec<u8>| {
            if random.per_mille(100) {
                vec![0; bytes.len()]
            } else {
                bytes
            }
        };
        let key = random.one_of(&self.scene.keys).to_vec();
        Call::SetUp {
            key: field(random, key),
            address: field(random, vec![0x11; 20]),
            kernel_address: field(random, vec![0x22; 20]),
        }
    }

    fn system_call(&self, random: &mut Random) -> Call {
        let message = match random.below(100) {
            0..=3 => random.bytes(1).into_iter().chain([0; 96]).collect(),
            4..=5 => vec![0],
            6 => vec![],
            7..=21 => self.on_key(random, Type::Call),
            22..=39 => self.on_key(random, Type::Delete),
            40..=49 => self.on_key(random, Type::SetEntry),
            50..=72 => self.write(random),
            _ => self.register(random),
        };
        let code = if random.per_mille(960) {
            GOOD_CODE.to_vec()
        } else {
            BAD_CODE.to_vec()
        };
        Call::System {
            message: spoil_a_length(random, message),
            code,
            mask: mask(),
        }
    }

    fn on_key(&self, random: &mut Random, of: Type) -> Vec<u8> {
        let mut message = message(of, &[self.index(random, of), self.key_word(random)]);
        if of == Type::Call && random.per_mille(400) {
            let payload = random.below(40);
            message.extend(random.bytes(payload));
        }
        message
    }

    fn write(&self, random: &mut Random) -> Vec<u8> {
        let value = if random.per_mille(400) {
            ZERO
        } else {
            random.array()
        };
        message(
            Type::Write,
            &[self.index(random, Type::Write), self.slot(random), value],
        )
    }

    fn register(&self, random: &mut Random) -> Vec<u8> {
        let address = match random.below(40) {
            0 => ZERO,
            1 => right(&[1; 21]),
            _ => right(&random.array::<20>()),
        };
        let words = [
            self.index(random, Type::Register),
            self.new_key_word(random),
            address,
        ];
        let mut message = message(Type::Register, &words);
        message.extend(self.series(random));
        message
    }

    /// A series of few capabilities; sometimes of too many of one type, sometimes malformed.
    fn series(&self, random: &mut Random) -> Vec<u8> {
        if random.per_mille(15) {
            let too_many = MOST_OF_A_TYPE + 1 - random.below(2);
            return series(&vec![self.capability(random); too_many]);
        }
        let mut series: Vec<u8> = (0..random.below(6))
            .flat_map(|_| request(&self.capability(random)))
            .collect();
        if random.per_mille(40) && !series.is_empty() {
            let at = random.below(series.len());
            series[at] ^= 1 << random.below(8);
        }
        if random.per_mille(20) {
            let length = random.below(series.len() + 1);
            series.truncate(length);
        }
        series
    }

    /// A capability that is probably within one held by the current procedure.
    fn capability(&self, random: &mut Random) -> Capability {
        let of = random.one_of(&Type::ALL);
        let held = self.sound.held(of);
        if held.is_empty() || random.per_mille(40) {
            return self.any_capability(random, of);
        }
        let held = random.one_of(&held);
        match of {
            Type::SetEntry => held,
            Type::Write => self.narrower_range(random, &held),
            _ => self.narrower_prefix(random, held),
        }
    }

    fn any_capability(&self, random: &mut Random, of: Type) -> Capability {
        match of {
            Type::SetEntry => set_entry(),
            Type::Write => range(self.slot(random), self.slot(random)),
            _ => prefix(
                of,
                random.one_of(&PREFIXES),
                &random.one_of(&self.scene.keys),
            ),
        }
    }

    /// The same or a longer prefix, with another base after the bits that must stay; unread bytes
    /// are anything.
    fn narrower_prefix(&self, random: &mut Random, held: Capability) -> Capability {
        let mut word = held.words[0];
        let longer: Vec<u8> = PREFIXES
            .into_iter()
            .filter(|&bits| bits >= word[0] && bits <= GREATEST_PREFIX)
            .collect();
        let kept = usize::from(word[0]);
        word[0] = random.one_of(&longer);
        let base = random.one_of(&self.scene.keys);
        ((kept + 7) / 8..24).for_each(|i| word[8 + i] = base[i]);
        if random.per_mille(100) {
            word[1..8].copy_from_slice(&random.array::<7>());
        }
        Capability::new(held.of, &[word])
    }

    /// A range that begins in a held one, or a little beyond it.
    fn narrower_range(&self, random: &mut Random, held: &Capability) -> Capability {
        let (a, n) = (held.words[0], held.words[1]);
        match random.below(6) {
            0 => range(a, n),
            1 => range(a, ZERO),
            2 => range(plus(&a, &n), ZERO),
            3 => range(plus(&a, &number(1)), n),
            4 => range(plus(&a, &number(random.below(8))), number(random.below(4))),
            _ => range(self.slot(random), number(random.below(6))),
        }
    }

    /// The index of a held capability; sometimes one past the last, or one with more bytes.
    fn index(&self, random: &mut Random, of: Type) -> Word {
        let count = self.sound.held(of).len();
        let index = number(if count == 0 { 0 } else { random.below(count) });
        match random.below(30) {
            0 => number(count),
            1 => plus(&index, &power(8 * random.within(1..=31))),
            _ => index,
        }
    }

    fn slot(&self, random: &mut Random) -> Word {
        let slot = random.one_of(&self.scene.slots);
        if random.per_mille(300) {
            plus(&slot, &number(random.below(4)))
        } else {
            slot
        }
    }

    /// A key that is probably listed.
    fn any_key(&self, random: &mut Random) -> Key {
        match random.below(20) {
            0 => [0; 24],
            1..=3 => random.one_of(&self.scene.keys),
            _ => random.one_of(&self.sound.keys),
        }
    }

    fn key_word(&self, random: &mut Random) -> Word {
        let word = right(&self.any_key(random));
        spoil_leading_bytes(random, word, 8)
    }

    /// A key that is probably not listed.
    fn new_key_word(&self, random: &mut Random) -> Word {
        let key = match random.below(20) {
            0 => [0; 24],
            1..=2 => random.one_of(&self.sound.keys),
            _ => random.one_of(&self.scene.keys),
        };
        spoil_leading_bytes(random, right(&key), 8)
    }
}

fn spoil_leading_bytes(random: &mut Random, mut word: Word, leading: usize) -> Word {
    if random.per_mille(25) {
        word[random.below(leading)] = 1 << random.below(8);
    }
    word
}

/// A message sometimes cut, sometimes with bytes after its end, sometimes longer than any may be.
fn spoil_a_length(random: &mut Random, mut message: Vec<u8>) -> Vec<u8> {
    if random.per_mille(25) {
        let length = random.below(message.len() + 1);
        message.truncate(length);
    }
    if random.per_mille(30) {
        let more = random.within(1..=40);
        message.extend(random.bytes(more));
    }
    // Short messages come from few draws, which are to meet every check too.
    let share = if message.len() < 2 { 60 } else { 10 };
    if random.per_mille(share) {
        message.resize(LONGEST_MESSAGE + random.below(4).min(1), 0);
    }
    message
}

/// The sum, without its first byte.
fn plus(a: &Word, b: &Word) -> Word {
    sum(a, b)[1..].try_into().unwrap()
}

/// What a success did, in more detail than its row's name. `sound` is what the table held before.
pub fn effect(call: &Call, before: &[u8], after: &[u8], sound: &Sound) -> &'static str {
    let Call::System { message, .. } = call else {
        return call.name();
    };
    let occupied = |table: &[u8]| {
        table
            .chunks_exact(RECORD)
            .filter(|record| record[32..] != ZERO)
            .count()
    };
    let (records_before, records_after) = (occupied(before), occupied(after));
    match call.name() {
        "Call" if message.len() == 65 => "Call without a payload",
        "Call" => "Call with a payload",
        "Register" if message.len() == 97 => "Register without capabilities",
        "Register" => "Register with capabilities",
        "Write" if records_after > records_before => "Write of a new slot",
        "Write" if records_after < records_before => "Write of zero over a slot",
        "Write" if message[65..97] == ZERO => "Write of zero to an absent slot",
        "Write" => "Write over a slot",
        "Delete" if sound.keys.last().unwrap()[..] == message[41..65] => "Delete of the last place",
        "Delete" => "Delete that moves a key",
        "Set Entry" if before == after => "Set Entry that changes nothing",
        name => name,
    }
}
