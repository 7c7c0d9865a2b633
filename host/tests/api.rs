//! The Rust layer over the kernel: the bytes that its builders make, held to bytes written out by
//! hand from document 01; the refusals' codes; the mask; how a reply becomes an answer.

use beaker::raw::{self, Reply};
use beaker::{message, portal_mask, slot, whitelist_mask};
use beaker::{
    Address, Answer, Capability, Key, Kind, LastBelowFirst, Mask, NotHex, Prefix, Refusal,
};
use beaker::{Table, Word};

/// A key, an address and a slot whose bytes all differ, so that a byte in a wrong place shows.
const KEY: &str = "a1a2a3a4a5a6a7a8a9aaabacadaeafb0b1b2b3b4b5b6b7b8";
const ADDRESS: &str = "c1c2c3c4c5c6c7c8c9cacbcccdcecfd0d1d2d3d4";
const SLOT: &str = "e1e2e3e4e5e6e7e8e9eaebecedeeeff0f1f2f3f4f5f6f7f8f9fafbfcfdfe0102";

fn key() -> Key {
    KEY.parse().unwrap()
}

fn address() -> Address {
    ADDRESS.parse().unwrap()
}

fn word() -> Word {
    SLOT.parse().unwrap()
}

fn hex(bytes: &[u8]) -> String {
    bytes.iter().map(|byte| format!("{byte:02x}")).collect()
}

/// A word that holds a small number, written out.
fn small(number: u8) -> String {
    format!("{}{number:02x}", "00".repeat(31))
}

/// The kernel that document 01's program sets up.
fn fresh() -> Table {
    let mut table = Table::full();
    table
        .set_up(Key::from(0x01), Address::from(0x11), Address::from(0x22))
        .unwrap();
    table
}

const ZEROS_8: &str = "0000000000000000";
const ZEROS_12: &str = "000000000000000000000000";

mod messages {
    use super::*;

    #[test]
    fn null_is_one_byte() {
        assert_eq!(hex(&message::null()), "00");
    }

    #[test]
    fn call_is_index_key_payload() {
        let expected = format!("03{}{ZEROS_8}{KEY}626564", small(5));
        assert_eq!(hex(&message::call(5, key(), b"bed")), expected);
    }

    #[test]
    fn delete_and_set_entry_are_index_key() {
        let data = format!("{}{ZEROS_8}{KEY}", small(9));
        assert_eq!(hex(&message::delete(9, key())), format!("05{data}"));
        assert_eq!(hex(&message::set_entry(9, key())), format!("06{data}"));
    }

    #[test]
    fn write_is_index_address_value() {
        let expected = format!("07{}{SLOT}{}", small(1), small(0x77));
        assert_eq!(hex(&message::write(1, word(), Word::from(0x77))), expected);
    }

    #[test]
    fn an_index_is_a_whole_word() {
        let index = "000000000000000000000000000000000000000000000000ffffffffffffffff";
        let expected = format!("05{index}{ZEROS_8}{KEY}");
        assert_eq!(hex(&message::delete(u64::MAX, key())), expected);
    }

    #[test]
    fn register_is_index_key_address() {
        let expected = format!("04{}{ZEROS_8}{KEY}{ZEROS_12}{ADDRESS}", small(2));
        assert_eq!(hex(&message::register(2, key(), address(), &[])), expected);
    }

    #[test]
    fn capabilities_follow_as_size_type_words() {
        let requested = [
            Capability::Call(Prefix::one_key(key())),
            Capability::Register(Prefix::new(9, key()).unwrap()),
            Capability::Delete(Prefix::EVERY_KEY),
            Capability::SetEntry,
            Capability::Write {
                base: word(),
                additional: Word::from(5),
            },
        ];
        let series = [
            small(2),
            small(3),
            format!("c000000000000000{KEY}"),
            small(2),
            small(4),
            format!("0900000000000000{KEY}"),
            small(2),
            small(5),
            small(0),
            small(1),
            small(6),
            small(3),
            small(7),
            SLOT.to_string(),
            small(5),
        ];
        let sent = message::register(0, key(), address(), &requested);
        assert_eq!(hex(&sent[97..]), series.concat());
    }

    #[test]
    fn a_prefix_out_of_range_is_not_made() {
        assert!(Prefix::new(Prefix::GREATEST, key()).is_ok());
        let bits = Prefix::GREATEST + 1;
        let error = Prefix::new(bits, key()).unwrap_err();
        let said = format!(
            "a prefix of {bits} bits is too long: it has at most {}",
            bits - 1
        );
        assert_eq!(error.to_string(), said);
    }

    /// First, last and what `additional` then is; borrows cross every byte of the second.
    #[test]
    fn a_range_is_made_of_its_first_and_last_address() {
        let power = |byte: usize| Word::starting_with(&[&vec![0; byte][..], &[1]].concat());
        let below_power = format!("00{}", "ff".repeat(31)).parse().unwrap();
        let ranges = [
            (Word::ZERO, Word::ZERO, Word::ZERO),
            (Word::ZERO, Word::MAX, Word::MAX),
            (Word::from(1), power(0), below_power),
            (below_power, power(0), Word::from(1)),
            (Word::from(0x80fe), Word::from(0x8103), Word::from(5)),
            (word(), word(), Word::ZERO),
            (Word::MAX, Word::MAX, Word::ZERO),
        ];
        for (base, last, additional) in ranges {
            let expected = Capability::Write { base, additional };
            assert_eq!(Capability::write(base, last), Ok(expected));
        }
    }

    #[test]
    fn a_range_does_not_end_before_it_begins() {
        let above = "0100000000000000000000000000000000000000000000000000000000000000";
        let below = "00ffffffffffffffffffffffffffffffffffffffffffffffffffffffffffffff";
        let (first, last) = (above.parse().unwrap(), below.parse().unwrap());
        let error = Capability::write(first, last).unwrap_err();
        assert_eq!(error, LastBelowFirst { first, last });
        let said = format!("the last address, {below}, is below the first, {above}");
        assert_eq!(error.to_string(), said);
    }

    #[test]
    fn a_range_of_a_front_has_every_address_that_begins_with_it() {
        let word = word();
        for length in [0, 1, 5, 32] {
            let front = &word.as_bytes()[..length];
            let last = format!("{}{}", hex(front), "ff".repeat(32 - length));
            let expected = Capability::write(Word::starting_with(front), last.parse().unwrap());
            assert_eq!(Ok(Capability::write_starting_with(front)), expected);
        }
    }

    /// The limit here and the kernel's are the same: the next prefix is refused as malformed.
    #[test]
    fn the_kernel_takes_the_greatest_prefix_and_no_greater() {
        let requested = [Capability::Call(
            Prefix::new(Prefix::GREATEST, key()).unwrap(),
        )];
        let mut sent = message::register(0, key(), address(), &requested);
        let prefix_at = 97 + 64;
        assert_eq!(sent[prefix_at], Prefix::GREATEST);
        sent[prefix_at] += 1;
        let refused = fresh().call(&sent, &[0], &whitelist_mask());
        assert_eq!(refused, Err(Refusal::MalformedSeries));
        sent[prefix_at] -= 1;
        let taken = fresh().call(&sent, &[0], &whitelist_mask());
        assert_eq!(taken, Ok(Answer::Registered { tests: 1 }));
    }
}

mod numbers {
    use super::*;

    #[test]
    fn hex_is_read_and_written() {
        assert_eq!(key().to_string(), KEY);
        assert_eq!(format!("0x{}", KEY.to_uppercase()).parse(), Ok(key()));
        assert_eq!(
            format!("{:?}", Address::from(0xff)),
            format!("Address({ZEROS_12}00000000000000ff)")
        );
        for wrong in [
            "",
            "0x",
            &KEY[1..],
            &format!("{KEY}0"),
            &format!("+{}", &KEY[1..]),
        ] {
            assert_eq!(wrong.parse::<Key>(), Err(NotHex { digits: 48 }), "{wrong}");
        }
        assert_eq!(
            NotHex { digits: 48 }.to_string(),
            "this is not a number of 48 hexadecimal digits"
        );
    }

    #[test]
    fn bytes_are_read_and_given_back() {
        assert_eq!(Key::try_from(key().as_ref()).unwrap(), key());
        assert_eq!(Address::try_from(address().as_ref()).unwrap(), address());
        assert_eq!(Word::try_from(word().as_ref()).unwrap(), word());
        assert_eq!(Key::from(<[u8; 24]>::from(key())), key());
        for wrong in [0, 19, 21, 24] {
            assert!(Address::try_from(&[1; 24][..wrong]).is_err(), "{wrong}");
        }
    }

    #[test]
    fn keys_and_addresses_stand_right_in_words() {
        assert_eq!(Word::from(key()).to_string(), format!("{ZEROS_8}{KEY}"));
        assert_eq!(
            Word::from(address()).to_string(),
            format!("{ZEROS_12}{ADDRESS}")
        );
        assert_eq!(Word::from(key()).to_key(), Some(key()));
        assert_eq!(Word::from(address()).to_address(), Some(address()));
        assert_eq!(
            (word().to_key(), word().to_address(), word().to_u64()),
            (None, None, None)
        );
        assert_eq!(Word::from(u64::MAX).to_u64(), Some(u64::MAX));
    }

    #[test]
    fn a_front_is_followed_by_zeros() {
        assert_eq!(
            Key::starting_with(&[0xa0, 0x7f]).to_string(),
            format!("a07f{}", "00".repeat(22))
        );
        assert_eq!(Key::starting_with(key().as_bytes()), key());
    }
}

mod refusals {
    use super::*;

    /// Document 01's table, in its order; 66 eb of document 02 stands where it is judged.
    const CODES: [(Refusal, &[u8]); 18] = [
        (Refusal::WrongBytes, &[0x66, 0xed]),
        (Refusal::Unsound, &[0x66, 0xef]),
        (Refusal::Short, &[0x66, 0xe0]),
        (Refusal::MessageTooLong, &[0x66, 0xea]),
        (Refusal::UnknownType, &[0xaa]),
        (Refusal::Overlong, &[0x66, 0xeb]),
        (Refusal::LeadingBytes, &[0x66, 0xe6]),
        (Refusal::Zero, &[0x66, 0xe4]),
        (Refusal::NotCovered, &[0x33]),
        (Refusal::CodeFails, &[0x66, 0xe9]),
        (Refusal::MalformedSeries, &[0x66, 0xe5]),
        (Refusal::TooMany, &[0x66, 0x77]),
        (Refusal::AlreadyListed, &[0x66, 0xe1]),
        (Refusal::IsEntry, &[0x66, 0xe2]),
        (Refusal::IsCurrent, &[0x66, 0xe3]),
        (Refusal::NotListed, &[0x66, 0x33]),
        (Refusal::ListFull, &[0x66, 0xe8]),
        (Refusal::NoRoom, &[0x66, 0xe7]),
    ];

    #[test]
    fn each_has_its_code() {
        assert_eq!(Refusal::ALL.len(), CODES.len());
        for (refusal, code) in CODES {
            assert!(Refusal::ALL.contains(&refusal));
            assert_eq!(refusal.code(), code);
            assert_eq!(Refusal::from_code(code), Some(refusal));
        }
        assert_eq!(Refusal::from_code(&[]), None);
        assert_eq!(Refusal::from_code(&[0x66]), None);
        assert_eq!(Refusal::from_code(&[0x33, 0x00]), None);
    }

    #[test]
    fn each_says_why_in_a_sentence_of_its_own() {
        let mut sentences: Vec<String> = Refusal::ALL.iter().map(Refusal::to_string).collect();
        assert!(sentences.contains(&"the storage table has no room for this (66 e7)".to_string()));
        assert!(sentences.contains(&"the kernel knows no message of this type (aa)".to_string()));
        sentences.sort();
        sentences.dedup();
        assert_eq!(sentences.len(), Refusal::ALL.len());
    }

    #[test]
    fn one_passes_through_the_question_mark() {
        fn turn_to_nobody() -> Result<(), Box<dyn std::error::Error>> {
            fresh().turn(Key::from(2))?;
            Ok(())
        }
        let error = turn_to_nobody().unwrap_err();
        assert_eq!(error.downcast_ref(), Some(&Refusal::NotListed));
    }
}

mod mask {
    use super::*;

    /// Section 5.1 written out opcode by opcode: a row for each sixteen, a digit for each opcode.
    const ALLOWED: [&str; 16] = [
        "1111111111110000", // 00 to 0b
        "1111111111100000", // 10 to 1a
        "1000000000000000", // 20
        "1111111111111110", // 30 to 3e
        "1111110000000000", // 40 to 45
        "1111101111110000", // 50 to 54, 56 to 5b
        "1111111111111111", // 60 to 6f
        "1111111111111111", // 70 to 7f
        "1111111111111111", // 80 to 8f
        "1111111111111111", // 90 to 9f
        "0000000000000000", // LOG
        "0000000000000000",
        "0000000000000000",
        "0000000000000000",
        "0000000000000000",
        "0001000000100110", // f3, fa, fd, fe
    ];

    #[test]
    fn the_whitelist_is_section_5_1() {
        for opcode in 0..=255u8 {
            let row = ALLOWED[usize::from(opcode / 16)];
            let expected = row.as_bytes()[usize::from(opcode % 16)] == b'1';
            assert_eq!(whitelist_mask().allows(opcode), expected, "{opcode:02x}");
        }
    }

    #[test]
    fn the_whitelist_as_the_kernel_reads_it() {
        let rows =
            "ff0f ff07 0100 ff7f 3f00 df0f ffff ffff ffff ffff 0000 0000 0000 0000 0000 0864";
        assert_eq!(hex(whitelist_mask().as_bytes()), rows.replace(' ', ""));
    }

    #[test]
    fn the_portal_allows_delegate_calls_too() {
        let more: Vec<u8> = (0..=255)
            .filter(|&k| portal_mask().allows(k) != whitelist_mask().allows(k))
            .collect();
        assert_eq!(more, [0xf4]);
        let bytes: [u8; 32] = portal_mask().into();
        assert_eq!(Mask::from(bytes), portal_mask());
        assert_eq!(portal_mask().as_ref(), bytes);
    }

    /// The kernel judges each opcode as the mask's own test does.
    #[test]
    fn the_kernel_judges_by_the_mask() {
        let sent = message::register(0, key(), address(), &[]);
        for opcode in 0..=255 {
            let answer = fresh().call(&sent, &[opcode], &portal_mask());
            let expected = if portal_mask().allows(opcode) {
                Ok(Answer::Registered { tests: 0 })
            } else {
                Err(Refusal::CodeFails)
            };
            assert_eq!(answer, expected, "{opcode:02x}");
        }
    }
}

mod slots {
    use super::*;

    #[test]
    fn slots_are_mark_region_middle_end() {
        let zeros = "00".repeat(24);
        assert_eq!(
            slot::list_length().to_string(),
            format!("ffffffff01{zeros}000000")
        );
        assert_eq!(
            slot::list_place(7).to_string(),
            format!("ffffffff01{}07000000", &zeros[2..])
        );
        assert_eq!(
            slot::kernel_address().to_string(),
            format!("ffffffff02{zeros}000000")
        );
        assert_eq!(
            slot::current_key().to_string(),
            format!("ffffffff03{zeros}000000")
        );
        assert_eq!(
            slot::entry_key().to_string(),
            format!("ffffffff04{zeros}000000")
        );
        assert_eq!(
            slot::address(key()).to_string(),
            format!("ffffffff00{KEY}000000")
        );
        assert_eq!(
            slot::index(key()).to_string(),
            format!("ffffffff00{KEY}000001")
        );
        let count = slot::capability_count(key(), Kind::Write);
        assert_eq!(count.to_string(), format!("ffffffff00{KEY}070000"));
        let word = slot::capability_word(key(), Kind::Write, 2, 1);
        assert_eq!(word.to_string(), format!("ffffffff00{KEY}070201"));
    }

    #[test]
    fn set_up_fills_them() {
        let table = fresh();
        let first = Key::from(0x01);
        let read = |slot| table.read(slot).unwrap();
        assert_eq!(read(slot::list_length()), Word::from(1));
        assert_eq!(read(slot::list_place(1)), Word::from(first));
        assert_eq!(read(slot::kernel_address()), Word::from(0x22));
        assert_eq!(read(slot::current_key()), Word::from(first));
        assert_eq!(read(slot::entry_key()), Word::from(first));
        assert_eq!(read(slot::address(first)), Word::from(0x11));
        assert_eq!(read(slot::index(first)), Word::from(1));
        for kind in Kind::ALL {
            assert_eq!(read(slot::capability_count(first, kind)), Word::from(1));
        }
        assert_eq!(
            read(slot::capability_word(first, Kind::Write, 1, 1)),
            Word::MAX
        );
    }
}

mod calls {
    use super::*;

    #[test]
    fn each_success_has_its_answer() {
        let mut table = fresh();
        let mask = whitelist_mask();
        let register =
            |capabilities: &[Capability]| message::register(0, key(), address(), capabilities);
        assert_eq!(table.call(&message::null(), &[], &mask), Ok(Answer::Done));
        let registered = Ok(Answer::Registered { tests: 0 });
        assert_eq!(table.call(&register(&[]), &[0], &mask), registered);
        assert_eq!(
            table.call(&message::set_entry(0, key()), &[], &mask),
            Ok(Answer::Done)
        );
        assert_eq!(table.turn(key()), Ok(Answer::Done));
        assert_eq!(table.turn(Key::from(1)), Ok(Answer::Done));
        assert_eq!(
            table.call(&message::set_entry(0, Key::from(1)), &[], &mask),
            Ok(Answer::Done)
        );
        assert_eq!(
            table.call(&message::delete(0, key()), &[], &mask),
            Ok(Answer::Done)
        );
        let write = message::write(0, word(), Word::from(5));
        assert_eq!(table.call(&write, &[], &mask), Ok(Answer::Done));
        assert_eq!(
            table.look(word()),
            Ok(Answer::Looked {
                value: Word::from(5)
            })
        );
        assert_eq!(
            table.look(Word::ZERO),
            Ok(Answer::Looked { value: Word::ZERO })
        );
    }

    /// Document 01's example: Write(1, 1) and Set Entry are two tests.
    #[test]
    fn register_reports_its_tests() {
        let write = Capability::Write {
            base: Word::from(1),
            additional: Word::from(1),
        };
        let sent = message::register(0, key(), address(), &[write, Capability::SetEntry]);
        let answer = fresh().call(&sent, &[0], &whitelist_mask());
        assert_eq!(answer, Ok(Answer::Registered { tests: 2 }));
    }

    #[test]
    fn the_payload_is_a_part_of_the_callers_own_message() {
        for sent in [&b"bed 12"[..], b""] {
            let message = message::call(0, Key::from(0x01), sent);
            let answer = fresh().call(&message, &[], &Mask::NONE);
            let Ok(Answer::Called { address, payload }) = answer else {
                panic!("{answer:?}");
            };
            assert_eq!(address, Address::from(0x11));
            assert_eq!(payload, sent);
            assert_eq!(payload.as_ptr_range(), message[65..].as_ptr_range());
        }
    }

    /// Null, Set Entry, Delete and Write are no longer than their format.
    #[test]
    fn a_message_that_goes_on_is_refused() {
        let mut table = fresh();
        let first = Key::from(0x01);
        for mut sent in [
            message::null(),
            message::set_entry(0, first),
            message::delete(0, first),
            message::write(0, word(), Word::from(5)),
        ] {
            sent.push(0);
            let answer = table.call(&sent, &[], &Mask::NONE);
            assert_eq!(answer, Err(Refusal::Overlong));
        }
        assert_eq!(table.as_bytes(), fresh().as_bytes());
    }

    /// A ward may close referral 3. Its own key, 2, differs from that in the last bit alone; the
    /// first procedure's, 1, in the bit before it.
    #[test]
    fn a_right_to_one_key_closes_that_referral_alone() {
        let (first, ward, referral) = (Key::from(1), Key::from(2), Key::from(3));
        let may_close_it = [Capability::Delete(Prefix::one_key(referral))];
        let (mut table, mask) = (fresh(), whitelist_mask());
        for (key, rights) in [(ward, &may_close_it[..]), (referral, &[])] {
            let sent = message::register(0, key, address(), rights);
            table.call(&sent, &[0], &mask).unwrap();
        }
        table.turn(ward).unwrap();
        let answers = [
            (first, Err(Refusal::NotCovered)),
            (ward, Err(Refusal::NotCovered)),
            (referral, Ok(Answer::Done)),
        ];
        for (key, answer) in answers {
            assert_eq!(table.call(&message::delete(0, key), &[], &mask), answer);
        }
    }

    #[test]
    fn refusals_of_all_four() {
        let mut table = Table::with_records(13);
        assert_eq!(table.look(Word::ZERO), Err(Refusal::Unsound));
        assert_eq!(table.read(Word::ZERO), Err(Refusal::Unsound));
        let zero = table.set_up(Key::ZERO, address(), address());
        assert_eq!(zero, Err(Refusal::Zero));
        assert_eq!(table.set_up(key(), address(), address()), Ok(Answer::Done));
        assert_eq!(table.turn(Key::ZERO), Err(Refusal::NotListed));
        assert_eq!(table.call(&[], &[], &Mask::NONE), Err(Refusal::Short));
        assert_eq!(
            table.call(&[1], &[], &Mask::NONE),
            Err(Refusal::UnknownType)
        );
        let write = message::write(0, word(), Word::MAX);
        assert_eq!(table.call(&write, &[], &Mask::NONE), Err(Refusal::NoRoom));
    }

    /// Owned bytes, borrowed bytes and bytes for reading alone are the same table.
    #[test]
    fn a_table_lies_over_any_bytes() {
        let mut bytes = vec![0; Table::FULL];
        let mut borrowed = Table::over(&mut bytes[..]);
        borrowed
            .set_up(Key::from(0x01), Address::from(0x11), Address::from(0x22))
            .unwrap();
        assert_eq!(borrowed.as_bytes(), fresh().as_bytes());
        assert_eq!(format!("{borrowed:?}"), "Table of 65536 bytes");
        assert_eq!(
            Table::over(&bytes[..]).read(slot::list_length()),
            Ok(Word::from(1))
        );
        assert_eq!(bytes, fresh().into_bytes());
        let mut array = Table::over([0; 64]);
        assert_eq!(
            array.set_up(key(), address(), address()),
            Err(Refusal::NoRoom)
        );
    }
}

/// The number of bytes would not fit a number; it is not cut to one that does.
#[test]
#[should_panic(expected = "capacity overflow")]
fn no_table_has_more_records_than_memory() {
    Table::with_records(usize::MAX / Table::RECORD + 2);
}

mod exports {
    use super::*;

    const NOTHING: Reply = Reply {
        tests: 0,
        payload_at: 0,
        payload_len: 0,
        address: [0; 20],
        value: [0; 32],
        flag: 0,
        code_len: 0,
        code: [0; 2],
    };

    const WRONG_BYTES: Reply = Reply {
        code_len: 2,
        code: [0x66, 0xed],
        ..NOTHING
    };

    #[test]
    fn a_field_of_a_wrong_length_is_66_ed() {
        let mut table = fresh().as_bytes().to_vec();
        let (key, address) = ([1; 24], [1; 20]);
        for (k, a, ka) in [(23, 20, 20), (24, 19, 20), (24, 20, 0)] {
            let reply = raw::set_up(&mut table, &key[..k], &address[..a], &address[..ka]);
            assert_eq!(reply, WRONG_BYTES);
        }
        assert_eq!(raw::turn(&mut table, &[1; 25]), WRONG_BYTES);
        assert_eq!(raw::look(&table, &[1; 31]), WRONG_BYTES);
        assert_eq!(
            raw::system_call(&mut table, &[0], &[0], &[0; 33]),
            WRONG_BYTES
        );
        assert_eq!(table, fresh().as_bytes());
    }

    #[test]
    fn a_reply_has_every_field() {
        let mut table = fresh().as_bytes().to_vec();
        let done = Reply { flag: 1, ..NOTHING };
        assert_eq!(raw::turn(&mut table, Key::from(1).as_bytes()), done);
        assert_eq!(raw::system_call(&mut table, &[0], &[], &[0; 32]), done);
        let unknown = Reply {
            code_len: 1,
            code: [0xaa, 0],
            ..NOTHING
        };
        assert_eq!(raw::system_call(&mut table, &[8], &[], &[0; 32]), unknown);
        let looked = Reply {
            value: *Word::from(0x22).as_bytes(),
            ..done
        };
        assert_eq!(raw::look(&table, slot::kernel_address().as_bytes()), looked);
        let call = message::call(0, Key::from(1), &[7, 8]);
        let called = Reply {
            payload_at: 65,
            payload_len: 2,
            address: *Address::from(0x11).as_bytes(),
            ..done
        };
        assert_eq!(raw::system_call(&mut table, &call, &[], &[0; 32]), called);
        let register = message::register(0, key(), address(), &[Capability::SetEntry]);
        let registered = Reply { tests: 1, ..done };
        assert_eq!(
            raw::system_call(&mut table, &register, &[0], &[1; 32]),
            registered
        );
    }
}
