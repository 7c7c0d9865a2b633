//! A day at the referral desk: `cargo run --example referral_desk`.
//!
//! Each ward is a procedure, and so is each open referral. The keys of a ward and of its referrals
//! begin with the ward's own byte, and so do the slots of its notes. That is all it can reach.

use beaker::{message, portal_mask, slot};
use beaker::{Address, Answer, Capability, Key, Prefix, PrefixTooLong, Refusal, Table, Word};
use std::error::Error;

const WARD_A: u8 = 0xa0;
const WARD_B: u8 = 0xb0;

/// Which of its capabilities a procedure uses: each here holds at most one of a type.
const FIRST: u64 = 0;

/// The code of every contract here: it stops at once.
const STOP: [u8; 1] = [0x00];

fn main() -> Result<(), Box<dyn Error>> {
    let mut table = Table::full();
    morning(&mut table)?;
    open_referrals(&mut table)?;
    write_notes(&mut table)?;
    transfer(&mut table)?;
    close_one(&mut table)?;
    evening(&table)?;
    Ok(())
}

fn morning(table: &mut Table) -> Result<(), Box<dyn Error>> {
    println!("The desk sets up its table and registers two wards. Ward A may call ward B.");
    let desk = table.set_up(Key::from(1), Address::from(0x11), Address::from(0x22));
    told("set-up", desk)?;
    let mut rights = rights_of(WARD_A)?;
    rights.push(Capability::Call(keys_of(WARD_B)?));
    ask(
        table,
        "register ward A",
        &register(ward(WARD_A), 0xaa, &rights),
    )?;
    ask(
        table,
        "register ward B",
        &register(ward(WARD_B), 0xbb, &rights_of(WARD_B)?),
    )?;
    Ok(())
}

fn open_referrals(table: &mut Table) -> Result<(), Refusal> {
    println!("\nThe host lets ward A run. It opens two referrals.");
    told("turn to ward A", table.turn(ward(WARD_A)))?;
    ask(
        table,
        "register referral 1",
        &register(referral(WARD_A, 1), 0xa1, &[]),
    )?;
    ask(
        table,
        "register referral 2",
        &register(referral(WARD_A, 2), 0xa2, &[]),
    )?;

    println!("\nA tired clerk opens referral 1 once more. Nothing changes.");
    let before = table.clone();
    let again = register(referral(WARD_A, 1), 0xa1, &[]);
    assert_eq!(
        ask(table, "register referral 1", &again),
        Err(Refusal::AlreadyListed)
    );
    assert_eq!(*table, before);
    Ok(())
}

fn write_notes(table: &mut Table) -> Result<(), Refusal> {
    println!("\nWard A notes the beds that it asks for.");
    ask(table, "write note 1: bed 12", &write(note(WARD_A, 1), 12))?;
    ask(table, "write note 2: bed 14", &write(note(WARD_A, 2), 14))?;

    println!("\nIt may write neither into ward B's notes nor into the kernel's own records.");
    let foreign = write(note(WARD_B, 1), 99);
    assert_eq!(
        ask(table, "write a note of ward B", &foreign),
        Err(Refusal::NotCovered)
    );
    let kernel = write(slot::entry_key(), 99);
    assert_eq!(
        ask(table, "write the entry key", &kernel),
        Err(Refusal::NotCovered)
    );
    Ok(())
}

fn transfer(table: &mut Table) -> Result<(), Refusal> {
    println!("\nWard A transfers referral 1: it asks to call ward B.");
    let message = message::call(FIRST, ward(WARD_B), b"referral 1, bed 12");
    let answer = ask(table, "call ward B", &message)?;
    let expected = Answer::Called {
        address: Address::from(0xbb),
        payload: b"referral 1, bed 12",
    };
    assert_eq!(answer, expected);

    println!("\nThe host lets ward B run. It opens a referral of its own, and notes the bed.");
    told("turn to ward B", table.turn(ward(WARD_B)))?;
    ask(
        table,
        "register referral 1",
        &register(referral(WARD_B, 1), 0xb1, &[]),
    )?;
    ask(table, "write note 1: bed 12", &write(note(WARD_B, 1), 12))?;

    println!("\nWard B was given no right to call.");
    let thanks = message::call(FIRST, ward(WARD_A), b"thank you");
    assert_eq!(ask(table, "call ward A", &thanks), Err(Refusal::NotCovered));
    Ok(())
}

fn close_one(table: &mut Table) -> Result<(), Refusal> {
    println!("\nThe host lets ward A run. It closes the referral that it handed over.");
    told("turn to ward A", table.turn(ward(WARD_A)))?;
    let close = message::delete(FIRST, referral(WARD_A, 1));
    ask(table, "delete referral 1", &close)?;
    assert_eq!(
        ask(table, "delete referral 1", &close),
        Err(Refusal::NotListed)
    );

    println!("\nIt cannot close ward B's.");
    let foreign = message::delete(FIRST, referral(WARD_B, 1));
    assert_eq!(
        ask(table, "delete ward B's referral", &foreign),
        Err(Refusal::NotCovered)
    );
    Ok(())
}

fn evening(table: &Table) -> Result<(), Refusal> {
    println!("\nIn the evening the other referrals are still open. The last took the free place.");
    let listed = [
        Key::from(1),
        ward(WARD_A),
        ward(WARD_B),
        referral(WARD_B, 1),
        referral(WARD_A, 2),
    ];
    assert_eq!(
        table.read(slot::list_length())?,
        Word::from(listed.len() as u64)
    );
    for (place, key) in (1..).zip(listed) {
        let stored = table.read(slot::list_place(place))?;
        println!(
            "  place {place}: {}",
            stored.to_key().expect("a place holds a key")
        );
        assert_eq!(stored, Word::from(key));
        assert_eq!(table.read(slot::index(key))?, Word::from(place));
    }

    println!("\nAll notes are there, also the one on the referral that was closed.");
    for (ward, number, bed) in [(WARD_A, 1, 12), (WARD_A, 2, 14), (WARD_B, 1, 12)] {
        let stored = table.read(note(ward, number))?;
        println!(
            "  ward {ward:x}, note {number}: bed {}",
            stored.to_u64().expect("a small number")
        );
        assert_eq!(stored, Word::from(bed));
    }
    Ok(())
}

/// A ward's key.
fn ward(ward: u8) -> Key {
    Key::starting_with(&[ward])
}

/// The key of a ward's referral.
fn referral(ward: u8, number: u8) -> Key {
    Key::starting_with(&[ward, number])
}

/// The slot of a ward's note on a referral.
fn note(ward: u8, number: u8) -> Word {
    Word::starting_with(&[ward, number])
}

/// The keys that begin with a ward's byte.
fn keys_of(ward: u8) -> Result<Prefix, PrefixTooLong> {
    Prefix::new(8, Key::starting_with(&[ward]))
}

/// What a ward may do: open and close its own referrals, and write its own notes.
fn rights_of(ward: u8) -> Result<Vec<Capability>, PrefixTooLong> {
    Ok(vec![
        Capability::Register(keys_of(ward)?),
        Capability::Delete(keys_of(ward)?),
        Capability::write_starting_with(&[ward]),
    ])
}

fn register(key: Key, address: u64, rights: &[Capability]) -> Vec<u8> {
    message::register(FIRST, key, Address::from(address), rights)
}

fn write(address: Word, value: u64) -> Vec<u8> {
    message::write(FIRST, address, Word::from(value))
}

/// A system call, and what it answers told.
fn ask<'m>(table: &mut Table, what: &str, message: &'m [u8]) -> Result<Answer<'m>, Refusal> {
    told(what, table.call(message, &STOP, &portal_mask()))
}

/// Tells what a call answers, and passes it on.
fn told<'m>(what: &str, answer: Result<Answer<'m>, Refusal>) -> Result<Answer<'m>, Refusal> {
    print!("  {what:<26}");
    match answer {
        Ok(Answer::Done) => println!("done"),
        Ok(Answer::Called { address, payload }) => {
            println!(
                "permitted: {address} is passed {:?}",
                String::from_utf8_lossy(payload)
            )
        }
        Ok(Answer::Registered { tests }) => println!("registered, after {tests} tests"),
        Ok(Answer::Looked { value }) => println!("{value}"),
        Err(refusal) => println!("refused: {refusal}"),
    }
    answer
}
