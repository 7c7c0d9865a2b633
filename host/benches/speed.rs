//! How long each call takes, beside the same call in plain Rust and beside one read of the table.
//!
//! `cargo bench` prints it; on Arm `./cross cargo bench`, whose times are an emulator's.

#[path = "speed/cases.rs"]
mod cases;
mod peer;

use cases::{Call, Case, FREE, RECORDS};
use std::hint::black_box;
use std::time::{Duration, Instant};

/// How often a call is timed at most and at least, and how long that may take between the two.
const MOST_ROUNDS: usize = 1_001;
const LEAST_ROUNDS: usize = 7;
const BUDGET: Duration = Duration::from_millis(250);

fn main() {
    // `cargo test` runs it without times, and sees that both do the same.
    if !std::env::args().any(|argument| argument == "--bench") {
        let cases = cases::all().into_iter().flat_map(|(_, cases)| cases);
        let agreed = cases.inspect(agree).count();
        println!("{agreed} calls agree; `cargo bench` prints their times");
        return;
    }
    let read = one_read();
    print_header(read);
    for (title, cases) in cases::all() {
        println!("\n{title}");
        cases.iter().for_each(|case| measure(case, read));
    }
}

fn print_header(read: f64) {
    let clock = median(|| Instant::now().elapsed());
    print!(
        "\
Times of one call in microseconds: medians of {LEAST_ROUNDS} to {MOST_ROUNDS} rounds.
Every call succeeds. A full table has {RECORDS} records; those calls that need new ones,
Write of a new slot and Register with one capability, find {FREE} free.
The Register with 255 capabilities meets the table without that procedure.
Each round restores the table before the clock starts, which leaves it in the cache.
Nothing is subtracted: starting and stopping the clock alone takes {clock:.2}.
One read of 65,536 bytes, summed as words of 64 bits, takes {read:.2}.

                                                             beaker/     beaker/
                                          beaker  plain Rust   plain    one read
"
    );
}

/// Sees that both do the same, which is to succeed.
fn agree(case: &Case) {
    let (mut by_archive, mut by_peer) = (case.table.clone(), case.table.clone());
    let reply = case.call.by_archive(&mut by_archive);
    assert_eq!(reply, case.call.by_peer(&mut by_peer), "{}", case.name);
    assert!(
        by_archive == by_peer && reply.flag == 1,
        "{}: {reply:?}",
        case.name
    );
}

/// Times one case by both, once it is seen that both do the same.
fn measure(case: &Case, read: f64) {
    agree(case);
    let archive = median(|| round(case, Call::by_archive));
    let peer = median(|| round(case, Call::by_peer));
    let (to_peer, to_read) = (archive / peer, archive / read);
    println!(
        "  {:<34}{archive:>12.2}{peer:>12.2}{to_peer:>8.1}{to_read:>12.1}",
        case.name
    );
}

/// One call on a restored table. The copy that the case keeps is lent, so that no round waits for
/// new memory.
fn round<R>(case: &Case, make: impl Fn(&Call, &mut [u8]) -> R) -> Duration {
    let mut lent = case.lent.borrow_mut();
    lent.copy_from_slice(&case.table);
    let start = Instant::now();
    black_box(make(black_box(&case.call), black_box(&mut lent)));
    start.elapsed()
}

/// The median of rounds, in microseconds.
fn median(mut round: impl FnMut() -> Duration) -> f64 {
    let start = Instant::now();
    let mut times = Vec::new();
    while times.len() < LEAST_ROUNDS || (times.len() < MOST_ROUNDS && start.elapsed() < BUDGET) {
        times.push(round());
    }
    times.sort();
    times[times.len() / 2].as_secs_f64() * 1e6
}

/// One read of a table: the least that judging it takes.
fn one_read() -> f64 {
    let table = vec![1; cases::LENGTH];
    median(|| {
        let start = Instant::now();
        let words = black_box(&table).chunks_exact(8);
        let sum = words.fold(0, |sum: u64, word| {
            sum.wrapping_add(u64::from_ne_bytes(word.try_into().unwrap()))
        });
        black_box(sum);
        start.elapsed()
    })
}
