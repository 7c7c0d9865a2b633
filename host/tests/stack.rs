//! How much stack a call needs: no more than `raw::STACK_BYTES`, which include/beaker.h and
//! docs/PROMISES.md name too. It is found in two ways, and
//! `cargo test --test stack -- --nocapture` prints both:
//!
//! - measured: each call is made on a stack of its own, filled with a pattern, and the deepest byte
//!   that has changed afterwards tells how far it went;
//! - added up from the archive's code: each function's frame has a size that is written in its
//!   instructions, so the deepest path from an exported function to the functions that it calls
//!   bounds every call that there can be.

#[path = "../benches/speed/cases.rs"]
mod cases;
#[path = "stack/code.rs"]
mod code;
#[path = "vectors/lines.rs"]
mod lines;
#[path = "../benches/peer/mod.rs"]
mod peer;

use beaker::raw::STACK_BYTES;
use code::Code;
use lines::each_call;
use std::arch::asm;
use std::collections::BTreeMap;

#[test]
fn the_header_and_the_promises_name_the_bound() {
    let header = include_str!("../../include/beaker.h");
    let definition = format!("#define BEAKER_STACK_BYTES {STACK_BYTES}\n");
    assert!(header.contains(&definition), "{definition}");
    let promises = include_str!("../../docs/PROMISES.md");
    let (thousands, rest) = (STACK_BYTES / 1_000, STACK_BYTES % 1_000);
    let sentence = format!("at most {thousands},{rest:03} bytes of stack");
    assert!(promises.contains(&sentence), "{sentence}");
}

/// The benchmarks' calls, which succeed on tables of 1,024 records and with the greatest series and
/// codes, and the vectors', which give every answer but 66 e8 and go up to the
/// longest message.
#[test]
fn no_call_uses_more() {
    let mut stack = vec![PATTERN; ROOM];
    let mut deepest = BTreeMap::new();
    for case in cases::all().into_iter().flat_map(|(_, cases)| cases) {
        let mut table = case.lent.borrow_mut();
        table.copy_from_slice(&case.table);
        let depth = depth(&mut stack, || {
            case.call.by_archive(&mut table);
        });
        assert!(depth <= STACK_BYTES, "{}: {depth} bytes", case.name);
        note(&mut deepest, row_of_case(&case.call), depth);
    }
    each_call(|line, call, table| {
        let depth = depth(&mut stack, || {
            call.by_archive(table);
        });
        assert!(depth <= STACK_BYTES, "{depth} bytes: {line}");
        note(&mut deepest, row_of_line(call), depth);
    });
    println!("bytes of stack, measured");
    for (row, depth) in deepest {
        println!("  {row:<40}{depth:>8}");
    }
}

fn note(deepest: &mut BTreeMap<&str, usize>, row: &'static str, depth: usize) {
    let most = deepest.entry(row).or_default();
    *most = depth.max(*most);
}

fn row_of_case(call: &cases::Call) -> &'static str {
    match call {
        cases::Call::SetUp => "set-up",
        cases::Call::Turn(_) => "Turn",
        cases::Call::Look(_) => "Look",
        cases::Call::System { message, .. } => row_of_message(message),
    }
}

fn row_of_line(call: &lines::Call) -> &'static str {
    match call.name {
        "u" => "set-up",
        "t" => "Turn",
        "l" => "Look",
        _ => row_of_message(&call.fields[0]),
    }
}

fn row_of_message(message: &[u8]) -> &'static str {
    match message.first() {
        Some(0) => "Null",
        Some(3) => "Call",
        Some(4) => "Register",
        Some(5) => "Delete",
        Some(6) => "Set Entry",
        Some(7) => "Write",
        _ => "an empty or unknown message",
    }
}

/// The deepest path through the archive's code. A function that calls itself, takes a frame of no
/// fixed size or calls what a pointer names has no such bound, and none is there; a jump table is
/// taken to stay in its function.
#[test]
fn no_path_needs_more() {
    let code = Code::of_archive();
    println!("bytes of stack, by the archive's code");
    for name in [
        "beaker_set_up",
        "beaker_turn",
        "beaker_look",
        "beaker_system_call",
    ] {
        let bytes = code.deepest(name);
        println!("  {name:<40}{bytes:>8}");
        assert!(bytes <= STACK_BYTES, "{name}: {bytes} bytes");
    }
}

const PATTERN: u8 = 0xa5;

/// The length of the stack on which a call is measured.
const ROOM: usize = 1 << 20;

/// How many bytes of a stack, filled with the pattern, a call changes; they are filled again. The
/// frame from which the call is made is counted with them.
fn depth(stack: &mut [u8], mut call: impl FnMut()) -> usize {
    const KEPT: [u8; 4_096] = [PATTERN; 4_096];
    run_on(stack, &mut call);
    // Page by page first: most of the stack is kept.
    let pages = stack.chunks(KEPT.len()).take_while(|&page| page == KEPT);
    let (_, rest) = stack.split_at_mut(KEPT.len() * pages.count());
    let kept = rest.iter().take_while(|&&byte| byte == PATTERN).count();
    let changed = &mut rest[kept..];
    changed.fill(PATTERN);
    changed.len()
}

/// Runs a function on this stack.
fn run_on<F: FnMut()>(stack: &mut [u8], function: &mut F) {
    extern "C" fn run<F: FnMut()>(function: &mut F) {
        function()
    }
    let top = stack.as_mut_ptr_range().end as usize / 16 * 16;
    // SAFETY: r12, which a call keeps, has the stack pointer meanwhile, so that it ends as it began;
    // and no panic passes an extern "C" function. The stack has no guard page: a call that needed
    // more than all of it, some fifty times what a call may need, would write beyond it unseen.
    unsafe {
        asm!(
            "mov r12, rsp",
            "mov rsp, {top}",
            "call {run}",
            "mov rsp, r12",
            top = in(reg) top,
            run = in(reg) run::<F> as extern "C" fn(&mut F) as usize,
            in("rdi") function,
            out("r12") _,
            clobber_abi("C"),
        );
    }
}
