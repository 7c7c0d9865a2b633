//! The archive's functions as its instructions show them: their frames, and whom they call.

use std::collections::{BTreeMap, BTreeSet};
use std::env;
use std::process::Command;

/// What a call stores before the callee runs.
const RETURN_ADDRESS: usize = 8;

/// What a function that calls no other may use below its frame.
const RED_ZONE: usize = 128;

/// What the archive takes from the C library. They call no other function.
const OF_THE_C_LIBRARY: [&str; 3] = ["memcpy", "memmove", "memset"];

/// What a function may take without touching it, so that none steps over the page that guards a
/// stack.
const PAGE: usize = 4_096;

#[derive(Default)]
struct Function {
    frame: usize,
    /// What it has taken by `sub` since a page was last touched, which an instruction does that
    /// follows a `sub`. A `push` touches what it takes.
    untouched: usize,
    /// Whether the last instruction was a `sub`.
    has_taken: bool,
    calls: BTreeSet<String>,
    /// The constants that it names.
    constants: BTreeSet<String>,
    jumps_by_pointer: bool,
}

/// The archive's functions by name.
pub struct Code(BTreeMap<String, Function>);

impl Code {
    /// Of the archive that the package links. Each function has a section of its own, so that
    /// whatever it calls, or jumps to, is named in a relocation.
    pub fn of_archive() -> Code {
        let mut code = Code(BTreeMap::new());
        let mut function = &mut Function::default();
        let mut jumps = false;
        for line in disassembly().lines() {
            if let Some((address, name)) = line.strip_suffix(">:").and_then(|l| l.split_once(" <"))
            {
                assert_eq!(
                    address.trim_start_matches('0'),
                    "",
                    "{name} has no own section"
                );
                function = code.0.entry(name.to_string()).or_default();
            } else if let Some((_, relocation)) = line.split_once("R_X86_64_") {
                let (_, target) = relocation.split_once('\t').expect("a target");
                // A constant lies in .rodata, or has a label of the compiler's own.
                if target.starts_with(".rodata") || target.starts_with(".L") {
                    assert!(!jumps, "a constant is called: {target}");
                    function.constants.insert(target.to_string());
                } else {
                    let name = target.strip_suffix("-0x4").expect("a function's start");
                    let name = name.strip_prefix(".text.").unwrap_or(name);
                    function.calls.insert(name.to_string());
                }
            } else if let Some((_, instruction)) = line.split_once(":\t") {
                jumps = instruction.starts_with("call") || instruction.starts_with('j');
                function.follow(instruction.trim_end());
            }
        }
        for (name, function) in &code.0 {
            // Its jump table, in the section that has its name.
            let table = format!(".rodata.{name}-0x4");
            assert!(
                !function.jumps_by_pointer || function.constants.contains(&table),
                "{name} jumps by a pointer and has no jump table"
            );
        }
        code
    }

    /// The stack that a function needs at most, with those that it calls.
    pub fn deepest(&self, name: &str) -> usize {
        self.deepest_within(name, &mut Vec::new())
    }

    fn deepest_within<'c>(&'c self, name: &'c str, callers: &mut Vec<&'c str>) -> usize {
        assert!(!callers.contains(&name), "{name} calls itself: {callers:?}");
        if OF_THE_C_LIBRARY.contains(&name) {
            return RETURN_ADDRESS + RED_ZONE;
        }
        let function = self.0.get(name).unwrap_or_else(|| panic!("no {name}"));
        callers.push(name);
        let callees = function.calls.iter();
        let below = callees.map(|callee| self.deepest_within(callee, callers));
        let below = below.max().unwrap_or(RED_ZONE);
        callers.pop();
        RETURN_ADDRESS + function.frame + below
    }
}

impl Function {
    /// Counts what an instruction takes of the stack. What a function takes anywhere counts as its
    /// frame, whatever it has given back before.
    fn follow(&mut self, instruction: &str) {
        let (name, operands) = instruction.split_once(' ').unwrap_or((instruction, ""));
        let operands = operands.trim_start();
        let touched = self.has_taken && operands.ends_with(",(%rsp)");
        self.has_taken = false;
        if self.untouched == PAGE {
            assert!(touched, "a page is not touched before {instruction}");
        }
        if touched {
            self.untouched = 0;
        }
        match (name, operands.strip_suffix(",%rsp").map(constant)) {
            ("push", _) => self.frame += 8,
            ("sub", Some(Some(bytes))) => {
                self.frame += bytes;
                self.untouched += bytes;
                self.has_taken = true;
                let within = self.untouched <= PAGE;
                assert!(within, "a guard page can be passed: {instruction}");
            }
            ("add", Some(Some(_))) => {}
            (_, Some(_)) => panic!("a frame of no fixed size: {instruction}"),
            ("jmp", _) if operands.starts_with('*') => self.jumps_by_pointer = true,
            _ => assert!(
                !operands.contains('*'),
                "a call by a pointer: {instruction}"
            ),
        }
    }
}

/// A constant operand that is not negative.
fn constant(operand: &str) -> Option<usize> {
    let digits = operand.strip_prefix("$0x")?;
    let number = i64::from_str_radix(digits, 16).ok()?;
    usize::try_from(number).ok()
}

/// The archive's instructions, each call with the name of its target.
fn disassembly() -> String {
    let compiler = env::var("CC").unwrap_or_else(|_| "cc".to_string());
    let objdump = said_by(Command::new(compiler).arg("-print-prog-name=objdump"));
    said_by(
        Command::new(objdump.trim_end())
            .args(["--disassemble", "--reloc", "--no-show-raw-insn"])
            .arg(concat!(env!("OUT_DIR"), "/libbeaker.a")),
    )
}

fn said_by(command: &mut Command) -> String {
    let output = command
        .output()
        .unwrap_or_else(|e| panic!("{command:?} cannot be run: {e}"));
    assert!(output.status.success(), "{command:?}: {output:?}");
    String::from_utf8(output.stdout).expect("it prints text")
}
