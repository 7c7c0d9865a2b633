//! Compiles tests/c_program.c over include/beaker.h, with warnings as errors, links the kernel's
//! archive and runs the program. The layout that it prints of the header's struct must be that of
//! the package's.

use beaker::raw::Reply;
use std::env;
use std::mem::{align_of, size_of, size_of_val};
use std::path::Path;
use std::process::{Command, Output};

/// A variable that ../cross sets, or what serves on x86-64 without it.
fn variable(name: &str, otherwise: &str) -> String {
    env::var(name)
        .ok()
        .filter(|value| !value.is_empty())
        .unwrap_or_else(|| otherwise.to_string())
}

fn run(command: &mut Command) -> Output {
    let output = command
        .output()
        .unwrap_or_else(|e| panic!("{command:?} cannot be run: {e}"));
    let said = String::from_utf8_lossy(&output.stderr);
    assert!(
        output.status.success(),
        "{command:?}: {}\n{said}",
        output.status
    );
    output
}

#[test]
fn a_c_program_runs_the_kernel() {
    let package = Path::new(env!("CARGO_MANIFEST_DIR"));
    let program = Path::new(env!("CARGO_TARGET_TMPDIR")).join("c_program");
    run(Command::new(variable("CC", "cc"))
        .args([
            "-std=c11",
            "-Wall",
            "-Wextra",
            "-Wpedantic",
            "-Werror",
            "-I",
        ])
        .arg(package.join("../include"))
        .arg(package.join("tests/c_program.c"))
        .arg(concat!(env!("OUT_DIR"), "/libbeaker.a"))
        .arg("-o")
        .arg(&program));
    let runner = variable("BEAKER_RUNNER", "");
    let output = match runner.as_str() {
        "" => run(&mut Command::new(&program)),
        runner => run(Command::new(runner).arg(&program)),
    };
    assert_eq!(String::from_utf8_lossy(&output.stdout), layout());
}

/// Where each field of a reply stands and how many bytes it has, as the C program prints it.
fn layout() -> String {
    let mut table = [0; 64];
    let reply = beaker::raw::turn(&mut table, &[]);
    let start = std::ptr::addr_of!(reply) as usize;
    let mut lines = String::new();
    macro_rules! print_place {
        ($($field:ident)*) => {$(
            let place = std::ptr::addr_of!(reply.$field) as usize - start;
            let size = size_of_val(&reply.$field);
            lines += &format!("{} {place} {size}\n", stringify!($field));
        )*};
    }
    print_place!(tests payload_at payload_len address value flag code_len code);
    let (size, align) = (size_of::<Reply>(), align_of::<Reply>());
    lines + &format!("in all {size}, aligned to {align}\n")
}
