//! Finds the kernel's archive, libbeaker.a, and has it linked: the one that the variable
//! BEAKER_ARCHIVE names, or else the one that `tools/archive` proves and writes in the
//! repository's root.

use std::path::{Path, PathBuf};
use std::process::{exit, Command};
use std::{env, fs};

fn main() {
    println!("cargo:rerun-if-env-changed=BEAKER_ARCHIVE");
    if variable("CARGO_CFG_TARGET_ARCH") != "x86_64" || variable("CARGO_CFG_TARGET_OS") != "linux" {
        fail("the kernel is code for x86-64 Linux. On Arm put `host/cross` before `cargo`");
    }
    let archive = match env::var_os("BEAKER_ARCHIVE").filter(|named| !named.is_empty()) {
        Some(named) => named_archive(PathBuf::from(named)),
        None => proved_archive(Path::new(&variable("CARGO_MANIFEST_DIR"))),
    };
    let out = PathBuf::from(variable("OUT_DIR"));
    if let Err(e) = fs::copy(&archive, out.join("libbeaker.a")) {
        fail(&format!("{} cannot be copied: {e}", archive.display()));
    }
    println!("cargo:rustc-link-search=native={}", out.display());
    println!("cargo:rustc-link-lib=static=beaker");
}

/// The archive that BEAKER_ARCHIVE names.
fn named_archive(archive: PathBuf) -> PathBuf {
    if !archive.is_file() {
        fail(&format!(
            "BEAKER_ARCHIVE names {}, and there is no such file. Name one by its full path",
            archive.display()
        ));
    }
    println!("cargo:rerun-if-changed={}", archive.display());
    archive
}

/// The archive that `tools/archive` writes, which first has `rt` prove what it is made of and that
/// the exports meet the demands: the crate `tied`.
fn proved_archive(package: &Path) -> PathBuf {
    let root = package.join("..");
    for crates in sources(&root.join("crates")) {
        println!("cargo:rerun-if-changed={}", crates.display());
    }
    println!(
        "cargo:rerun-if-changed={}",
        root.join("crates.txt").display()
    );
    match Command::new(root.join("tools/archive")).status() {
        Ok(status) if status.success() => {}
        Ok(status) => fail(&format!(
            "`tools/archive` did not prove the kernel ({status}); what it said stands above. It \
             wants `rt` of the Rattle kit on the path; or let BEAKER_ARCHIVE name a libbeaker.a \
             that it wrote"
        )),
        Err(e) => fail(&format!("`tools/archive` cannot be run ({e})")),
    }
    root.join("target/staticlib/libbeaker.a")
}

/// The folders that crates are made of; what `rt` writes stands beside them.
fn sources(crates: &Path) -> Vec<PathBuf> {
    let Ok(entries) = fs::read_dir(crates) else {
        fail(&format!("{} cannot be read", crates.display()));
    };
    entries
        .flatten()
        .flat_map(|of| ["src", "specs", "proofs"].map(|part| of.path().join(part)))
        .filter(|folder| folder.is_dir())
        .collect()
}

/// A variable that cargo sets.
fn variable(name: &str) -> String {
    env::var(name)
        .unwrap_or_else(|_| fail(&format!("{name} is not set: this is cargo's build script")))
}

fn fail(message: &str) -> ! {
    eprintln!("beaker: {message}.");
    exit(1)
}
