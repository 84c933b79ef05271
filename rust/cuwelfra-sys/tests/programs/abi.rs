//! A library of another binary interface does not link.

use std::fs;
use std::path::{Path, PathBuf};
use std::process::Output;

use cuwelfra_sys::abi::{abi, fits, ABI};

use crate::building::{compile, folder, header, library, named_in, run, said_by, write, PROGRAM};

/// The name that has the number in it.
fn name() -> String {
    format!("cuwelfra_abi_{ABI}")
}

#[test]
fn library_crate_and_header_have_one_number() {
    assert_eq!(abi(), ABI);
    assert!(fits());
    let defined = format!("#define CUWELFRA_ABI {ABI}\n");
    assert!(header().contains(&defined), "no {defined}");
    assert!(header().contains(&format!("uint64_t {}(void);", name())));
}

/// The library with another name in the place of that one, in a folder.
fn other_library(folder: &Path) -> PathBuf {
    let name = format!("{}\0", name());
    let other = name.replace("abi", "iba");
    let mut bytes = fs::read(library()).expect("the library");
    let mut found = 0;
    for at in 0..bytes.len() - name.len() {
        if bytes[at..].starts_with(name.as_bytes()) {
            bytes[at..at + name.len()].copy_from_slice(other.as_bytes());
            found += 1;
        }
    }
    // In the table of the archive and in that of the object.
    assert!(found >= 2, "the name stands in {found} places");
    let path = folder.join("libcuwelfra.a");
    write(&path, bytes);
    path
}

/// That a program was built and ends with 0.
fn assert_runs(program: &Path, output: &Output) {
    let said = String::from_utf8_lossy(&output.stderr);
    assert!(output.status.success(), "it was not built:\n{said}");
    assert!(run(program).status.success());
}

/// That a program was not built, since the name was not found.
fn assert_unlinked(output: &Output) {
    let said = String::from_utf8_lossy(&output.stderr);
    assert!(!output.status.success(), "it was built");
    assert!(
        said.contains("undefined") && said.contains(&name()),
        "{said}"
    );
}

#[test]
fn a_program_in_c_links_with_its_own_library_alone() {
    let (program, output) = compile("c-own", PROGRAM, &header(), library());
    assert_runs(&program, &output);
    let other = other_library(&folder("c-other"));
    assert_unlinked(&compile("c-other", PROGRAM, &header(), &other).1);
}

#[test]
fn a_program_in_rust_links_with_its_own_library_alone() {
    for (mode, flags) in [("debug", &[][..]), ("release", &["-O"])] {
        let own = folder(&format!("rust-own-{mode}"));
        fs::copy(library(), own.join("libcuwelfra.a")).expect("a copy of the library");
        let (program, output) = rust_program(&own, flags);
        assert_runs(&program, &output);
        let other = folder(&format!("rust-other-{mode}"));
        other_library(&other);
        assert_unlinked(&rust_program(&other, flags).1);
    }
}

/// Builds the crate cuwelfra-sys with the library of a folder, and a program with this crate; where the program stands,
/// and what was said of it. The program asks for no number: the crate alone sees to it.
fn rust_program(folder: &Path, flags: &[&str]) -> (PathBuf, Output) {
    let rustc = || {
        let mut rustc = named_in("RUSTC", "rustc");
        rustc
            .arg("--edition=2021")
            .args(flags)
            .arg("--out-dir")
            .arg(folder);
        rustc
    };
    let mut command = rustc();
    command.args([
        "--crate-name=cuwelfra_sys",
        "--crate-type=rlib",
        "-lstatic=cuwelfra",
        "-L",
    ]);
    command
        .arg(folder)
        .arg(concat!(env!("CARGO_MANIFEST_DIR"), "/src/lib.rs"));
    let output = said_by(command, "RUSTC");
    let said = String::from_utf8_lossy(&output.stderr);
    assert!(
        output.status.success(),
        "the crate does not compile:\n{said}"
    );

    let source = folder.join("main.rs");
    write(
        &source,
        "fn main() { assert_eq!(cuwelfra_sys::varint_len(300), 2); }\n",
    );
    let mut command = rustc();
    command
        .arg("--extern=cuwelfra_sys")
        .arg("-L")
        .arg(folder)
        .arg(&source);
    (folder.join("main"), said_by(command, "RUSTC"))
}
