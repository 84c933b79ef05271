//! Building programs with the library, each in a folder of its own.

use std::path::{Path, PathBuf};
use std::process::{Command, Output};
use std::{env, fs};

const C_FLAGS: [&str; 5] = ["-std=c99", "-Wall", "-Wextra", "-Werror", "-pedantic"];
pub const CPP_FLAGS: [&str; 5] = ["-std=c++11", "-Wall", "-Wextra", "-Werror", "-pedantic"];

/// A small program in C and C++, which ends with 0.
pub const PROGRAM: &str = r#"
#include "cuwelfra.h"
int main(void) { return CUWELFRA_ABI_FITS() && cuwelfra_varint_len(300) == 2 ? 0 : 1; }
"#;

pub fn header() -> String {
    read("include/cuwelfra.h")
}

/// A file of the repository.
pub fn read(path: &str) -> String {
    let path = Path::new(env!("CARGO_MANIFEST_DIR"))
        .join("../..")
        .join(path);
    fs::read_to_string(&path).unwrap_or_else(|error| panic!("{}: {error}", path.display()))
}

pub fn write(path: &Path, content: impl AsRef<[u8]>) {
    fs::write(path, content).unwrap_or_else(|error| panic!("{}: {error}", path.display()));
}

/// The text with other text in the place of a part, which must be there.
pub fn replaced(text: &str, part: &str, other: &str) -> String {
    assert!(text.contains(part), "nothing to plant in: {part}");
    text.replacen(part, other, 1)
}

/// A folder of its own for each test.
pub fn folder(name: &str) -> PathBuf {
    let folder = Path::new(env!("CARGO_TARGET_TMPDIR"))
        .join("programs")
        .join(name);
    fs::create_dir_all(&folder).unwrap_or_else(|error| panic!("{}: {error}", folder.display()));
    folder
}

/// The compiler that a variable names, with its arguments, else the usual one.
pub fn named_in(variable: &str, usual: &str) -> Command {
    let value = env::var(variable).unwrap_or_default();
    let mut words = value.split_whitespace();
    let mut command = Command::new(words.next().unwrap_or(usual));
    command.args(words);
    command
}

/// The proved library.
pub fn library() -> &'static Path {
    Path::new(env!("CUWELFRA_ARCHIVE"))
}

/// The arguments that link a program from one source and a library.
pub fn link<'a>(source: &'a Path, library: &'a Path, program: &'a Path) -> [&'a Path; 4] {
    [source, library, Path::new("-o"), program]
}

/// Compiles a program in C with a header beside it; where the program stands, and what the compiler said.
pub fn compile(name: &str, program: &str, header: &str, library: &Path) -> (PathBuf, Output) {
    let folder = folder(name);
    let source = folder.join("main.c");
    let built = folder.join("main");
    write(&folder.join("cuwelfra.h"), header);
    write(&source, program);
    let mut command = named_in("CC", "cc");
    command.args(C_FLAGS).args(link(&source, library, &built));
    (built, said_by(command, "CC"))
}

/// What a compiler says, which a variable can name.
pub fn said_by(mut compiler: Command, variable: &str) -> Output {
    compiler.output().unwrap_or_else(|error| {
        let name = compiler.get_program().to_string_lossy();
        panic!("`{name}` does not start ({error}); {variable} can name another compiler")
    })
}

pub fn compiled(name: &str, program: &str, header: &str) -> PathBuf {
    let (built, output) = compile(name, program, header, library());
    let said = String::from_utf8_lossy(&output.stderr);
    assert!(
        output.status.success(),
        "the program does not compile:\n{said}"
    );
    built
}

pub fn run(program: &Path) -> Output {
    let ran = Command::new(program).output();
    ran.unwrap_or_else(|error| panic!("{}: {error}", program.display()))
}
