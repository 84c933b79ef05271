//! Compares what the crate cuwelfra exports with what include/cuwelfra.h and the crate cuwelfra-sys declare, and with
//! the symbols of the static library.

mod archive;
mod forms;
mod header;
mod planted;
mod rattle;
mod rust;
mod sys;
mod tokens;

use std::collections::BTreeSet;
use std::fs;
use std::path::{Path, PathBuf};
use std::slice;

use forms::Source;

/// The texts that are compared.
struct Texts {
    rattle: Vec<String>,
    named_crates: Vec<String>,
    header: String,
    sys: Vec<String>,
}

impl Texts {
    fn of_the_repository() -> Self {
        let rattle = files(&root().join("crates/cuwelfra/src"), "rt");
        Texts {
            named_crates: named_crates(&rattle),
            rattle,
            header: read(&root().join("include/cuwelfra.h")),
            sys: files(&root().join("rust/cuwelfra-sys/src"), "rs"),
        }
    }

    fn exports(&self) -> Result<Source, String> {
        let read = rattle::exports(&self.rattle, &self.named_crates);
        read.map_err(|fault| format!("the Rattle source: {fault}"))
    }

    fn header(&self) -> Result<Source, String> {
        header::declarations(&self.header).map_err(|fault| format!("the header: {fault}"))
    }

    fn sys(&self) -> Result<Source, String> {
        sys::declarations(&self.sys).map_err(|fault| format!("the crate cuwelfra-sys: {fault}"))
    }

    /// Every difference, in words; where a text cannot be read, that alone.
    fn differences(&self) -> Vec<String> {
        match (self.exports(), self.header(), self.sys()) {
            (Ok(exports), Ok(header), Ok(sys)) => {
                let mut found = forms::differences(&exports, &header);
                found.extend(forms::differences(&exports, &sys));
                found
            }
            (exports, header, sys) => [exports, header, sys]
                .into_iter()
                .filter_map(Result::err)
                .collect(),
        }
    }
}

fn root() -> PathBuf {
    Path::new(env!("CARGO_MANIFEST_DIR")).join("../..")
}

fn read(path: &Path) -> String {
    fs::read_to_string(path).unwrap_or_else(|error| panic!("{}: {error}", path.display()))
}

/// The files with this ending in a folder and in the folders below it, in the order of their names.
fn files(folder: &Path, ending: &str) -> Vec<String> {
    let entries =
        fs::read_dir(folder).unwrap_or_else(|error| panic!("{}: {error}", folder.display()));
    let mut paths: Vec<PathBuf> = entries
        .map(|entry| entry.expect("a folder's entry").path())
        .collect();
    paths.sort();
    let mut texts = Vec::new();
    for path in paths {
        if path.is_dir() {
            texts.extend(files(&path, ending));
        } else if path.extension().is_some_and(|found| found == ending) {
            texts.push(read(&path));
        }
    }
    texts
}

/// The files of the crates whose names stand before `::`.
fn named_crates(rattle: &[String]) -> Vec<String> {
    let tokens = rust::all_tokens(rattle);
    let paths = tokens
        .windows(3)
        .filter(|next| next[1].text == ":" && next[2].text == ":");
    let names: BTreeSet<&str> = paths.map(|next| next[0].text.as_str()).collect();
    let folders = names
        .iter()
        .map(|name| root().join("crates").join(name).join("src"));
    let others = folders.filter(|folder| folder.is_dir());
    others.flat_map(|folder| files(&folder, "rt")).collect()
}

/// The symbols that a library lacks or has beyond the exports.
fn symbol_differences(exports: &Source, archive: &[u8]) -> Vec<String> {
    let symbols = match archive::symbols(archive, "cuwelfra_") {
        Ok(symbols) => symbols,
        Err(fault) => return vec![format!("the library: {fault}")],
    };
    let names: BTreeSet<String> = exports
        .functions
        .iter()
        .map(|one| one.name.clone())
        .collect();
    let lacking = names
        .difference(&symbols)
        .map(|name| format!("{name} is exported and not in the library"));
    let beyond = symbols
        .difference(&names)
        .map(|name| format!("{name} is in the library and not exported"));
    lacking.chain(beyond).collect()
}

fn assert_none(differences: &[String]) {
    let count = differences.len();
    assert_eq!(count, 0, "{count} differences:\n{}", differences.join("\n"));
}

#[test]
fn header_and_sys_crate_declare_the_exports() {
    assert_none(&Texts::of_the_repository().differences());
}

#[test]
fn the_library_defines_the_exports() {
    let path = env!("CUWELFRA_ARCHIVE");
    let archive = fs::read(path).unwrap_or_else(|error| panic!("{path}: {error}"));
    let exports = Texts::of_the_repository()
        .exports()
        .expect("readable exports");
    assert_none(&symbol_differences(&exports, &archive));
}

/// Counts the declarations by lines, too, lest the readers pass one over.
#[test]
fn no_declaration_is_passed_over() {
    let texts = Texts::of_the_repository();
    let exports = texts.exports().expect("readable exports").functions.len();
    assert!(exports > 0, "no export was found");
    assert_eq!(exports, lines_with(&texts.rattle, "extern \"C\" fn "));
    assert_eq!(exports, lines_with(&texts.rattle, "#[unsafe(no_mangle)]"));

    let header = texts.header().expect("a readable header");
    assert_eq!(
        header.functions.len(),
        lines_with(slice::from_ref(&texts.header), ");")
    );
    assert_eq!(
        header.structs.len(),
        lines_with(slice::from_ref(&texts.header), "typedef struct {")
    );

    let sys = texts.sys().expect("readable declarations");
    assert_eq!(
        sys.functions.len(),
        lines_with(&texts.sys, "pub fn cuwelfra_")
    );
    assert_eq!(sys.structs.len(), lines_with(&texts.sys, "#[repr(C)]"));
}

fn lines_with(texts: &[String], part: &str) -> usize {
    texts
        .iter()
        .flat_map(|text| text.lines())
        .filter(|line| line.contains(part))
        .count()
}

/// The example in C uses the whole header.
#[test]
fn the_example_in_c_calls_every_export() {
    let example = tokens::tokens(&read(&root().join("c/example.c")));
    let calls = example.windows(2).filter(|next| next[1].text == "(");
    let calls: BTreeSet<&str> = calls.map(|next| next[0].text.as_str()).collect();
    let exports = Texts::of_the_repository()
        .exports()
        .expect("readable exports");
    for one in exports.functions {
        assert!(
            calls.contains(one.name.as_str()),
            "c/example.c does not call {}",
            one.name
        );
    }
}

/// It uses the names of the numbers too. The refusals have theirs from a list, which rust/cuwelfra/tests compares.
#[test]
fn the_example_in_c_uses_every_name() {
    let example = tokens::tokens(&read(&root().join("c/example.c")));
    let used: BTreeSet<&str> = example.iter().map(|token| token.text.as_str()).collect();
    let names =
        header::named_numbers(&Texts::of_the_repository().header).expect("a readable header");
    assert!(!names.is_empty(), "no name was found");
    for name in names {
        assert!(used.contains(name.as_str()), "c/example.c lacks {name}");
    }
}
