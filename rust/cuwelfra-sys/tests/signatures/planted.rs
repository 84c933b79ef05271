//! Small texts with a mistake planted in each, which the comparison must find.

use crate::{symbol_differences, Texts};

const RATTLE: &str = r#"
// An extern "C" fn in a comment is none.
#[repr(C)]
pub struct WrittenTold {
    pub told: Told,
    pub next: u64,
}

fn helper(v: u64) -> u64
    ensures { result ≡ v }
{
    v
}

#[unsafe(no_mangle)]
pub extern "C" fn cuwelfra_put<'a>(
    out: &mut [u8],
    at: u64,
    v: u64,
    bytes: &'a [u8],
) -> WrittenTold
    ensures { WritesTold out.old at v result out.new }
{
    written(out, at, v, bytes)
}

#[unsafe(no_mangle)]
pub extern "C" fn cuwelfra_check(log: &[u8], ms: u64) -> error::Told
{
    check(log, ms)
}
"#;

const NAMED_CRATE: &str = r#"
#[repr(C)]
pub struct Told {
    pub number: u64,
    pub first: u64,
}

#[repr(C)]
pub struct Unused {
    pub number: u64,
}
"#;

const HEADER: &str = r#"
#ifndef CUWELFRA_H
#define CUWELFRA_H
#include <stdint.h>
#ifdef __cplusplus
extern "C" {
#endif

#define CUWELFRA_LIST(X) \
    /* uint32_t cuwelfra_first(void); is none, \
       nor is this. */  \
    X(1, ONE) X(2, TWO) \
    X(3, THREE)
#define CUWELFRA_NAMED(number, name) CUWELFRA_##name = number,
enum { CUWELFRA_LIST(CUWELFRA_NAMED) };
enum { CUWELFRA_NONE = 0, CUWELFRA_SOME = 1 };
static inline uint64_t cuwelfra_inside(uint64_t v)
{
    while (v > 9) {
        v--;
    }
    return v;
}

/* A refusal; uint32_t cuwelfra_none(void); is none. */
typedef struct {
    uint64_t number;
    uint64_t first;
} cuwelfra_told;

typedef struct {
    cuwelfra_told told;
    uint64_t next;
} cuwelfra_written;

cuwelfra_written cuwelfra_put(uint8_t *out, size_t out_len, uint64_t at, uint64_t v,
                              const uint8_t *bytes, size_t bytes_len);
cuwelfra_told cuwelfra_check(const uint8_t *log, size_t log_len, uint64_t now);

#ifdef __cplusplus
}
#endif
#endif
"#;

const SYS: &str = r#"
//! Declarations.
#[repr(C)]
#[derive(Clone, Copy)]
pub struct Told {
    /// The number.
    pub number: u64,
    pub first: u64,
}

#[repr(C)]
pub struct Written {
    pub told: Told,
    pub next: u64,
}

extern "C" {
    // Bytes.
    pub fn cuwelfra_put(
        out: *mut u8,
        out_len: usize,
        at: u64,
        v: u64,
        bytes: *const u8,
        bytes_len: usize,
    ) -> Written;
    pub fn cuwelfra_check(log: *const u8, log_len: usize, now: u64) -> crate::Told;
}
"#;

fn sound() -> Texts {
    Texts {
        rattle: vec![RATTLE.to_string()],
        named_crates: vec![NAMED_CRATE.to_string()],
        header: HEADER.to_string(),
        sys: vec![SYS.to_string()],
    }
}

/// Puts other text in the place of a part, which must be there.
fn plant(text: &mut String, part: &str, other: &str) {
    assert!(text.contains(part), "nothing to plant in: {part}");
    *text = text.replacen(part, other, 1);
}

fn in_rattle(part: &str, other: &str) -> Vec<String> {
    let mut texts = sound();
    plant(&mut texts.rattle[0], part, other);
    texts.differences()
}

fn in_named_crate(part: &str, other: &str) -> Vec<String> {
    let mut texts = sound();
    plant(&mut texts.named_crates[0], part, other);
    texts.differences()
}

fn in_header(part: &str, other: &str) -> Vec<String> {
    let mut texts = sound();
    plant(&mut texts.header, part, other);
    texts.differences()
}

fn in_sys(part: &str, other: &str) -> Vec<String> {
    let mut texts = sound();
    plant(&mut texts.sys[0], part, other);
    texts.differences()
}

const HEADER_CHECK: &str =
    "cuwelfra_told cuwelfra_check(const uint8_t *log, size_t log_len, uint64_t now);";
const SYS_CHECK: &str =
    "pub fn cuwelfra_check(log: *const u8, log_len: usize, now: u64) -> crate::Told;";
const RATTLE_CHECK: &str = "#[unsafe(no_mangle)]\npub extern \"C\" fn cuwelfra_check(";

#[test]
fn sound_texts_agree() {
    assert_eq!(sound().differences(), [""; 0]);
}

#[test]
fn a_missing_function_is_named() {
    assert_eq!(
        in_header(HEADER_CHECK, ""),
        ["cuwelfra_check is in the Rattle source and not in the header"]
    );
    assert_eq!(
        in_sys(SYS_CHECK, ""),
        ["cuwelfra_check is in the Rattle source and not in the crate cuwelfra-sys"]
    );
    assert_eq!(
        in_rattle(RATTLE_CHECK, "fn check("),
        [
            "cuwelfra_check is in the header and not in the Rattle source",
            "cuwelfra_check is in the crate cuwelfra-sys and not in the Rattle source"
        ]
    );
}

#[test]
fn an_extra_function_is_named() {
    let extra = format!("{HEADER_CHECK}\nuint64_t cuwelfra_more(void);");
    assert_eq!(
        in_header(HEADER_CHECK, &extra),
        ["cuwelfra_more is in the header and not in the Rattle source"]
    );
    let extra = format!("{SYS_CHECK}\npub fn cuwelfra_more();");
    let found = in_sys(SYS_CHECK, &extra);
    assert!(found.contains(
        &"cuwelfra_more is in the crate cuwelfra-sys and not in the Rattle source".to_string()
    ));
}

#[test]
fn a_function_declared_twice_is_named() {
    let twice = format!("{HEADER_CHECK}\n{HEADER_CHECK}");
    assert_eq!(
        in_header(HEADER_CHECK, &twice),
        ["the header declares cuwelfra_check twice"]
    );
}

#[test]
fn swapped_parameters_of_one_type_are_named() {
    assert_eq!(
        in_header("uint64_t at, uint64_t v", "uint64_t v, uint64_t at"),
        [
            "cuwelfra_put: parameter 3 is `at: u64` in the Rattle source and `v: u64` in the header",
            "cuwelfra_put: parameter 4 is `v: u64` in the Rattle source and `at: u64` in the header"
        ]
    );
    assert_eq!(
        in_sys("at: u64,\n        v: u64,", "v: u64,\n        at: u64,").len(),
        2
    );
    assert_eq!(
        in_rattle("at: u64,\n    v: u64,", "v: u64,\n    at: u64,").len(),
        4
    );
}

#[test]
fn another_width_or_sign_is_named() {
    assert_eq!(
        in_header("uint64_t at", "uint32_t at"),
        ["cuwelfra_put: parameter 3 is `at: u64` in the Rattle source and `at: u32` in the header"]
    );
    assert_eq!(
        in_sys("at: u64", "at: u32"),
        ["cuwelfra_put: parameter 3 is `at: u64` in the Rattle source and `at: u32` in the crate cuwelfra-sys"]
    );
    assert_eq!(in_rattle("at: u64", "at: u32").len(), 2);
    assert_eq!(in_header("uint64_t at", "int64_t at").len(), 1);
    assert_eq!(in_header("uint64_t at", "size_t at").len(), 1);
    assert_eq!(in_sys("at: u64", "at: usize").len(), 1);
}

/// A struct that has an array in all three texts.
#[test]
fn another_array_is_named() {
    let with = |header: &str, sys: &str| {
        let mut texts = sound();
        plant(&mut texts.rattle[0], "next: u64", "next: [u64; 16]");
        plant(&mut texts.header, "uint64_t next", header);
        plant(&mut texts.sys[0], "next: u64", sys);
        texts.differences()
    };
    assert_eq!(with("uint64_t next[16]", "next: [u64; 16]"), [""; 0]);
    assert_eq!(
        with("uint64_t next[15]", "next: [u64; 16]"),
        ["Written: field 2 is `next: [u64;16]` in the Rattle source and `next: [u64;15]` in the header"]
    );
    assert_eq!(with("uint32_t next[16]", "next: [u64; 16]").len(), 1);
    assert_eq!(with("uint64_t next", "next: [u64; 16]").len(), 1);
    assert_eq!(with("uint64_t next[16]", "next: [u64; 17]").len(), 1);
    assert_eq!(with("uint64_t next[16]", "next: [Other; 16]").len(), 2);
}

#[test]
fn another_constness_is_named() {
    assert_eq!(
        in_header("uint8_t *out", "const uint8_t *out"),
        ["cuwelfra_put: parameter 1 is `out: *mut u8` in the Rattle source and `out: *const u8` in the header"]
    );
    assert_eq!(in_header("const uint8_t *bytes", "uint8_t *bytes").len(), 1);
    assert_eq!(in_sys("out: *mut u8", "out: *const u8").len(), 1);
    assert_eq!(in_rattle("out: &mut [u8]", "out: &[u8]").len(), 2);
    assert_eq!(in_rattle("bytes: &'a [u8]", "bytes: &'a mut [u8]").len(), 2);
}

#[test]
fn a_lost_parameter_is_named() {
    assert_eq!(
        in_header(", size_t log_len, uint64_t now", ", size_t log_len"),
        ["cuwelfra_check has 3 parameters in the Rattle source and 2 in the header"]
    );
    assert_eq!(
        in_sys(", log_len: usize", ""),
        [
            "cuwelfra_check has 3 parameters in the Rattle source and 2 in the crate cuwelfra-sys",
            "cuwelfra_check: parameter 2 is `log_len: usize` in the Rattle source and `now: u64` in the crate cuwelfra-sys"
        ]
    );
}

#[test]
fn another_answer_is_named() {
    assert_eq!(
        in_header(
            "cuwelfra_told cuwelfra_check",
            "cuwelfra_written cuwelfra_check"
        ),
        ["cuwelfra_check answers `Told` in the Rattle source and `Written` in the header"]
    );
    assert_eq!(in_sys(") -> Written;", ") -> Told;").len(), 1);
    assert_eq!(in_rattle(") -> WrittenTold", ") -> Told").len(), 2);
}

#[test]
fn swapped_fields_are_named() {
    assert_eq!(
        in_header(
            "uint64_t number;\n    uint64_t first;",
            "uint64_t first;\n    uint64_t number;"
        ),
        [
            "Told: field 1 is `number: u64` in the Rattle source and `first: u64` in the header",
            "Told: field 2 is `first: u64` in the Rattle source and `number: u64` in the header"
        ]
    );
    assert_eq!(
        in_sys(
            "pub told: Told,\n    pub next: u64,",
            "pub next: u64,\n    pub told: Told,"
        )
        .len(),
        2
    );
    assert_eq!(
        in_rattle(
            "pub told: Told,\n    pub next: u64,",
            "pub next: u64,\n    pub told: Told,"
        )
        .len(),
        4
    );
    let swapped = "pub first: u64,\n    pub number: u64,";
    assert_eq!(
        in_named_crate("pub number: u64,\n    pub first: u64,", swapped).len(),
        4
    );
}

#[test]
fn another_field_is_named() {
    assert_eq!(
        in_header("uint64_t next;", "uint32_t next;"),
        ["Written: field 2 is `next: u64` in the Rattle source and `next: u32` in the header"]
    );
    assert_eq!(in_sys("    pub first: u64,\n", "").len(), 1);
    assert_eq!(in_rattle("pub next: u64", "pub next: u8").len(), 2);
}

#[test]
fn a_struct_without_the_c_layout_is_named() {
    let found = in_named_crate("#[repr(C)]\n", "");
    let words = "the Rattle source: Written has the type `Told`, which is no C struct there";
    assert!(found.contains(&words.to_string()));
    let found = in_sys("#[repr(C)]\npub struct Written", "pub struct Written");
    assert!(found.contains(
        &"Written is in the Rattle source and not in the crate cuwelfra-sys".to_string()
    ));
}

#[test]
fn what_cannot_be_read_is_named() {
    assert_eq!(
        in_header("uint64_t at", "unsigned long at"),
        ["the header: `unsigned long` is no type that is known here"]
    );
    assert_eq!(
        in_header("#include <stdint.h>", "#if 0"),
        ["the header: line 4: a directive that is not known here"]
    );
    assert_eq!(
        in_header("    return v;\n}", "    return v;"),
        ["the header: it ends too early"]
    );
    let plain = in_rattle("#[unsafe(no_mangle)]\npub extern", "pub extern");
    assert_eq!(
        plain,
        ["the Rattle source: cuwelfra_put is extern without #[unsafe(no_mangle)]"]
    );
}

/// An archive that has a table of these symbols and nothing else.
fn archive(names: &[&str]) -> Vec<u8> {
    let mut table = u32::try_from(names.len())
        .expect("few names")
        .to_be_bytes()
        .to_vec();
    table.resize(4 + 4 * names.len(), 0);
    for name in names {
        table.extend(name.bytes().chain([0]));
    }
    let header = format!(
        "!<arch>\n{:<16}{:<12}{:<6}{:<6}{:<8}{:<10}`\n",
        "/",
        0,
        0,
        0,
        0,
        table.len()
    );
    [header.into_bytes(), table].concat()
}

fn in_library(archive: &[u8]) -> Vec<String> {
    symbol_differences(&sound().exports().expect("readable exports"), archive)
}

#[test]
fn the_symbols_of_a_library_are_compared() {
    let whole = archive(&["cuwelfra_check", "memcpy", "cuwelfra_put"]);
    assert_eq!(in_library(&whole), [""; 0]);
    assert_eq!(
        in_library(&archive(&["cuwelfra_check"])),
        ["cuwelfra_put is exported and not in the library"]
    );
    assert_eq!(
        in_library(&archive(&[
            "cuwelfra_check",
            "cuwelfra_more",
            "cuwelfra_put"
        ])),
        ["cuwelfra_more is in the library and not exported"]
    );
    assert_eq!(in_library(&whole[..80]), ["the library: it is cut short"]);
    assert_eq!(in_library(b"nothing"), ["the library: it is no archive"]);
}

#[test]
fn the_names_of_numbers_are_found() {
    let names = crate::header::named_numbers(HEADER).expect("a readable header");
    assert_eq!(names, ["CUWELFRA_NONE", "CUWELFRA_SOME"]);
}
