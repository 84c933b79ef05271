//! What the library asks for from outside: `memcpy` and `memset`, and nothing else.

use std::process::Output;

use crate::building::{folder, library, link, named_in, said_by, write};

/// A program that begins without a C library, and never runs.
const BARE: &str = r"
#include <stddef.h>
#include <stdint.h>
uint64_t cuwelfra_abi(void);
void _start(void) { while (cuwelfra_abi() > 0) {} }
";

const MEMCPY: &str = r"
void *memcpy(void *to, const void *from, size_t n)
{
    for (size_t i = 0; i < n; i++) ((char *)to)[i] = ((const char *)from)[i];
    return to;
}
";

const MEMSET: &str = r"
void *memset(void *to, int byte, size_t n)
{
    for (size_t i = 0; i < n; i++) ((char *)to)[i] = (char)byte;
    return to;
}
";

/// Links the library with these functions alone.
fn linked(name: &str, functions: &[&str]) -> Output {
    let folder = folder(name);
    let source = folder.join("main.c");
    let built = folder.join("main");
    write(&source, BARE.to_owned() + &functions.concat());
    let mut command = named_in("CC", "cc");
    command.args(["-std=c99", "-ffreestanding", "-nostdlib"]);
    command.args(link(&source, library(), &built));
    said_by(command, "CC")
}

#[test]
fn memcpy_and_memset_are_enough() {
    let output = linked("enough", &[MEMCPY, MEMSET]);
    let said = String::from_utf8_lossy(&output.stderr);
    assert!(output.status.success(), "it does not link:\n{said}");
}

/// Else the test above would not see a name that is lacking.
#[test]
fn each_of_the_two_is_needed() {
    for (lacking, other) in [("memcpy", MEMSET), ("memset", MEMCPY)] {
        let output = linked(&format!("without-{lacking}"), &[other]);
        let said = String::from_utf8_lossy(&output.stderr);
        assert!(!output.status.success(), "it links without {lacking}");
        assert!(
            said.contains("undefined") && said.contains(lacking),
            "{said}"
        );
    }
}
