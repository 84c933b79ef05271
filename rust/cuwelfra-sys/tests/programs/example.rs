//! c/example.c and the header, in C and in C++.

use crate::building::{
    compile, compiled, folder, header, library, link, named_in, read, replaced, run, write,
    CPP_FLAGS, PROGRAM,
};

#[test]
fn the_example_runs() {
    let program = compiled("runs", &example(), &header());
    let ran = run(&program);
    let said = String::from_utf8_lossy(&ran.stdout);
    assert!(ran.status.success(), "the example failed:\n{said}");
    assert!(
        said.ends_with(" checks, 0 failed\n"),
        "the example says: {said}"
    );
}

#[test]
fn a_wrong_byte_fails() {
    let planted = replaced(&example(), "{0xAC, 0x02}", "{0xAC, 0x03}");
    let ran = run(&compiled("wrong-byte", &planted, &header()));
    let said = String::from_utf8_lossy(&ran.stdout);
    assert_eq!(ran.status.code(), Some(1));
    assert!(
        said.contains("byte 1 of out is 02 and not 03"),
        "the example says: {said}"
    );
}

#[test]
fn a_lost_field_does_not_compile() {
    let planted = replaced(&header(), "    uint64_t dropped;\n", "");
    let (_, output) = compile("lost-field", &example(), &planted, library());
    let said = String::from_utf8_lossy(&output.stderr);
    assert!(!output.status.success());
    assert!(
        said.contains("cuwelfra_delta_told_has_13_words"),
        "the compiler says: {said}"
    );
}

/// The header serves C++ too, where a C++ compiler is at hand.
#[test]
fn the_header_is_for_cpp_too() {
    let folder = folder("cpp");
    let source = folder.join("main.cpp");
    write(&folder.join("cuwelfra.h"), header());
    write(&source, PROGRAM);
    let program = folder.join("main");
    let mut command = named_in("CXX", "c++");
    match command
        .args(CPP_FLAGS)
        .args(link(&source, library(), &program))
        .output()
    {
        Err(error) => println!("not tried: no C++ compiler ({error})"),
        Ok(output) => {
            let said = String::from_utf8_lossy(&output.stderr);
            assert!(
                output.status.success(),
                "the header does not compile as C++:\n{said}"
            );
            assert!(run(&program).status.success());
        }
    }
}

/// The version of the header is that of the crates.
#[test]
fn the_header_has_the_version() {
    let version = env!("CARGO_PKG_VERSION");
    let defined = format!("#define CUWELFRA_VERSION \"{version}\"\n");
    assert!(header().contains(&defined), "no {defined}");
    let parts = ["MAJOR", "MINOR", "PATCH"];
    for (part, number) in parts.into_iter().zip(version.split('.')) {
        let defined = format!("#define CUWELFRA_VERSION_{part} {number}\n");
        assert!(header().contains(&defined), "no {defined}");
    }
}

fn example() -> String {
    read("c/example.c")
}
