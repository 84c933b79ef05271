//! The scripts at the repository's top: when they build, what they tell meanwhile, their words and their answers.

use std::os::unix::fs::symlink;
use std::path::Path;

use pages::files::{read, root};
use pages::tree::{on_path, ran, Ran, Tree};

const DESKS: &str = "target/rust/release/desks";
const LIBRARY: &str = "target/staticlib/libcuwelfra.a";
const PAGE: &str = "docs/BENCHMARKS.md";

/// How the library is made, a call for each of its crates, and then a program.
const BOTH: [&str; 6] = [
    "rt lib",
    "rt lib",
    "rt lib",
    "rt lib",
    "rt lib",
    "cargo build",
];

fn tree(name: &str) -> Tree {
    Tree::new(name)
}

/// A tree without these tools.
fn tree_without(name: &str, tools: &[&str]) -> Tree {
    let tree = tree(name);
    for tool in tools {
        tree.remove(&format!("../tools/{tool}"));
    }
    tree
}

/// The words that the program was started with.
fn words(ran: &Ran) -> &str {
    let line = ran.out.lines().next().unwrap_or("");
    line.split_once("words:")
        .map_or("no program", |parts| parts.1)
}

#[track_caller]
fn ends_well(ran: &Ran) {
    assert_eq!(ran.status, Some(0), "{ran:?}");
}

/// Ends with a status and one line, which has this text.
#[track_caller]
fn ends_with(ran: &Ran, status: i32, text: &str) {
    assert_eq!(ran.status, Some(status), "{ran:?}");
    assert_eq!(ran.err.lines().count(), 1, "{ran:?}");
    assert!(ran.err.contains(text), "{ran:?}");
}

#[test]
fn a_fresh_program_starts_at_once() {
    let tree = tree("fresh");
    let ran = tree.run("run", "log a.store");
    ends_well(&ran);
    assert_eq!(words(&ran), " <log> <a.store>");
    assert_eq!(ran.err, "");
    assert!(tree.called().is_empty());
    // What is newer and goes into neither counts for nothing.
    tree.write("crates/row/must-fail/one.edit", "");
    tree.write("rust/bench/src/main.rs", "");
    tree.write("crates/row/out/kept", "");
    ends_well(&tree.run("run", "log"));
    assert!(tree.called().is_empty());
    // Also without a library, and without tools.
    let tree = tree_without("fresh-alone", &["rt", "cargo", "cc"]);
    tree.remove(LIBRARY);
    let ran = tree.run("run", "log a.store");
    ends_well(&ran);
    assert_eq!(ran.err, "");
}

/// The tree is that of the script itself, whatever stands in the caller's folder, and whatever `cd` would find.
#[test]
fn a_link_leads_to_the_scripts_own_tree() {
    let tree = tree("link");
    tree.write("../caller/rust/build.sh", "echo another script; exit 0");
    symlink("../top/run", tree.path("../caller/link")).expect("a link");
    let mut command = tree.command(Path::new("./link"));
    let folders = tree.path("..").into_os_string();
    command.args(["log", "a.store"]).env("CDPATH", folders);
    let ran = ran(command);
    ends_well(&ran);
    assert_eq!(words(&ran), " <log> <a.store>");
    // The program knows how it was called.
    assert!(ran.out.contains(", started by ./link, "), "{ran:?}");
    // Where the tree cannot be found nothing of another one is run.
    tree.remove("../tools/readlink");
    let ran = tree.run("run", "log");
    assert!(
        ran.status != Some(0) && !ran.out.contains("another"),
        "{ran:?}"
    );
}

#[test]
fn what_is_newer_is_built_once() {
    let tree = tree("newer");
    for path in [
        "rust/desks/src/main.rs",
        "rust/cuwelfra/src/lib.rs",
        "rust/cuwelfra-sys/src/lib.rs",
        "rust/Cargo.toml",
        "rust/Cargo.lock",
        "include/cuwelfra.h",
        LIBRARY,
    ] {
        tree.age(DESKS, 3);
        tree.age(path, 4);
        ends_well(&tree.run("run", "log"));
        assert_eq!(tree.called(), ["cargo build"], "{path}");
        ends_well(&tree.run("run", "log"));
        assert!(tree.called().is_empty(), "{path}");
        tree.age(path, 2);
    }
    for path in ["crates.txt", "crates/row/src/lib.rt"] {
        tree.age(LIBRARY, 2);
        tree.age(path, 4);
        ends_well(&tree.run("run", "log"));
        assert_eq!(tree.called(), BOTH, "{path}");
        ends_well(&tree.run("run", "log"));
        assert!(tree.called().is_empty(), "{path}");
        tree.age(path, 1);
    }
}

#[test]
fn a_source_that_changes_meanwhile_is_newer() {
    for (tool, source, called) in [
        ("rt", "crates/row/src/lib.rt", BOTH.to_vec()),
        ("cargo", "include/cuwelfra.h", BOTH[5..].to_vec()),
    ] {
        let tree = tree(&format!("meanwhile-{tool}"));
        let text = tree.read(&format!("../tools/{tool}"));
        let changing = format!("sleep 0.05; touch {source}\nmkdir");
        tree.tool(tool, &text.replace("mkdir", &changing));
        tree.age(source, 4);
        for _ in 0..2 {
            ends_well(&tree.run("run", "log"));
            assert_eq!(tree.called(), called);
        }
    }
}

#[test]
fn a_program_that_cargo_leaves_as_it_was_is_fresh() {
    let tree = tree("left");
    let cargo = tree.read("../tools/cargo");
    tree.tool("cargo", &cargo.replace("cp ", "true "));
    tree.age("include/cuwelfra.h", 4);
    ends_well(&tree.run("run", "log"));
    ends_well(&tree.run("run", "log"));
    assert_eq!(tree.called(), ["cargo build"]);
}

#[test]
fn a_named_library_is_taken_as_it_is() {
    let tree = tree("named");
    let library = "../caller/made/libcuwelfra.a";
    tree.write(library, "another library");
    tree.age(library, 1);
    tree.age("crates.txt", 2);
    let run = || ends_well(&tree.run_with("run", "log", &[("CUWELFRA_LIB_DIR", "made")]));
    // The program was linked with another one. The name is one from the caller's folder.
    run();
    let folder = tree.path("../caller").canonicalize().expect("a folder");
    let calls = tree.calls();
    let expected = format!("cargo build <{}/made> ", folder.display());
    assert_eq!(calls.len(), 1);
    assert!(calls[0].starts_with(&expected), "{calls:?}");
    run();
    assert!(tree.called().is_empty());
    tree.age(DESKS, 3);
    tree.age(library, 4);
    run();
    assert_eq!(tree.called(), ["cargo build"]);
    // Back to the repository's own.
    ends_well(&tree.run("run", "log"));
    assert_eq!(tree.called(), ["cargo build"]);
}

#[test]
fn programs_are_built_for_this_machine() {
    let tree = tree("machine");
    tree.remove(DESKS);
    let variables = [("CARGO_BUILD_TARGET", "another")];
    ends_well(&tree.run_with("run", "log", &variables));
}

#[test]
fn an_older_program_is_used_where_a_tool_is_absent() {
    for (name, absent, newer) in [
        ("older-cargo", "cargo", "rust/desks/src/main.rs"),
        ("older-rt", "rt", "crates/row/src/lib.rt"),
    ] {
        let tree = tree_without(name, &[absent]);
        tree.age(newer, 4);
        let ran = tree.run("run", "log");
        ends_with(&ran, 0, &format!("{absent} is not on this machine's path"));
        assert!(ran.err.contains("older than its sources"), "{ran:?}");
        assert_eq!(words(&ran), " <log>");
        assert!(tree.called().is_empty());
    }
}

#[test]
fn without_a_program_an_absent_tool_stops_the_script() {
    for (name, absent) in [("none-cargo", "cargo"), ("none-rt", "rt")] {
        let tree = tree_without(name, &[absent]);
        tree.remove(DESKS);
        tree.remove(LIBRARY);
        for (script, given) in [("run", "log"), ("bench", ""), ("fuzz", "1")] {
            let ran = tree.run(script, given);
            ends_with(&ran, 3, &format!("{absent} is not on this machine's path"));
            assert_eq!(ran.out, "");
        }
        // The other tool was not set to work first.
        assert!(tree.called().is_empty());
    }
}

/// The crate, the count and the guess of each line about a proof.
fn progress(err: &str) -> Vec<String> {
    let about = err.lines().filter(|line| line.contains(" proved; "));
    let parts = about.map(|line| {
        let (_, line) = line.split_once(": ").expect("the script's name");
        let (front, back) = line.split_once(" crates, ").expect("a count");
        let (time, guess) = back.split_once(" so far, about ").expect("a time");
        // Nothing is proved here, so that it takes some seconds at most.
        let seconds = time
            .strip_prefix("0 min ")
            .and_then(|time| time.strip_suffix(" s"));
        assert!(
            seconds.is_some_and(|seconds| seconds.parse::<u32>().is_ok()),
            "{line}"
        );
        format!("{front}, {guess}")
    });
    parts.collect()
}

#[test]
fn the_proofs_are_told_as_they_go() {
    for (script, given) in [("run", "log"), ("bench", ""), ("fuzz", "1")] {
        let tree = tree(&format!("progress-{script}"));
        tree.remove(LIBRARY);
        tree.remove(DESKS);
        let ran = tree.run(script, given);
        ends_well(&ran);
        let expected = [
            "stubs proved; 1 of 5, 4 min left",
            "row proved; 2 of 5, 3 min left",
            "replicated_log proved; 3 of 5, 2 min left",
            "middle proved; 4 of 5, 1 min left",
        ];
        assert_eq!(progress(&ran.err), expected, "{ran:?}");
        let lines: Vec<&str> = ran.err.lines().collect();
        assert_eq!(lines.len(), 7, "{ran:?}");
        assert!(
            lines[0].ends_with("5 crates are proved, about 4 min"),
            "{ran:?}"
        );
        assert!(
            lines[5].contains("cuwelfra proved and compiled; 5 of 5 crates, 0 min "),
            "{ran:?}"
        );
        assert!(
            lines[6].ends_with("building the Rust program, less than a minute"),
            "{ran:?}"
        );
    }
}

#[test]
fn the_guess_follows_the_pace() {
    let tree = tree("pace");
    let rt = tree.read("../tools/rt");
    let slow = rt.replace("took=50", "took=500");
    // Where nothing has changed nothing is written.
    let slow = slow.replace("took=79", "took=unchanged");
    tree.tool("rt", &slow);
    tree.remove(LIBRARY);
    tree.remove(DESKS);
    let ran = tree.run("run", "log");
    let expected = [
        "stubs proved; 1 of 5, 4 min left",
        // 531 s for what was measured with 81: 182 s are to come.
        "row proved; 2 of 5, 20 min left",
        // 103 s, at the same pace.
        "replicated_log proved; 3 of 5, 11 min left",
        // 559 s for 109: 75 s.
        "middle proved; 4 of 5, 6 min left",
    ];
    assert_eq!(progress(&ran.err), expected, "{ran:?}");
    // Never less than a minute.
    let fast = rt.replace("took=50", "took=0");
    let fast = fast.replace("took=79", "took=0");
    tree.tool("rt", &fast);
    tree.age("crates.txt", 4);
    tree.age(LIBRARY, 2);
    let told = progress(&tree.run("run", "log").err);
    assert_eq!(
        told.last().map(String::as_str),
        Some("middle proved; 4 of 5, 1 min left")
    );
}

#[test]
fn a_failing_step_shows_what_it_wrote() {
    for (tool, newer) in [("rt", "crates.txt"), ("cargo", "include/cuwelfra.h")] {
        let tree = tree(&format!("failing-{tool}"));
        tree.tool(
            tool,
            "#!/bin/sh\necho on output\necho on error >&2\nexit 1\n",
        );
        tree.age(newer, 4);
        let ran = tree.run("run", "log");
        assert_eq!(ran.status, Some(3), "{ran:?}");
        assert_eq!(ran.out, "");
        for line in ["on output\n", "on error\n", &format!("this failed: {tool}")] {
            assert!(ran.err.contains(line), "{ran:?}");
        }
    }
}

#[test]
fn help_needs_no_tools() {
    let tree = tree_without("help", &["rt", "cargo", "cc"]);
    tree.remove(DESKS);
    let building = ["CUWELFRA_LIB_DIR", "ten", "3 the build failed"];
    let comparing = [
        "TPT_REPLICATE_SRC",
        "minute",
        "last line",
        "2 a word is wrong",
    ];
    let testing = [
        "CUWELFRA_DOCUMENTS",
        "forty minutes",
        "`N passed, 0 failed`",
    ];
    for (script, told) in [
        ("run", building.to_vec()),
        (
            "test",
            [&comparing[..1], &testing, &comparing[3..]].concat(),
        ),
        (
            "bench",
            [&building[..], &comparing, &["--update", "repeat"]].concat(),
        ),
        (
            "fuzz",
            [&building[..], &comparing, &["MINUTES [SEED]"]].concat(),
        ),
    ] {
        let ran = tree.run(script, "--help");
        ends_well(&ran);
        assert_eq!(ran.err, "");
        for part in told.iter().chain(&[&*format!("./{script} ")]) {
            assert!(ran.out.contains(part), "{script}: {part}");
        }
        // A comment is printed without its marks, and no line of the script behind it.
        let strange = |line: &&str| line.starts_with('#') || line.starts_with("set ");
        assert_eq!(ran.out.lines().find(strange), None, "{script}");
        assert_eq!(tree.run(script, "-h").out, ran.out, "{script}");
    }
    assert!(tree.called().is_empty());
    let help = read(&root().join("rust/desks/help.txt"));
    for given in ["help", "join --help", "log a.store -h"] {
        assert_eq!(tree.run("run", given).out, help, "{given}");
    }
}

#[test]
fn the_version_is_the_workspaces() {
    let tree = tree_without("version", &["rt", "cargo"]);
    tree.remove(DESKS);
    let ran = tree.run("run", "--version");
    ends_well(&ran);
    assert_eq!(
        ran.out,
        concat!("cuwelfra ", env!("CARGO_PKG_VERSION"), "\n")
    );
}

#[test]
fn other_words_are_refused_before_anything_is_built() {
    let tree = tree("words");
    for (script, given) in [
        ("test", "all"),
        ("test", "-- --help"),
        ("bench", "--updat"),
        ("bench", "--update now"),
        ("bench", "repeat 1 2"),
        ("bench", "repeat 1 2 three"),
        ("fuzz", ""),
        ("fuzz", "soon"),
        ("fuzz", "1 2 3"),
        ("fuzz", "-1"),
    ] {
        ends_with(&tree.run(script, given), 2, &format!("write ./{script}"));
    }
    assert!(tree.called().is_empty());
    for (script, given, started) in [
        ("bench", "repeat 1 960 64", " <repeat> <1> <960> <64>"),
        ("fuzz", "0.5 7", " <fuzz> <0.5> <7>"),
    ] {
        assert_eq!(words(&tree.run(script, given)), started);
    }
}

#[test]
fn words_behind_two_dashes_are_names() {
    let tree = tree("names");
    let ran = tree.run("run", "join -- --help -h");
    assert_eq!(words(&ran), " <join> <--> <--help> <-h>");
    assert_eq!(words(&tree.run("run", "-- --version")), " <--> <--version>");
}

#[test]
fn the_example_store_is_kept_outside_of_target() {
    let tree = tree("example");
    let ran = tree.run("run", "");
    let top = tree.path("").canonicalize().expect("a folder");
    let started = format!("program in {}, ", top.display());
    assert!(ran.out.starts_with(&started), "{ran:?}");
    let expected = " <example> <example.store> <examples/desk-a.txt> <examples/desk-b.txt>";
    assert_eq!(words(&ran), expected);
    let ignored = read(&root().join(".gitignore"));
    assert!(ignored.lines().any(|line| line == "/example.store*"));
}

#[test]
fn the_width_is_the_terminals() {
    let tree = tree("width");
    let columns = |ran: &Ran| {
        let (_, back) = ran.out.split_once("columns ").expect("the program's line");
        back.split(',').next().unwrap_or("").to_string()
    };
    assert_eq!(columns(&tree.run("run", "log")), "none");
    let set = [("COLUMNS", "55")];
    assert_eq!(columns(&tree.run_with("run", "log", &set)), "55");
    // It starts a command in a terminal of its own.
    let script = on_path("script").expect("util-linux's script");
    let in_terminal = |setting: &str, width: u32| {
        let run = tree.path("run");
        let line = format!("stty rows 20 cols {width}; {setting} {} log", run.display());
        let mut command = tree.command(&script);
        command.args(["-qec", &line, "/dev/null"]);
        columns(&ran(command))
    };
    assert_eq!(in_terminal("", 77), "77");
    assert_eq!(in_terminal("COLUMNS=55", 77), "55");
    // A terminal that does not know its width.
    assert_eq!(in_terminal("", 0), "none");
    // The tools that are called on the way to a new program change nothing.
    tree.age("include/cuwelfra.h", 4);
    assert_eq!(in_terminal("COLUMNS=55", 77), "55");
}

#[test]
fn the_test_command_counts_all_its_parts() {
    let tree = tree("test");
    tree.write("example.store", "a user's");
    tree.write("../caller/original/src/merge.rs", "");
    let variables = [
        ("CUWELFRA_LIB_DIR", "elsewhere"),
        ("TPT_REPLICATE_SRC", "original"),
        ("CUWELFRA_DOCUMENTS", "documents"),
        ("RUSTFLAGS", "-C debuginfo=1"),
        ("RUSTDOCFLAGS", "--cfg mine"),
    ];
    let ran = tree.run_with("test", "", &variables);
    ends_well(&ran);
    let last: Vec<&str> = ran.out.lines().rev().take(2).collect();
    let parts = "3 crates, edits and programs; 2 suites; 12 tests of the workspace";
    assert_eq!(last, ["17 passed, 0 failed", parts]);
    let caller = tree.path("../caller").canonicalize().expect("a folder");
    let caller = caller.display();
    let given = format!(
        "<> <{caller}/original> <{caller}/documents> <-C debuginfo=1 -D warnings> <--cfg mine -D warnings>"
    );
    let expected = [
        "rt ci".to_string(),
        "rt lib".to_string(),
        "rt lib".to_string(),
        "rt lib".to_string(),
        "rt lib".to_string(),
        "rt lib".to_string(),
        format!("cargo build {given}"),
        format!("cargo test {given}"),
        format!("cargo doc {given}"),
    ];
    assert_eq!(tree.calls(), expected);
    assert_eq!(tree.read("example.store"), "a user's");
    assert_eq!(tree.read(LIBRARY), "a library\n");
}

/// What was made earlier is there while the crates are proved, and is then made anew.
#[test]
fn the_test_command_makes_all_anew() {
    let tree = tree("anew");
    tree.write("target/old", "");
    let rt = tree.read("../tools/rt");
    let looking =
        "[ -f target/old ] && [ ! -d crates/row/out ] || exit 1\n    mkdir -p crates/row/out";
    tree.tool("rt", &rt.replace("mkdir -p crates/row/out", looking));
    ends_well(&tree.run("test", ""));
    assert!(!tree.path("target/old").exists());
}

#[test]
fn the_test_command_counts_no_bad_edit() {
    for (name, edits, told) in [
        ("one", "7 refused, 1 bad; every", "edits are bad: rt: ok; "),
        (
            "many",
            "7 refused, 2 of them only by a limit, 12 bad; every",
            "12 bad",
        ),
        ("all", "0 refused, 10 bad; done", "10 bad"),
    ] {
        let tree = tree(&format!("bad-{name}"));
        let rt = tree.read("../tools/rt");
        tree.tool("rt", &rt.replace("1 refused; every", edits));
        ends_with(&tree.run("test", ""), 1, told);
        assert_eq!(tree.called(), ["rt ci"]);
    }
    let tree = tree("bad-none");
    let rt = tree.read("../tools/rt");
    tree.tool(
        "rt",
        &rt.replace("1 refused; every", "7 refused, 0 bad; every"),
    );
    ends_well(&tree.run("test", ""));
}

#[test]
fn the_test_command_needs_its_tools_first() {
    for absent in ["rt", "cargo", "cc"] {
        let tree = tree_without(&format!("test-{absent}"), &[absent]);
        ends_with(&tree.run("test", ""), 3, &format!("{absent} is not on"));
        assert!(tree.called().is_empty());
    }
}

#[test]
fn the_test_command_fails_where_nothing_is_counted() {
    for (name, tool, line, told) in [
        (
            "tests",
            "cargo",
            "test result",
            "cargo has counted no tests",
        ),
        ("proofs", "rt", "3 passed", "the last line does not match"),
        ("edits", "rt", "rt: ok", "how the must-fail edits went"),
    ] {
        let tree = tree(&format!("uncounted-{name}"));
        let text = tree.read(&format!("../tools/{tool}"));
        tree.tool(tool, &text.replace(line, "nothing"));
        ends_with(&tree.run("test", ""), 1, told);
    }
}

#[test]
fn the_test_command_fails_with_a_step() {
    for (tool, word, title) in [("rt", "ci", "rt ci"), ("cargo", "doc", "cargo doc")] {
        let tree = tree(&format!("failed-{word}"));
        let text = tree.read(&format!("../tools/{tool}"));
        let failing = format!("case $1 in\n{word}) exit 1 ;;");
        tree.tool(tool, &text.replace("case $1 in", &failing));
        let ran = tree.run("test", "");
        assert_eq!(ran.status, Some(1), "{ran:?}");
        let last = ran.out.lines().last().unwrap_or("");
        assert!(last.starts_with(&format!("== {title}: FAILED")), "{ran:?}");
    }
    let tree = tree("no-original");
    let variables = [("TPT_REPLICATE_SRC", "nowhere")];
    let ran = tree.run_with("test", "", &variables);
    ends_with(&ran, 1, "/caller/nowhere, which has no folder src");
    assert!(tree.called().is_empty());
}

#[test]
fn an_update_replaces_the_tables_alone() {
    let tree = tree("update");
    tree.write(
        PAGE,
        "before\n<!-- tables -->\nold\n<!-- end of tables -->\nbehind\n",
    );
    let ran = tree.run("bench", "--update");
    ends_well(&ran);
    assert_eq!(ran.out, "");
    let page = tree.read(PAGE);
    let lines: Vec<&str> = page.lines().collect();
    assert_eq!(lines[..2], ["before", "<!-- tables -->"]);
    assert!(lines[2].starts_with("program in "), "{page}");
    assert_eq!(lines[4..], ["<!-- end of tables -->", "behind"]);
    let beside = std::fs::read_dir(tree.path("docs")).expect("a folder");
    assert_eq!(beside.count(), 1);
}

#[test]
fn a_page_without_place_stays_as_it_was() {
    let tree = tree("no-place");
    for page in [
        "no lines\n",
        "<!-- tables -->\nold\n",
        "old\n<!-- end of tables -->\n",
        "<!-- end of tables -->\n<!-- tables -->\n",
        "<!-- tables -->\n<!-- tables -->\n<!-- end of tables -->\n",
    ] {
        tree.write(PAGE, page);
        ends_with(&tree.run("bench", "--update"), 1, "has not the lines");
        assert_eq!(tree.read(PAGE), page);
    }
    assert!(tree.called().is_empty());
    // The program fails when half of the tables are printed.
    let page = "<!-- tables -->\nold\n<!-- end of tables -->\n";
    tree.write(PAGE, page);
    tree.write("../program", "#!/bin/sh\necho half\nexit 1\n");
    assert_eq!(tree.run("bench", "--update").status, Some(1));
    assert_eq!(tree.read(PAGE), page);
    let beside = std::fs::read_dir(tree.path("docs")).expect("a folder");
    assert_eq!(beside.count(), 1);
}

#[test]
fn the_page_of_this_repository_has_a_place() {
    let page = read(&root().join(PAGE));
    for line in ["<!-- tables -->", "<!-- end of tables -->"] {
        assert_eq!(
            page.lines().filter(|found| *found == line).count(),
            1,
            "{line}"
        );
    }
}
