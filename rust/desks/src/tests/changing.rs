//! Deltas, cutoffs, compaction, the floor, and files that cannot be used.

use super::*;
use std::fs::File;

#[test]
fn a_delta_and_its_text() {
    let folder = Folder::with_stores("delta");
    golden!(
        "delta.txt",
        folder.well("delta ab.store a.store --rows 3 --out out.txt")
    );
    golden!(
        "delta-out.txt",
        String::from_utf8_lossy(&folder.read("out.txt")).into_owned()
    );
    folder.refused("join a.store out.txt --time 3000");
    let log = |file: &str| folder.well(&format!("log {file}"));
    assert_eq!(log("a.store"), log("ab.store"));
    let none = "a.store lacks 0 rows of ab.store.\n\n\
                A delta has logged rows alone, not the 1 held row of ab.store.\n";
    assert_eq!(folder.well("delta ab.store a.store"), none);
    // A file that is there is not written over.
    let before = folder.read("out.txt");
    let told = folder.fails("delta ab.store a.store --out out.txt");
    assert!(told.starts_with("out.txt: "), "{told}");
    assert_eq!(folder.read("out.txt"), before);
}

/// A log has the later first of an author's rows with one stamp; a file of them is joined in one go all the same.
#[test]
fn a_delta_is_in_causal_order() {
    let folder = Folder::new("causal");
    let rows = |wall: fn(u64) -> u64| {
        let row = |seq| format!("{} 0 1 {seq} - p{seq}\n", wall(seq));
        (1..=200).map(row).collect::<String>()
    };
    folder.write("none.txt", "");
    for (i, wall) in [(|_| 1_000) as fn(u64) -> u64, |seq| 1_000 - seq]
        .into_iter()
        .enumerate()
    {
        folder.write("rows.txt", rows(wall));
        folder.well(&format!("join from{i}.store rows.txt"));
        folder.well(&format!("join to{i}.store none.txt"));
        let told = folder.well(&format!("delta from{i}.store to{i}.store --out out{i}.txt"));
        assert!(
            told.contains("Rows of each chunk: 64 (3 times), 8\n"),
            "{told}"
        );
        let told = folder.well(&format!("join to{i}.store out{i}.txt"));
        assert!(
            told.contains("200 rows logged, 200 of them now; 0 held"),
            "{told}"
        );
        let log = |store: &str| folder.well(&format!("log {store}{i}.store"));
        assert_eq!(log("from"), log("to"));
    }
    // Batches are of so many rows and bytes as chunks are.
    folder.well("join none.store none.txt");
    for limits in [
        "--rows 7",
        "--bytes 100",
        "--rows 0",
        "--bytes 0",
        "--rows 3 --bytes 60",
    ] {
        let told = folder.well(&format!(
            "delta from1.store none.store {limits} --out out.txt"
        ));
        let lines = String::from_utf8(folder.read("out.txt")).expect("a text");
        let batches = lines.split("---\n").count();
        let chunks = folder
            .run(&format!("delta from1.store none.store {limits}"))
            .expect("an answer")
            .text;
        assert!(told.contains(&format!(": {batches} batches.")), "{told}");
        let last = chunks
            .lines()
            .rev()
            .find_map(|line| line.split_whitespace().next()?.parse::<usize>().ok());
        assert_eq!(last, Some(batches), "{limits}");
        fs::remove_file(folder.0.join("out.txt")).expect("a file");
    }
}

/// Stores that have other rows under one number, or another fate, are not the same.
#[test]
fn a_delta_compares_what_both_have() {
    let folder = Folder::new("apart");
    folder.write("a.txt", "10 0 1 1 - a\n20 0 1 2 - b");
    folder.write("b.txt", "10 0 1 1 - other\n20 0 1 2 - b");
    folder.write("c.txt", "10 0 1 1 - a\n20 0 1 2 - b denied");
    for name in ["a", "b", "c"] {
        folder
            .run(&format!("join {name}.store {name}.txt"))
            .expect("an answer");
    }
    folder.well("delta a.store a.store");
    let told = folder.refused("delta a.store b.store");
    let named = "\nUnder these numbers a.store and b.store have other content or another fate:\n\n\
                 10 0 1 1  -  \"a\" (applied)\n10 0 1 1  -  \"other\" (applied)\n\n";
    assert!(told.contains(named), "{told}");
    let told = folder.refused("delta a.store c.store");
    assert!(
        told.contains("\"b\" (applied)\n20 0 1 2  -  \"b\" (denied)\n"),
        "{told}"
    );
}

#[test]
fn a_delta_that_is_not_all() {
    let folder = Folder::with_stores("compacted");
    folder.well("compact ab.store 1010/0/1 --force");
    folder.write("other.txt", "1 0 7 1 - x");
    folder.well("join other.store other.txt");
    let told = folder.refused("delta ab.store other.store");
    assert!(
        told.contains("\nThese are not all: ab.store has compacted rows that other.store lacks."),
        "{told}"
    );
}

#[test]
fn cutoffs() {
    let folder = Folder::with_stores("cutoff");
    let cutoff = |frontier: &str| folder.well(&format!("cutoff ab.store {frontier}"));
    assert_eq!(cutoff("1:3,2:2"), "Frontier: 1:3,2:2\nCutoff: 1030/0/1\n");
    // Of two peers the least numbers count, and an author that one does not have counts as 0.
    assert_eq!(
        cutoff("1:6,2:4 1:1,2:2,3:9"),
        "Frontier: 1:1,2:2\nCutoff: 1005/0/2\n"
    );
    assert_eq!(
        cutoff("2:4 1:6"),
        "Frontier: -\nNo cutoff: nothing is safe to compact.\n"
    );
    assert_eq!(
        cutoff("-"),
        "Frontier: -\nNo cutoff: nothing is safe to compact.\n"
    );
    // Desk A alone has logged 1:1 and 1:2.
    assert_eq!(
        cutoff("a.store 1:9,2:9"),
        "Frontier: 1:2\nCutoff: 1000/0/1\n"
    );
    let told = folder.fails("cutoff ab.store 2:1,1:1");
    assert!(told.contains("authors do not rise"), "{told}");
    // The store itself is no peer, by whatever name.
    fs::hard_link(folder.0.join("ab.store"), folder.0.join("other.store")).expect("a link");
    for peer in ["ab.store", "other.store"] {
        for line in ["cutoff ab.store", "compact ab.store --cutoff 1:9,2:9"] {
            let told = folder.fails(&format!("{line} {peer}"));
            assert_eq!(
                told,
                format!("`{peer}` is no peer's store: it is this store")
            );
        }
    }
    for word in ["absent.store", "1:3,", "1040/0/2"] {
        let told = folder.fails(&format!("cutoff ab.store {word}"));
        let start = format!("`{word}` is no frontier, which is written 1:3,2:4, and no file; ");
        assert!(told.starts_with(&start), "{told}");
    }
    let many: Vec<String> = (1..=33).map(|author| format!("{author}:1")).collect();
    let told = folder.fails(&format!("cutoff ab.store {}", many.join(",")));
    assert!(
        told.ends_with(" is no frontier: it has more than 32 authors, which no store has"),
        "{told}"
    );
}

/// Rows that peers may lack go only by force.
#[test]
fn compacting_needs_acknowledgements() {
    let folder = Folder::with_stores("unsafe");
    let before = folder.read("ab.store");
    let refusals = [
        (
            "compact ab.store 1010/0/1",
            "nothing says that the peers have these rows",
        ),
        (
            "compact ab.store 1040/0/2 --cutoff 1:3,2:2",
            "what the peers have acknowledged allows no more than 1030/0/1",
        ),
        (
            "compact ab.store 1040/0/2 --cutoff -",
            "what the peers have acknowledged allows no cutoff",
        ),
    ];
    for (line, why) in refusals {
        let told = folder.fails(line);
        let start = format!("ab.store: nothing is compacted: {why}. ");
        assert!(told.starts_with(&start), "{line}: {told}");
        let told = folder.well(&line.replace("compact", "compact --dry-run"));
        let end = format!("\nWithout --force this is refused: {why}.\n");
        assert!(told.ends_with(&end), "{line}: {told}");
    }
    // The very cutoff is allowed.
    let told = folder.well("compact ab.store 1030/0/1 --dry-run --cutoff 1:3,2:2");
    assert!(!told.contains("--force"), "{told}");
    golden!(
        "compact-dry.txt",
        folder.well("compact ab.store --dry-run --cutoff 1:3,2:2")
    );
    let none = "No cutoff: nothing is safe to compact.\n";
    assert_eq!(folder.well("compact ab.store --cutoff -"), none);
    assert_eq!(folder.well("compact ab.store --dry-run --cutoff -"), none);
    assert_eq!(folder.read("ab.store"), before);
    assert!(!folder.0.join("ab.store.bak").exists());
}

#[test]
fn compacting_and_the_floor() {
    let folder = Folder::with_stores("compact");
    let before = folder.read("ab.store");
    let told = folder.well("compact ab.store --cutoff 1:3,2:2");
    golden!("compact.txt", told);
    assert_eq!(folder.read("ab.store.bak"), before);
    // Where nothing goes the copy stays that of the file with these rows.
    let told = folder.well("compact ab.store 1030/0/1 --cutoff 1:3,2:2 1:6,2:4 --force");
    assert_eq!(
        told,
        "ab.store: no row at or below 1030/0/1; left as it was.\n"
    );
    assert_eq!(folder.read("ab.store.bak"), before);
    let (first, before) = (before, folder.read("ab.store"));
    let told = folder.well("compact ab.store 1040/0/2 --cutoff 1:6,2:4");
    assert!(
        told.starts_with("ab.store: 1 row at or below 1040/0/2 removed, 4 left; written.\n"),
        "{told}"
    );
    // An older copy stays, too.
    assert_eq!(folder.read("ab.store.bak"), before);
    assert_eq!(folder.read("ab.store.bak2"), first);

    assert_eq!(folder.well("floor ab.store"), "No floor.\n");
    let floor = "Floor: 1045/0/1; rows with stamps at or below it are logged as stale.\n";
    let raised = format!("{floor}ab.store: written.\n");
    assert_eq!(folder.well("floor ab.store 1045/0/1"), raised);
    let left = format!("{floor}ab.store: a floor is never lowered; left as it was.\n");
    assert_eq!(folder.well("floor ab.store 1/0/1"), left);
    assert_eq!(folder.well("floor ab.store"), floor);
    folder.write("late.txt", "1045 0 1 9 - x\n1041 0 3 1 - y");
    let told = folder.refused("join ab.store late.txt --time 3000");
    assert!(told.contains("3:1 (stale)"), "{told}");
    golden!("check-compacted.txt", folder.well("check ab.store"));
}

/// The commands that read a store.
const READERS: [&str; 11] = [
    "join bad.store DESK_A",
    "add bad.store --author 1 x",
    "log bad.store",
    "held bad.store",
    "check bad.store",
    "delta bad.store a.store",
    "delta a.store bad.store",
    "cutoff bad.store 1:1",
    "compact bad.store 1/0/1",
    "compact bad.store --cutoff 1:1",
    "floor bad.store 1/0/1",
];

#[test]
fn a_damaged_store_is_refused_and_left() {
    let folder = Folder::with_stores("damaged");
    let mut bytes = folder.read("ab.store");
    let last = bytes.len() - 20;
    bytes[last] ^= 1;
    folder.write("bad.store", &bytes);
    for line in READERS {
        let told = folder.fails(line);
        let start = "bad.store: damaged store file: its checksum is ";
        assert!(told.starts_with(start), "{line}: {told}");
        assert_eq!(folder.read("bad.store"), bytes);
        assert!(!folder.0.join("bad.store.cuwelfra-tmp").exists());
    }
    folder.write("bad.store", "# a text");
    for line in READERS {
        assert!(folder
            .fails(line)
            .starts_with("bad.store: not a store file: "));
    }
}

/// The lock is the operating system's: a file that a stopped program left stops nothing.
#[test]
fn another_program_stops_a_change_as_long_as_it_runs() {
    let folder = Folder::with_stores("busy");
    let before = folder.read("ab.store");
    let changes = [
        "join ab.store DESK_A",
        "add ab.store --author 1 x",
        "compact ab.store 1/0/1 --force",
        "floor ab.store 1/0/1",
    ];
    let lock = File::open(folder.0.join("ab.store.lock")).expect("a lock");
    lock.try_lock().expect("nobody has it");
    for line in changes {
        let told = folder.fails(line);
        assert!(
            told.starts_with("ab.store: ") && told.contains("another program is changing"),
            "{told}"
        );
        assert_eq!(folder.read("ab.store"), before);
    }
    folder.well("log ab.store");
    // To close it is not enough, as long as another test is starting a program.
    lock.unlock().expect("the lock");
    folder.write("ab.store.cuwelfra-tmp", "left behind");
    for line in changes {
        let answer = folder.run(line);
        assert!(answer.is_ok(), "{line}");
        assert!(!folder.0.join("ab.store.cuwelfra-tmp").exists());
    }
}

#[test]
fn a_store_that_is_not_there() {
    let folder = Folder::new("absent");
    for line in ["compact no.store 1/0/1", "floor no.store 1/0/1"] {
        assert_eq!(
            folder.fails(line),
            "no.store: no such file; ./run join no.store FILE... makes one"
        );
    }
    for line in [
        "log no.store",
        "held no.store",
        "check no.store",
        "floor no.store",
        "compact no.store 1/0/1 --dry-run",
    ] {
        let told = folder.fails(line);
        assert!(
            told.starts_with("no.store: cannot open the file: "),
            "{told}"
        );
    }
    assert_eq!(folder.names(), [""; 0]);
}
