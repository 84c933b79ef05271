//! Rows that are written at a store.

use super::*;
use cuwelfra::{ActorId, Row, Slot, Store, Timestamp, VectorClock};

/// The stamp's wall time and counter, and the sequence, of a logged row by its payload.
fn stamped(folder: &Folder, store: &str, payload: &str) -> (u64, u64, u64) {
    let log = folder.well(&format!("log {store}"));
    let line = log.lines().find(|line| line.ends_with(payload));
    let line = line.expect("its line").split_whitespace();
    let words: Vec<&str> = line.collect();
    assert_eq!(words[1], "applied", "{log}");
    let stamp: Vec<u64> = words[2]
        .split('/')
        .map(|part| part.parse().expect("a number"))
        .collect();
    let seq = words[3].split_once(':').expect("a row").1;
    (stamp[0], stamp[1], seq.parse().expect("a number"))
}

#[test]
fn the_first_row_makes_the_store() {
    let folder = Folder::new("first");
    golden!(
        "add-first.txt",
        folder.well("add a.store --author 1 Kette=chain --time 2000")
    );
    let log = "Log:\n\n\
               position  fate     stamp     row  depends on  payload\n\
               --------  -------  --------  ---  ----------  -----------\n       \
               0  applied  2000/0/1  1:1  -           Kette=chain\n\n\
               Clock: 1:1\n";
    assert_eq!(folder.well("log a.store"), log);
    // An empty store that is there is none to be told of.
    folder.write("none.txt", "");
    folder.well("join b.store none.txt");
    let told = folder.well("add b.store --author 1 Kette=chain --time 2000");
    assert!(!told.contains("no such file"), "{told}");
    assert!(
        told.contains("\nThese are the first rows of author 1 in this store. "),
        "{told}"
    );
    assert_eq!(folder.well("log b.store"), log);
}

/// Several payloads, beside a row that waits for another author's.
#[test]
fn several_payloads_beside_a_held_row() {
    let folder = Folder::with_stores("several");
    let held = folder.well("held ab.store --time 2000");
    let line = ["add", "ab.store", "--author", "1", "--time", "2000"];
    let payloads = [
        "Kette = bicycle chain",
        "\"Bügel\\x20= \\\"bow\\\"\"",
        "--",
        "-x",
        "--time",
    ];
    let answer = folder
        .run_words(line.into_iter().chain(payloads))
        .expect("an answer");
    assert!(answer.well);
    golden!("add.txt", answer.text);
    assert_eq!(folder.well("held ab.store --time 2000"), held);
    let told = folder.well("check ab.store");
    assert!(
        told.contains("\nfates      13 applied, 1 rejected, "),
        "{told}"
    );
    // The next one goes on from there.
    folder.well("add ab.store --author 1 next --time 1");
    let (wall, _, seq) = stamped(&folder, "ab.store", "next");
    assert_eq!((wall, seq), (2000, 11));
}

/// What the store knows is below every new stamp, wherever it stands, also where the machine's time is behind it.
#[test]
fn a_stamp_is_above_all_that_the_store_has() {
    let folder = Folder::new("above");
    folder.write("logged.txt", "5000 3 2 1 - x");
    folder.write("held.txt", "5000 3 2 2 3:1 x");
    let cases: [(&str, &[&str]); 4] = [
        (
            "floor",
            &[
                "add s.store --author 9 own --time 1",
                "floor s.store 5000/3/2",
            ],
        ),
        ("logged", &["join s.store logged.txt --time 2000"]),
        ("held", &["join s.store held.txt --time 2000"]),
        (
            "compacted",
            &[
                "join s.store logged.txt --time 2000",
                "compact s.store 5000/3/2 --force",
            ],
        ),
    ];
    for (name, lines) in cases {
        let store = format!("{name}.store");
        for line in lines {
            folder.well(&line.replace("s.store", &store));
        }
        folder.well(&format!("add {store} --author 1 own1 own2 --time 2000"));
        let (first, second) = (
            stamped(&folder, &store, "own1"),
            stamped(&folder, &store, "own2"),
        );
        assert_eq!((first.0, first.2), (5000, 1), "{name}");
        assert!(first.1 > 3, "{name}");
        assert_eq!(second, (5000, first.1 + 1, 2), "{name}");
        folder.well(&format!("add {store} --author 1 own3 --time 5001"));
        let (wall, _, seq) = stamped(&folder, &store, "own3");
        assert_eq!((wall, seq), (5001, 3), "{name}");
    }
}

/// Runs a command that is refused, and looks whether all is as it was.
fn refused_and_left(folder: &Folder, store: &str, line: &str) -> String {
    let before = folder.read(store);
    let told = folder.refused(line);
    assert_eq!(folder.read(store), before, "{line}");
    assert!(
        told.starts_with("Refused, with nothing added:\n\n"),
        "{told}"
    );
    let end =
        format!("\n{store}: left as it was. Payloads are added all together or not at all.\n");
    assert!(told.ends_with(&end), "{told}");
    told
}

/// 20 and 19, with the stamp.
#[test]
fn a_stamp_that_is_too_far_ahead_ends_the_command() {
    let folder = Folder::new("ahead");
    folder.write("logged.txt", "70000 0 2 1 - x");
    folder.write("held.txt", "70000 0 2 2 - x");
    folder.write("own.txt", "10 0 9 1 - x");
    let cases = [
        ("logged.txt", "", "70000/0/2 of logged row 2:1", 20),
        (
            "logged.txt",
            "compact s.store 70000/0/2 --force",
            "70000/0/2 of a compacted row of author 2",
            20,
        ),
        ("held.txt", "", "70000/0/2 of held row 2:2", 20),
        (
            "own.txt",
            "floor s.store 70000/0/2",
            "70000/0/2 of the floor",
            20,
        ),
        (
            "own.txt",
            "floor s.store 3000/4294967295/2",
            "3000/4294967295/2 of the floor",
            19,
        ),
    ];
    for (i, (file, change, stamp, number)) in cases.into_iter().enumerate() {
        let store = format!("s{i}.store");
        folder.well(&format!("join {store} {file} --time 2000 --drift 1d"));
        if !change.is_empty() {
            folder.well(&change.replace("s.store", &store));
        }
        let line = format!("add {store} --author 1 own --time 2000");
        let told = refused_and_left(&folder, &store, &line);
        let said = format!("\nthe stamp {stamp}: refusal {number}, ");
        assert!(told.contains(&said), "{told}");
        let time = match number {
            20 => "\n    its time is 1970-01-01 00:01:10.000 UTC; adding goes on at 1970-01-01 00:00:10.000 UTC\n",
            _ => "\n    its time is 1970-01-01 00:00:03.000 UTC\n",
        };
        assert!(told.contains(time), "{told}");
        let of_floor = "The floor was set with `./run floor` and never falls. ";
        let floor = number == 20 && stamp.ends_with("floor");
        assert_eq!(told.contains(of_floor), floor, "{told}");
        assert_eq!(
            told.contains("Compare the clocks"),
            number == 20 && !floor,
            "{told}"
        );
        if number == 20 {
            refused_and_left(&folder, &store, &line.replace("2000", "9999"));
            folder.well(&line.replace("2000", "10000").replace("own", "later"));
        }
        // With more drift, or when its time has come.
        let line = match number {
            20 => format!("{line} --drift 68s"),
            _ => line.replace("2000", "3001"),
        };
        folder.well(&line);
    }
}

/// A row that every other store would refuse is not made, nor is one without a stamp.
#[test]
fn the_last_counter_is_not_used() {
    let folder = Folder::new("counter");
    for (counter, refusal) in [
        (u32::MAX - 2, "7, spent counter: author 1, sequence 1"),
        (u32::MAX - 1, "19, counter overflow"),
    ] {
        let store = format!("{counter}.store");
        folder.write("rows.txt", format!("3000 {counter} 2 1 - x"));
        folder.well(&format!("join {store} rows.txt --time 2000"));
        let told = refused_and_left(
            &folder,
            &store,
            &format!("add {store} --author 1 own --time 2000"),
        );
        assert!(
            told.contains(&format!(
                "\npayload 1, own: refusal {refusal}\n    the store's latest stamp is 3000/{counter}/2 of logged row \
                 2:1, at 1970-01-01 00:00:03.000 UTC\n"
            )),
            "{told}"
        );
        folder.well(&format!("add {store} --author 1 own --time 3001"));
    }
}

#[test]
fn one_payload_too_large_and_none_is_added() {
    let folder = Folder::new("large");
    let (most, more) = ("p".repeat(256), "p".repeat(257));
    let told = folder.refused(&format!("add s.store --author 1 a {more}"));
    assert!(
        told.ends_with("\ns.store: not made. Payloads are added all together or not at all.\n"),
        "{told}"
    );
    assert_eq!(folder.names(), ["s.store.lock"]);
    folder.well(&format!("add s.store --author 1 {most} --time 2000"));
    let line = format!("add s.store --author 1 a b {more} --time 2000");
    golden!(
        "add-refused.txt",
        refused_and_left(&folder, "s.store", &line)
    );
    let signature =
        |bytes: usize| format!("add s.store --author 1 a signature/{}", "0f".repeat(bytes));
    let told = refused_and_left(&folder, "s.store", &signature(65));
    assert!(told.contains("\npayload 1, a: refusal 4, over capacity\n    the signature has 65 bytes, at most 64\n"), "{told}");
    let told = folder.well(&signature(64));
    assert!(told.contains("\nSigned: 1:2 with 64 bytes.\n"), "{told}");
    // One without bytes is none.
    let told = folder.well(&signature(0));
    assert!(!told.contains("Signed"), "{told}");
}

/// A store of 16 authors takes one more author's row, and then none.
#[test]
fn a_store_of_seventeen_authors_takes_no_row() {
    let folder = Folder::new("authors");
    let rows: String = (1..=16)
        .map(|author| format!("{author} 0 {author} 1 - x\n"))
        .collect();
    folder.write("rows.txt", rows);
    folder.well("join s.store rows.txt");
    let check = |authors: &str| {
        let told = folder.well("check s.store");
        let line = format!("\nauthors    {authors} of 32; rows can be added with up to 16\n");
        assert!(told.contains(&line), "{told}");
    };
    check("16");
    // A wrong author closes the store: it is asked for.
    let before = folder.read("s.store");
    let told = folder.fails("add s.store --author 99 x");
    let start = "s.store: nothing is added without --force:\n    The store has rows of 16 authors, and author 99 would be \
                 one more. After that no row can";
    assert!(told.starts_with(start), "{told}");
    assert_eq!(folder.read("s.store"), before);
    let line = "add s.store --author 17 first second --force";
    let told = refused_and_left(&folder, "s.store", line);
    let said = "\npayload 2, second: refusal 26, operation too large\n    with payload 1 the store would have rows of 17 \
                authors, at most 16\n";
    assert!(told.contains(said), "{told}");
    assert!(!told.contains("Shorten the payload"), "{told}");
    let closed = "\nThis store has rows of 17 authors now: no row can be added here any more.\n";
    let told = folder.well("add s.store --author 16 one");
    assert!(!told.contains(closed), "{told}");
    let told = folder.well("add s.store --author 17 one --force");
    assert!(told.contains(closed), "{told}");
    check("17");
    for author in [1, 17, 18] {
        let line = format!("add s.store --author {author} x");
        let told = refused_and_left(&folder, "s.store", &line);
        let said = "\n    the store has rows of 17 authors, at most 16\n";
        assert!(told.contains(said), "{told}");
    }
    // A join says it once, when it brings the author.
    folder.well("join t.store rows.txt");
    folder.write("more.txt", "17 0 17 1 - x");
    assert!(folder.well("join t.store more.txt").contains(closed));
    folder.write("again.txt", "18 0 17 2 - x");
    assert!(!folder.well("join t.store again.txt").contains(closed));
}

#[test]
fn a_full_log_takes_no_row() {
    let folder = Folder::new("full");
    let rows: String = (1..=1023)
        .map(|seq| format!("{seq} 0 1 {seq} - x\n"))
        .collect();
    folder.write("rows.txt", rows);
    folder.well("join s.store rows.txt");
    let told = refused_and_left(&folder, "s.store", "add s.store --author 1 first second");
    assert!(
        told.contains("\npayload 2, second: refusal 17, log full\n"),
        "{told}"
    );
    folder.well("add s.store --author 1 last");
    refused_and_left(&folder, "s.store", "add s.store --author 1 x");
    folder.well("compact s.store 1/0/1 --cutoff 1:1024");
    folder.well("add s.store --author 1 x");
}

/// Stores of other programs: an author without a next number, and 32 authors with a latest stamp and no number.
#[test]
fn an_author_without_number_or_place() {
    let folder = Folder::new("numbers");
    let mut last = VectorClock::new();
    last.observe(ActorId(1), u64::MAX).expect("a clock");
    let mut store = Store::with_capacity(40).expect("a store");
    store.rebuild(&[], &last).expect("a store");
    store.save(folder.0.join("last.store")).expect("a file");
    let told = refused_and_left(&folder, "last.store", "add last.store --author 1 x");
    let said = "\npayload 1, x: refusal 27, sequence exhausted\n";
    assert!(told.contains(said), "{told}");
    folder.well("add last.store --author 2 x");

    let mut store = Store::with_capacity(40).expect("a store");
    for author in 1..=32 {
        let row = Row::new(Timestamp::new(author, 0, ActorId(author)), 0, "");
        let slot = Slot::logged(&row).expect("a slot");
        store.insert(&slot).expect("a row");
    }
    store.save(folder.0.join("many.store")).expect("a file");
    let told = refused_and_left(&folder, "many.store", "add many.store --author 33 x");
    let said = "\npayload 1, x: refusal 18, authors full\n";
    assert!(told.contains(said), "{told}");
    folder.well("add many.store --author 32 x");
}

/// Where the store knows of rows of the author that it has not logged, its number is given already.
#[test]
fn an_author_who_has_written_elsewhere() {
    let folder = Folder::with_stores("elsewhere");
    let before = folder.read("ab.store");
    // 2:5 is held and needs 3:1.
    for author in [2, 3] {
        let told = folder.fails(&format!("add ab.store --author {author} own --time 2000"));
        let start = format!(
            "ab.store: nothing is added without --force:\n    Author {author} has rows elsewhere that are not logged \
             here, since held rows are among them or need them: 2:5. "
        );
        assert!(told.starts_with(&start), "{told}");
    }
    assert_eq!(folder.read("ab.store"), before);
    // By force it is logged, and what waited for that number is ready.
    golden!(
        "add-force.txt",
        folder.well("add ab.store --author 3 Sattel=saddle --force --time 2000")
    );
    folder.write("empty.batch", [0]);
    let told = folder.well("join ab.store empty.batch --time 2000");
    assert!(
        told.contains("12 rows logged, 1 of them now; 0 held"),
        "{told}"
    );
    folder.well("add ab.store --author 2 own --time 2000");
    // The row that has the number elsewhere is one that differs.
    let told = folder.refused("join ab.store DESK_C --time 2000");
    assert!(told.contains("\nDuplicates that differ: "), "{told}");
}

/// Added, written as a delta, packed and joined: both stores have one log, and the rows fit.
#[test]
fn what_is_added_goes_to_other_stores() {
    let folder = Folder::with_stores("peers");
    folder.well("add ab.store --author 1 Kette=chain signature/0aff Rad=wheel --time 2000");
    folder.well("add ab.store --author 4 Sattel=saddle --time 2000");
    folder.well("join b.store DESK_B --time 2000");
    folder.refused("join b.store DESK_A --time 2000");
    let told = folder.well("delta ab.store b.store --out out.txt");
    assert!(
        told.starts_with("b.store lacks 3 rows of ab.store.\n"),
        "{told}"
    );
    let lines = String::from_utf8(folder.read("out.txt")).expect("a text");
    let signed = " 1 7  1:6,2:4  \"Kette=chain\"  signature/0aff";
    let first = lines.lines().next().expect("a line");
    assert!(
        first.starts_with("2000 ") && first.ends_with(signed),
        "{lines}"
    );
    folder.well("pack out.txt out.batch");
    folder.well("join b.store out.batch --time 2000");
    assert_eq!(folder.well("log b.store"), folder.well("log ab.store"));
    assert_eq!(
        folder.well("delta b.store ab.store").lines().next(),
        Some("ab.store lacks 0 rows of b.store.")
    );
    // There and back.
    folder.well("add b.store --author 5 Felge=rim --time 2000");
    folder.well("delta b.store ab.store --out back.txt");
    folder.well("join ab.store back.txt --time 2000");
    assert_eq!(folder.well("log b.store"), folder.well("log ab.store"));
}
