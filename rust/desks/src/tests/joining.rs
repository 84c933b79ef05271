//! Joining, comparing, packing, and what comes of it.

use super::*;
use crate::desk::Desk;
use crate::store::load;

#[test]
fn the_example() {
    let folder = Folder::new("example");
    let example = "example sub/example.store DESK_A DESK_B --time 2000";
    golden!("example.txt", folder.well(example));
    golden!("check.txt", folder.well("check sub/example.store"));
    golden!(
        "join-c.txt",
        folder.well("join sub/example.store DESK_C --time 3000")
    );
}

/// It is made anew each time. What has rows or a floor of its own, or is no store, is kept.
#[test]
fn the_example_replaces_nothing() {
    let folder = Folder::new("anew");
    let example = "example example.store DESK_A DESK_B";
    folder.well(example);
    let told = folder.well(example);
    assert!(!told.contains("before"), "{told}");
    folder.write("own.txt", "10 0 9 1 - own");
    let changes: [fn(&Folder); 3] = [
        |folder| drop(folder.well("join example.store own.txt")),
        |folder| drop(folder.well("floor example.store 1/0/1")),
        |folder| folder.write("example.store", "damaged"),
    ];
    let mut kept = Vec::new();
    for change in changes {
        change(&folder);
        kept.insert(0, folder.read("example.store"));
        let told = folder.well(example);
        let said = "The file that was there before is example.store.bak now.";
        assert!(told.contains(said), "{told}");
    }
    assert_eq!(folder.read("example.store.bak"), kept[0]);
    assert_eq!(folder.read("example.store.bak2"), kept[2]);
    assert_eq!(folder.read("example.store.bak3"), kept[1]);
    folder.well("check example.store");
}

#[test]
fn joining_file_by_file() {
    let folder = Folder::new("join");
    golden!(
        "join-a.txt",
        folder.refused("join a.store DESK_A --time 2000")
    );
    golden!("held-a.txt", folder.well("held a.store --time 2500"));
    golden!(
        "join-b.txt",
        folder.refused("join a.store DESK_B --time 3000")
    );
    golden!("log.txt", folder.well("log a.store"));
    golden!("held.txt", folder.well("held a.store --time 3602001"));
}

#[test]
fn a_store_is_left_where_every_batch_is_refused() {
    let folder = Folder::with_stores("refused");
    let before = folder.read("a.store");
    folder.write("bad.txt", "5 0 9 0 - x\n\n5 0 9 1 - x unverified");
    let told = folder.refused("join a.store bad.txt --time 2000");
    assert!(
        told.contains("bad.txt 1: refusal 5, zero sequence: author 9, sequence 0\n"),
        "{told}"
    );
    assert!(
        told.contains("bad.txt 2: refusal 12, bad signature: author 9, sequence 1\n"),
        "{told}"
    );
    assert!(told.contains("held; left as it was.\n"), "{told}");
    assert_eq!(folder.read("a.store"), before);
}

#[test]
fn a_refused_batch_lets_the_others_go_on() {
    let folder = Folder::new("others");
    folder.write(
        "rows.txt",
        "5 0 9 1 - x\n---\n6 0 9 0 - y\n---\n7 0 9 2 - z\n",
    );
    folder.write("cut.batch", [1, 5, 0]);
    let told = folder.refused("join new.store cut.batch rows.txt");
    assert!(
        told.ends_with("new.store: 2 rows logged, 2 of them now; 0 held; written.\n"),
        "{told}"
    );
    assert!(
        told.contains("\ncut.batch 1: refusal 3, unreadable\n"),
        "{told}"
    );
    // How many rows it has is not known.
    let call = told.lines().find(|line| line.starts_with("cut.batch 1 "));
    let words = call.expect("its call").split_whitespace();
    assert_eq!(
        words.collect::<Vec<_>>(),
        ["cut.batch", "1", "refused", "with", "3"]
    );
}

/// Two files of one name are told apart.
#[test]
fn files_of_one_name() {
    let folder = Folder::new("names");
    for sub in ["one.d", "two.d"] {
        fs::create_dir(folder.0.join(sub)).expect("a folder");
        folder.write(&format!("{sub}/rows.txt"), "10 0 1 1 - x");
    }
    folder.write("rows.txt", "10 0 1 1 - x");
    let told = folder.well("join new.store one.d/rows.txt two.d/rows.txt");
    for name in ["one.d/rows.txt 1", "two.d/rows.txt 1"] {
        assert!(told.contains(name), "{told}");
    }
    let told = folder.well("join new.store one.d/rows.txt");
    assert!(told.contains("\nrows.txt 1 "), "{told}");
}

/// A batch of more rows than a call takes is cut.
#[test]
fn a_long_batch_is_cut() {
    let folder = Folder::new("long");
    let rows: String = (1..=130)
        .map(|seq| format!("{seq} 0 1 {seq} - x\n"))
        .collect();
    folder.write("rows.txt", rows);
    let told = folder.well("join new.store rows.txt");
    for line in [
        "rows.txt 1    64       64 ",
        "rows.txt 2    64       64 ",
        "rows.txt 3     2        2 ",
        "  1:1-64\n",
        "  1:129, 1:130\n",
        "new.store: 130 rows logged, 130 of them now; 0 held; written.\n",
    ] {
        assert!(told.contains(line), "{line}: {told}");
    }
    assert_eq!(folder.well("pack rows.txt out.d").lines().count(), 3);
    let sizes = |file: &str| {
        let desk = Desk::read(&folder.0.join(file)).expect("a desk");
        let offered = desk.offered.iter();
        offered
            .map(|offered| offered.offer.rows.len())
            .collect::<Vec<_>>()
    };
    assert_eq!(sizes("rows.txt"), [64, 64, 2]);
    assert_eq!(sizes("out.d/rows-02.batch"), [64]);
}

#[test]
fn an_empty_file_is_said_to_be_empty() {
    let folder = Folder::new("empty");
    folder.write("empty.txt", "");
    folder.write("comment.txt", "# nothing\n\n---\n");
    folder.write("empty.batch", "");
    folder.write("empty.store", "");
    let told = folder.well("join new.store empty.txt comment.txt");
    for name in ["empty.txt", "comment.txt"] {
        let line = format!("\n{name} is empty: there is no row in it.\n");
        assert!(told.contains(&line), "{told}");
    }
    let told = folder.refused("join new.store empty.batch");
    assert!(
        told.contains("empty.batch 1: refusal 3, unreadable\n    the file is empty\n"),
        "{told}"
    );
    let told = folder.fails("log empty.store");
    assert_eq!(told, "empty.store: not a store file: it is empty");
    assert_eq!(
        folder.fails("pack empty.txt out.batch"),
        "empty.txt: no row in it"
    );
}

#[test]
fn packing_and_unpacking() {
    let folder = Folder::new("pack");
    let packed = folder.well("pack DESK_B out.d");
    assert_eq!(
        packed,
        "out.d/desk-b-01.batch: 2 rows, 69 bytes\nout.d/desk-b-02.batch: 4 rows, 123 bytes\n"
    );
    let text = folder.well("unpack out.d/desk-b-01.batch out.d/desk-b-02.batch");
    golden!("unpack.txt", text.clone());
    folder.write("again.txt", text);
    let rows = |file: &str| {
        let desk = Desk::read(&folder.0.join(file)).expect("a desk");
        let offered = desk.offered.into_iter();
        offered
            .map(|offered| offered.offer.rows)
            .collect::<Vec<_>>()
    };
    assert_eq!(rows("again.txt"), rows(DESK_B));
    assert_eq!(rows("out.d/desk-b-02.batch"), rows("again.txt")[1..]);

    // A file of batch bytes is joined as its text is.
    folder.well("join text.store again.txt --time 2000");
    folder.well("join packed.store out.d/desk-b-01.batch out.d/desk-b-02.batch --time 2000");
    assert_eq!(folder.read("packed.store"), folder.read("text.store"));

    // One batch goes into one file, and no file is written over.
    folder.write("one.txt", "1 0 1 1 - x");
    assert_eq!(
        folder.well("pack one.txt one.batch"),
        "one.batch: 1 row, 13 bytes\n"
    );
    let told = folder.fails("pack one.txt one.batch");
    assert!(told.starts_with("one.batch: "), "{told}");
    assert_eq!(folder.read("one.batch").len(), 13);
    // Of several none is written where one is there.
    fs::create_dir(folder.0.join("two.d")).expect("a folder");
    folder.write("two.d/desk-b-02.batch", "");
    let told = folder.fails("pack DESK_B two.d");
    assert!(told.starts_with("two.d/desk-b-02.batch: "), "{told}");
    assert!(!folder.0.join("two.d/desk-b-01.batch").exists());
    // Their names are in the batches' order, however many they are.
    let rows: Vec<String> = (1..=101).map(|seq| format!("1 0 1 {seq} - x\n")).collect();
    folder.write("many.txt", rows.join("\n"));
    let told = folder.well("pack many.txt many.d");
    assert!(
        told.contains("many.d/many-001.batch: ") && told.contains("-101.batch: "),
        "{told}"
    );
    folder.write("timed.txt", "time 5\n1 0 1 1 - x");
    let told = folder.well("pack timed.txt timed.batch");
    assert!(
        told.ends_with(
            "timed.txt: batch bytes have no `time` lines; those of the text are left out.\n"
        ),
        "{told}"
    );
    let names = folder.names();
    let left = names.iter().filter(|name| name.contains("tmp"));
    assert_eq!(left.count(), 0, "{names:?}");
}

#[test]
fn batches_that_cannot_be_bytes() {
    let folder = Folder::new("unpackable");
    folder.write("deps.txt", "1 0 1 1 - x\n---\n1 0 1 1 3:1,2:1 x");
    let told = folder.fails("pack deps.txt out.d");
    let start = "deps.txt 2: refusal 3, unreadable; \
                 line 3: the authors of the dependencies 3:1,2:1 do not rise. ";
    assert!(told.starts_with(start), "{told}");
    assert!(!folder.0.join("out.d").exists());
    folder.write("cut.batch", [1, 5, 0]);
    let told = folder.fails("unpack cut.batch");
    assert!(
        told.starts_with(
            "cut.batch: refusal 3, unreadable; the 3 bytes of the file do not read as a batch. "
        ),
        "{told}"
    );
}

#[test]
fn comparing() {
    let folder = Folder::new("compare");
    golden!(
        "compare.txt",
        folder.well("compare DESK_A DESK_B --time 2000")
    );
    folder.write("one.txt", "10 0 1 1 - a\n20 0 2 2 - b");
    folder.write("two.txt", "10 0 1 1 - other\n20 0 1 2 - c");
    let told = folder.refused("compare one.txt two.txt");
    let end = "The two orders differ:\n\
               log, position 0: 10 0 1 1  -  \"a\" (applied) in the first, \
               10 0 1 1  -  \"other\" (applied) in the second\n";
    assert!(told.ends_with(end), "{told}");
    // The answer that comes first stays.
    folder.write("two.txt", "10 0 1 1 - a denied");
    let told = folder.refused("compare one.txt two.txt");
    assert!(told.contains("(applied) in the first, "), "{told}");
    assert!(told.ends_with("(denied) in the second\n"), "{told}");
}

#[test]
fn stores_of_example_and_join_are_equal() {
    let folder = Folder::with_stores("equal");
    folder.well("example ex.store DESK_A DESK_B --time 2000");
    assert_eq!(folder.read("ex.store"), folder.read("ab.store"));
    let store = load(&folder.0.join("ex.store")).expect("a store");
    assert_eq!(store.capacity(), 1_024);
}
