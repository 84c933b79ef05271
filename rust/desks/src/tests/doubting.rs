//! What `add` asks for `--force` for, and what it says of held rows, of other stores and of the time.

use super::*;
use crate::time;

/// A row that waited longer than rows are kept is logged by the command that is suggested, and so is one that did not.
#[test]
fn the_suggested_join_logs_what_is_ready() {
    let folder = Folder::new("suggested");
    folder.write("held.txt", "900000 0 2 1 1:1 Rad=wheel");
    for (store, time, late, days) in [
        ("soon.store", 1_000_001_u64, false, 7),
        ("late.store", 8_200_000, true, 7),
        ("later.store", 1_000_000 + 3 * time::DAY, true, 10),
    ] {
        folder.well(&format!("join {store} held.txt --time 1000000"));
        let line = format!("add {store} --author 1 Kette --force --time {time}");
        let told = folder.well(&line);
        let expired = "\nHeld longer than rows are kept: 2:1. The next join lets what is so expire, unless --age gives more \
                       time.\n";
        assert_eq!(told.contains(expired), late, "{told}");
        assert_eq!(
            told.contains(
                "\nOf the held rows the first expires after 1970-01-01 01:16:40.000 UTC; "
            ),
            !late,
            "{told}"
        );
        let command = format!(
            "\nHeld, and waiting for nothing any more: 2:1. The next batch logs what is so, even one without rows:\n    \
             printf '\\0' > {store}.empty.batch && ./run join {store} {store}.empty.batch --age {days}d --time {time}\n"
        );
        assert!(told.contains(&command), "{told}");
        folder.write(&format!("{store}.empty.batch"), [0]);
        let command = command.split("./run ").nth(1).expect("a command");
        let told = folder.well(command.trim_end());
        assert!(
            told.contains("2 rows logged, 1 of them now; 0 held"),
            "{told}"
        );
    }
    // Without --age it would have gone.
    folder.well("join gone.store held.txt --time 1000000");
    folder.well("add gone.store --author 1 Kette --force --time 8200000");
    let told = folder.refused("join gone.store late.store.empty.batch --time 8200000");
    assert!(told.contains("\nExpired: "), "{told}");
}

/// A join that was refused leaves rows that are late, and says so.
#[test]
fn late_rows_and_others() {
    let folder = Folder::new("late");
    folder.write("held.txt", "1 0 2 1 1:1 Rad");
    folder.write("other.txt", "1 0 3 1 1:1 Sattel");
    folder.write("bad.txt", "1 0 4 0 - x");
    folder.well("join s.store held.txt --time 0");
    folder.well("join s.store other.txt --time 3000000");
    let told = folder.refused("join s.store bad.txt --time 4000000");
    let said = "\nHeld longer than rows are kept: 2:1. The next join lets what is so expire, unless --age gives more time. \
                Of the others\nthe first expires after 1970-01-01 01:50:00.000 UTC.\n./run held s.store shows them.\n";
    assert!(told.ends_with(said), "{told}");
    let told = folder.refused("join s.store bad.txt --time 4000000 --age 7d");
    assert!(
        told.contains("\nOf the held rows the first expires after 1970-01-08 "),
        "{told}"
    );
}

/// A held row whose number is given away is dropped, and not logged. Elsewhere the numbers may be others'.
#[test]
fn a_held_row_whose_number_is_given_away() {
    let folder = Folder::new("given");
    folder.write("held.txt", "1 0 3 2 - gap\n1 0 3 4 - later");
    folder.well("join s.store held.txt --time 2000");
    let told = folder.well("add s.store --author 3 A B --force --time 2000");
    let said = "\nHeld row 3:2 \"gap\" is dropped by the next batch: 3:2 is \"B\" here now.\n";
    assert!(told.contains(said), "{told}");
    assert!(!told.contains("waiting for nothing"), "{told}");
    let end =
        "\n3:1, 3:2 may have another content elsewhere; a store that has that one keeps it.\n";
    assert!(told.ends_with(end), "{told}");
    // What is compacted is told of without its payload.
    folder.well("compact s.store 2000/9/9 --force");
    let told = folder.well("add s.store --author 5 C --time 2000");
    let said = "\nHeld row 3:2 \"gap\" is dropped by the next batch: 3:2 is given here now.\n";
    assert!(told.contains(said), "{told}");
    assert!(told.contains("\nOther stores lack what is new. "), "{told}");
    folder.write("empty.batch", [0]);
    let told = folder.refused("join s.store empty.batch --time 2000");
    assert!(told.contains("\nDropped: "), "{told}");
}

/// What the author's rows went on from.
#[test]
fn an_author_goes_on() {
    let folder = Folder::new("goes-on");
    folder.well("add s.store --author 1 Rad Lenker=handlebar --time 2000");
    let told = folder.well("add s.store --author 1 Kette --time 2000");
    let end = " Where that was added at another store, 1:3 is or will be given there too.\n";
    let said = format!("\nAuthor 1 went on from 1:2 \"Lenker=handlebar\".{end}");
    assert!(told.contains(&said), "{told}");
    folder.well("compact s.store 2000/99/1 --force");
    let told = folder.well("add s.store --author 1 Sattel --time 2000");
    let said = "\nAuthor 1 went on from 1:3, which is compacted. Where";
    assert!(told.contains(said), "{told}");
}

/// Stamps ahead of the machine's time, by --time or by a stamp that the store has.
#[test]
fn a_stamp_ahead_of_the_machines_time() {
    let folder = Folder::new("machine");
    let ahead = time::now().expect("a time") + 630_000;
    folder.well("add a.store --author 1 x --time 1");
    folder.well(&format!("floor a.store {ahead}/0/1"));
    let at = time::shown(ahead);
    for (line, why) in [
        (
            format!("add t.store --author 1 Kette --time {ahead}"),
            "Look whether --time is in ms.",
        ),
        (
            "add a.store --author 1 Kette --drift 1h".to_owned(),
            "A stamp that the store has is so far ahead",
        ),
    ] {
        let told = folder.fails(&line).replace("\n    ", " ");
        let said = format!(
            ": nothing is added without --force: The new rows would be stamped 10 minutes ahead of the machine's time, at \
             {at} UTC. Other stores refuse them with 11"
        );
        assert!(told.contains(&said) && told.contains(why), "{told}");
        let told = folder.well(&format!("{line} --force"));
        let said = format!(
            "\nStamped 10 minutes ahead, at {at} UTC: other stores refuse it with 11 until a minute before that.\n"
        );
        assert!(told.contains(&said), "{told}");
    }
    // In microseconds.
    let told = folder.fails(&format!("add u.store --author 1 x --time {ahead}000"));
    assert!(told.contains(" days ahead of the machine's time"), "{told}");
    assert!(!folder.names().contains(&"u.store".to_owned()));
    // Less than other stores allow is not told.
    let soon = time::now().expect("a time") + 30_000;
    let told = folder.well(&format!("add v.store --author 1 x --time {soon}"));
    assert!(!told.contains("ahead"), "{told}");
}

/// All doubts at once: --force for one is none for another that was not told.
#[test]
fn all_doubts_are_told() {
    let folder = Folder::new("doubts");
    let rows = (1..=16).map(|author| format!("{author} 0 {author} 1 - x\n"));
    let held = (1..=59).map(|i| format!("20 0 {} {} 99:1 y\n", i % 9 + 1, 2 * i + 1));
    folder.write("rows.txt", rows.chain(held).collect::<String>());
    folder.well("join s.store rows.txt --time 100");
    let ahead = time::now().expect("a time") + 630_000;
    let told = folder.fails(&format!("add s.store --author 99 x --time {ahead}"));
    let starts = ["Author 99 has", "The store has", "The new rows"];
    let begins = |line: &&str| starts.iter().any(|start| line.trim().starts_with(start));
    assert_eq!(told.lines().filter(begins).count(), 3, "{told}");
    assert!(told.contains(" and 54 more. "), "{told}");
    assert!(
        told.lines().all(|line| line.chars().count() <= 120),
        "{told}"
    );
}

/// A thousand rows at one time: a stamp is just above the latest, and a counter that is near its end is not used up.
#[test]
fn rows_of_a_store_cost_no_counters() {
    let folder = Folder::new("counters");
    let rows: String = (1..=1000)
        .map(|seq| format!("3000 {seq} 2 {seq} - x\n"))
        .collect();
    folder.write("rows.txt", rows);
    folder.well("join s.store rows.txt --time 2000");
    let told = folder.well("add s.store --author 1 own --time 2000");
    assert!(
        told.contains("\napplied  3000/1002/1  1:1  own\n"),
        "{told}"
    );
    let last = u32::MAX - 3;
    folder.write("rows.txt", format!("3000 1 2 1 - x\n3000 {last} 2 2 - x"));
    folder.well("join t.store rows.txt --time 2000");
    let told = folder.well("add t.store --author 1 own --time 2000");
    let row = format!("\napplied  3000/{}/1  1:1  own\n", last + 2);
    assert!(told.contains(&row), "{told}");
}

/// All rows for a peer of whom nothing is here.
#[test]
fn a_delta_for_a_store_that_has_nothing() {
    let folder = Folder::new("nothing");
    folder.well("add s.store --author 1 Kette Rad --time 2000");
    let told = folder.well("delta s.store - --out all.txt");
    let start = "A store that has nothing lacks 2 rows of s.store.\n";
    assert!(told.starts_with(start), "{told}");
    folder.well("join t.store all.txt --time 2000");
    assert_eq!(folder.well("log t.store"), folder.well("log s.store"));
    folder.well("compact s.store 2000/0/1 --force");
    let told = folder.refused("delta s.store -");
    let said = "\nThese are not all: s.store has compacted rows that a store that has nothing lacks. A store that has \
                nothing needs";
    assert!(told.contains(said), "{told}");
    let told = folder.fails("delta - s.store");
    assert_eq!(told, "`-` is no name of a store; ./- is");
}

/// Beside a file that is no store nothing is left.
#[test]
fn no_lock_beside_what_is_no_store() {
    let folder = Folder::new("notes");
    folder.write("notes.txt", "notes");
    folder.fails("add notes.txt --author 1 x");
    folder.fails("join notes.txt DESK_A");
    assert_eq!(folder.names(), ["notes.txt"]);
}
