//! Nothing is lost in silence: each row that expires, is rejected, stale, dropped, left out or not what the store has, or
//! whose stamp the clock refuses, is named with its payload, and shows in the status.

use super::*;
use crate::calls::{self, Settings};
use crate::desk::Desk;
use crate::show;
use crate::store::load;
use cuwelfra::{ActorId, Limits, Row, Slot, Store, Timestamp};

/// An hour after the start of 1970, and a second.
const HOUR: u64 = 3_600_000;

#[test]
fn a_row_that_expires_is_named() {
    let folder = Folder::new("expired");
    folder.write("a.txt", "10 0 1 2 2:1 \"Kette = chain\"");
    folder.write("b.txt", "20 0 3 1 - \"Rad = wheel\"");
    folder.well("join s.store a.txt --time 1000");
    let told = folder.well("held s.store --time 1000");
    let line = "1:2  1:1,2:1    1970-01-01 00:00:01.000  1970-01-01 01:00:01.000  Kette = chain  fits    10/0/1  2:1\n";
    assert!(told.contains(line), "{told}");
    // At the end of the hour it is still there.
    folder.well(&format!("join s.store b.txt --time {}", 1000 + HOUR));
    assert!(!folder
        .well(&format!("held s.store --time {}", 1000 + HOUR))
        .contains("A join at"));
    let told = folder.well(&format!("held s.store --time {}", 1001 + HOUR));
    let over =
        "\nA join at 1970-01-01 01:00:01.001 UTC lets 1 row expire, unless --age gives more time.\n";
    assert!(told.contains(over), "{told}");
    let told = folder.refused(&format!("join s.store b.txt --time {}", 1001 + HOUR));
    let named = "\nExpired: these rows waited too long. Those that did not come again are no longer in the store: join \
                 them again when what\nthey wait for has come.\n\n\
                 b.txt 1: 1:2 waited since 1970-01-01 00:00:01.000 UTC for 1:1,2:1\n    \
                 10 0 1 2  2:1  \"Kette = chain\"\n";
    assert!(told.contains(named), "{told}");
    assert_eq!(folder.well("held s.store"), "Held: no row\n");
}

/// Of two rows the one goes, and the other has reached its time only.
#[test]
fn only_what_expires_is_named() {
    let folder = Folder::new("one");
    folder.write("a.txt", "10 0 1 2 - first");
    folder.write("b.txt", "20 0 2 2 - second");
    folder.well("join s.store a.txt --time 0 --age 5");
    let told = folder.well("join s.store b.txt --time 1 --age 5");
    let first = "Of the held rows the first expires after 1970-01-01 00:00:00.005 UTC; ";
    assert!(told.contains(first), "{told}");
    let told = folder.refused("join s.store b.txt --time 6 --age 5");
    assert!(told.contains("first") && !told.contains("second"), "{told}");
    assert!(folder.well("held s.store").contains("second"));
}

/// A row that expires and comes again in the same batch waits anew.
#[test]
fn a_row_that_expires_and_comes_again() {
    let folder = Folder::new("again");
    folder.write("a.txt", "10 0 1 2 - x");
    folder.well("join s.store a.txt --time 0 --age 5");
    let told = folder.refused("join s.store a.txt --time 6 --age 5");
    let named = "a.txt 1: 1:2 waited since 1970-01-01 00:00:00.000 UTC for 1:1; it came again\n";
    assert!(told.contains(named), "{told}");
    // Also where another file of the same run brings it; another content is another row.
    folder.write("b.txt", "20 0 2 1 - y");
    let told = folder.refused("join s.store b.txt a.txt --time 12 --age 5");
    assert!(told.contains(" UTC for 1:1; it came again\n"), "{told}");
    folder.write("c.txt", "10 0 1 2 - other");
    let told = folder.refused("join s.store c.txt --time 18 --age 5");
    let now = " UTC for 1:1; under its number the store has now\n    10 0 1 2  -  \"other\"\n  and not\n    10 0 1 2  -  \"x\"\n";
    assert!(told.contains(now), "{told}");
    // Another answer too.
    folder.write("c.txt", "10 0 1 2 - other denied");
    let told = folder.refused("join s.store c.txt --time 24 --age 5");
    assert!(
        told.contains("\"other\"  denied\n  and not\n    10 0 1 2  -  \"other\"\n"),
        "{told}"
    );
    folder.refused("join s.store a.txt --time 30 --age 5");
    let told = folder.well("held s.store --age 5");
    assert!(
        told.contains("1970-01-01 00:00:00.030  1970-01-01 00:00:00.035"),
        "{told}"
    );
}

/// In one run or in two, whatever the stamps say.
#[test]
fn two_runs_are_as_one() {
    let folder = Folder::new("runs");
    folder.write("a.txt", "1000 0 1 2 - \"Kette = chain\"");
    folder.write("b.txt", "9000000 0 1 1 - \"Rad = wheel\"");
    folder.well("join one.store a.txt b.txt");
    folder.well("join two.store a.txt");
    folder.well("join two.store b.txt");
    assert_eq!(folder.well("log one.store"), folder.well("log two.store"));
    assert!(folder.well("log two.store").contains("Kette = chain"));
}

#[test]
fn a_row_waits_as_long_as_it_is_let() {
    let folder = Folder::new("age");
    folder.write("a.txt", "10 0 1 2 - x");
    folder.write("b.txt", "10 0 2 1 - y");
    folder.well("join s.store a.txt --time 1000");
    folder.well("join s.store b.txt --time 604801000 --age 7d");
    let told = folder.well("held s.store --age 18446744073709551615 --time 604801000");
    assert!(told.contains("1970-01-01 00:00:01.000  never"), "{told}");
    folder.refused("join s.store b.txt --time 604801001 --age 7d");
}

#[test]
fn a_row_is_ahead_as_far_as_it_is_let() {
    let folder = Folder::new("drift");
    folder.write("a.txt", "61001 0 1 1 - x");
    let told = folder.refused("join s.store a.txt --time 1000");
    assert!(
        told.contains("a.txt 1: refusal 11, ahead of time"),
        "{told}"
    );
    folder.refused("join s.store a.txt --time 1000 --drift 60000");
    folder.well("join s.store a.txt --time 1000 --drift 61s");
    folder.write("b.txt", "61002 0 1 2 - x");
    folder.well("join s.store b.txt --time 1002");
}

/// The time of a call is the machine's.
#[test]
fn calls_are_made_now() {
    let folder = Folder::new("now");
    folder.write("a.txt", "10 0 1 2 - x");
    let before = crate::time::now().expect("a time");
    folder.well("join s.store a.txt");
    let held = load(&folder.0.join("s.store")).and_then(|store| Ok(store.held()?));
    let since = held.expect("a store")[0].arrived_ms;
    assert!((before..=crate::time::now().expect("a time")).contains(&since));
}

/// A desk with a wrong clock does not let the others' rows expire.
#[test]
fn times_of_a_file_count_when_it_is_replayed() {
    let folder = Folder::new("replay");
    folder.write("a.txt", "10 0 1 2 - \"Kette = chain\"");
    folder.write(
        "b.txt",
        "time 99999999999999\n20 0 2 1 - y\n---\n30 0 2 2 - z",
    );
    folder.well("join s.store a.txt --time 1000");
    let told = folder.well("join s.store b.txt --time 2000");
    let said = "\nb.txt: its `time` lines do not count without --replay.\n";
    assert!(told.contains(said), "{told}");
    assert!(folder.well("held s.store").contains("Kette = chain"));
    let told = folder.refused("join s.store b.txt --time 2000 --replay");
    assert!(
        told.contains("\nExpired: ") && !told.contains("do not count"),
        "{told}"
    );
    // A batch before which no time stands is of the command's.
    folder.write("c.txt", "10 0 1 2 - x\n---\ntime 5000\n10 0 3 2 - x");
    folder.well("join s.store c.txt --time 2000 --replay");
    let told = folder.well("held s.store --time 2000");
    for since in ["1970-01-01 00:00:02.000", "1970-01-01 00:00:05.000"] {
        assert!(told.contains(since), "{told}");
    }
}

#[test]
fn a_duplicate_with_other_content_is_named() {
    let folder = Folder::new("differs");
    folder.write(
        "a.txt",
        "10 0 1 1 - \"Kette = chain\"\n20 0 1 3 - \"Rad = wheel\"",
    );
    folder.write(
        "b.txt",
        "# again\n10 0 1 1 - \"Kette = cable\"\n20 0 1 3 - \"Rad = wheel\"",
    );
    folder.well("join s.store a.txt");
    // Equal ones are well.
    folder.well("join s.store a.txt");
    let told = folder.refused("join s.store b.txt");
    let named = "\nDuplicates that differ: the store keeps what it had under these numbers.\n\n\
                 b.txt 1, line 2: 1:1 has other content or another answer\n    \
                 logged  10 0 1 1  -  \"Kette = chain\"\n    \
                 came    10 0 1 1  -  \"Kette = cable\"\n\n";
    assert!(told.contains(named), "{told}");
    // So are other stamps, dependencies and signatures.
    for row in [
        "11 0 1 1 - \"Kette = chain\"",
        "10 0 1 1 2:0 \"Kette = chain\"",
        "10 0 1 1 - \"Kette = chain\" signature/00",
    ] {
        folder.write("c.txt", row);
        let told = folder.refused("join s.store c.txt");
        assert!(told.contains("c.txt 1, line 1: 1:1 has other"), "{told}");
    }
}

/// Of a compacted row there is no content to compare with.
#[test]
fn a_duplicate_that_cannot_be_compared_is_said() {
    let folder = Folder::new("compared");
    folder.write(
        "a.txt",
        "10 0 2 1 - x\n10 0 1 1 - a\n20 0 1 2 - b\n---\n30 0 1 3 - c\n40 0 1 4 - d\n20 0 1 2 - b",
    );
    folder.well("join s.store a.txt");
    folder.well("compact s.store 30/0/1 --force");
    let told = folder.well("join s.store a.txt");
    let said = "\nNot compared: the rows that the store had under the numbers of these duplicates were compacted.\n\n\
                1:1-3, 2:1\n";
    assert!(told.contains(said), "{told}");
}

/// What policy and state said first stays, of a logged row and of a held one.
#[test]
fn a_duplicate_with_another_answer_is_named() {
    let folder = Folder::new("answers");
    folder.write(
        "a.txt",
        "10 0 1 1 - x denied\n20 0 1 3 - y denied\n30 0 2 1 - z",
    );
    folder.refused("join s.store a.txt");
    folder.write(
        "b.txt",
        "10 0 1 1 - x denied\n20 0 1 3 - y denied\n30 0 2 1 - z",
    );
    folder.well("join s.store b.txt");
    folder.write(
        "b.txt",
        "10 0 1 1 - x\n20 0 1 3 - y invalid/2\n30 0 2 1 - z malformed",
    );
    assert!(folder
        .well("held s.store")
        .contains("  y        denied  20/0/1"));
    let told = folder.refused("join s.store b.txt");
    for named in [
        "1:1 has other content or another answer\n    logged  10 0 1 1  -  \"x\"  denied\n    came    10 0 1 1  -  \"x\"\n",
        "    held    20 0 1 3  -  \"y\"  denied\n    came    20 0 1 3  -  \"y\"  invalid/2\n",
        "    logged  30 0 2 1  -  \"z\"\n    came    30 0 2 1  -  \"z\"  malformed\n",
    ] {
        assert!(told.contains(named), "{told}");
    }
}

/// A held row whose number was passed by a row that a program inserted: first a duplicate differs from both, then the
/// held one is dropped.
#[test]
fn a_row_that_is_dropped_is_named() {
    let folder = Folder::new("dropped");
    folder.write("a.txt", "10 0 1 2 - held\n11 0 2 2 2:1,3:1 far");
    folder.well("join s.store a.txt --time 1000");
    let file = folder.0.join("s.store");
    let mut store = load(&file).expect("a store");
    for seq in [1, 2] {
        let row = Row::new(Timestamp::new(seq, 0, ActorId(1)), seq, "own");
        store
            .insert(&Slot::logged(&row).expect("a row"))
            .expect("room");
    }
    let far = Row::new(Timestamp::new(5, 0, ActorId(2)), 2, "own");
    store
        .insert(&Slot::logged(&far).expect("a row"))
        .expect("room");
    store.save(&file).expect("a file");
    folder.write("b.txt", "12 0 2 2 - other");
    let told = folder.refused("join s.store b.txt --time 2000");
    let dropped = "b.txt 1: 1:2 waited since 1970-01-01 00:00:01.000 UTC for -; under its number the store has now\n    \
                   2 0 1 2  -  \"own\"\n  and not\n    10 0 1 2  -  \"held\"\n";
    assert!(
        told.contains("\nDropped: ") && told.contains(dropped),
        "{told}"
    );
    for there in [
        "logged  5 0 2 2  -  \"own\"",
        "held    11 0 2 2  2:1,3:1  \"far\"",
    ] {
        assert!(told.contains(there), "{told}");
    }
}

#[test]
fn a_row_that_is_rejected_or_stale_is_named() {
    let folder = Folder::new("rejected");
    folder.write(
        "a.txt",
        "10 0 1 1 - one denied\n30 0 2 1 1:2 late invalid/9\n31 0 2 2 - after",
    );
    folder.write("b.txt", "20 0 1 2 - two");
    let told = folder.refused("join s.store a.txt");
    assert!(
        told.contains("a.txt 1  1:1  denied  one      10/0/1\n"),
        "{told}"
    );
    // A held row is named when it is logged.
    let told = folder.refused("join s.store b.txt");
    assert!(
        told.contains("b.txt 1  2:1  invalid/9  late     30/0/2\n"),
        "{told}"
    );
    folder.well("floor s.store 50/0/9");
    folder.write("c.txt", "40 0 3 1 - \"old = alt\" denied\n60 0 3 2 - new");
    let told = folder.refused("join s.store c.txt");
    assert!(
        told.contains("c.txt 1  3:1  stale  old = alt  40/0/3\n"),
        "{told}"
    );
}

/// The last counter of a time is folded in once. What comes after it at that time is merged, and named.
#[test]
fn a_stamp_that_the_clock_refuses_is_named() {
    let folder = Folder::new("unfolded");
    folder.write(
        "a.txt",
        "3000 4294967294 1 1 - \"Kette = chain\"\n3000 4294967294 1 2 - \"Rad = wheel\" denied\n\
         2999 0 2 2 - \"Felge = rim\"\n3001 7 1 3 - \"Nabe = hub\"",
    );
    golden!(
        "join-unfolded.txt",
        folder.refused("join s.store a.txt --time 2000")
    );
    // Once more they are duplicates, and the clock begins above the store's latest stamp, 3001/7, which has counters left.
    let told = folder.well("join s.store a.txt --time 2000");
    assert!(!told.contains("Refused by the clock"), "{told}");
    // At its very time, and when it is past.
    folder.write("b.txt", "3000 4294967294 1 1 - x\n3000 4294967294 1 2 - y");
    for (time, unfolded) in [(2999, true), (3000, true), (3001, false)] {
        let line = format!("join {time}.store b.txt --time {time}");
        let answer = folder.run(&line).expect("an answer");
        assert_eq!(answer.well, !unfolded, "{line}: {}", answer.text);
        assert_eq!(
            answer.text.contains("\nRefused by the clock: "),
            unfolded,
            "{}",
            answer.text
        );
        assert!(
            answer.text.contains(": 2 rows logged, 2 of them now; "),
            "{}",
            answer.text
        );
    }
    // Each order of files has a clock of its own.
    let told = folder.well("compare b.txt --time 2000");
    let named = "b.txt 1, line 2: 1:2, refusal 19, counter overflow; ";
    assert_eq!(told.matches(named).count(), 2, "{told}");
}

/// A clock that lets stamps be less far ahead than the batch call does, as that of a command never is.
#[test]
fn a_stamp_too_far_ahead_for_the_clock_is_named() {
    let folder = Folder::new("strict");
    folder.write("a.txt", "9000 0 1 1 - x\n5000 0 1 2 - y");
    let desk = Desk::read(&folder.0.join("a.txt")).expect("a desk");
    let settings = Settings {
        time_ms: 1000,
        replay: false,
        limits: Limits::new(),
    };
    let mut store = Store::with_capacity(2).expect("a store");
    let (mut clock, _) = settings.clock(None);
    clock.set_max_drift(4000);
    let told = calls::offer(&mut store, &mut clock, [&desk].into_iter(), &settings);
    let told = told.expect("an answer");
    assert!(!told[0].well());
    let named = "\n\na.txt 1, line 1: 1:1, refusal 20, remote ahead: remote wall 9000, physical time 1000; a stamp that is \
                 issued here may be below it\n    9000 0 1 1  -  \"x\"\n";
    let text = show::reports(&told);
    assert!(text.ends_with(named), "{text}");
    assert_eq!(clock.last(), (5000, 1));
}

/// One clock goes from batch to batch, over all files, and the next command begins with the store's latest stamp.
#[test]
fn a_clock_goes_from_batch_to_batch() {
    let folder = Folder::new("carried");
    let row = "3000 4294967292 1 1 - x";
    folder.write("a.txt", format!("{row}\n---\n{row}"));
    folder.write("b.txt", format!("{row}\n---\n5 0 1 0 - zero\n---\n{row}"));
    let told = folder.refused("join s.store a.txt b.txt --time 2000");
    let named = "\nb.txt 3, line 5: 1:1, refusal 19, counter overflow; there may be no stamp above it up to 1970-01-01 \
                 00:00:03.000 UTC\n    3000 4294967292 1 1  -  \"x\"\n";
    assert!(told.contains(named), "{told}");
    assert_eq!(told.matches("refusal 19").count(), 1, "{told}");
    folder.well("join s.store a.txt --time 2000");
    folder.refused("join s.store a.txt a.txt --time 2000");
}

/// 20 and 19, of a row and of the floor. The join goes on, and all is well.
#[test]
fn a_latest_stamp_that_the_clock_refuses_is_said() {
    let folder = Folder::new("without");
    folder.write("ahead.txt", "70000 0 2 1 - x");
    folder.write("b.txt", "10 0 9 1 - y");
    folder.well("join s.store ahead.txt --time 2000 --drift 1d");
    let told = folder.well("join s.store b.txt --time 2000");
    let said = "\nThe clock began without the store's latest stamp, 70000/0/2 of logged row 2:1: its time, 1970-01-01 \
                00:01:10.000 UTC, is\nfurther ahead of the time of this command than --drift allows. The join goes \
                on all the same.\n\
                s.store: 2 rows logged, 1 of them now; 0 held; written.\n";
    assert!(told.contains(said), "{told}");
    for line in [
        "join s.store b.txt --time 9999",
        "join s.store b.txt --time 2000 --drift 67s",
    ] {
        let told = folder.well(line);
        assert!(
            told.contains("\nThe clock began without "),
            "{line}: {told}"
        );
    }
    for line in [
        "join s.store b.txt --time 10000",
        "join s.store b.txt --time 2000 --drift 68s",
    ] {
        let told = folder.well(line);
        assert!(!told.contains("The clock began without "), "{line}: {told}");
    }
    folder.well("floor s.store 80000/4294967295/2");
    let told = folder.well("join s.store b.txt --time 80000");
    let said = "\nThe clock began without the store's latest stamp, 80000/4294967295/2 of the floor: its time, \
                1970-01-01 00:01:20.000\nUTC, is not past yet, and its counter is the last that there is, \
                4,294,967,295. The join goes on all the same.\n";
    assert!(told.contains(said), "{told}");
    let told = folder.well("join s.store b.txt --time 80001");
    assert!(!told.contains("The clock began without "), "{told}");
}

/// All rows of a refused batch, those that the refusal names, and the held one that they conflict with.
#[test]
fn a_row_that_is_left_out_is_named() {
    let folder = Folder::new("out");
    folder.write("a.txt", "10 0 1 2 - \"Kette = chain\"");
    folder.well("join s.store a.txt");
    folder.write(
        "b.txt",
        "5 0 1 1 - first\n10 0 1 2 - \"Kette = cable\" denied",
    );
    let told = folder.refused("join s.store b.txt");
    let named = "b.txt 1: refusal 13, conflict: author 1, sequence 2\n    \
                 line 2: 10 0 1 2  -  \"Kette = cable\"  denied\n    \
                 held: 10 0 1 2  -  \"Kette = chain\"\n";
    assert!(told.contains(named), "{told}");
    let left_out = "Left out with them:\n\n\
                    b.txt 1, line 1: 5 0 1 1  -  \"first\"\n\
                    b.txt 1, line 2: 10 0 1 2  -  \"Kette = cable\"  denied\n";
    assert!(told.contains(left_out), "{told}");
}

/// A line, its field, the size and the limit.
#[test]
fn what_does_not_fit_a_batch_is_named() {
    let folder = Folder::new("sizes");
    let deps = |count: usize| {
        (1..=count)
            .map(|author| format!("{author}:1"))
            .collect::<Vec<_>>()
            .join(",")
    };
    let rows = [
        ("1 0 1 1 - x".to_owned(), None),
        (format!("1 0 1 1 - {}", "x".repeat(300)), Some("4, over capacity\n    line 3: the payload has 300 bytes, at most 256\n")),
        (format!("1 0 1 1 {} x", deps(17)), Some("4, over capacity\n    line 3: the row has 17 dependencies, at most 16\n")),
        (
            format!("1 0 1 1 - {} signature/{}", "x".repeat(257), "00".repeat(65)),
            Some("4, over capacity\n    line 3: the payload has 257 bytes, at most 256\n    line 3: the signature has 65 bytes, at most 64\n"),
        ),
        ("1 0 1 1 2:1,2:2 x".to_owned(), Some("3, unreadable\n    line 3: the authors of the dependencies 2:1,2:2 do not rise\n")),
    ];
    for (row, named) in rows {
        folder.write(
            "a.txt",
            format!("# a comment\n\n{row}\n2 0 2 1 - y\n---\n3 0 3 1 - z"),
        );
        let told = folder.run("join s.store a.txt").expect("an answer");
        match named {
            Some(named) => {
                let named = format!("\na.txt 1: refusal {named}");
                assert!(!told.well && told.text.contains(&named), "{}", told.text);
                // The other row of the batch is left out, and the next batch goes on.
                assert!(
                    told.text.contains("a.txt 1, line 4: 2 0 2 1  -  \"y\"\n"),
                    "{}",
                    told.text
                );
                assert!(
                    told.text.contains("1 row logged, 1 of them now"),
                    "{}",
                    told.text
                );
            }
            None => assert!(told.well, "{}", told.text),
        }
        fs::remove_file(folder.0.join("s.store")).expect("a store");
    }
}

/// Rejected in one store, rejected in the other.
#[test]
fn fates_go_from_store_to_store() {
    let folder = Folder::new("fates");
    folder.write(
        "a.txt",
        "10 0 1 1 - one\n20 0 1 2 - two denied\n30 0 1 3 - three unknown/7",
    );
    folder.refused("join s.store a.txt");
    let log = folder.well("log s.store");
    for line in [
        "0  applied    10/0/1",
        "1  denied     20/0/1",
        "2  unknown/7  30/0/1",
    ] {
        assert!(log.contains(line), "{log}");
    }
    folder.write("none.txt", "");
    folder.well("join t.store none.txt");
    folder.well("delta s.store t.store --out out.txt");
    folder.refused("join t.store out.txt");
    assert_eq!(folder.well("log t.store"), log);
    let told = folder.well("check t.store");
    let fates = "fates      1 applied, 2 rejected, 0 stale, 0 not known\n";
    assert!(told.contains(fates), "{told}");
}

/// Of a stale row no answer is kept, and a batch cannot say that.
#[test]
fn a_delta_says_which_answers_it_does_not_know() {
    let folder = Folder::new("unanswered");
    folder.write("none.txt", "");
    folder.well("join t.store none.txt");
    folder.well("join s.store none.txt");
    folder.well("floor s.store 15/0/1");
    folder.write("a.txt", "10 0 1 1 - one denied\n20 0 1 2 - two");
    folder.refused("join s.store a.txt");
    folder.well("delta s.store t.store");
    let told = folder.refused("delta s.store t.store --out out.txt");
    let said = "1:1 is written as fitting: its fate is stale, and its answer is not kept\n";
    assert!(
        told.ends_with(&format!("Written to out.txt: 1 batch.\n{said}")),
        "{told}"
    );
    let out = String::from_utf8(folder.read("out.txt")).expect("a text");
    assert!(
        out.starts_with(&format!("# {said}10 0 1 1  -  \"one\"\n")),
        "{out}"
    );
    folder.well("join t.store out.txt");
}

/// What a file of the old version does not know is said.
#[test]
fn a_file_of_version_1_is_read() {
    let folder = Folder::new("version1");
    let golden = include_bytes!("../../../cuwelfra/golden/version-1.store");
    folder.write("old.store", golden);
    let log = folder.well("log old.store");
    assert!(
        log.contains(" fates are not known: a file of version 1 kept none.\n"),
        "{log}"
    );
    folder.write("none.txt", "");
    folder.well("join t.store none.txt");
    let told = folder
        .run("delta old.store t.store --out out.txt")
        .expect("an answer");
    assert!(
        !told.well
            && told.text.contains(
                " is written as fitting: its fate is not known, and its answer is not kept\n"
            ),
        "{}",
        told.text
    );
    // What is logged from now on is known, also in a file of the new version.
    folder.write("a.txt", "1000000 0 9 1 - new denied");
    folder.refused("join old.store a.txt");
    let log = folder.well("log old.store");
    assert!(
        log.contains("  denied     1000000/0/9") && log.contains("  not known  "),
        "{log}"
    );
}

/// Paths in commands that are suggested are quoted, so that they can be run.
#[test]
fn suggested_commands_quote_paths() {
    let folder = Folder::with_stores("quoted");
    let bare = |text: &str| text.replace(&format!("{}/", folder.0.display()), "");
    fs::rename(folder.0.join("ab.store"), folder.0.join("a b's.store")).expect("a store");
    let file = folder.0.join("a b's.store").into_os_string();
    let words = |words: &[&str]| words.iter().map(Into::into).collect::<Vec<OsString>>();
    let compact = [
        words(&["compact"]),
        vec![file.clone()],
        words(&["--cutoff", "1:3,2:2"]),
    ]
    .concat();
    let told = run(compact).expect("an answer").text;
    assert!(
        bare(&told).contains("./run floor 'a b'\\''s.store' 1030/0/1\n"),
        "{told}"
    );
    let join = [
        words(&["join"]),
        vec![file],
        words(&[DESK_A, "--time", "2500"]),
    ]
    .concat();
    let told = run(join).expect("an answer").text;
    assert!(
        bare(&told).contains("./run held 'a b'\\''s.store' shows them.\n"),
        "{told}"
    );
}
