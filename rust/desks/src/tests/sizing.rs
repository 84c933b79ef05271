//! What a delta takes when it is sent.

use cuwelfra::{ActorId, Envelope, Message, VectorClock};

use super::*;
use crate::store::load;
use crate::table::paragraph;

/// What is said behind the table, for this sender and so many bytes of signature.
fn named(sender: u64, signature: &str) -> String {
    let one = format!(
        "The bytes are those of each Delta message in its envelope, from sender {sender} and with a signature of \
         {signature}. Name others with --sender N and --signature N; a sender's number takes 1 to 10 bytes."
    );
    paragraph(&one)
}

/// Two rows of 14 and 18 bytes: stamp 4, author and number 2, dependencies 1 and 3, payloads 6 and 8, signature 1. A
/// message has 2 bytes more, its envelope one for its length, one for the sender, and here 65 for the signature.
#[test]
fn a_table_of_sizes() {
    let folder = Folder::new("sizes");
    folder.well("add s.store --author 1 Kette Speiche --time 2000");
    let lacks = "A store that has nothing lacks 2 rows of s.store.\n\nchunk  rows  bytes\n-----  ----  -----\n";
    let each = "    1     1     83\n    2     1     87\n  sum     2    170\n\n";
    let told = folder.well("delta s.store - --sizes --rows 1");
    assert_eq!(told, format!("{lacks}{each}{}", named(0, "64 bytes")));
    // A row counts with its bytes that are signed and 16 for --bytes: the second with 33.
    for limits in ["--rows 0", "--bytes 0", "--bytes 61"] {
        assert_eq!(
            folder.well(&format!("delta s.store - --sizes {limits}")),
            told
        );
    }

    let both = "    1     2    101\n  sum     2    101\n\n";
    let told = folder.well("delta s.store - --sizes --bytes 62");
    assert_eq!(told, format!("{lacks}{both}{}", named(0, "64 bytes")));
    assert_eq!(folder.well("delta s.store - --sizes"), told);
    // 300 takes a byte more than 0, no signature 64 less.
    let both = "    1     2     38\n  sum     2     38\n\n";
    let told = folder.well("delta s.store - --sender 300 --signature 0 --sizes");
    assert_eq!(told, format!("{lacks}{both}{}", named(300, "0 bytes")));
    let told = folder.well("delta s.store - --sizes --signature 1");
    assert!(told.ends_with(&named(0, "1 byte")), "{told}");
}

/// The chunks of a table, and its sums.
fn table(told: &str) -> (Vec<(usize, usize)>, (usize, usize)) {
    let lines = told.lines().skip_while(|line| !line.starts_with("-----"));
    let lines = lines.skip(1).take_while(|line| !line.is_empty());
    let mut lines: Vec<Vec<&str>> = lines
        .map(|line| line.split_whitespace().collect())
        .collect();
    let size = |cells: &[&str]| {
        let number = |i: usize| cells[i].parse().expect("a number");
        (number(1), number(2))
    };
    let sum = lines.pop().expect("a last line");
    assert_eq!(sum[0], "sum", "{told}");
    for (i, cells) in (1..).zip(&lines) {
        assert_eq!(cells[0].parse(), Ok(i), "{told}");
    }
    (lines.iter().map(|cells| size(cells)).collect(), size(&sum))
}

/// The table has the bytes of the envelopes that are written.
#[test]
fn sizes_are_those_of_what_is_written() {
    let folder = Folder::with_stores("sent");
    folder.well("add ab.store --author 9 Kette signature/00112233 Rad --time 2000");
    let store = load(&folder.0.join("ab.store")).expect("a store");
    let clock = load(&folder.0.join("a.store")).and_then(|store| Ok(store.clock()?));
    let peers = [
        ("-", VectorClock::new()),
        ("a.store", clock.expect("a clock")),
    ];
    for (to, clock) in peers {
        for (rows, bytes) in [(64, u64::MAX), (3, u64::MAX), (64, 90), (2, 100), (1, 0)] {
            for (sender, sig_len) in [
                (0, 64),
                (127, 0),
                (128, 127),
                (u64::MAX, 128),
                (1 << 32, 1_024),
            ] {
                let delta = store.delta(&clock).expect("a delta");
                let chunks = delta.chunks(rows, bytes).expect("chunks");
                let frames = chunks.into_iter().map(|chunk| {
                    let rows = chunk.len();
                    let body = Message::Delta(chunk).encode().expect("a message");
                    let sig = vec![7; sig_len];
                    let envelope = Envelope {
                        sender: ActorId(sender),
                        body: &body,
                        sig: &sig,
                    };
                    let mut frame = vec![0; 65_536];
                    (rows, envelope.encode(&mut frame).expect("an envelope"))
                });
                let frames: Vec<(usize, usize)> = frames.collect();
                let line = format!(
                    "delta ab.store {to} --sizes --rows {rows} --bytes {bytes} --sender {sender} --signature {sig_len}"
                );
                let (sizes, sum) = table(&folder.well(&line));
                assert_eq!(sizes, frames, "{line}");
                let frames = frames.iter();
                let sums = frames.fold((0, 0), |(rows, bytes), frame| {
                    (rows + frame.0, bytes + frame.1)
                });
                assert_eq!(sum, sums, "{line}");
            }
        }
    }
}

/// A chunk of more than 64 rows is counted, and is no message.
#[test]
fn a_chunk_above_64_rows() {
    let folder = Folder::new("large");
    let row = |seq| format!("{} 0 1 {seq} - p\n", 1_000 + seq);
    folder.write("rows.txt", (1..=200).map(row).collect::<String>());
    folder.well("join s.store rows.txt");
    let told = folder.well("delta s.store - --sizes");
    let rows = |told: &str| table(told).0.iter().map(|size| size.0).collect::<Vec<_>>();
    assert_eq!(rows(&told), [64, 64, 64, 8]);
    assert!(told.ends_with(&named(0, "64 bytes")), "{told}");
    let cases = [
        (65, vec![65, 65, 65, 5], "Chunks 1, 2, 3 have"),
        (136, vec![136, 64], "Chunk 1 has"),
        (200, vec![200], "Chunk 1 has"),
    ];
    for (most, lens, have) in cases {
        let told = folder.refused(&format!("delta s.store - --sizes --rows {most}"));
        assert_eq!(rows(&told), lens);
        let said = format!(
            "{have} more than 64 rows, which no message takes: writing one is refused with 4. --rows 64 or less avoids it."
        );
        let said = format!("{}\n{}", named(0, "64 bytes"), paragraph(&said));
        assert!(told.ends_with(&said), "{told}");
    }
    // 127 rows have numbers of one byte, 73 of two; all wall times have two.
    let body = 1 + 2 + 127 * (4 + 2 + 1 + 2 + 1) + 73 * (4 + 3 + 1 + 2 + 1);
    let told = folder.refused("delta s.store - --sizes --rows 200");
    assert_eq!(table(&told).1, (200, 1 + 2 + body + 65));
}

#[test]
fn nothing_to_send() {
    let folder = Folder::with_stores("none");
    let nothing = "ab.store lacks 0 rows of a.store.\nNothing is sent: 0 chunks, 0 bytes.\n";
    let told = folder.well("delta a.store ab.store --sizes");
    assert!(told.starts_with(nothing), "{told}");
}

/// What a delta says otherwise is said with sizes too, and the status goes by it.
#[test]
fn sizes_say_what_a_delta_says() {
    let folder = Folder::with_stores("said");
    let ends = |line: &str| {
        let whole = folder.run(line).expect("an answer");
        let sizes = folder.run(&format!("{line} --sizes")).expect("an answer");
        assert_eq!(whole.well, sizes.well, "{line}");
        assert_eq!(whole.text.lines().next(), sizes.text.lines().next());
        sizes.text
    };
    let told = ends("delta ab.store a.store");
    let held = "\nA delta has logged rows alone, not the 1 held row of ab.store.\n";
    assert!(
        told.ends_with(&format!("{}{held}", named(0, "64 bytes"))),
        "{told}"
    );
    folder.write("a.txt", "10 0 1 1 - a\n20 0 1 2 - b");
    folder.write("b.txt", "10 0 1 1 - other");
    folder.well("join one.store a.txt");
    folder.well("join two.store b.txt");
    let told = ends("delta one.store two.store");
    let other =
        "\nUnder these numbers one.store and two.store have other content or another fate:\n";
    assert!(told.contains(other), "{told}");
    folder.well("compact ab.store 1010/0/1 --force");
    let told = ends("delta ab.store two.store");
    let compacted = "\nThese are not all: ab.store has compacted rows that two.store lacks.";
    assert!(told.contains(compacted), "{told}");
}

/// The library says what is too long, also where nothing is sent.
#[test]
fn a_signature_that_no_envelope_has() {
    let folder = Folder::with_stores("long");
    for to in ["-", "ab.store"] {
        let line = format!("delta ab.store {to} --sizes --signature");
        folder.well(&format!("{line} 1024"));
        for sig_len in ["1025", "18446744073709551615"] {
            let told = folder.fails(&format!("{line} {sig_len}"));
            let said = "a call was refused: refusal 4, over capacity. ";
            let advice = "With `./run delta --sizes`, name a --signature of at most 1,024 bytes.";
            assert!(told.starts_with(said) && told.contains(advice), "{told}");
        }
    }
}
