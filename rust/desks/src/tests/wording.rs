//! The words that commands take, and the help.

use super::*;

#[test]
fn explaining() {
    let folder = Folder::new("explain");
    let one = folder.well("explain 13");
    assert!(
        one.starts_with("13, conflict: author, sequence\n    "),
        "{one}"
    );
    assert!(one.contains("take the other out of its file"), "{one}");
    assert!(!one.contains("No command meets it"), "{one}");
    let all = folder.well("explain");
    let titles = all
        .lines()
        .filter(|line| line.starts_with(|first: char| first.is_ascii_digit()));
    assert_eq!(titles.count(), 30);
    assert!(all.contains(&one));
    assert!(!all.to_lowercase().contains("document"), "{all}");
    for number in (1..=20).chain(26..=28) {
        let told = folder.well(&format!("explain {number}"));
        assert!(!told.contains("No command meets it"), "{told}");
    }
    let large = folder.well("explain 26");
    assert!(
        large.starts_with("26, operation too large\n    "),
        "{large}"
    );
    assert!(large.contains("a 17th author"), "{large}");
    let pong = folder.well("explain 21");
    assert!(pong.contains("No command meets it"), "{pong}");
    let overlong = folder.well("explain 30");
    assert!(overlong.starts_with("30, overlong\n    "), "{overlong}");
    assert!(overlong.contains("No command meets it"), "{overlong}");
    for none in ["0", "31", "x", "+1"] {
        let told = folder.fails(&format!("explain {none}"));
        assert_eq!(
            told,
            format!("`{none}` is no refusal; ./run explain lists them")
        );
    }
}

#[test]
fn wrong_words() {
    let folder = Folder::with_stores("words");
    folder.write("bad.txt", "1 0 1 1 - x\n1 0 1 2 -");
    folder.write("good.txt", "1 0 1 1 - x");
    let span = "span of time: a whole number of ms, or of s, m, h or d with that letter behind it";
    let compact = "write ./run compact STORE [STAMP] [--dry-run] [--force] [--cutoff FRONTIER...]";
    let delta =
        "write ./run delta FROM TO [--rows N] [--bytes N] [--out FILE | --sizes [--sender N] [--signature N]]";
    let add = "write ./run add STORE --author N PAYLOAD... [--time MS] [--drift SPAN] [--force]";
    let faults = [
        ("merge", "no command merge; --help lists them"),
        ("join", "write ./run join STORE FILE... [TIMES]"),
        ("join a.store", "write ./run join STORE FILE... [TIMES]"),
        (
            "join a.store - -",
            "- stands for standard input, which is read once",
        ),
        (
            "join a.store DESK_A --time soon",
            "`soon` is no time, which is a whole number of ms below 2^64",
        ),
        ("join a.store DESK_A --age 1w", &format!("`1w` is no {span}")),
        ("join a.store DESK_A --drift -1", &format!("`-1` is no {span}")),
        ("log", "write ./run log STORE"),
        ("log -", "`-` is no name of a store; ./- is"),
        ("join - good.txt", "`-` is no name of a store; ./- is"),
        ("log a.store ab.store", "write ./run log STORE"),
        (
            "log --all",
            "no option --all here, or it stands twice; --help lists them. Behind -- a word is no option, whatever it \
             begins with",
        ),
        ("add", add),
        ("add a.store", &format!("--author is missing; {add}")),
        ("add a.store x", &format!("--author is missing; {add}")),
        ("add a.store --author 1", &format!("no payload is given; {add}")),
        ("add a.store --author=1 x", "write --author 1, not --author=1"),
        ("add a.store --author 1 --time=5 x", "write --time 5, not --time=5"),
        ("join a.store good.txt --time=5", "write --time 5, not --time=5"),
        (
            "add a.store --author 1 x --x=5",
            "no option --x=5 here, or it stands twice; --help lists them. Behind -- a word is no option, whatever it \
             begins with",
        ),
        ("add a.store x --author", add),
        ("add - --author 1 x", "`-` is no name of a store; ./- is"),
        (
            "add a.store --author me x",
            "`me` is no author, which is a whole number below 2^64",
        ),
        (
            "add a.store --author 1 --author 2 x",
            "no option --author here, or it stands twice; --help lists them. Behind -- a word is no option, whatever it \
             begins with",
        ),
        (
            "add a.store --author 1 \"x",
            "the word `\"x`: a double quote is not closed",
        ),
        (
            "add a.store --author 1 \"x\"y",
            "the word `\"x\"y`: text stands behind its closing double quote; inside, a double quote is written \\\"",
        ),
        (
            "add a.store --author 1 Kette = chain",
            "the word `=`: a payload without letter or digit. Of what has blanks a shell makes one word by quotes: \
             'Kette = chain'. Where this is meant, it stands in double quotes inside them: '\"=\"'",
        ),
        (
            "add a.store --author 1 Kette denied",
            "the word `denied`: no payload, but what a file has behind one. `add` takes no answer and no `unverified`, and \
             signature/HEX as a word of its own. If it is meant as payload, it stands in double quotes inside the \
             shell's: '\"denied\"'",
        ),
        (
            "add a.store --author 1 signature/00 x",
            "the word `signature/00`: a signature stands behind its payload",
        ),
        (
            "add a.store --author 1 x signature/0",
            "the word `signature/0`: `0` is no signature, which is two hexadecimal digits a byte",
        ),
        (
            "delta a.store ab.store --rows",
            delta,
        ),
        (
            "delta a.store ab.store --sizes --out out.txt",
            &format!("--sizes only counts, so --out cannot stand beside it; {delta}"),
        ),
        (
            "delta a.store ab.store --sender 7",
            &format!("--sender and --signature go with --sizes alone; {delta}"),
        ),
        (
            "delta a.store ab.store --signature 0 --out out.txt",
            &format!("--sender and --signature go with --sizes alone; {delta}"),
        ),
        ("delta a.store ab.store --sizes --sender", delta),
        (
            "delta a.store ab.store --sizes --sender me",
            "`me` is no whole number below 2^64",
        ),
        (
            "delta a.store ab.store --sizes --signature=64",
            "write --signature 64, not --signature=64",
        ),
        (
            "delta a.store ab.store --rows many",
            "`many` is no whole number below 2^64",
        ),
        ("compact", compact),
        (
            "compact a.store --force",
            "name a STAMP to compact to, or with --cutoff how far each peer has acknowledged",
        ),
        (
            "delta a.store ab.store --out -",
            "`-` is no name of a file to write; ./- is",
        ),
        ("pack good.txt -", "`-` is no name of a file to write; ./- is"),
        ("compact a.store --cutoff", compact),
        ("compact a.store --cutoff --force", compact),
        (
            "compact a.store 1/2",
            "`1/2` is no stamp, which is written WALL/COUNTER/AUTHOR",
        ),
        (
            "floor a.store 1/4294967296/1",
            "`1/4294967296/1` is no stamp, which is written WALL/COUNTER/AUTHOR",
        ),
        ("floor", "write ./run floor STORE [STAMP]"),
        ("cutoff a.store", "write ./run cutoff STORE FRONTIER..."),
        ("explain 1 2", "write ./run explain [NUMBER]"),
        ("pack bad.txt", "write ./run pack FILE OUT"),
        ("unpack", "write ./run unpack FILE..."),
        (
            "unpack - -",
            "- stands for standard input, which is read once",
        ),
        ("compare", "write ./run compare FILE... [TIMES]"),
        ("help me", "write ./run help"),
    ];
    for (line, told) in faults {
        assert_eq!(folder.fails(line), told, "{line}");
    }
    let told = folder.fails("join a.store DESK_A bad.txt");
    assert!(told.starts_with("bad.txt, line 2: 5 words; "), "{told}");
    let told = folder.fails("join a.store no.txt");
    assert!(told.starts_with("no.txt: cannot read it: "), "{told}");
    assert!(run(Vec::new()).is_err());
}

/// Behind -- an option is a name.
#[test]
fn names_that_begin_with_a_dash() {
    let folder = Folder::new("dash");
    for line in ["log -- --help", "log -- -h", "log -- --version"] {
        let told = folder.fails(line);
        assert!(told.contains(": cannot open the file: "), "{told}");
    }
    folder.write("one.txt", "1 0 1 1 - x");
    folder.well("join -- a.store one.txt");
    let told = folder.well("compact a.store --cutoff 1:1 -- 1:1");
    assert!(told.contains("1 row at or below 1/0/1 removed"), "{told}");
}

#[test]
fn the_help() {
    let folder = Folder::new("help");
    let help = folder.well("help");
    assert_eq!(folder.well("--help"), help);
    assert_eq!(folder.well("join -h"), help);
    for (name, words) in crate::commands::names() {
        let line = format!("./run {name} {words}");
        let listed = help.lines().any(|help| help.starts_with(line.trim_end()));
        assert!(listed || name == "example", "{line}");
    }
    assert!(help.lines().all(|line| line.chars().count() <= 120));
    let version = concat!("cuwelfra ", env!("CARGO_PKG_VERSION"), "\n");
    assert_eq!(folder.well("--version"), version);
}

/// Neither a word of a file nor a file's name does anything to a terminal.
#[test]
fn nothing_from_outside_is_printed_raw() {
    let folder = Folder::new("raw");
    let name = "\u{1b}[31mred\u{202e}.txt";
    let words = [
        "1 0 1 1 - x \u{1b}[2J",
        "\u{1b}]0;x\u{7} 0 1 1 - x",
        "1 0 1 1 \u{9b}1m x",
        "1 0 1 1 - \"\\\u{1b}c\"",
        "1 0 1 1 - x signature/\u{1b}",
        "1 0 1 1 - \"\u{1b}c \u{202e}\" denied",
        "1 0 1 1 - \"\u{1b}c \u{202e}\" unverified",
        "1 0 1 2 - \"\u{1b}c \u{202e}\"",
    ];
    for text in words {
        folder.write(name, text);
        for line in [
            format!("join a.store {name}"),
            format!("join {name} {name}"),
            format!("compare {name}"),
            format!("pack {name} {name}"),
            format!("log {name}"),
            format!("\u{1b}c {name}"),
            format!("log --\u{1b}c {name}"),
            format!("join a.store {name} --time \u{1b}c"),
            format!("add {name} --author 7 x"),
            "add a.store --author 7 \u{1b}c\u{202e}".to_owned(),
            "add a.store --author 7 \"\u{1b}c".to_owned(),
            "add a.store --author 7 x signature/\u{1b}".to_owned(),
            "add a.store --author \u{1b}c x".to_owned(),
            format!("add a.store --author 7 \u{1b}c{}", "x".repeat(256)),
            "log a.store".to_owned(),
            "held a.store".to_owned(),
        ] {
            let told = match folder.run(&line) {
                Ok(answer) => answer.text,
                Err(told) => told,
            };
            let raw = |letter: char| letter.is_control() && letter != '\n' || letter == '\u{202e}';
            assert!(!told.contains(raw), "{line:?}: {told:?}");
        }
        fs::remove_file(folder.0.join("a.store")).ok();
    }
}
