//! The program as a shell starts it: standard input, the screen, and what it leaves with.

use std::ffi::OsStr;
use std::fs::{self, File};
use std::io::{self, Read, Write};
use std::os::unix::ffi::OsStrExt;
use std::path::PathBuf;
use std::process::{Command, Output, Stdio};
use std::time::UNIX_EPOCH;

const PROGRAM: &str = env!("CARGO_BIN_EXE_desks");

/// A folder of its own for a test, removed after it.
struct Folder(PathBuf);

impl Folder {
    fn new(name: &str) -> Self {
        let name = format!("cuwelfra-program-{}-{name}", std::process::id());
        let folder = std::env::temp_dir().join(name);
        fs::create_dir_all(&folder).expect("a folder");
        Self(folder)
    }

    /// Starts the program in this folder with words that are apart by blanks.
    fn command(&self, line: &str) -> Command {
        let mut command = Command::new(PROGRAM);
        command.current_dir(&self.0).args(line.split(' '));
        command
    }

    fn run(&self, line: &str) -> Output {
        self.command(line).output().expect("a program")
    }

    /// What it prints on a screen that has so many columns.
    fn on_screen(&self, line: &str, columns: &str) -> String {
        let screen = Command::new("script")
            .current_dir(&self.0)
            .env("COLUMNS", columns)
            .env("CUWELFRA_COMMAND", PROGRAM)
            .args(["-qec", &format!("{PROGRAM} {line}"), "/dev/null"])
            .stdin(Stdio::null())
            .output()
            .expect("util-linux's script");
        printed(&screen).replace('\r', "")
    }

    /// Runs it with this text as standard input.
    fn run_with(&self, line: &str, input: &str) -> Output {
        let mut child = self
            .command(line)
            .stdin(Stdio::piped())
            .stdout(Stdio::piped())
            .stderr(Stdio::piped())
            .spawn()
            .expect("a program");
        let mut stdin = child.stdin.take().expect("a pipe");
        stdin.write_all(input.as_bytes()).expect("a pipe to write");
        drop(stdin);
        child.wait_with_output().expect("an end")
    }
}

impl Drop for Folder {
    fn drop(&mut self) {
        fs::remove_dir_all(&self.0).expect("a folder to remove");
    }
}

fn printed(output: &Output) -> String {
    String::from_utf8(output.stdout.clone()).expect("a text")
}

fn said(output: &Output) -> String {
    String::from_utf8(output.stderr.clone()).expect("a text")
}

#[test]
fn standard_input_is_a_file() {
    let folder = Folder::new("input");
    let told = folder.run_with("join s.store -", "10 0 1 1 - \"Kette = chain\"\n");
    assert_eq!(told.status.code(), Some(0), "{}", said(&told));
    assert!(
        printed(&told).contains("\nstandard input 1     1        1 "),
        "{}",
        printed(&told)
    );
    assert!(printed(&folder.run("log s.store")).contains("Kette = chain"));
    // So does a pipe with a name, as a shell makes it.
    let piped = format!("{PROGRAM} join s.store <(echo '20 0 1 2 - x')");
    let told = Command::new("bash")
        .current_dir(&folder.0)
        .args(["-c", &piped])
        .output();
    assert_eq!(told.expect("a shell").status.code(), Some(0));
}

/// 0, 1 and 2, and 4 where the answer cannot be printed.
#[test]
fn each_status() {
    let folder = Folder::new("status");
    assert_eq!(
        folder
            .run_with("join s.store -", "10 0 1 1 - x\n")
            .status
            .code(),
        Some(0)
    );
    assert_eq!(
        folder
            .run_with("join s.store -", "20 0 1 2 - x denied\n")
            .status
            .code(),
        Some(1)
    );
    let told = folder.run_with(
        "join t.store - --time 2000",
        "3000 4294967294 1 1 - x\n3000 4294967294 1 2 - y\n",
    );
    assert_eq!(told.status.code(), Some(1));
    assert!(
        printed(&told).contains("\nRefused by the clock: "),
        "{}",
        printed(&told)
    );
    let told = folder.run_with("join s.store -", "20 0 1\n");
    assert_eq!((told.status.code(), printed(&told).as_str()), (Some(2), ""));
    assert!(
        said(&told).starts_with("./run: standard input, line 1: 3 words; "),
        "{}",
        said(&told)
    );
    let full = File::options()
        .write(true)
        .open("/dev/full")
        .expect("a device");
    let told = folder
        .command("log s.store")
        .stdout(full)
        .output()
        .expect("a program");
    assert_eq!(told.status.code(), Some(4));
    assert!(
        said(&told).contains("\n\nposition  fate "),
        "{}",
        said(&told)
    );
    assert!(
        said(&told).starts_with("./run: cannot print: "),
        "{}",
        said(&told)
    );
}

/// Rows at the machine's time; whole or not at all, and never below what is there.
#[test]
fn adding_rows() {
    let folder = Folder::new("adding");
    let add = |payloads: &[&OsStr]| {
        let mut command = folder.command("add s.store --author 7");
        command.args(payloads).output().expect("a program")
    };
    let before = UNIX_EPOCH.elapsed().expect("a time").as_millis();
    let told = add(&["Kette = chain".as_ref(), "Rad = wheel".as_ref()]);
    assert_eq!(told.status.code(), Some(0), "{}", said(&told));
    let log = printed(&folder.run("log s.store"));
    let walls = log.lines().filter_map(|line| {
        let (wall, _) = line.split_once("applied  ")?.1.split_once('/')?;
        wall.parse::<u128>().ok()
    });
    let walls: Vec<u128> = walls.collect();
    let after = UNIX_EPOCH.elapsed().expect("a time").as_millis();
    assert!(
        walls.len() == 2 && walls.iter().all(|wall| (before..=after).contains(wall)),
        "{log}"
    );
    let long = "p".repeat(300);
    let told = add(&["Felge = rim".as_ref(), long.as_ref()]);
    assert_eq!((told.status.code(), said(&told).as_str()), (Some(1), ""));
    assert!(
        printed(&told).contains("refusal 26, "),
        "{}",
        printed(&told)
    );
    let told = add(&["".as_ref()]);
    assert_eq!((told.status.code(), printed(&told).as_str()), (Some(2), ""));
    assert!(
        said(&told).starts_with("./run: the word ``: a payload without "),
        "{}",
        said(&told)
    );
    let told = add(&[OsStr::from_bytes(b"a\xff")]);
    assert_eq!(told.status.code(), Some(2));
    assert!(
        said(&told).starts_with("./run: the word `a\\xff`: not UTF-8 text"),
        "{}",
        said(&told)
    );
    assert_eq!(printed(&folder.run("log s.store")), log);
}

/// Suggested commands and errors begin as the command did.
#[test]
fn commands_are_suggested_as_they_were_given() {
    let folder = Folder::new("command");
    folder.run_with("join s.store -", "10 0 1 2 - x\n");
    let cases = [
        ("../a b/run", "'../a b/run' held s.store"),
        ("run", "run held s.store"),
    ];
    for (command, suggested) in cases {
        let told = folder
            .command("join s.store /dev/null")
            .env("CUWELFRA_COMMAND", command)
            .output()
            .expect("a program");
        assert!(
            printed(&told).contains(&format!("; {suggested} shows them.\n")),
            "{}",
            printed(&told)
        );
    }
    let told = folder
        .command("log no.store")
        .env("CUWELFRA_COMMAND", "/top/run")
        .output();
    let told = said(&told.expect("a program"));
    assert!(told.starts_with("/top/run: no.store: "), "{told}");
    // So do usage and advice.
    let texts = [
        ("add", "/top/run: write /top/run add STORE --author N "),
        ("explain 99", "; /top/run explain lists them"),
        ("explain 26", "no row by `/top/run add`: "),
        ("explain 14", ": `/top/run held` names it."),
    ];
    for (line, text) in texts {
        let told = folder
            .command(line)
            .env("CUWELFRA_COMMAND", "/top/run")
            .output()
            .expect("a program");
        let told = (printed(&told) + &said(&told)).replace("\n    ", " ");
        assert!(told.contains(text) && !told.contains("./run"), "{told}");
    }
}

/// Who reads nothing of an answer is told it all the same where a row is to be looked at.
#[test]
fn a_closed_pipe_hides_nothing() {
    let folder = Folder::new("pipe");
    folder.run_with("join s.store -", "10 0 1 2 - \"Kette = chain\"\n");
    fs::write(folder.0.join("none.batch"), [0]).expect("a batch without rows");
    let cases = [
        ("held s.store", 0),
        ("join s.store none.batch", 0),
        ("join s.store none.batch --time 99999999999999", 4),
    ];
    for (line, status) in cases {
        let (reader, writer) = io::pipe().expect("a pipe");
        drop(reader);
        let told = folder.command(line).stdout(writer).output();
        let told = told.expect("a program");
        assert_eq!(told.status.code(), Some(status), "{}", said(&told));
        assert_eq!(
            said(&told).contains("Kette = chain"),
            status == 4,
            "{}",
            said(&told)
        );
    }
}

/// A table is cut on a screen, and only there.
#[test]
fn a_screen_is_not_overrun() {
    let folder = Folder::new("screen");
    let term = "Donaudampfschifffahrtsgesellschaft = Danube steamship company";
    folder.run_with("join s.store -", &format!("10 0 1 1 - \"{term}\"\n"));
    let whole = folder
        .command("log s.store")
        .env("COLUMNS", "60")
        .output()
        .expect("a program");
    assert!(printed(&whole).contains(term));
    let shown = folder.on_screen("log s.store", "60");
    assert!(
        shown.contains("Donaudampf") && !shown.contains(term),
        "{shown}"
    );
    assert!(
        shown.contains("(… marks what a screen of this width has no place for)"),
        "{shown}"
    );
    let table: Vec<&str> = shown.lines().filter(|line| line.contains("  ")).collect();
    assert!(
        table.len() == 3 && table.iter().all(|line| line.chars().count() <= 60),
        "{shown}"
    );
}

/// What `add` tells is broken to the screen, but for commands, and the payload has room beside rows of six authors.
#[test]
fn adding_on_a_screen() {
    let folder = Folder::new("add-screen");
    let rows = (1..=6).map(|author| format!("{author} 0 {author} 1 - x\n"));
    folder.run_with("join s.store -", &rows.collect::<String>());
    let term = "Fahrradschlauch = bicycle inner tube";
    let shown = folder.on_screen(&format!("add s.store --author 1 '{term}'"), "80");
    assert!(shown.contains(&format!("  1:2  {term}\n")), "{shown}");
    let long = "p".repeat(257);
    for line in [
        "add s.store --author 1 x".to_owned(),
        format!("add s.store --author 1 '{long}'"),
    ] {
        let shown = folder.on_screen(&line, "70");
        let mut lines = shown.lines().filter(|line| !line.contains(PROGRAM));
        assert!(lines.all(|line| line.chars().count() <= 70), "{shown}");
    }
}

/// A program that is killed while it changes a store stops nobody after it.
#[test]
fn a_killed_program_does_not_block_the_store() {
    let folder = Folder::new("killed");
    folder.run_with("join s.store -", "10 0 1 1 - x\n");
    // It has the lock of the store, and has begun to write.
    let line =
        "exec 9<s.store.lock && flock -n 9 && touch s.store.cuwelfra-tmp && echo && exec sleep 100";
    let mut other = Command::new("bash")
        .current_dir(&folder.0)
        .args(["-c", line])
        .stdout(Stdio::piped())
        .spawn()
        .expect("a shell");
    let ready = other.stdout.take().map(|mut out| out.read(&mut [0]));
    assert_eq!(ready.expect("a pipe").expect("a line"), 1);
    let told = folder.run_with("join s.store -", "20 0 1 2 - x\n");
    assert_eq!(told.status.code(), Some(2));
    assert!(
        said(&told).contains("another program is changing"),
        "{}",
        said(&told)
    );
    other.kill().expect("a kill");
    other.wait().expect("an end");
    let told = folder.run_with("join s.store -", "20 0 1 2 - x\n");
    assert_eq!(told.status.code(), Some(0), "{}", said(&told));
    assert!(!folder.0.join("s.store.cuwelfra-tmp").exists());
}
