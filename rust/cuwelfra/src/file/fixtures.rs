//! What the tests of a store's file share.

use std::ffi::OsString;
use std::path::{Path, PathBuf};
use std::process::{Child, Command, Stdio};
use std::{env, fs};

use super::crc64::crc64;
use crate::{ActorId, ApplyError, Batch, Fate, HybridClock};
use crate::{Outcome, Request, Row, Slot, Store, Timestamp};

/// Files that were written once. A later program reads them as they are.
pub const VERSION_1: &[u8] = include_bytes!("../../golden/version-1.store");
pub const VERSION_2: &[u8] = include_bytes!("../../golden/version-2.store");

/// A folder of its own for a test, removed after it.
pub struct Folder(pub PathBuf);

impl Folder {
    pub fn new(name: &str) -> Self {
        let name = format!("cuwelfra-file-{}-{name}", std::process::id());
        let folder = env::temp_dir().join(name);
        fs::create_dir_all(&folder).expect("a folder");
        Self(folder)
    }

    pub fn file(&self) -> PathBuf {
        self.0.join("a.store")
    }

    /// The file with an ending behind its name.
    pub fn beside(&self, ending: &str) -> PathBuf {
        self.0.join(format!("a.store.{ending}"))
    }

    /// The names of what stands in it.
    pub fn names(&self) -> Vec<OsString> {
        Self::names_in(&self.0)
    }

    pub fn names_in(folder: &Path) -> Vec<OsString> {
        let entries = fs::read_dir(folder).expect("a folder");
        let names = entries.map(|entry| entry.expect("an entry").file_name());
        let mut names: Vec<_> = names.collect();
        names.sort();
        names
    }
}

impl Drop for Folder {
    fn drop(&mut self) {
        fs::remove_dir_all(&self.0).expect("a folder to remove");
    }
}

/// A pipe with a name. Who opens it to read it finds its end at once, so that a test fails and does not wait.
pub struct Pipe(Child);

impl Pipe {
    pub fn new(path: &Path) -> Self {
        let made = Command::new("mkfifo").arg(path).status();
        assert!(made.expect("mkfifo").success());
        let mut writer = Command::new("sh");
        writer.args(["-c", ": > \"$0\""]).arg(path);
        Self(writer.spawn().expect("a program to start"))
    }
}

impl Drop for Pipe {
    fn drop(&mut self) {
        self.0.kill().expect("a program to end");
        self.0.wait().expect("its end");
    }
}

const CHILD: &str = "CUWELFRA_TEST_CHILD";

/// Starts a test that is otherwise ignored as a program of its own, which works in the folder.
pub fn child(test: &str, folder: &Folder) -> Child {
    let mut program = Command::new(env::current_exe().expect("this program"));
    program.args(["--ignored", "--exact", "--nocapture", test]);
    program.env(CHILD, "1").current_dir(&folder.0);
    program.stdin(Stdio::piped()).stdout(Stdio::piped());
    program.spawn().expect("a program to start")
}

/// Whether this is such a program.
pub fn is_child() -> bool {
    env::var_os(CHILD).is_some()
}

pub fn stamp(wall_time: u64) -> Timestamp {
    Timestamp {
        wall_time,
        logical_counter: 0,
        actor_id: ActorId(1),
    }
}

/// A store with a floor, to which these sequences of one author were offered.
pub fn store(slots: usize, seqs: &[u64]) -> Store {
    let mut store = Store::with_capacity(slots).expect("a store");
    store.set_floor(&stamp(5)).expect("a floor");
    for seqs in seqs.chunks(64) {
        let rows: Vec<_> = seqs.iter().map(|seq| (row(*seq), Ok(()))).collect();
        offer(&mut store, 100, &rows);
    }
    store
}

fn row(seq: u64) -> Row {
    Row {
        timestamp: stamp(10 * seq),
        actor: ActorId(1),
        seq,
        deps: vec![(ActorId(1), 0)],
        payload: b"Kette = chain".to_vec(),
        signature: vec![7; 3],
    }
}

fn offer(store: &mut Store, time_ms: u64, rows: &[(Row, Outcome)]) {
    let mut batch = Batch::new();
    for (row, outcome) in rows {
        batch.push(row, true, *outcome).expect("a row that fits");
    }
    let mut clock = HybridClock::new(ActorId(9));
    let report = store.apply_delta(&mut clock, &Request::at(time_ms), &batch);
    report.expect("a batch that is accepted");
}

fn written(wall_time: u64, actor: u64, seq: u64, payload: &str) -> Row {
    Row::new(Timestamp::new(wall_time, 0, ActorId(actor)), seq, payload)
}

/// The store in the file of version 1: a row was compacted, there is a floor, of three logged rows one is stale and one
/// denied, and one row waits.
pub fn in_version_1() -> Store {
    let mut store = Store::with_capacity(1_024).expect("a store");
    let rows = [
        (written(10, 1, 1, "Kette = chain").signed([7, 7]), Ok(())),
        (
            written(20, 2, 1, "Kette = necklace")
                .needs(ActorId(1), 1)
                .signed([8]),
            Err(ApplyError::Denied),
        ),
        (
            written(30, 1, 2, "Rad = wheel")
                .needs(ActorId(2), 1)
                .signed([7, 7]),
            Ok(()),
        ),
        (
            written(50, 2, 2, "Felge = rim")
                .needs(ActorId(3), 4)
                .signed([8]),
            Err(ApplyError::Invalid(9)),
        ),
    ];
    offer(&mut store, 1_000, &rows);
    assert_eq!(store.compact(&stamp(10)), Ok(1));
    store.set_floor(&stamp(10)).expect("a floor");
    let late = written(5, 4, 1, "Nabe = hub");
    offer(&mut store, 2_000, &[(late, Ok(()))]);
    store
}

/// The store in the file of version 2: that of version 1, with rows of all fates.
pub fn in_version_2() -> Store {
    let mut store = in_version_1();
    let rows = [
        (
            written(60, 4, 2, "Speiche = spoke"),
            Err(ApplyError::UnknownOpTag(7)),
        ),
        (
            written(70, 4, 3, "Sattel = saddle"),
            Err(ApplyError::MalformedOp),
        ),
        (
            written(80, 4, 4, "Lenker = handlebar"),
            Err(ApplyError::Invalid(9)),
        ),
    ];
    offer(&mut store, 3_000, &rows);
    let inserted = Slot::logged(&written(65, 5, 1, "Pedal = pedal"));
    let inserted = store.insert(&inserted.expect("a row that fits"));
    inserted.expect("room for a row");
    store
}

/// What became of the rows in the file of version 2.
pub const FATES: [Option<Fate>; 7] = [
    Some(Fate::Stale),
    Some(Fate::Rejected(ApplyError::Denied)),
    Some(Fate::Applied),
    Some(Fate::Rejected(ApplyError::UnknownOpTag(7))),
    None,
    Some(Fate::Rejected(ApplyError::MalformedOp)),
    Some(Fate::Rejected(ApplyError::Invalid(9))),
];

/// The bytes with this word at a place, and with the checksum that they should have.
pub fn with_word(bytes: &[u8], at: usize, word: [u8; 8]) -> Vec<u8> {
    let mut bytes = bytes.to_vec();
    bytes[at..at + 8].copy_from_slice(&word);
    sealed(bytes)
}

/// The bytes with the checksum that they should have.
pub fn sealed(mut bytes: Vec<u8>) -> Vec<u8> {
    let end = bytes.len() - 8;
    let checksum = crc64(&bytes[..end]);
    bytes[end..].copy_from_slice(&checksum.to_be_bytes());
    bytes
}
