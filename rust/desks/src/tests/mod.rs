//! Every command, from its words to its answer.

use std::ffi::OsString;
use std::fs;
use std::path::PathBuf;

use crate::answer::Answer;
use crate::commands::run;

const ROOT: &str = concat!(env!("CARGO_MANIFEST_DIR"), "/../../");
const DESK_A: &str = concat!(env!("CARGO_MANIFEST_DIR"), "/../../examples/desk-a.txt");
const DESK_B: &str = concat!(env!("CARGO_MANIFEST_DIR"), "/../../examples/desk-b.txt");
const DESK_C: &str = concat!(env!("CARGO_MANIFEST_DIR"), "/../../examples/desk-c.txt");

/// A folder of its own for a test, removed after it.
struct Folder(PathBuf);

impl Folder {
    fn new(name: &str) -> Self {
        let name = format!("cuwelfra-desks-{}-{name}", std::process::id());
        let folder = std::env::temp_dir().join(name);
        fs::create_dir_all(&folder).expect("a folder");
        Self(folder.canonicalize().expect("its real path"))
    }

    /// A folder with the store `ab.store` of both desks, and `a.store` of desk A alone.
    fn with_stores(name: &str) -> Self {
        let folder = Self::new(name);
        folder.refused("join a.store DESK_A --time 2000");
        folder.refused("join ab.store DESK_A DESK_B --time 2000");
        folder
    }

    /// Runs a command whose words are apart by blanks.
    fn run(&self, line: &str) -> Result<Answer, String> {
        self.run_words(line.split(' '))
    }

    /// Runs a command. Stores and other files stand in this folder: the words with a dot.
    fn run_words<'a>(&self, words: impl Iterator<Item = &'a str>) -> Result<Answer, String> {
        let word = |word: &str| match word {
            "DESK_A" => DESK_A.into(),
            "DESK_B" => DESK_B.into(),
            "DESK_C" => DESK_C.into(),
            _ if word.contains('.') => self.0.join(word).into_os_string(),
            _ => word.into(),
        };
        let words: Vec<OsString> = words.map(word).collect();
        let folder = format!("{}/", self.0.display());
        let bare = |text: String| {
            unquoted(text, &folder)
                .replace(&folder, "")
                .replace(ROOT, "")
        };
        match run(words) {
            Ok(answer) => Ok(Answer {
                text: bare(answer.text),
                ..answer
            }),
            Err(error) => Err(bare(error.told())),
        }
    }

    /// What a command prints with which all goes well.
    fn well(&self, line: &str) -> String {
        let answer = self.run(line).expect("an answer");
        assert!(answer.well, "{line}: {}", answer.text);
        answer.text
    }

    /// What a command prints with which something is refused or differs.
    fn refused(&self, line: &str) -> String {
        let answer = self.run(line).expect("an answer");
        assert!(!answer.well, "{line}: {}", answer.text);
        answer.text
    }

    /// What is said of a command that has no answer.
    fn fails(&self, line: &str) -> String {
        match self.run(line) {
            Ok(answer) => panic!("{line}: {}", answer.text),
            Err(error) => error,
        }
    }

    fn write(&self, file: &str, text: impl AsRef<[u8]>) {
        fs::write(self.0.join(file), text).expect("a file to write");
    }

    fn read(&self, file: &str) -> Vec<u8> {
        fs::read(self.0.join(file)).expect("a file to read")
    }

    /// The names of what stands in it.
    fn names(&self) -> Vec<String> {
        let entries = fs::read_dir(&self.0).expect("a folder");
        let names = entries.map(|entry| entry.expect("an entry").file_name());
        names
            .map(|name| name.to_string_lossy().into_owned())
            .collect()
    }
}

/// Takes the quotes off that a shell needs around names of this folder's files, where the folder's own name needs them.
fn unquoted(mut text: String, folder: &str) -> String {
    while let Some(at) = text.find(&format!("'{folder}")) {
        text.remove(at);
        let end = text[at..].find('\'').expect("a closing quote");
        text.remove(at + end);
    }
    text
}

impl Drop for Folder {
    fn drop(&mut self) {
        fs::remove_dir_all(&self.0).expect("a folder to remove");
    }
}

/// Compares with a file in rust/desks/golden.
macro_rules! golden {
    ($name:literal, $text:expr) => {
        let text: String = $text;
        let golden = include_str!(concat!("../../golden/", $name));
        assert!(text == golden, "{} is now:\n{text}", $name);
    };
}

// Behind the macro, which they use.
mod adding;
mod changing;
mod doubting;
mod joining;
mod sizing;
mod telling;
mod wording;
