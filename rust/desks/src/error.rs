//! Why a command has no answer.

use std::ffi::OsString;
use std::path::PathBuf;
use std::{error, fmt, io};

use cuwelfra::{FileError, Refusal};

use crate::advice::advice;
use crate::plain::{command, name, plain, shell, with_command};
use crate::refused::Refused;
use crate::table::indented;
use crate::text::{Fault, Unreadable};

/// Why a command has no answer. None of them has changed a store.
#[derive(Debug)]
pub enum Error {
    NoCommand,
    UnknownCommand(OsString),
    UnknownOption(OsString),
    /// The words behind a command's name, and what they should be.
    Usage {
        name: &'static str,
        words: &'static str,
        /// What is not among them, or should not be, where that can be said.
        lacking: &'static str,
    },
    /// An option with its word behind `=`.
    Joined {
        option: String,
        value: String,
    },
    /// A word that is not what it should be.
    Word {
        word: OsString,
        wanted: &'static str,
    },
    /// A word that is no payload and no signature.
    Payload(OsString, Fault),
    /// Standard input is named more than once.
    InputTwice,
    /// The machine's time cannot be had.
    Clock,
    Read(PathBuf, io::Error),
    Write(PathBuf, io::Error),
    Text(PathBuf, Unreadable),
    /// A file of batches without a row.
    NoRow(PathBuf),
    /// A batch that cannot be written or read as bytes.
    Batch(String, Refused),
    /// A store's file, or another one that is written whole or not at all.
    File(PathBuf, FileError),
    NoStore(PathBuf),
    /// Nothing says up to where to compact.
    NoCutoff,
    /// Rows would be compacted that peers may lack.
    Unsafe {
        file: PathBuf,
        /// What the peers' acknowledgements say.
        why: String,
    },
    /// Something speaks against adding rows.
    Doubted {
        file: PathBuf,
        /// What, each in words.
        why: Vec<String>,
    },
    Refused(Refusal),
}

impl fmt::Display for Error {
    fn fmt(&self, f: &mut fmt::Formatter<'_>) -> fmt::Result {
        match self {
            Self::NoCommand => write!(f, "no command; --help lists them"),
            Self::UnknownCommand(word) => {
                write!(f, "no command {}; --help lists them", name(word))
            }
            Self::UnknownOption(word) => {
                write!(
                    f,
                    "no option {} here, or it stands twice; --help lists them. Behind -- a word is no option, whatever it \
                     begins with",
                    name(word)
                )
            }
            Self::Usage {
                name,
                words,
                lacking,
            } => {
                let lacking = match lacking.is_empty() {
                    true => String::new(),
                    false => format!("{lacking}; "),
                };
                let line = format!("{lacking}write {} {name} {words}", command());
                write!(f, "{}", line.trim_end())
            }
            Self::Joined { option, value } => {
                let value = plain(value);
                write!(f, "write {option} {value}, not {option}={value}")
            }
            Self::Word { word, wanted } => {
                write!(f, "`{}` is no {}", name(word), with_command(wanted))
            }
            Self::Payload(word, _) => write!(f, "the word `{}`", name(word)),
            Self::InputTwice => write!(f, "- stands for standard input, which is read once"),
            Self::Clock => write!(
                f,
                "the machine's clock is before 1970; give the time with --time MS"
            ),
            Self::Read(file, _) => write!(f, "{}: cannot read it", name(file)),
            Self::Write(file, _) => write!(f, "{}: cannot write it", name(file)),
            Self::Text(file, unreadable) => write!(f, "{}, {unreadable}", name(file)),
            Self::NoRow(file) => write!(f, "{}: no row in it", name(file)),
            Self::Batch(batch, _) => write!(f, "{batch}"),
            // Of what stands beside a store it says which file.
            Self::File(_, FileError::NotRegular(file)) => write!(f, "{}", name(file)),
            Self::File(file, _) => write!(f, "{}", name(file)),
            Self::NoStore(file) => {
                write!(
                    f,
                    "{}: no such file; {} join {} FILE... makes one",
                    name(file),
                    command(),
                    shell(file)
                )
            }
            Self::NoCutoff => write!(
                f,
                "name a STAMP to compact to, or with --cutoff how far each peer has acknowledged"
            ),
            Self::Unsafe { file, why } => write!(
                f,
                "{}: nothing is compacted: {why}. Name how far each peer has acknowledged with --cutoff; \
                 --dry-run lists what would go; --force removes it all the same",
                name(file)
            ),
            Self::Doubted { file, why } => {
                let why: String = why.iter().map(|why| indented(why)).collect();
                let file = name(file);
                write!(f, "{file}: nothing is added without --force:\n{}", why.trim_end())
            }
            Self::Refused(_) => write!(f, "a call was refused"),
        }
    }
}

impl error::Error for Error {
    fn source(&self) -> Option<&(dyn error::Error + 'static)> {
        match self {
            Self::Read(_, error) | Self::Write(_, error) => Some(error),
            // Where it stands is said with the file.
            Self::Text(_, unreadable) => unreadable.source(),
            Self::Payload(_, fault) => Some(fault),
            Self::Batch(_, refused) => Some(refused),
            Self::File(_, error) => Some(error),
            Self::Refused(refusal) => Some(refusal),
            Self::NoCommand
            | Self::UnknownCommand(_)
            | Self::UnknownOption(_)
            | Self::Usage { .. }
            | Self::Joined { .. }
            | Self::Word { .. }
            | Self::InputTwice
            | Self::Clock
            | Self::NoRow(_)
            | Self::NoStore(_)
            | Self::NoCutoff
            | Self::Unsafe { .. }
            | Self::Doubted { .. } => None,
        }
    }
}

impl Error {
    /// The error and its causes on a line, and behind a refusal what to do about it.
    pub fn told(&self) -> String {
        let mut text = self.to_string();
        let mut cause = error::Error::source(self);
        while let Some(error) = cause {
            text += &format!(": {error}");
            cause = error.source();
        }
        match self.refusal() {
            Some(refusal) => format!("{text}. {}", with_command(advice(refusal).advice)),
            None => text,
        }
    }

    /// The refusal behind it.
    fn refusal(&self) -> Option<Refusal> {
        match self {
            Self::Batch(_, refused) => Some(refused.refusal),
            Self::Refused(refusal) | Self::File(_, FileError::Refused(refusal)) => Some(*refusal),
            _ => None,
        }
    }
}

impl From<Refusal> for Error {
    fn from(refusal: Refusal) -> Self {
        Self::Refused(refusal)
    }
}

#[cfg(test)]
mod tests {
    use super::*;
    use crate::text::parse;

    /// What an error shows, its cause, and what is told of both.
    #[test]
    fn a_cause_is_the_source_and_is_said_once() {
        let gone = || io::Error::other("it is gone");
        let unreadable = parse(b"\n1 0 1 1 - \"x").expect_err("a text that does not read");
        let refusal = Refusal::Unreadable;
        let refused = Refused {
            refusal,
            faults: vec!["line 1: it".to_owned()],
        };
        let advised = |said: &str| format!("{said}. {}", advice(refusal).advice);
        let file = || PathBuf::from("a");
        let step = "open it";
        let io = FileError::Io {
            step,
            error: gone(),
        };
        let errors = [
            (
                Error::Read(file(), gone()),
                "a: cannot read it",
                "it is gone".to_owned(),
            ),
            (
                Error::Write(file(), gone()),
                "a: cannot write it",
                "it is gone".to_owned(),
            ),
            (
                Error::Text(file(), unreadable),
                "a, line 2",
                "a double quote is not closed".to_owned(),
            ),
            (
                Error::Batch("a 1".to_owned(), refused),
                "a 1",
                advised("refusal 3, unreadable; line 1: it"),
            ),
            (
                Error::Refused(refusal),
                "a call was refused",
                advised("refusal 3, unreadable"),
            ),
            (
                Error::File(file(), io),
                "a",
                "cannot open it: it is gone".to_owned(),
            ),
            (
                Error::File(file(), FileError::Version(9)),
                "a",
                FileError::Version(9).to_string(),
            ),
            (
                Error::File(file(), FileError::Refused(refusal)),
                "a",
                advised(&FileError::Refused(refusal).to_string()),
            ),
        ];
        for (error, shown, cause) in errors {
            assert_eq!(error.to_string(), shown);
            let source = error::Error::source(&error).map(ToString::to_string);
            assert!(source.is_some_and(|source| cause.starts_with(&source)));
            assert_eq!(error.told(), format!("{shown}: {cause}"));
        }
        assert!(error::Error::source(&Error::NoCommand).is_none());
        assert_eq!(Error::NoCommand.told(), Error::NoCommand.to_string());
    }
}
