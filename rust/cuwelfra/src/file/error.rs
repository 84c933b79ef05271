//! Why a store's file was not read or not written.

use std::error::Error;
use std::path::PathBuf;
use std::{fmt, io};

use super::format::VERSION;
use crate::Refusal;

const DAMAGED: &str = "damaged store file";

/// Why a store's file was not read or not written.
///
/// It shows what the operating system or the refusal said, so that [`Error::source`] gives only what lies behind that.
#[derive(Debug)]
#[non_exhaustive]
pub enum FileError {
    /// The operating system refused a step.
    Io {
        /// What was being done.
        step: &'static str,
        /// What the operating system said.
        error: io::Error,
    },
    /// The file ends before its time.
    TooShort {
        /// Its bytes.
        bytes: usize,
        /// The bytes that it must have at least, by what was read of it.
        expected: usize,
    },
    /// The file goes on behind its checksum.
    TooLong {
        /// The bytes that it must have, by its header.
        expected: usize,
    },
    /// It begins otherwise than a store's file.
    NotAStore,
    /// The file has no bytes.
    Empty,
    /// A later version of the format than those that are known here.
    Version(u64),
    /// A number of the header that cannot be.
    Header {
        /// Which one.
        field: &'static str,
        /// The number.
        number: u64,
    },
    /// A section that files of this version do not have, by its tag.
    UnknownSection(String),
    /// A section stands twice in the file.
    RepeatedSection(&'static str),
    /// A section is not in the file.
    MissingSection(&'static str),
    /// A section is not at its place.
    MisplacedSection(&'static str),
    /// A number in the table of sections that cannot be.
    Section {
        /// The section.
        section: &'static str,
        /// Which number.
        field: &'static str,
        /// The number.
        number: u64,
    },
    /// The bytes for what became of a logged row say nothing.
    Fate {
        /// The row's position in the log, from 0.
        row: usize,
        /// The first byte.
        fate: u8,
        /// The second.
        detail: u8,
    },
    /// The file tells what became of more or fewer rows than are logged.
    FateCount {
        /// Of how many it is told.
        fates: usize,
        /// How many are logged.
        rows: usize,
    },
    /// The checksum is not that of the bytes before it.
    Checksum {
        /// The one in the file.
        written: u64,
        /// The one of the bytes.
        computed: u64,
    },
    /// The head area counts other rows than the file has.
    Counts,
    /// The store itself is refused.
    Refused(Refusal),
    /// Another program is changing this store, or another part of this one.
    Busy,
    /// What has this name is no regular file: a folder, a pipe, a device.
    NotRegular(PathBuf),
    /// The file is not to be changed: its mode lets nobody write it.
    ReadOnly,
    /// The file should be a new one, and something has its name.
    Exists,
    /// The new file stands in its place and is whole, but its folder could not be synced: after a power cut the old one
    /// may be there.
    NotSynced(io::Error),
}

impl fmt::Display for FileError {
    fn fmt(&self, f: &mut fmt::Formatter<'_>) -> fmt::Result {
        match self {
            Self::Io { step, error } => write!(f, "cannot {step}: {error}"),
            Self::Empty => write!(f, "not a store file: it is empty"),
            Self::NotAStore => write!(f, "not a store file: it does not begin with `cuwstore`"),
            Self::Version(version) => write!(
                f,
                "a newer program wrote this store file: it has version {version}, \
                 and this program reads versions up to {VERSION}"
            ),
            Self::Refused(refusal) => write!(f, "the store in it is refused: {refusal}"),
            Self::Busy => write!(
                f,
                "another program is changing this store now; try again when it is done"
            ),
            Self::ReadOnly => write!(f, "it is read-only; give it a mode that lets it be written"),
            Self::NotRegular(_) => {
                write!(f, "it is no regular file, but a folder, a pipe or a device")
            }
            Self::Exists => write!(f, "it is there already, and is not replaced"),
            Self::NotSynced(error) => write!(
                f,
                "it is written and whole, but a power cut could still undo that: \
                 its folder cannot be synced: {error}"
            ),
            Self::TooShort { bytes, expected } => write!(
                f,
                "{DAMAGED}: it ends after {bytes} bytes, and should have at least {expected}"
            ),
            Self::TooLong { expected } => write!(
                f,
                "{DAMAGED}: it goes on behind the {expected} bytes that belong to it"
            ),
            Self::Header { field, number } => {
                write!(f, "{DAMAGED}: {number} cannot be its {field}")
            }
            Self::UnknownSection(tag) => write!(
                f,
                "{DAMAGED}: a section `{tag}`, which files of its version do not have"
            ),
            Self::RepeatedSection(section) => {
                write!(f, "{DAMAGED}: section `{section}` stands twice in it")
            }
            Self::MissingSection(section) => write!(f, "{DAMAGED}: section `{section}` is missing"),
            Self::MisplacedSection(section) => {
                write!(f, "{DAMAGED}: section `{section}` is not at its place")
            }
            Self::Section {
                section,
                field,
                number,
            } => write!(
                f,
                "{DAMAGED}: {number} cannot be the {field} of section `{section}`"
            ),
            Self::Fate { row, fate, detail } => write!(
                f,
                "{DAMAGED}: the bytes {fate} and {detail} do not say what became of \
                 the logged row at position {row}"
            ),
            Self::FateCount { fates, rows } => write!(
                f,
                "{DAMAGED}: {rows} rows are logged, and it says of {fates} what became of them"
            ),
            Self::Checksum { written, computed } => write!(
                f,
                "{DAMAGED}: its checksum is {written:016x}, that of its bytes {computed:016x}"
            ),
            Self::Counts => write!(f, "{DAMAGED}: it has other rows than its head counts"),
        }
    }
}

impl Error for FileError {
    fn source(&self) -> Option<&(dyn Error + 'static)> {
        match self {
            Self::Io { error, .. } | Self::NotSynced(error) => error.source(),
            Self::Refused(refusal) => refusal.source(),
            _ => None,
        }
    }
}

impl From<Refusal> for FileError {
    fn from(refusal: Refusal) -> Self {
        Self::Refused(refusal)
    }
}

/// Names the step that the operating system refused.
pub fn while_trying(step: &'static str) -> impl FnOnce(io::Error) -> FileError {
    move |error| FileError::Io { step, error }
}

#[cfg(test)]
mod tests {
    use super::*;
    use crate::Store;

    /// As a chain of errors is shown: each text, and then those behind it.
    #[test]
    fn a_cause_is_shown_once() {
        let shown = |error: &FileError| {
            let mut text = error.to_string();
            let mut behind = error.source();
            while let Some(cause) = behind {
                text += &format!(": {cause}");
                behind = cause.source();
            }
            text
        };
        let refused = FileError::Refused(Refusal::UnsoundStore);
        let text = "the store in it is refused: refusal 1, unsound store";
        assert_eq!(shown(&refused), text);
        let missing = Store::load("no such file").expect_err("no file");
        let cause = io::Error::from_raw_os_error(2).to_string();
        assert_eq!(shown(&missing), format!("cannot open the file: {cause}"));
        let wrapped = || io::Error::other(Refusal::LogFull);
        let written = while_trying("write the temporary file")(wrapped());
        let text = "cannot write the temporary file: refusal 17, log full";
        assert_eq!(shown(&written), text);
        let shown = shown(&FileError::NotSynced(wrapped()));
        let end = "could still undo that: its folder cannot be synced: refusal 17, log full";
        assert!(shown.ends_with(end), "{shown}");
        assert_eq!(shown.matches("refusal").count(), 1);
    }
}
