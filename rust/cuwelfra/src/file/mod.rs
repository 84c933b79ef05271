//! A store in a file: written whole or not at all, and checked when it is read.
//!
//! | offset | what |
//! |---|---|
//! | 0 | the bytes `cuwstore` |
//! | 8 | the format's version |
//! | 16 | what that version has |
//! | behind it | CRC-64/XZ of all bytes before it |
//!
//! Numbers are big-endian words of 64 bits. Unused slots are zero in a sound store, and are not written; nor is what
//! lies behind an area's size.

mod crc64;
mod error;
#[cfg(test)]
mod fixtures;
mod format;
mod lock;
mod new;
mod paths;
mod temporary;
mod update;

use std::fs::File;
use std::io::Read;
use std::path::Path;

use crate::Store;
use error::while_trying;
use paths::regular;

pub use error::FileError;
pub use new::write_new;
pub use update::Update;

impl Store {
    /// Reads a store from a file of any version, which is left as it is. Every number of it is tested, then its checksum,
    /// then the store's rules.
    pub fn load(path: impl AsRef<Path>) -> Result<Self, FileError> {
        let path = path.as_ref();
        regular(path)?;
        let file = File::open(path).map_err(while_trying("open the file"))?;
        let mut bytes = Vec::new();
        file.take(format::LARGEST as u64 + 1)
            .read_to_end(&mut bytes)
            .map_err(while_trying("read the file"))?;
        format::decode(&bytes)
    }

    /// Writes the store into a file, as [`Update::save`] does.
    pub fn save(&self, path: impl AsRef<Path>) -> Result<(), FileError> {
        Update::begin(path)?.save(self)
    }
}

#[cfg(test)]
mod tests {
    use super::fixtures::{in_version_1, in_version_2, stamp, store, Folder};
    use super::fixtures::{VERSION_1, VERSION_2};
    use super::*;
    use std::fs;

    #[test]
    fn what_is_saved_is_loaded() {
        let folder = Folder::new("round");
        let mut compacted = store(4, &[1, 2, 3, 9]);
        assert_eq!(compacted.compact(&stamp(20)), Ok(2));
        // With so many logged rows, and so many held ones.
        let stores = [
            (store(1, &[]), 0, 0),
            (store(1, &[1]), 1, 0),
            (store(3, &[1, 2, 3, 9]), 3, 1),
            (store(1_024, &[1, 9]), 1, 1),
            (compacted, 1, 1),
            (in_version_2(), 7, 1),
        ];
        for (store, logged, held) in stores {
            store.save(folder.file()).expect("a file to write");
            let loaded = Store::load(folder.file()).expect("a file to read");
            assert_eq!((loaded.fates(), &loaded), (store.fates(), &store));
            let bytes = fs::metadata(folder.file()).expect("a file").len();
            let sections = 8 + 704 * (logged + held) + 2_120 + 2 * logged;
            assert_eq!(bytes, 24 + 5 * 24 + sections + 8);
            assert_eq!(folder.names(), ["a.store", "a.store.lock"]);
        }
    }

    #[test]
    fn a_file_of_version_1_becomes_one_of_the_latest() {
        let folder = Folder::new("older");
        fs::write(folder.file(), VERSION_1).expect("a file to write");
        let update = Update::begin(folder.file()).expect("an update");
        let store = update.load().expect("a sound file").expect("a file");
        update.save(&store).expect("a file to write");
        let bytes = fs::read(folder.file()).expect("a file");
        assert_eq!(bytes[8..16], 2_u64.to_be_bytes());
        let loaded = Store::load(folder.file()).expect("a file to read");
        assert_eq!(loaded, in_version_1());
    }

    #[test]
    fn a_damaged_file_is_left() {
        let folder = Folder::new("damaged");
        let mut damaged = VERSION_2.to_vec();
        damaged[1_000] ^= 1;
        fs::write(folder.file(), &damaged).expect("a file to write");
        let update = Update::begin(folder.file()).expect("an update");
        update.load().expect_err("a damaged file");
        drop(update);
        assert_eq!(fs::read(folder.file()).expect("the file"), damaged);
        assert_eq!(folder.names(), ["a.store", "a.store.lock"]);
    }

    #[test]
    fn an_unsound_store_is_not_saved() {
        let folder = Folder::new("unsound");
        fs::write(folder.file(), "as it was").expect("a file to write");
        let (log, held, mut head) = store(2, &[1]).into_areas();
        head[7] = 2;
        let error = Store::from_areas(log, held, head).save(folder.file());
        assert!(matches!(error, Err(FileError::Refused(_))));
        assert_eq!(fs::read(folder.file()).expect("the file"), b"as it was");
        assert_eq!(folder.names(), ["a.store", "a.store.lock"]);
    }

    #[test]
    fn the_largest_file_is_read() {
        let folder = Folder::new("largest");
        let seqs: Vec<u64> = (1..=1_024).chain(2_000..2_064).collect();
        let store = store(1_024, &seqs);
        store.save(folder.file()).expect("a file to write");
        assert_eq!(Store::load(folder.file()).expect("a file to read"), store);
        let bytes = fs::metadata(folder.file()).expect("a file").len();
        assert_eq!(bytes, format::LARGEST as u64);
    }
}
