//! The bytes of a store's file.
//!
//! A decoder for each version that there was, and an encoder for the latest.

mod sections;
mod version1;
mod version2;

use std::ops::RangeInclusive;

use super::crc64::crc64;
use super::error::FileError;
use crate::words::{part, word};
use crate::{Store, HELD_BYTES, SLOT_BYTES};

pub use version2::{encode, LARGEST};

const MAGIC: &[u8; 8] = b"cuwstore";
/// The latest version, which is written.
pub const VERSION: u64 = 2;
const CHECKSUM_BYTES: usize = 8;

/// The store in a file's bytes.
pub fn decode(bytes: &[u8]) -> Result<Store, FileError> {
    if bytes.is_empty() {
        return Err(FileError::Empty);
    }
    if !bytes.starts_with(MAGIC) && !MAGIC.starts_with(bytes) {
        return Err(FileError::NotAStore);
    }
    match number(bytes, 8)? {
        1 => version1::decode(bytes),
        2 => version2::decode(bytes),
        0 => Err(FileError::Header {
            field: "version",
            number: 0,
        }),
        newer => Err(FileError::Version(newer)),
    }
}

/// The store whose areas have these used parts.
fn store_of(slots: usize, log: &[u8], held: &[u8], head: &[u8]) -> Result<Store, FileError> {
    let store = Store::from_areas(
        filled(log, slots * SLOT_BYTES),
        filled(held, HELD_BYTES),
        head.to_vec(),
    );
    let counted = [store.logged_len()?, store.held_len()?];
    match counted.map(|rows| rows * SLOT_BYTES) == [log.len(), held.len()] {
        true => Ok(store),
        false => Err(FileError::Counts),
    }
}

/// The used slots, and zeros up to the area's length.
fn filled(used: &[u8], length: usize) -> Vec<u8> {
    let mut area = used.to_vec();
    area.resize(length, 0);
    area
}

/// The number at a place.
fn number(bytes: &[u8], at: usize) -> Result<u64, FileError> {
    at_least(bytes, at + 8)?;
    Ok(word(bytes, at))
}

fn at_least(bytes: &[u8], expected: usize) -> Result<(), FileError> {
    match bytes.len() < expected {
        true => Err(FileError::TooShort {
            bytes: bytes.len(),
            expected,
        }),
        false => Ok(()),
    }
}

/// The number as a size, where it lies in the range and is a multiple of the unit.
fn sized(number: u64, range: RangeInclusive<usize>, unit: usize) -> Option<usize> {
    let size = usize::try_from(number).ok()?;
    (range.contains(&size) && size % unit == 0).then_some(size)
}

/// A field of the file as a size, where it can be one.
fn field(
    field: &'static str,
    number: u64,
    range: RangeInclusive<usize>,
    unit: usize,
) -> Result<usize, FileError> {
    sized(number, range, unit).ok_or(FileError::Header { field, number })
}

/// The bytes end behind a checksum at `end`, which is that of the bytes before it.
fn check_end(bytes: &[u8], end: usize) -> Result<(), FileError> {
    let expected = end + CHECKSUM_BYTES;
    at_least(bytes, expected)?;
    if bytes.len() > expected {
        return Err(FileError::TooLong { expected });
    }
    let (written, computed) = (word(bytes, end), crc64(part(bytes, 0, end as u64)?));
    match written == computed {
        true => Ok(()),
        false => Err(FileError::Checksum { written, computed }),
    }
}

#[cfg(test)]
mod tests {
    use super::super::fixtures::{in_version_1, in_version_2, with_word};
    use super::super::fixtures::{FATES, VERSION_1, VERSION_2};
    use super::*;
    use crate::{Refusal, Slot};

    #[test]
    fn the_file_of_version_1_is_read() {
        let read = decode(VERSION_1).expect("a file of version 1");
        assert_eq!(read, in_version_1());
        assert_eq!(read.fates(), Ok(vec![None; 3]));
    }

    #[test]
    fn the_file_of_version_2_is_read_and_written() {
        let read = decode(VERSION_2).expect("a file of version 2");
        assert_eq!(read, in_version_2());
        assert_eq!(read.fates(), Ok(FATES.to_vec()));
        assert_eq!(encode(&read).expect("a sound store"), VERSION_2);
    }

    #[test]
    fn every_truncation_and_addition_is_refused() {
        for file in [VERSION_1, VERSION_2] {
            for length in 1..file.len() {
                let error = decode(&file[..length]).expect_err("a file cut short");
                let told = matches!(error, FileError::TooShort { bytes, expected }
                    if bytes == length && (length..=file.len()).contains(&expected));
                assert!(told, "{length} bytes: {error}");
            }
            let longer = [file, &[0]].concat();
            let error = decode(&longer).expect_err("a file with a byte too much");
            let told = matches!(error, FileError::TooLong { expected } if expected == file.len());
            assert!(told, "{error}");
        }
    }

    #[test]
    fn every_changed_byte_is_refused() {
        for file in [VERSION_1, VERSION_2] {
            for at in 0..file.len() {
                let mut damaged = file.to_vec();
                damaged[at] ^= 1 << (at % 8);
                assert!(decode(&damaged).is_err(), "byte {at}");
            }
        }
    }

    #[test]
    fn what_is_no_file_of_a_known_version_is_told() {
        let told = |bytes: &[u8]| decode(bytes).expect_err("no such file").to_string();
        assert_eq!(told(b""), "not a store file: it is empty");
        let other = "not a store file: it does not begin with `cuwstore`";
        assert_eq!(told(b"cuwstory"), other);
        assert_eq!(told(b"# a text"), other);
        let version = |number: u64| told(&with_word(VERSION_2, 8, number.to_be_bytes()));
        assert_eq!(version(0), "damaged store file: 0 cannot be its version");
        for newer in [3, u64::MAX] {
            let text = "a newer program wrote this store file: it has version";
            assert!(version(newer).starts_with(&format!("{text} {newer}, ")));
        }
    }

    #[test]
    fn an_unsound_store_is_not_read() {
        // The sequence of the first logged row: the clock is another one then.
        for (file, log) in [(VERSION_1, 48), (VERSION_2, 152)] {
            let unsound = with_word(file, log + 32, 9_u64.to_be_bytes());
            let error = decode(&unsound).expect_err("an unsound store");
            let refused = matches!(error, FileError::Refused(Refusal::UnsoundStore));
            assert!(refused, "{error}");
        }
    }

    /// A slot of zeros is a row too, so counts of their own are needed to miss it.
    #[test]
    fn counts_agree() {
        let mut rows = Store::with_capacity(2).expect("a store");
        let zeros = Slot::from_area([0; SLOT_BYTES]);
        rows.insert(&zeros).expect("a row of zeros");
        let (log, held, head) = rows.areas();
        let used = &log[..SLOT_BYTES];
        assert_eq!(store_of(2, used, &[], head).expect("a sound store"), rows);
        let wrong: [(&[u8], &[u8]); 3] = [(&[], &[]), (log, &[]), (used, &held[..SLOT_BYTES])];
        for (log, held) in wrong {
            let error = store_of(2, log, held, head).expect_err("other rows");
            assert!(matches!(error, FileError::Counts), "{error}");
        }
    }
}
