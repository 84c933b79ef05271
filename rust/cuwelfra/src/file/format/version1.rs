//! Version 1: a header of fixed fields, and the used parts of the three areas.
//!
//! | offset | what |
//! |---|---|
//! | 16 | slots of the log area, 1 to 1,024 |
//! | 24, 32, 40 | bytes of the logged rows' slots, of the held rows' slots and of the head area |
//! | 48 | the logged rows' slots, the held rows' slots, the head area |
//!
//! It does not say what became of the logged rows.

use super::super::error::FileError;
use super::{check_end, field, number, store_of};
use crate::words::part;
use crate::{Store, HEAD_BYTES, HELD_BYTES, MAX_LOGGED, SLOT_BYTES};

const HEADER_BYTES: usize = 48;

pub fn decode(bytes: &[u8]) -> Result<Store, FileError> {
    let slots = field("number of slots", number(bytes, 16)?, 1..=MAX_LOGGED, 1)?;
    let (log, most) = (number(bytes, 24)?, slots * SLOT_BYTES);
    let log = field("length of the log", log, 0..=most, SLOT_BYTES)?;
    let held = number(bytes, 32)?;
    let held = field("length of the held rows", held, 0..=HELD_BYTES, SLOT_BYTES)?;
    let head = number(bytes, 40)?;
    let head = field("length of the head", head, HEAD_BYTES..=HEAD_BYTES, 1)?;
    check_end(bytes, HEADER_BYTES + log + held + head)?;
    let area = |at: usize, len: usize| part(bytes, (HEADER_BYTES + at) as u64, len as u64);
    store_of(
        slots,
        area(0, log)?,
        area(log, held)?,
        area(log + held, head)?,
    )
}

#[cfg(test)]
mod tests {
    use super::super::super::fixtures::{with_word, VERSION_1};
    use super::super::decode;

    /// Each number is tested by itself, also where the checksum is right.
    #[test]
    fn every_field_is_tested() {
        let most = u64::MAX.to_string();
        let most = format!("{most} cannot be its length of the head");
        let faults = [
            (16, 0, "0 cannot be its number of slots"),
            (16, 1_025, "1025 cannot be its number of slots"),
            (16, 2, "2112 cannot be its length of the log"),
            (24, 703, "703 cannot be its length of the log"),
            (24, 704 * 1_025, "721600 cannot be its length of the log"),
            (32, 705, "705 cannot be its length of the held rows"),
            (32, 45_760, "45760 cannot be its length of the held rows"),
            (40, 2_128, "2128 cannot be its length of the head"),
            (40, u64::MAX, &most),
            (
                24,
                704,
                "it goes on behind the 3584 bytes that belong to it",
            ),
            (
                24,
                2_816,
                "it ends after 4992 bytes, and should have at least 5696",
            ),
        ];
        for (at, number, told) in faults {
            let file = with_word(VERSION_1, at, u64::to_be_bytes(number));
            let error = decode(&file).expect_err("a file with a wrong number");
            assert_eq!(error.to_string(), format!("damaged store file: {told}"));
        }
    }
}
