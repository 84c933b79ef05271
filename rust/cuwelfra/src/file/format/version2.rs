//! Version 2: the areas and what became of the logged rows, in sections.

use super::super::error::FileError;
use super::sections::{join, split, Section, ENTRY_BYTES, HEADER_BYTES};
use super::{field, store_of, CHECKSUM_BYTES, VERSION};
use crate::words::{part, word};
use crate::{Fate, Store, HEAD_BYTES, MAX_HELD, MAX_LOGGED, SLOT_BYTES};

const FATE_BYTES: usize = 2;
/// A fate that is not known.
const UNKNOWN: [u8; FATE_BYTES] = [255, 0];

const SECTIONS: [Section; 5] = [
    // The slots of the log area, a word.
    Section::new("slots", 8, 1..=1),
    // The logged rows' slots.
    Section::new("log", SLOT_BYTES, 0..=MAX_LOGGED),
    // The held rows' slots.
    Section::new("held", SLOT_BYTES, 0..=MAX_HELD),
    // The head area.
    Section::new("head", HEAD_BYTES, 1..=1),
    // Fate and detail of each logged row.
    Section::new("fates", FATE_BYTES, 0..=MAX_LOGGED),
];

/// The file of a store whose slots are all used.
pub const LARGEST: usize = HEADER_BYTES
    + SECTIONS.len() * ENTRY_BYTES
    + 8
    + (MAX_LOGGED + MAX_HELD) * SLOT_BYTES
    + HEAD_BYTES
    + MAX_LOGGED * FATE_BYTES
    + CHECKSUM_BYTES;

/// The bytes of a store's file.
pub fn encode(store: &Store) -> Result<Vec<u8>, FileError> {
    let fates = store.fates()?.into_iter().flat_map(fate_bytes);
    let fates: Vec<u8> = fates.collect();
    let (log, held, head) = store.areas();
    let contents: [&[u8]; SECTIONS.len()] = [
        &(store.capacity() as u64).to_be_bytes(),
        part(log, 0, (store.logged_len()? * SLOT_BYTES) as u64)?,
        part(held, 0, (store.held_len()? * SLOT_BYTES) as u64)?,
        part(head, 0, HEAD_BYTES as u64)?,
        &fates,
    ];
    Ok(join(VERSION, &SECTIONS, contents))
}

pub fn decode(bytes: &[u8]) -> Result<Store, FileError> {
    let [slots, log, held, head, fates] = split(bytes, &SECTIONS)?;
    let rows = log.len() / SLOT_BYTES;
    let slots = field(
        "number of slots",
        word(slots, 0),
        rows.max(1)..=MAX_LOGGED,
        1,
    )?;
    let fates = read_fates(fates, rows)?;
    Ok(store_of(slots, log, held, head)?.with_fates(fates))
}

fn fate_bytes(fate: Option<Fate>) -> [u8; FATE_BYTES] {
    fate.map_or(UNKNOWN, |fate| fate.parts().into())
}

/// The fates of so many logged rows.
fn read_fates(bytes: &[u8], rows: usize) -> Result<Vec<Option<Fate>>, FileError> {
    let (fates, _) = bytes.as_chunks();
    if fates.len() != rows {
        let fates = fates.len();
        return Err(FileError::FateCount { fates, rows });
    }
    let fates = fates.iter().enumerate();
    fates.map(|(row, fate)| read_fate(row, *fate)).collect()
}

/// The fate of the logged row at a position.
fn read_fate(row: usize, bytes: [u8; FATE_BYTES]) -> Result<Option<Fate>, FileError> {
    if bytes == UNKNOWN {
        return Ok(None);
    }
    let [fate, detail] = bytes;
    let known = Fate::of(fate, detail).ok_or(FileError::Fate { row, fate, detail })?;
    Ok(Some(known))
}

#[cfg(test)]
mod tests {
    use super::super::super::fixtures::{in_version_2, sealed, with_word, FATES, VERSION_2};
    use super::super::decode;
    use super::*;

    fn told(file: &[u8]) -> String {
        let error = decode(file).expect_err("a file with a fault");
        let text = error.to_string();
        let told = text.strip_prefix("damaged store file: ");
        told.unwrap_or(&text).to_owned()
    }

    /// Where the entry of a section stands.
    fn entry(section: usize) -> usize {
        HEADER_BYTES + section * ENTRY_BYTES
    }

    /// The file with these entries of its table, and their sections' bytes.
    fn with_sections(sections: &[usize]) -> Vec<u8> {
        let contents = split(VERSION_2, &SECTIONS).expect("the file");
        let mut file = VERSION_2[..16].to_vec();
        file.extend((sections.len() as u64).to_be_bytes());
        for i in sections {
            file.extend(&VERSION_2[entry(*i)..entry(i + 1)]);
        }
        for i in sections {
            file.extend(contents[*i]);
        }
        file.extend([0; CHECKSUM_BYTES]);
        sealed(file)
    }

    #[test]
    fn it_has_all_its_sections_once_and_in_order() {
        assert_eq!(with_sections(&[0, 1, 2, 3, 4]), VERSION_2);
        let names = ["slots", "log", "held", "head", "fates"];
        for (i, name) in names.into_iter().enumerate() {
            let without: Vec<usize> = (0..5).filter(|section| *section != i).collect();
            let missing = format!("section `{name}` is missing");
            assert_eq!(told(&with_sections(&without)), missing);
            let twice = format!("section `{name}` stands twice in it");
            for at in 0..=5 {
                let mut sections = vec![0, 1, 2, 3, 4];
                sections.insert(at, i);
                assert_eq!(told(&with_sections(&sections)), twice);
            }
        }
        let misplaced = |name| format!("section `{name}` is not at its place");
        let order = told(&with_sections(&[1, 0, 2, 3, 4]));
        assert_eq!(order, misplaced("slots"));
        let order = told(&with_sections(&[0, 1, 2, 4, 3]));
        assert_eq!(order, misplaced("head"));
        assert_eq!(told(&with_sections(&[])), "section `slots` is missing");
    }

    #[test]
    fn a_section_that_it_does_not_have_is_told() {
        let later = with_sections(&[0, 1, 2, 3, 4, 0]);
        let text = told(&with_word(&later, entry(5), *b"clock   "));
        let known = "which files of its version do not have";
        assert_eq!(text, format!("a section `clock   `, {known}"));
        let tag = *b"log\0\0\0\0\0";
        let text = told(&with_word(VERSION_2, entry(1), tag));
        assert!(text.starts_with(r"a section `log\x00"), "{text}");
    }

    /// Each number is tested by itself, also where the checksum is right.
    #[test]
    fn every_number_is_tested() {
        let bytes = VERSION_2.len();
        let short = |more: usize| {
            format!(
                "it ends after {bytes} bytes, and should have at least {}",
                bytes + more
            )
        };
        let long = |less: usize| {
            let belong = bytes - less;
            format!("it goes on behind the {belong} bytes that belong to it")
        };
        let length =
            |number: u64, section| format!("{number} cannot be the length of section `{section}`");
        let (slots, log, held, head, fates) = (0, 1, 2, 3, 4);
        let units = [
            (slots, "slots"),
            (log, "log"),
            (held, "held"),
            (head, "head"),
        ];
        for (section, name) in units.into_iter().chain([(fates, "fates")]) {
            for unit in [0, 7, u64::MAX] {
                let file = with_word(VERSION_2, entry(section) + 8, unit.to_be_bytes());
                let text = format!("{unit} cannot be the unit of section `{name}`");
                assert_eq!(told(&file), text);
            }
            let file = with_word(VERSION_2, entry(section) + 16, [0xff; 8]);
            assert_eq!(told(&file), length(u64::MAX, name));
        }
        let faults = [
            (slots, 0, length(0, "slots")),
            (slots, 16, length(16, "slots")),
            (log, 705, length(705, "log")),
            (log, 704 * 1_025, length(721_600, "log")),
            (log, 704 * 8, short(704)),
            (log, 704 * 6, long(704)),
            (held, 1, length(1, "held")),
            (held, 704 * 65, length(45_760, "held")),
            (held, 0, long(704)),
            (head, 0, length(0, "head")),
            (head, 4_240, length(4_240, "head")),
            (fates, 13, length(13, "fates")),
            (fates, 2_050, length(2_050, "fates")),
            (fates, 16, short(2)),
            (fates, 12, long(2)),
        ];
        for (section, number, text) in faults {
            let file = with_word(VERSION_2, entry(section) + 16, u64::to_be_bytes(number));
            assert_eq!(told(&file), text);
        }
    }

    #[test]
    fn the_number_of_sections_is_tested() {
        let numbered = |number: u64| told(&with_word(VERSION_2, 16, number.to_be_bytes()));
        assert_eq!(numbered(0), "section `slots` is missing");
        assert_eq!(numbered(4), "section `fates` is missing");
        // What is read behind the table are the bytes of a section.
        for number in [6, u64::MAX] {
            let text = numbered(number);
            assert!(text.starts_with(r"a section `\x00"), "{text}");
        }
    }

    /// At least one, and as many as there are rows.
    #[test]
    fn the_number_of_slots_is_tested() {
        let at = entry(5);
        let empty = Store::with_capacity(1).expect("a store");
        let empty = encode(&empty).expect("a sound store");
        let none = told(&with_word(&empty, at, [0; 8]));
        assert_eq!(none, "0 cannot be its number of slots");
        for slots in [0, 1, 6, 1_025, u64::MAX] {
            let file = with_word(VERSION_2, at, slots.to_be_bytes());
            assert_eq!(
                told(&file),
                format!("{slots} cannot be its number of slots")
            );
        }
        for slots in [7_u64, 1_024] {
            let file = with_word(VERSION_2, at, slots.to_be_bytes());
            let store = decode(&file).expect("a sound file");
            assert_eq!(
                (store.capacity() as u64, store.logged_len()),
                (slots, Ok(7))
            );
        }
    }

    /// The file with these bytes as its section of fates.
    fn with_fates(fates: &[u8]) -> Vec<u8> {
        let end = VERSION_2.len() - CHECKSUM_BYTES - 2 * FATES.len();
        let mut file = VERSION_2[..end].to_vec();
        file.extend(fates);
        file.extend([0; CHECKSUM_BYTES]);
        with_word(&file, entry(4) + 16, (fates.len() as u64).to_be_bytes())
    }

    #[test]
    fn every_row_has_a_fate() {
        for fates in [0, 6, 8, 1_024] {
            let text = format!("7 rows are logged, and it says of {fates} what became of them");
            assert_eq!(told(&with_fates(&vec![0; 2 * fates])), text);
        }
    }

    #[test]
    fn fates_are_read_strictly() {
        for [fate, detail] in [[0, 1], [1, 1], [2, 1], [4, 1], [6, 0], [254, 0], [255, 1]] {
            let mut fates = [0; 14];
            fates[6..8].copy_from_slice(&[fate, detail]);
            let text = format!(
                "the bytes {fate} and {detail} do not say what became of the logged row at position 3"
            );
            assert_eq!(told(&with_fates(&fates)), text);
        }
    }

    #[test]
    fn fates_stay_in_a_file() {
        let store = in_version_2();
        assert_eq!(store.fates(), Ok(FATES.to_vec()));
        let bytes = encode(&store).expect("a sound store");
        assert_eq!(decode(&bytes).expect("a sound file").fates(), store.fates());
    }
}
