//! Sections, and the table of them.
//!
//! | offset | what |
//! |---|---|
//! | 16 | number of sections |
//! | 24 + 24 i | of section i: its tag, its unit and its length in bytes, a multiple of the unit |
//! | behind the table | the sections' bytes, one after the other |
//!
//! A tag is a name of at most eight letters, with blanks behind it. A version has just the sections of its list, in the
//! list's order.

use std::ops::RangeInclusive;

use super::super::crc64::crc64;
use super::super::error::FileError;
use super::{at_least, check_end, number, sized, MAGIC};
use crate::words::{part, word};

pub const HEADER_BYTES: usize = 24;
pub const ENTRY_BYTES: usize = 24;

/// A section: the bytes of its unit, and how many units there may be.
pub struct Section {
    name: &'static str,
    unit: usize,
    units: RangeInclusive<usize>,
}

impl Section {
    pub const fn new(name: &'static str, unit: usize, units: RangeInclusive<usize>) -> Self {
        Self { name, unit, units }
    }

    fn tag(&self) -> Vec<u8> {
        format!("{:8}", self.name).into_bytes()
    }

    /// The length in an entry of the table, where the entry can be this section's.
    fn length(&self, entry: &[u8; ENTRY_BYTES]) -> Result<usize, FileError> {
        let wrong = |field, number| FileError::Section {
            section: self.name,
            field,
            number,
        };
        let (unit, length) = (word(entry, 8), word(entry, 16));
        if unit != self.unit as u64 {
            return Err(wrong("unit", unit));
        }
        let range = self.units.start() * self.unit..=self.units.end() * self.unit;
        sized(length, range, self.unit).ok_or(wrong("length", length))
    }
}

/// The file of a version, with the bytes of each section.
pub fn join<const N: usize>(
    version: u64,
    sections: &[Section; N],
    contents: [&[u8]; N],
) -> Vec<u8> {
    let mut bytes = MAGIC.to_vec();
    bytes.extend(version.to_be_bytes());
    bytes.extend((N as u64).to_be_bytes());
    for (section, content) in sections.iter().zip(contents) {
        bytes.extend(section.tag());
        bytes.extend((section.unit as u64).to_be_bytes());
        bytes.extend((content.len() as u64).to_be_bytes());
    }
    bytes.extend(contents.concat());
    bytes.extend(crc64(&bytes).to_be_bytes());
    bytes
}

/// The bytes of each section, after all numbers of the table and the checksum were tested.
pub fn split<'a, const N: usize>(
    bytes: &'a [u8],
    sections: &[Section; N],
) -> Result<[&'a [u8]; N], FileError> {
    let entries = table(bytes, sections)?;
    check_order(entries, sections)?;
    let mut end = HEADER_BYTES + entries.as_flattened().len();
    let mut contents: [&[u8]; N] = [&[]; N];
    for ((content, section), entry) in contents.iter_mut().zip(sections).zip(entries) {
        let start = end;
        end += section.length(entry)?;
        // Where the file ends before it, its end is refused below.
        *content = bytes.get(start..end).unwrap_or_default();
    }
    check_end(bytes, end)?;
    Ok(contents)
}

/// The entries of the table. Of more than there are sections one too many is given: there is a wrong one among them then.
fn table<'a>(bytes: &'a [u8], sections: &[Section]) -> Result<&'a [[u8; ENTRY_BYTES]], FileError> {
    let entries = number(bytes, 16)?.min(sections.len() as u64 + 1) * ENTRY_BYTES as u64;
    at_least(bytes, HEADER_BYTES + entries as usize)?;
    Ok(part(bytes, HEADER_BYTES as u64, entries)?.as_chunks().0)
}

/// Each section has its entry, at its place.
fn check_order(entries: &[[u8; ENTRY_BYTES]], sections: &[Section]) -> Result<(), FileError> {
    let tags: Vec<&[u8]> = entries.iter().filter_map(|entry| entry.get(..8)).collect();
    for (i, tag) in tags.iter().enumerate() {
        let known = sections.iter().find(|section| section.tag() == *tag);
        let Some(known) = known else {
            let tag = tag.escape_ascii().to_string();
            return Err(FileError::UnknownSection(tag));
        };
        if tags.iter().take(i).any(|before| before == tag) {
            return Err(FileError::RepeatedSection(known.name));
        }
    }
    for (i, section) in sections.iter().enumerate() {
        match tags.iter().position(|tag| section.tag() == *tag) {
            None => return Err(FileError::MissingSection(section.name)),
            Some(at) if at != i => return Err(FileError::MisplacedSection(section.name)),
            Some(_) => {}
        }
    }
    Ok(())
}
