//! The symbols that a static library defines, from the table at its start.

use std::collections::BTreeSet;

const MAGIC: &[u8] = b"!<arch>\n";
const HEADER_BYTES: usize = 60;

/// The defined symbols that start with the prefix. The first member of an archive, `/`, has a count, as many offsets
/// and as many names that end in a zero; numbers are big-endian.
pub fn symbols(archive: &[u8], prefix: &str) -> Result<BTreeSet<String>, String> {
    let members = archive.strip_prefix(MAGIC).ok_or("it is no archive")?;
    let (header, members) = split(members, HEADER_BYTES)?;
    let width = match header[..16].trim_ascii_end() {
        b"/" => 4,
        b"/SYM64/" => 8,
        _ => return Err("its first member is no table of symbols".to_string()),
    };
    let size = String::from_utf8_lossy(header[48..58].trim_ascii());
    let size = size.parse().map_err(|_| "the table's size is no number")?;
    let (table, _) = split(members, size)?;
    let (count, table) = split(table, width)?;
    let count = count
        .iter()
        .fold(0, |value, byte| value << 8 | usize::from(*byte));
    let (_, names) = split(table, count.saturating_mul(width))?;
    let names = names.split(|byte| *byte == 0).take(count);
    let names = names.map(|name| String::from_utf8_lossy(name).into_owned());
    Ok(names.filter(|name| name.starts_with(prefix)).collect())
}

fn split(bytes: &[u8], at: usize) -> Result<(&[u8], &[u8]), String> {
    bytes
        .split_at_checked(at)
        .ok_or_else(|| "it is cut short".to_string())
}
