//! Clock areas: 65 big-endian words, a count and 32 pairs of author and number.

/// Bytes of a clock area.
pub const BYTES: usize = 520;
/// Authors of a clock.
pub const AUTHORS: usize = 32;

pub type Area = [u8; BYTES];

pub fn word(area: &[u8], i: usize) -> u64 {
    let bytes = area[8 * i..8 * i + 8].try_into();
    u64::from_be_bytes(bytes.expect("eight bytes"))
}

pub fn set_word(area: &mut [u8], i: usize, value: u64) {
    area[8 * i..8 * i + 8].copy_from_slice(&value.to_be_bytes());
}

/// The area of these entries, whose authors rise.
pub fn encode(entries: impl IntoIterator<Item = (u64, u64)>) -> Area {
    let mut area = [0; BYTES];
    let mut count = 0;
    for (author, number) in entries {
        set_word(&mut area, 1 + 2 * count, author);
        set_word(&mut area, 2 + 2 * count, number);
        count += 1;
    }
    set_word(&mut area, 0, count as u64);
    area
}

/// The entries, as many as the count says but no more than there are places.
pub fn entries(area: &[u8]) -> impl Iterator<Item = (u64, u64)> + '_ {
    let count = word(area, 0).min(AUTHORS as u64) as usize;
    (0..count).map(|i| (word(area, 1 + 2 * i), word(area, 2 + 2 * i)))
}

/// The rules for clocks: at most 32 authors, strictly rising, unused places zero.
pub fn is_sound(area: &[u8]) -> bool {
    if word(area, 0) > AUTHORS as u64 {
        return false;
    }
    let authors: Vec<u64> = entries(area).map(|(author, _)| author).collect();
    let used = 8 * (1 + 2 * authors.len());
    authors.windows(2).all(|pair| pair[0] < pair[1])
        && area[used..BYTES].iter().all(|byte| *byte == 0)
}

/// The author's number, 0 if absent.
pub fn get(area: &[u8], author: u64) -> u64 {
    let mut found = entries(area).filter(|entry| entry.0 == author);
    found.next().map_or(0, |entry| entry.1)
}
