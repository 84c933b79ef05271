//! Big-endian words of lent areas, and numbers of answers as what they stand for.
//!
//! An answer is decoded strictly: a number that has no meaning where it stands is [`Refusal::MisfitAnswer`].

use crate::Refusal;

/// The word at `at`, 0 where the area ends before it.
pub(crate) fn word(area: &[u8], at: usize) -> u64 {
    let bytes = area.get(at..).and_then(|rest| rest.first_chunk());
    bytes.map_or(0, |bytes| u64::from_be_bytes(*bytes))
}

pub(crate) fn set_word(area: &mut [u8], at: usize, value: u64) {
    set_bytes(area, at, &value.to_be_bytes());
}

/// Writes at `at`, nothing where the area ends before it.
pub(crate) fn set_bytes(area: &mut [u8], at: usize, bytes: &[u8]) {
    let room = area
        .get_mut(at..)
        .and_then(|rest| rest.get_mut(..bytes.len()));
    if let Some(room) = room {
        room.copy_from_slice(bytes);
    }
}

/// A count in an area, where what is too large for memory is as large as can be.
pub(crate) fn size(number: u64) -> usize {
    usize::try_from(number).unwrap_or(usize::MAX)
}

/// A number of an answer as one of fewer bits.
pub(crate) fn small<T: TryFrom<u64>>(number: u64) -> Result<T, Refusal> {
    T::try_from(number).map_err(|_| Refusal::MisfitAnswer)
}

/// An answer that is 0 for no and 1 for yes.
pub(crate) fn flag(number: u64) -> Result<bool, Refusal> {
    match number {
        0 => Ok(false),
        1 => Ok(true),
        _ => Err(Refusal::MisfitAnswer),
    }
}

/// A count or position of an answer, which the length of what was lent bounds.
pub(crate) fn within(number: u64, most: usize) -> Result<usize, Refusal> {
    let size = small(number)?;
    match size <= most {
        true => Ok(size),
        false => Err(Refusal::MisfitAnswer),
    }
}

/// The part of lent bytes that an answer names.
pub(crate) fn part(bytes: &[u8], start: u64, len: u64) -> Result<&[u8], Refusal> {
    let (start, len): (usize, usize) = (small(start)?, small(len)?);
    let rest = bytes.get(start..);
    let part = rest.and_then(|rest| rest.get(..len));
    part.ok_or(Refusal::MisfitAnswer)
}

#[cfg(test)]
mod tests {
    use super::*;

    const MISFIT: Refusal = Refusal::MisfitAnswer;

    #[test]
    fn words_past_the_end_are_zero_and_are_not_written() {
        let mut area = [0; 9];
        set_word(&mut area, 1, 0x0102);
        assert_eq!(area, [0, 0, 0, 0, 0, 0, 0, 1, 2]);
        assert_eq!(
            (word(&area, 1), word(&area, 2), word(&area, 10)),
            (0x0102, 0, 0)
        );
        set_word(&mut area, 2, u64::MAX);
        assert_eq!(word(&area, 1), 0x0102);
    }

    #[test]
    fn a_number_that_does_not_fit_is_no_answer() {
        assert_eq!(small(255), Ok(u8::MAX));
        assert_eq!(small::<u8>(256), Err(MISFIT));
        assert_eq!(small(0xffff_ffff), Ok(u32::MAX));
        assert_eq!(small::<u32>(1 << 32), Err(MISFIT));
        assert_eq!((flag(0), flag(1)), (Ok(false), Ok(true)));
        assert_eq!((flag(2), flag(u64::MAX)), (Err(MISFIT), Err(MISFIT)));
        assert_eq!((within(0, 0), within(3, 3)), (Ok(0), Ok(3)));
        assert_eq!(
            (within(4, 3), within(u64::MAX, 3)),
            (Err(MISFIT), Err(MISFIT))
        );
    }

    #[test]
    fn a_part_outside_what_was_lent_is_no_answer() {
        assert_eq!(part(b"abc", 1, 2), Ok(&b"bc"[..]));
        assert_eq!(part(b"abc", 3, 0), Ok(&b""[..]));
        for (start, len) in [(1, 3), (4, 0), (u64::MAX, u64::MAX)] {
            assert_eq!(part(b"abc", start, len), Err(MISFIT));
        }
    }
}
