//! Every byte string of up to three bytes: as a varint at every position; as a number of 32 bits, a count and a length.

use crate::census::Forms;
use crate::leb128::OVERLONG;
use crate::original::numbers::{same_sizes, same_u32, same_varint};
use crate::rng::Rng;
use crate::support::{agree, note, Outcome};

/// How many of the 16,843,008 strings of one to three bytes begin with a number: 128 of one byte, 128 * 127 of two and
/// 128 * 128 * 127 of three, with any bytes behind.
const READ: u64 = 14_680_064;
/// How many begin with an overlong one: 128 of two bytes and 128 * 128 of three, which end in a zero byte.
const ZERO_ENDED: u64 = 49_280;

pub fn run(_: &mut Rng) -> Outcome {
    let mut forms = Forms::default();
    let (mut read, mut overlong) = (0, 0);
    for len in 0..=3 {
        for word in 0..1u32 << (8 * len) {
            let bytes = word.to_le_bytes();
            let s = &bytes[..len];
            let first = same_varint(&mut forms, s, 0)?;
            read += u64::from(first == 0);
            overlong += u64::from(first == OVERLONG);
            for at in 1..=len + 1 {
                same_varint(&mut forms, s, at)?;
            }
            same_u32(&mut forms, s, 0)?;
            for max in [0, u64::MAX] {
                same_sizes(&mut forms, s, 0, max)?;
            }
        }
    }
    note(&format!(
        "varint-short: of the strings of one to three bytes {read} read, as the original spells their value, and \
         {overlong} are overlong"
    ));
    agree(&(read, overlong), &(READ, ZERO_ENDED), || {
        "strings that read, and overlong ones".into()
    })?;
    forms.finish("varint-short", OVERLONG)?;
    Ok(forms.cases())
}
