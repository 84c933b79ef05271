//! Numbers around every power of two and any others, written at several places and read back.

use cuwelfra_sys as sys;

use crate::original;
use crate::rng::Rng;
use crate::support::{agree, no_write_past_end, same_write, Outcome};

const RANDOM: usize = 20_000;

pub fn run(rng: &mut Rng) -> Outcome {
    let mut cases = 0;
    for power in 0..=64u32 {
        for away in 0..7 {
            let power = 1u64.checked_shl(power).unwrap_or(0);
            cases += one(power.wrapping_add(away).wrapping_sub(3))?;
        }
    }
    for _ in 0..RANDOM {
        let bits = rng.below(64);
        cases += one(rng.next() >> bits)?;
    }
    Ok(cases)
}

fn one(v: u64) -> Outcome {
    let expected = original::written(|w| w.varint(v));
    let what = format!("put_varint of {v}");
    agree(&sys::varint_len(v), &expected.len(), || {
        format!("varint_len of {v}")
    })?;
    let mut cases = 1;
    for at in [0, 1, 5] {
        cases += same_write(&expected, at, &what, |out, at| sys::put_varint(out, at, v))?;
        cases += read_back(v, at, &expected)?;
    }
    cases += no_write_past_end(&what, |out, at| sys::put_varint(out, at, v))?;
    Ok(cases)
}

fn read_back(v: u64, at: usize, expected: &[u8]) -> Outcome {
    let mut out = [0xff; 16];
    let written = sys::put_varint(&mut out, at, v);
    let read = sys::get_varint(&out, at);
    let next = (at + expected.len()) as u64;
    agree(
        &(read.value, read.next, written.next),
        &(v, next, next),
        || format!("put_varint of {v} at {at}, read back"),
    )?;
    Ok(1)
}
