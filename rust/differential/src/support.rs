//! What the suites share.

use std::cell::RefCell;
use std::fmt::Debug;

use cuwelfra_sys::{EnvelopeRead, FrameTold, MessageTold, NumberRead, PartRead, Told, Written};

/// The number of cases, or the first disagreement with its inputs.
pub type Outcome = Result<u64, String>;
/// Agreement, or the disagreement with its inputs.
pub type Check = Result<(), String>;
/// How far an answer reached, in rows mostly, `None` where the call was refused as it must be; or the disagreement.
pub type Reach = Result<Option<usize>, String>;

thread_local! {
    static NOTES: RefCell<String> = const { RefCell::new(String::new()) };
}

/// A line that is printed with the suite's last one.
pub fn note(line: &str) {
    NOTES.with_borrow_mut(|notes| {
        notes.push_str(line);
        notes.push('\n');
    });
}

/// The lines that this thread noted since it was last asked.
pub fn notes() -> String {
    NOTES.take()
}

/// Requires that the port's answer is the expected one. `inputs` is asked for only where it is not.
pub fn agree<T: PartialEq + Debug>(
    port: &T,
    expected: &T,
    inputs: impl FnOnce() -> String,
) -> Check {
    if port == expected {
        return Ok(());
    }
    Err(format!(
        "  inputs:   {}\n  port:     {port:02x?}\n  expected: {expected:02x?}",
        inputs()
    ))
}

/// Hands on the bytes with every one of them in turn replaced by every other.
pub fn each_replaced(mut bytes: Vec<u8>, mut check: impl FnMut(&[u8]) -> Check) -> Check {
    for i in 0..bytes.len() {
        for flip in 1..=255 {
            bytes[i] ^= flip;
            check(&bytes)?;
            bytes[i] ^= flip;
        }
    }
    Ok(())
}

/// A refusal that carries no values.
pub fn refused(number: u64) -> Told {
    Told {
        number,
        ..Told::default()
    }
}

/// An answer that all is 0 of but the refusal.
pub trait Refusing: Default {
    fn refusing(told: Told) -> Self;
}

macro_rules! refusing {
    ($($answer:ty),*) => {$(
        impl Refusing for $answer {
            fn refusing(told: Told) -> Self {
                Self {
                    told,
                    ..Self::default()
                }
            }
        }
    )*};
}

refusing!(NumberRead, PartRead, EnvelopeRead, MessageTold, FrameTold);

/// Requires that a call before the one that is looked at was accepted.
pub fn accepted(told: Told) {
    assert_eq!(told, Told::default());
}

/// Bytes that a call must not touch.
pub fn pattern(len: usize) -> Vec<u8> {
    (0..len)
        .map(|i| (i as u8).wrapping_mul(37) ^ 0x5a)
        .collect()
}

/// Requires that `put` writes exactly `expected` at `at`, and in a shorter slice nothing, with refusal 2.
/// Gives the number of cases.
pub fn same_write(
    expected: &[u8],
    at: usize,
    what: &str,
    put: impl Fn(&mut [u8], usize) -> Written,
) -> Outcome {
    let end = at + expected.len();
    let mut cases = 0;
    for len in short_lengths(at, end).chain([end, end + 1, end + 9]) {
        let mut out = pattern(len);
        let mut after = out.clone();
        let mut answer = Written {
            told: refused(2),
            next: 0,
        };
        if len >= end {
            after[at..end].copy_from_slice(expected);
            answer = Written {
                told: Told::default(),
                next: end as u64,
            };
        }
        let written = put(&mut out, at);
        let inputs = || format!("{what}, at {at} of {len} bytes");
        agree(&written, &answer, inputs)?;
        agree(&out, &after, inputs)?;
        cases += 1;
    }
    Ok(cases)
}

/// Every length below `end` for a small write; for a large one those near its ends.
fn short_lengths(at: usize, end: usize) -> impl Iterator<Item = usize> {
    let small = end - at <= 600;
    (0..end).filter(move |len| small || *len <= at + 4 || *len + 4 > end)
}

/// Requires that a write past every position is refused.
pub fn no_write_past_end(what: &str, put: impl Fn(&mut [u8], usize) -> Written) -> Outcome {
    let mut cases = 0;
    for at in [9, 10, 1 << 32, usize::MAX - 1, usize::MAX] {
        let mut out = pattern(8);
        let written = put(&mut out, at);
        let answer = Written {
            told: refused(2),
            next: 0,
        };
        let inputs = || format!("{what}, at {at} of 8 bytes");
        agree(&written, &answer, inputs)?;
        agree(&out, &pattern(8), inputs)?;
        cases += 1;
    }
    Ok(cases)
}
