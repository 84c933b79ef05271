//! Single bytes and sized byte strings, and whole lists of writes through the wrapper.

use cuwelfra::{Refusal, Writer};
use cuwelfra_sys as sys;

use crate::original;
use crate::rng::Rng;
use crate::support::{agree, no_write_past_end, pattern, same_write, Check, Outcome};

const LISTS: usize = 50_000;
/// Lengths of byte strings: around each varint boundary, and some between.
const LENGTHS: [usize; 16] = [
    0, 1, 2, 3, 7, 20, 126, 127, 128, 129, 255, 256, 300, 16_383, 16_384, 70_000,
];

pub fn run(rng: &mut Rng) -> Outcome {
    let mut cases = single_bytes()?;
    for len in LENGTHS {
        cases += sized(&rng.bytes(len))?;
    }
    for _ in 0..LISTS {
        list(rng)?;
        cases += 1;
    }
    Ok(cases)
}

fn single_bytes() -> Outcome {
    let mut cases = 0;
    for b in 0..=255 {
        let expected = original::written(|w| w.u8(b));
        let what = format!("put_u8 of {b:02x}");
        for at in [0, 1, 5] {
            cases += same_write(&expected, at, &what, |out, at| sys::put_u8(out, at, b))?;
        }
        cases += no_write_past_end(&what, |out, at| sys::put_u8(out, at, b))?;
    }
    Ok(cases)
}

fn sized(bytes: &[u8]) -> Outcome {
    let expected = original::written(|w| w.bytes(bytes));
    let what = format!("put_bytes of {} bytes", bytes.len());
    let put = |out: &mut [u8], at| sys::put_bytes(out, at, bytes);
    let mut cases = 0;
    for at in [0, 1, 5] {
        cases += same_write(&expected, at, &what, put)?;
    }
    Ok(cases + no_write_past_end(&what, put)?)
}

#[derive(Debug)]
enum Write {
    Byte(u8),
    Varint(u64),
    Bytes(Vec<u8>),
}

/// One list of writes into one slice, which may be too short: the first write that does not fit is refused.
fn list(rng: &mut Rng) -> Check {
    let writes: Vec<Write> = (0..rng.below(6)).map(|_| write(rng)).collect();
    let room = rng.below(40);
    let mut expected = pattern(room);
    let mut out = pattern(room);
    let mut writer = Writer::new(&mut out);
    let mut end = 0;
    for write in &writes {
        let bytes = alone(write);
        let fits = end + bytes.len() <= room;
        if fits {
            expected[end..end + bytes.len()].copy_from_slice(&bytes);
            end += bytes.len();
        }
        let answer = match write {
            Write::Byte(b) => writer.u8(*b),
            Write::Varint(v) => writer.varint(*v),
            Write::Bytes(bytes) => writer.bytes(bytes),
        };
        let wanted = fits.then_some(()).ok_or(Refusal::ShortArea);
        let inputs = || format!("{writes:02x?} into {room} bytes");
        agree(&answer, &wanted, inputs)?;
        agree(&writer.position(), &end, inputs)?;
    }
    agree(&out, &expected, || {
        format!("{writes:02x?} into {room} bytes")
    })
}

fn write(rng: &mut Rng) -> Write {
    match rng.below(3) {
        0 => Write::Byte(rng.byte()),
        1 => Write::Varint(rng.edge()),
        _ => {
            let len = rng.below(12);
            Write::Bytes(rng.bytes(len))
        }
    }
}

fn alone(write: &Write) -> Vec<u8> {
    original::written(|w| match write {
        Write::Byte(b) => w.u8(*b),
        Write::Varint(v) => w.varint(*v),
        Write::Bytes(bytes) => w.bytes(bytes),
    })
}
