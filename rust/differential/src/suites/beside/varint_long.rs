//! Varints around each boundary: a million strings of 4 to 14 bytes, read at every position; every last byte behind up to
//! twelve others; numbers around 32 and 64 bits, in up to twelve bytes.

use crate::census::Forms;
use crate::leb128::{longer, OVERLONG};
use crate::original::numbers::{same_u32, same_varint};
use crate::rng::Rng;
use crate::support::{agree, note, Check, Outcome};

const STRINGS: usize = 1_000_000;
const NEAR: usize = 200_000;
/// Bytes for the tenth place: its low seven bits may be 0 or 1.
const TENTH: [u8; 10] = [0, 1, 2, 3, 0x7f, 0x80, 0x81, 0x82, 0xfe, 0xff];

pub fn run(rng: &mut Rng) -> Outcome {
    let mut forms = Forms::default();
    let mut buf = [0; 14];
    for _ in 0..STRINGS {
        let len = 4 + rng.below(11);
        let s = &mut buf[..len];
        shape(rng, s);
        for at in 0..=len {
            same_varint(&mut forms, s, at)?;
        }
    }
    every_last_byte(&mut forms)?;
    for _ in 0..NEAR {
        near_a_width(rng, &mut forms)?;
    }
    by_hand(&mut forms)?;
    forms.finish("varint-long", OVERLONG)?;
    Ok(forms.cases())
}

/// Padding, then a run of continuation bytes that ends somewhere or is cut, then anything.
fn shape(rng: &mut Rng, s: &mut [u8]) {
    rng.fill(s);
    let start = rng.below(4);
    let end = start + rng.below(13);
    let filler = rng.pick(&[Some(0x80), Some(0xff), Some(0x81), None]);
    for byte in s.iter_mut().take(end).skip(start) {
        *byte = filler.unwrap_or(*byte | 0x80);
    }
    if !rng.once_in(4) {
        put(s, start + 9, rng.pick(&TENTH));
    }
    let last = rng.pick(&[0, 1, 2, 0x40, 0x7f]);
    if end != start + 9 {
        put(s, end, last);
    }
}

fn put(s: &mut [u8], at: usize, byte: u8) {
    if let Some(place) = s.get_mut(at) {
        *place = byte;
    }
}

/// Up to twelve bytes of a kind, of which the last are 80, then every byte, and nothing, a zero or a one behind it.
fn every_last_byte(forms: &mut Forms) -> Check {
    let mut refused = [[0; 3]; 14];
    for before in 0..=12 {
        for filler in [0x81, 0xff] {
            for padding in 0..=before {
                for last in 0..=255 {
                    for behind in [&[][..], &[0], &[1]] {
                        let mut s = vec![filler; before - padding];
                        s.resize(before, 0x80);
                        s.push(last);
                        s.extend(behind);
                        let number = same_varint(forms, &s, 0)?;
                        same_u32(forms, &s, 0)?;
                        let counts = &mut refused[before + 1];
                        for (count, kind) in counts.iter_mut().zip([22, 23, OVERLONG]) {
                            *count += u64::from(number == kind);
                        }
                    }
                }
            }
        }
    }
    let listed = [8, 9, 10, 11, 12].map(|len| {
        let [cut, wide, overlong] = refused[len];
        format!("{len} bytes 22: {cut}, 23: {wide}, 30: {overlong}")
    });
    note(&format!(
        "varint-long: refused up to a last byte of {}",
        listed.join("; ")
    ));
    // A number of at most nine bytes is never too wide, and one of eleven always, whatever its last byte.
    let met = |len: usize| refused[len].map(|count| count > 0);
    let wanted = [
        (9, [true, false, true]),
        (10, [true, true, true]),
        (11, [false, true, false]),
    ];
    for (len, kinds) in wanted {
        agree(&met(len), &kinds, || {
            format!("22, 23 and 30 at {len} bytes")
        })?;
    }
    Ok(())
}

/// A number around 32 or 64 bits, or around seven times as many bits, in its shortest form or a longer one.
fn near_a_width(rng: &mut Rng, forms: &mut Forms) -> Check {
    let powers = [7, 14, 21, 28, 31, 32, 33, 35, 42, 49, 56, 63];
    let power = match rng.below(3) {
        0 => 1 << 32,
        1 => 0,
        _ => 1 << rng.pick(&powers),
    };
    let more = rng.pick(&[0, 0, 0, 1, 1, 2, 3, 4, 5, 6, 7, 8, 9]);
    let mut s = longer(rng.near(power), more);
    match rng.below(4) {
        0 => s.truncate(rng.below(s.len() + 1)),
        1 => s.push(rng.byte()),
        _ => {}
    }
    same_varint(forms, &s, 0)?;
    same_u32(forms, &s, 0)?;
    Ok(())
}

/// Continuation bytes, how many, and what follows; the refusal of a varint, and that of one of 32 bits, 0 where it is read.
const BY_HAND: [(u8, usize, &[u8], u64, u64); 16] = [
    (0x80, 0, &[0], 0, 0),
    (0x80, 1, &[1], 0, 0),
    (0x80, 9, &[1], 0, 23),
    (0x80, 1, &[0], 30, 30),
    (0x82, 1, &[0x80, 0], 30, 30),
    (0x80, 9, &[0], 30, 30),
    (0xff, 9, &[0], 30, 23),
    (0xff, 4, &[0x8f, 0], 30, 30),
    (0x80, 4, &[0x90, 0], 30, 23),
    (0x80, 1, &[], 22, 22),
    (0x80, 10, &[], 22, 22),
    (0x80, 9, &[2], 23, 23),
    (0x80, 9, &[0x82], 23, 23),
    (0x80, 10, &[0], 23, 23),
    (0xff, 9, &[0x81, 0], 23, 23),
    (0x80, 11, &[0], 23, 23),
];

fn by_hand(forms: &mut Forms) -> Check {
    for (byte, times, then, number, narrow) in BY_HAND {
        let s = [&vec![byte; times][..], then].concat();
        let numbers = [same_varint(forms, &s, 0)?, same_u32(forms, &s, 0)?];
        agree(&numbers, &[number, narrow], || format!("{s:02x?}"))?;
    }
    Ok(())
}
