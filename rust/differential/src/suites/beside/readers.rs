//! Every read of a number or a part, on random bytes and limits, and whole lists of reads through the wrapper.

use std::collections::BTreeMap;
use std::fmt::Debug;

use cuwelfra::Reader;
use cuwelfra_sys as sys;
use oracle::error::CodecError;
use oracle::open;

use crate::census::Forms;
use crate::leb128::{self, longer, OVERLONG};
use crate::original::numbers::{left, same_sizes, same_u32, same_varint};
use crate::original::{self, codec_told};
use crate::rng::Rng;
use crate::support::{agree, note, Outcome};

const STRINGS: usize = 200_000;
const LISTS: usize = 200_000;

pub fn run(rng: &mut Rng) -> Outcome {
    let mut forms = Forms::default();
    let mut cases = 0;
    for _ in 0..STRINGS {
        let len = rng.below(24);
        let mut s = rng.bytes(len);
        let at = rng.below(len + 2);
        if rng.once_in(2) {
            plant(rng, &mut s, at);
        }
        cases += numbers(&mut forms, &s, at)?;
        for max in limits(rng, &s, at) {
            same_sizes(&mut forms, &s, at, max)?;
            cases += 2;
        }
    }
    for at in [1 << 32, usize::MAX - 1, usize::MAX] {
        cases += numbers(&mut forms, &[1; 9], at)?;
        same_sizes(&mut forms, &[1; 9], at, u64::MAX)?;
        cases += 2;
    }
    let mut overlong = BTreeMap::new();
    for _ in 0..LISTS {
        if let Some(kind) = list(rng, &mut forms)? {
            *overlong.entry(kind).or_insert(0) += 1;
        }
        cases += 1;
    }
    note(&format!(
        "readers: lists that end at an overlong number {overlong:?}"
    ));
    agree(&overlong.len(), &(KINDS.len() - 1), || {
        "kinds of reads that met an overlong number".into()
    })?;
    forms.finish("readers", OVERLONG)?;
    Ok(cases)
}

/// Puts a varint around 2^32, or one around the bytes that remain, at `at`, in its shortest form or a longer one.
fn plant(rng: &mut Rng, s: &mut [u8], at: usize) {
    let rest = s.len().saturating_sub(at) as u64;
    let near = rng.pick(&[1 << 32, rest]);
    let more = rng.pick(&[0, 0, 0, 1, 2, 5]);
    let varint = longer(rng.near(near), more);
    for (place, byte) in s.iter_mut().skip(at).zip(varint) {
        *place = byte;
    }
}

/// Limits around what stands at `at`, in whatever form, and the ends.
fn limits(rng: &mut Rng, s: &[u8], at: usize) -> [u64; 6] {
    let there = leb128::read_any(left(s, at)).map_or(0, |(value, _)| value);
    [0, 1, s.len() as u64, u64::MAX, there, rng.near(there)]
}

fn numbers(forms: &mut Forms, s: &[u8], at: usize) -> Outcome {
    let inputs = |what: &'static str| move || format!("{what} of {s:02x?} at {at}");
    let byte = original::number_read(s, at, |r| r.u8().map(u64::from));
    agree(&sys::get_u8(s, at), &byte, inputs("get_u8"))?;
    same_varint(forms, s, at)?;
    same_u32(forms, s, at)?;
    let end = original::finish(s, at);
    agree(&sys::finish(s, at), &end, inputs("finish"))?;
    let left = original::remaining(s, at);
    agree(&sys::remaining(s, at), &left, inputs("remaining"))?;
    Ok(5)
}

/// The reads of a list; all but that of a byte begin with a number.
#[derive(Clone, Copy, Debug, PartialEq, Eq, PartialOrd, Ord)]
enum Kind {
    U8,
    Varint,
    U32,
    Count,
    Bytes,
}

const KINDS: [Kind; 5] = [Kind::U8, Kind::Varint, Kind::U32, Kind::Count, Kind::Bytes];

/// A value as text, or the refusal's number.
type Shown = Result<String, u64>;

/// One list of reads, up to the first refusal. It leaves the position. Gives which read met an overlong number, of which
/// the original is not asked.
fn list(rng: &mut Rng, forms: &mut Forms) -> Result<Option<Kind>, String> {
    let len = rng.below(40);
    let s = rng.bytes(len);
    let mut port = Reader::new(&s);
    let mut original = open::Reader::new(&s);
    loop {
        let before = port.position();
        let max = rng.pick(&[0, 1, 5, u64::MAX]);
        let kind = rng.pick(&KINDS);
        let inputs = || format!("{kind:?} of {s:02x?} at {before}, max {max}");
        let overlong = is_overlong(kind, &s[before..]);
        forms.note(overlong);
        let wanted = match overlong {
            true => Err(OVERLONG),
            false => original_read(&mut original, kind, &s[before..], max),
        };
        agree(&port_read(&mut port, kind, max), &wanted, inputs)?;
        if wanted.is_err() {
            agree(&port.position(), &before, inputs)?;
            agree(&port.remaining(), &(len - before), inputs)?;
            return Ok(overlong.then_some(kind));
        }
        agree(&port.remaining(), &original.remaining(), inputs)?;
        let end = original.finish().err().map(|e| codec_told(&e).number);
        let ended = port.finish().err().map(|e| e.number());
        agree(&ended, &end, || format!("finish after {}", inputs()))?;
    }
}

/// Whether a read of this kind meets an overlong number.
fn is_overlong(kind: Kind, left: &[u8]) -> bool {
    let number = match kind {
        Kind::U8 => return false,
        Kind::U32 => leb128::read_u32(left),
        _ => leb128::read(left),
    };
    number == Err(OVERLONG)
}

fn port_read(port: &mut Reader, kind: Kind, max: u64) -> Shown {
    fn shown<T: Debug>(read: Result<T, cuwelfra::Refusal>) -> Shown {
        read.map(|v| format!("{v:?}")).map_err(|r| r.number())
    }
    match kind {
        Kind::U8 => shown(port.u8()),
        Kind::Varint => shown(port.varint()),
        Kind::U32 => shown(port.u32()),
        Kind::Count => shown(port.count(max)),
        Kind::Bytes => shown(port.bytes(max)),
    }
}

/// The original's `u32` is private: another reader says what it answers, and this one passes the number.
fn original_read(original: &mut open::Reader, kind: Kind, left: &[u8], max: u64) -> Shown {
    fn shown<T: Debug>(read: Result<T, CodecError>) -> Shown {
        read.map(|v| format!("{v:?}"))
            .map_err(|e| codec_told(&e).number)
    }
    match kind {
        Kind::U8 => shown(original.u8()),
        Kind::Varint => shown(original.varint()),
        Kind::U32 => match original::get_u32(left, 0).told.number {
            0 => shown(original.varint()),
            number => Err(number),
        },
        Kind::Count => shown(original.count(max as usize)),
        Kind::Bytes => shown(original.bytes(max as usize)),
    }
}
