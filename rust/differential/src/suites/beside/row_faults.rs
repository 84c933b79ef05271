//! Batch rows with faults, read by the first of them, and how the original reads them where no number is overlong; and slots
//! that break a rule.

use std::collections::BTreeMap;

use cuwelfra::Slot as WrappedSlot;
use cuwelfra_sys::{self as sys, Told, Written};
use oracle::open::Reader;

use crate::census::Forms;
use crate::leb128::{lengthen, put};
use crate::original::beside::row as row_of;
use crate::original::codec_told;
use crate::original::faults::{judged, Fault, Kind, NOT_ASKED};
use crate::port::area::{set_word, word};
use crate::port::batches::BatchRow;
use crate::port::rows::{self, Held, Row, Slot, SLOT};
use crate::rng::Rng;
use crate::suites::beside::row_bytes::{same_read, signed};
use crate::support::{agree, note, pattern, refused, Check, Outcome};
use crate::world::{large_row, pieces};

const FAULTS: u64 = 300_000;
/// Rows of which each number alone is longer than it needs to be.
const LONGER: u64 = 200;
/// Rows written by hand.
const SMALL: u64 = 15;
const SLOTS: u64 = 200_000;

pub fn run(rng: &mut Rng) -> Outcome {
    zero_dependency(rng)?;
    small(rng)?;
    let mut kinds = Kinds::new();
    let mut forms = Forms::default();
    let mut row = |rng: &mut Rng, batch: &[u8]| -> Check {
        let kind = same_row(rng, batch)?;
        forms.note(kind.there == NOT_ASKED);
        *kinds.entry(kind).or_insert(0) += 1;
        Ok(())
    };
    for _ in 0..FAULTS {
        let batch = faulty(rng);
        row(rng, &batch)?;
    }
    for _ in 0..LONGER {
        let lent = BatchRow::new(large_row(rng));
        pieces::each_longer(&pieces::batch_row(&lent), |batch, _, _| row(rng, batch))?;
    }
    listed(&kinds)?;
    forms.finish("row-faults", 3)?;
    for _ in 0..SLOTS {
        damaged_slot(rng)?;
    }
    Ok(1 + SMALL + forms.cases() + SLOTS)
}

type Kinds = BTreeMap<Kind, u64>;

/// Prints how often each pair of answers came up. Requires that no pair of `PAIRS` lacks.
fn listed(kinds: &Kinds) -> Check {
    let counts = kinds.iter().map(|(kind, count)| format!("{kind} {count}"));
    note(&format!(
        "row-faults: {}",
        counts.collect::<Vec<_>>().join("; ")
    ));
    let met = |here, there| {
        kinds
            .keys()
            .any(|kind| (kind.here, kind.there) == (here, there))
    };
    for (here, theirs) in PAIRS {
        if let Some(there) = theirs.iter().find(|there| !met(here, **there)) {
            return Err(format!("  {here:?} here, {there:?} there never came up"));
        }
    }
    let dropped = kinds.keys().any(|kind| kind.dropped);
    agree(&dropped, &true, || "no dependency of number 0".to_owned())
}

/// Which answers of the original come beside each of ours; where a row is read by one alone, the reading goes on, and
/// may end in any way.
const PAIRS: [(Option<Fault>, &[&str]); 8] = [
    (None, &["read"]),
    (Some(Fault::CutShort), &["read", "Truncated"]),
    (Some(Fault::TooWide), &["VarintOverflow"]),
    (Some(Fault::Overlong), &[NOT_ASKED]),
    (Some(Fault::AboveRest), &["TooLarge"]),
    (Some(Fault::NotRising), &ANY),
    (Some(Fault::Closing), &["read"]),
    (Some(Fault::OverCapacity), &ANY),
];
const ANY: [&str; 4] = ["read", "Truncated", "VarintOverflow", "TooLarge"];

/// The start of a small row: wall time 0, counter 0, stamp author, author and sequence 1.
const HEAD: [u8; 5] = [0, 0, 1, 1, 1];
/// No payload, no signature, and what closes a row.
const CLOSING: [u8; 5] = [0, 0, 1, 0, 0];

/// Small rows whose answers differ in kind, as docs/DIFFERENCES.md has them: the number here, 0 for none, and the
/// original's answer.
fn small(rng: &mut Rng) -> Check {
    let causes: Vec<u8> = (1..=17).flat_map(|author| [author, 1]).collect();
    let rows: [(Vec<u8>, u64, &str); SMALL as usize] = [
        ([&HEAD[..], &[1, 1, 0], &CLOSING].concat(), 0, "read"),
        ([&HEAD[..], &[2, 2, 1, 1, 1], &CLOSING].concat(), 3, "read"),
        ([&HEAD[..], &[2, 2, 1, 1, 1]].concat(), 3, "Truncated"),
        ([&HEAD[..], &[5]].concat(), 3, "TooLarge"),
        ([&HEAD[..], &[0, 5]].concat(), 3, "TooLarge"),
        ([&HEAD[..], &[0, 0, 0, 2, 0, 0]].concat(), 3, "read"),
        ([&HEAD[..], &[17], &causes, &CLOSING].concat(), 4, "read"),
        ([&HEAD[..], &[17], &causes[..20]].concat(), 4, "Truncated"),
        (
            [&HEAD[..], &[0, 0, 65], &[1; 65], &[1, 0, 0]].concat(),
            4,
            "read",
        ),
        ([&HEAD[..], &[0, 0x81, 0x80, 0x40]].concat(), 4, "TooLarge"),
        // Overlong: the wall time, 300 bytes of payload.
        (
            [&[0x80, 0], &HEAD[1..], &[0], &CLOSING].concat(),
            3,
            NOT_ASKED,
        ),
        (
            [&HEAD[..], &[0, 0xac, 0x82, 0], &[7; 300], &CLOSING[1..]].concat(),
            3,
            NOT_ASKED,
        ),
        // A fault before an overlong number: a count above the bytes left, a falling author, 17 dependencies.
        ([&HEAD[..], &[5, 0x80, 0]].concat(), 3, "TooLarge"),
        (
            [&HEAD[..], &[3, 2, 1, 1, 1, 0x83, 0, 1], &CLOSING].concat(),
            3,
            "read",
        ),
        (
            [&HEAD[..], &[17], &causes, &[0x80, 0], &CLOSING[1..]].concat(),
            4,
            "read",
        ),
    ];
    for (bytes, number, original) in &rows {
        let kind = same_row(rng, bytes)?;
        let answers = (kind.here.map_or(0, Fault::number), kind.there);
        agree(&answers, &(*number, *original), || format!("{bytes:02x?}"))?;
    }
    Ok(())
}

/// A row that depends on {1: 0}: both write it alike; the original reads it back without, the port with.
fn zero_dependency(rng: &mut Rng) -> Check {
    let row = Row {
        stamp: (0, 0, 1),
        author: 1,
        seq: 1,
        deps: vec![(1, 0)],
        payload: Vec::new(),
        signature: Vec::new(),
    };
    let mut batch = vec![0, 0, 1, 1, 1, 1, 1, 0, 0, 0];
    let inputs = || "author 1, sequence 1, dependencies {1: 0}".to_owned();
    agree(&signed(&row), &batch, inputs)?;
    let mut written = pattern(batch.len());
    agree(
        &sys::signed_op(&row.slot(), &mut written).told,
        &Told::default(),
        inputs,
    )?;
    agree(&written, &batch, inputs)?;
    let read = Reader::new(&batch).signed_op().map(|op| row_of(&op).deps);
    let read = read.map_err(|error| format!("{error:?}"));
    agree(&read, &Ok(Vec::new()), inputs)?;
    batch.extend([1, 0, 0]);
    same_read(rng, &batch, 0, Ok((&Held::logged(row), 1, batch.len())))
}

/// A batch row of our own writing: overlong varints in a few, sizes beyond capacity, authors that do not rise, wrong closing
/// bytes; then cut, padded or changed.
pub fn faulty(rng: &mut Rng) -> Vec<u8> {
    let row = large_row(rng);
    let mut batch = Vec::new();
    let pads = rng.pick(&[0, 0, 0, 6, 24]);
    let varint = |rng: &mut Rng, batch: &mut Vec<u8>, number| {
        put(batch, number);
        if pads > 0 && rng.once_in(pads) {
            lengthen(batch, rng.pick(&[1, 1, 2, 5, 9, 10]));
        }
    };
    let counter = match rng.below(12) {
        0 => (1 << 32) + rng.next() % 2,
        1 => u64::from(u32::MAX),
        2 => rng.edge(),
        _ => u64::from(row.stamp.1),
    };
    for number in [row.stamp.0, counter, row.stamp.2, row.author, row.seq] {
        varint(rng, &mut batch, number);
    }
    let mut deps = row.deps.clone();
    spoil(rng, &mut deps);
    let count = deps.len() as u64;
    let count = if rng.once_in(12) {
        size(rng, count, 16)
    } else {
        count
    };
    varint(rng, &mut batch, count);
    for (author, number) in deps {
        varint(rng, &mut batch, author);
        varint(rng, &mut batch, number);
    }
    for (bytes, limit) in [(&row.payload, 256), (&row.signature, 64)] {
        let len = bytes.len() as u64;
        let len = if rng.once_in(12) {
            size(rng, len, limit)
        } else {
            len
        };
        varint(rng, &mut batch, len);
        batch.extend(bytes.iter());
    }
    batch.push(if rng.once_in(8) {
        rng.byte()
    } else {
        rng.byte() % 2
    });
    let outcome = if rng.once_in(8) {
        rng.byte()
    } else {
        rng.byte() % 6
    };
    batch.push(outcome);
    batch.push(if rng.once_in(2) { 0 } else { rng.byte() });
    match rng.below(6) {
        0 => batch.truncate(rng.below(batch.len() + 1)),
        1 => {
            let i = rng.below(batch.len());
            batch[i] = rng.byte();
        }
        2 => batch.extend(pattern(rng.below(40))),
        _ => {}
    }
    batch
}

/// Requires that the bytes are read or refused here as the documents say, and there, where the original is asked, as its
/// rules are; and that a row that is read is the bytes that the original writes. Gives both answers' kinds.
pub fn same_row(rng: &mut Rng, batch: &[u8]) -> Result<Kind, String> {
    let judged = judged(batch);
    let wanted = judged.here.as_ref();
    let wanted = wanted.map(|(held, verdict, next)| (held, *verdict, *next));
    same_read(rng, batch, 0, wanted.map_err(|fault| fault.number()))?;
    let inputs = || format!("the original on {batch:02x?}");
    if let Some(wanted) = &judged.there {
        let there = Reader::new(batch).signed_op().map(|op| row_of(&op));
        let there = there.map_err(|error| codec_told(&error).number);
        agree(&there, wanted, inputs)?;
    }
    if let Ok((held, _, next)) = wanted {
        agree(&&signed(&held.row)[..], &&batch[..next - 3], inputs)?;
    }
    Ok(judged.kind())
}

/// A size around its limit, around `len`, or any.
fn size(rng: &mut Rng, len: u64, limit: u64) -> u64 {
    match rng.below(3) {
        0 => rng.near(limit),
        1 => rng.near(len),
        _ => rng.edge(),
    }
}

/// Two authors change places or become equal.
fn spoil(rng: &mut Rng, deps: &mut [(u64, u64)]) {
    if deps.len() < 2 || !rng.once_in(6) {
        return;
    }
    let i = rng.below(deps.len() - 1);
    if rng.once_in(2) {
        deps.swap(i, i + 1);
    } else {
        deps[i + 1].0 = deps[i].0;
    }
}

/// A slot with one change is written where it still reads, else refused with 1.
fn damaged_slot(rng: &mut Rng) -> Check {
    let row = large_row(rng);
    let mut slot = row.slot();
    damage(rng, &mut slot);
    let held = rows::read(&slot);
    let wrapped = WrappedSlot::from_area(slot);
    let inputs = || format!("signed_op of the slot {slot:02x?}");
    let mut out = pattern(SLOT);
    let mut after = out.clone();
    let mut answer = Written {
        told: refused(1),
        next: 0,
    };
    if let Some(held) = &held {
        let bytes = signed(&held.row);
        after[..bytes.len()].copy_from_slice(&bytes);
        answer = Written {
            told: Told::default(),
            next: bytes.len() as u64,
        };
    }
    agree(&sys::signed_op(&slot, &mut out), &answer, inputs)?;
    agree(&out, &after, inputs)?;
    let short = sys::unsigned_op(&slot, &mut []).told;
    let number = if held.is_some() { 2 } else { 1 };
    agree(&short, &refused(number), inputs)?;
    agree(&wrapped.row().is_ok(), &held.is_some(), inputs)
}

fn damage(rng: &mut Rng, slot: &mut Slot) {
    match rng.below(4) {
        0 => {
            let bit = rng.below(8 * SLOT);
            slot[bit / 8] ^= 1 << (bit % 8);
        }
        1 => {
            let i = rng.below(16);
            let value = rng.edge();
            set_word(slot, i, value);
        }
        2 => {
            let i = 16 + 2 * rng.below(16);
            let value = word(slot, 16 + 2 * rng.below(16));
            set_word(slot, i, value);
        }
        _ => {
            // Arrival, outcome and detail are free.
            set_word(slot, 8, rng.edge());
            set_word(slot, 9, rng.next() % 6);
            set_word(slot, 10, rng.pick(&[0, 0, 1, 255, 256]));
        }
    }
}
