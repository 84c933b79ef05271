//! Rows as bytes: written as the original writes them, read back, and cut at every length.

use cuwelfra::{HeldRow, Slot as WrappedSlot, MAX_OP_BYTES};
use cuwelfra_sys::{self as sys, OpTold, Told, Written};
use oracle::open::Writer;

use crate::original;
use crate::original::beside::operation;
use crate::port::rows::{Held, Row, SLOT};
use crate::port::wrapped::{wrapped_outcome, wrapped_row};
use crate::rng::Rng;
use crate::support::{agree, pattern, refused, same_write, Check, Outcome};
use crate::world::large_row;

const ROWS: usize = 200_000;
/// Rows that are written into and read from every length.
const EVERY_LENGTH: usize = 300;

type Write = fn(&[u8], &mut [u8]) -> Written;

pub fn run(rng: &mut Rng) -> Outcome {
    let mut cases = 0;
    for _ in 0..ROWS {
        let row = large_row(rng);
        written(rng, &row)?;
        read_back(rng, &row)?;
        cases += 2;
    }
    for _ in 0..EVERY_LENGTH {
        cases += every_length(rng)?;
    }
    Ok(cases)
}

fn unsigned(row: &Row) -> Vec<u8> {
    original::written(|w: &mut Writer| w.unsigned_op(&operation(row)))
}

pub fn signed(row: &Row) -> Vec<u8> {
    original::written(|w: &mut Writer| w.signed_op(&operation(row)))
}

/// Both forms into room that is exact, larger or too short; the wrapper makes the same slot and bytes.
fn written(rng: &mut Rng, row: &Row) -> Check {
    let mut slot = row.slot().to_vec();
    slot.extend(pattern(rng.pick(&[0, 0, 1, 64])));
    let forms = [
        ("unsigned_op", unsigned(row), sys::unsigned_op as Write),
        ("signed_op", signed(row), sys::signed_op),
    ];
    for (what, bytes, call) in forms {
        let room = match rng.below(3) {
            0 => bytes.len(),
            1 => bytes.len() + rng.below(20),
            _ => bytes.len() - 1 - rng.below(bytes.len()),
        };
        let mut out = pattern(room);
        let mut after = out.clone();
        let mut answer = Written {
            told: refused(2),
            next: 0,
        };
        if room >= bytes.len() {
            after[..bytes.len()].copy_from_slice(&bytes);
            answer = Written {
                told: Told::default(),
                next: bytes.len() as u64,
            };
        }
        let inputs = || format!("{what} of {row:02x?} into {room} bytes");
        agree(&call(&slot, &mut out), &answer, inputs)?;
        agree(&out, &after, inputs)?;
    }
    let wrapped = WrappedSlot::logged(&wrapped_row(row));
    let inputs = || format!("the wrapper's slot of {row:02x?}");
    let wanted = Ok(WrappedSlot::from_area(row.slot()));
    agree(&wrapped, &wanted, inputs)?;
    let wrapped = wrapped.expect("just compared");
    let back = wrapped.row().map(|held| held.row);
    agree(&back, &Ok(wrapped_row(row)), inputs)?;
    let mut out = [0; MAX_OP_BYTES];
    let bytes = wrapped.signed_op(&mut out).map(|len| out[..len].to_vec());
    agree(&bytes, &Ok(signed(row)), inputs)?;
    let bytes = wrapped.unsigned_op(&mut out).map(|len| out[..len].to_vec());
    agree(&bytes, &Ok(unsigned(row)), inputs)
}

/// A batch row: the signed bytes and the three that follow.
fn batch_row(rng: &mut Rng, row: &Row) -> (Vec<u8>, Held, u64) {
    let verdict = rng.next() % 2;
    let outcome = rng.next() % 5;
    let detail = if outcome == 2 || outcome == 4 {
        u64::from(rng.byte())
    } else {
        0
    };
    let mut bytes = signed(row);
    bytes.extend([verdict as u8, outcome as u8, detail as u8]);
    let held = Held {
        row: row.clone(),
        arrival: 0,
        outcome,
        detail,
    };
    (bytes, held, verdict)
}

fn read_back(rng: &mut Rng, row: &Row) -> Check {
    let (bytes, held, verdict) = batch_row(rng, row);
    let at = rng.pick(&[0, 0, 1, 9]);
    let mut batch = pattern(at);
    batch.extend(&bytes);
    batch.extend(pattern(rng.pick(&[0, 0, 1, 30])));
    let next = at + bytes.len();
    same_read(rng, &batch, at, Ok((&held, verdict, next)))?;
    let read = WrappedSlot::read(&batch, at);
    let read = read.map(|read| (read.slot.row(), read.verdict, read.next));
    let outcome = wrapped_outcome(held.outcome, held.detail);
    let wanted = HeldRow::new(wrapped_row(row), 0, outcome);
    let inputs = || format!("the wrapper's read at {at} of {batch:02x?}");
    let slot = WrappedSlot::held(&wanted).map(|slot| *slot.area());
    agree(&slot, &Ok(held.slot()), inputs)?;
    agree(&read, &Ok((Ok(wanted), verdict == 1, next)), inputs)
}

/// Requires that reading answers so; a refusal leaves the slot, and what lies behind it always stays.
pub fn same_read(
    rng: &mut Rng,
    batch: &[u8],
    at: usize,
    wanted: Result<(&Held, u64, usize), u64>,
) -> Check {
    let mut slot = pattern(SLOT + rng.pick(&[0, 0, 1, 32]));
    let mut after = slot.clone();
    let answer = match wanted {
        Ok((held, verdict, next)) => {
            after[..SLOT].copy_from_slice(&held.slot());
            OpTold {
                told: Told::default(),
                next: next as u64,
                verdict,
            }
        }
        Err(number) => OpTold {
            told: refused(number),
            ..OpTold::default()
        },
    };
    let inputs = || format!("read_op at {at} of {batch:02x?}");
    agree(&sys::read_op(batch, at, &mut slot), &answer, inputs)?;
    agree(&slot, &after, inputs)
}

/// Every room for a write, and every cut of a batch row; a short slot is 2 before all else.
fn every_length(rng: &mut Rng) -> Outcome {
    let row = large_row(rng);
    let slot = row.slot();
    let what = format!("unsigned_op of {row:02x?}");
    let mut cases = same_write(&unsigned(&row), 0, &what, |out, _| {
        sys::unsigned_op(&slot, out)
    })?;
    let what = format!("signed_op of {row:02x?}");
    cases += same_write(&signed(&row), 0, &what, |out, _| sys::signed_op(&slot, out))?;
    let (bytes, ..) = batch_row(rng, &row);
    for cut in 0..bytes.len() {
        same_read(rng, &bytes[..cut], 0, Err(3))?;
        cases += 1;
    }
    for at in [bytes.len(), bytes.len() + 1, usize::MAX - 1, usize::MAX] {
        same_read(rng, &bytes, at, Err(3))?;
        cases += 1;
    }
    for len in [0, 8, 640, SLOT - 1] {
        let inputs = || format!("a slot of {len} bytes");
        let mut lent = pattern(len);
        let read = sys::read_op(&bytes, rng.below(9), &mut lent);
        agree(&read.told, &refused(2), inputs)?;
        agree(&lent, &pattern(len), inputs)?;
        let mut out = pattern(rng.pick(&[0, 704]));
        let before = out.clone();
        agree(
            &sys::signed_op(&slot[..len], &mut out).told,
            &refused(2),
            inputs,
        )?;
        agree(
            &sys::unsigned_op(&slot[..len], &mut out).told,
            &refused(2),
            inputs,
        )?;
        agree(&out, &before, inputs)?;
        cases += 3;
    }
    Ok(cases)
}
