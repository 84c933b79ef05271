//! Ways to spoil a batch call so that the original has no answer: sizes above capacity, short areas, damaged stores,
//! unreadable batches.

use cuwelfra::Limits;

use crate::leb128::lengthen_first;
use crate::port::batches::BatchRow;
use crate::port::lending::Lent;
use crate::port::rows::{DEPS, PAYLOAD, SIGNATURE, SLOT};
use crate::port::store::{is_sound, Areas, HEAD, HELD};
use crate::rng::Rng;
use crate::world::damage::DAMAGES;

/// A setting above the closing list.
pub fn over_limits(rng: &mut Rng, limits: &mut Limits) {
    let (setting, most) = match rng.below(3) {
        0 => (&mut limits.max_pending, 64),
        1 => (&mut limits.max_deps, 16),
        _ => (&mut limits.max_payload, 256),
    };
    *setting = rng.pick(&[most, most + 1, u64::MAX]);
}

/// A row, or the batch, of a size around its capacity.
pub fn over_capacity(rng: &mut Rng, rows: &mut Vec<BatchRow>) {
    let more = rng.below(2);
    if rows.is_empty() || rng.once_in(4) {
        let Some(first) = rows.first().cloned() else {
            return;
        };
        rows.resize(64 + more, first);
        return;
    }
    let at = rng.below(rows.len());
    let row = &mut rows[at].row;
    match rng.below(3) {
        0 => row.payload = rng.bytes(PAYLOAD + more),
        1 => row.signature = rng.bytes(SIGNATURE + more),
        _ => row.deps = (0..(DEPS + more) as u64).map(|i| (100 + i, 0)).collect(),
    }
}

/// A store that breaks a rule, where there is a place for the damage.
pub fn damaged(rng: &mut Rng, areas: &mut Areas) {
    let mut broken = areas.clone();
    let (_, damage) = DAMAGES[rng.below(DAMAGES.len())];
    if damage(&mut broken).is_some() && !is_sound(&broken) {
        *areas = broken;
    }
}

/// One of the areas a byte short.
pub fn short(rng: &mut Rng, areas: &mut Areas, lent: &mut Lent) {
    match rng.below(5) {
        0 => areas.log.truncate(SLOT - 1),
        1 => areas.held.truncate(HELD - 1),
        2 => areas.head.truncate(HEAD - 1),
        3 => lent.scratch = lent.scratch.saturating_sub(1),
        _ => lent.output = lent.output.saturating_sub(1),
    }
}

/// A batch that is cut, goes on, begins with an overlong number, or has another byte.
pub fn unreadable(rng: &mut Rng, batch: &mut Vec<u8>) {
    match rng.below(4) {
        0 => batch.truncate(rng.below(batch.len())),
        1 => batch.push(rng.byte()),
        2 => lengthen_first(batch),
        _ => {
            let at = rng.below(batch.len());
            batch[at] = rng.byte();
        }
    }
}
