//! Document 02's folds of a batch's stamps, over plain numbers.

use cuwelfra_sys::{DeltaTold, HybridParts, Told};

use crate::model::reading::read_batch;
use crate::port::batches::{Answer, Folds};
use crate::port::lending::Lent;
use crate::port::rows::Stamp;
use crate::support::agree;

/// Wall and counter of a clock.
type Last = (u64, u32);

/// Where the clock stands after the stamps, and what became of them.
pub fn folded(clock: &HybridParts, time: u64, stamps: &[Stamp]) -> (Last, Folds) {
    let (last, mut folds) = fold(clock, time, stamps.iter());
    let (other, _) = fold(clock, time, stamps.iter().rev());
    folds.ordered = other != last;
    (last, folds)
}

/// 02: "each stamp in batch order is folded at the batch's time", "A fold that fails is counted and the next goes on."
fn fold<'a>(
    clock: &HybridParts,
    time: u64,
    stamps: impl Iterator<Item = &'a Stamp>,
) -> (Last, Folds) {
    let mut last = (clock.last_wall, clock.last_counter);
    let mut folds = Folds::default();
    let latest = time.saturating_add(clock.max_drift_ms);
    for (wall, counter, _) in stamps {
        // 01: "Drift (20, before 19)".
        if *wall > latest {
            folds.ahead += 1;
            continue;
        }
        match received(last, (*wall, *counter), time) {
            Some(next) => {
                last = next;
                folds.passed += 1;
            }
            None => folds.overflowed += 1,
        }
    }
    (last, folds)
}

/// 01: "the new wall is the greatest of own, remote and physical; the counter is one more than the greatest counter of own
/// and remote whose wall equals it, 0 if neither does." `None` where there is no such counter of 32 bits.
fn received(own: Last, remote: Last, physical: u64) -> Option<Last> {
    let wall = own.0.max(remote.0).max(physical);
    let equal = [own, remote].into_iter().filter(|clock| clock.0 == wall);
    let counter = match equal.map(|clock| clock.1).max() {
        Some(greatest) => greatest.checked_add(1)?,
        None => 0,
    };
    Some((wall, counter))
}

/// Requires of a call's answer what the documents say of the clock: a refusal counts nothing and hands it back; else the
/// stamps of all the batch's rows are folded in.
pub fn same_clock(lent: &Lent, told: &DeltaTold) -> Result<Folds, String> {
    let inputs = || format!("the clock after {lent:02x?}");
    if told.told != Told::default() {
        let refused = Answer::refused(told.told, &lent.clock);
        agree(told, &refused.told, inputs)?;
        return Ok(refused.folds);
    }
    let rows = read_batch(&lent.batch).map_err(|fault| format!("  {fault:?}: {}", inputs()))?;
    let stamps: Vec<Stamp> = rows.iter().map(|lent| lent.row.stamp).collect();
    let (last, folds) = folded(&lent.clock, lent.time, &stamps);
    let wanted = Answer::accepted(*told, Vec::new(), last, folds);
    agree(told, &wanted.told, inputs)?;
    Ok(folds)
}
