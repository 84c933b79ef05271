//! Ticket 13: pairs of call lists on two stores, both driven beside the original's merger. The first lets rows expire, the
//! second keeps the limit on the span of batch times; then the first catches up by one batch. Pairs and batches that lack
//! one thing show that the check can fail.

mod catch_up;
mod controls;
mod counts;
mod desk;
mod full;
mod lists;
mod pairs;

use self::catch_up::{breaks, catch_up};
use self::counts::Counts;
use self::pairs::Pair;
use crate::model::expiring::{lacks, part, Lacks};
use crate::rng::Rng;
use crate::support::{Check, Outcome};

const PAIRS: u64 = 200_000;

pub fn run(rng: &mut Rng) -> Outcome {
    let mut counts = Counts::default();
    for _ in 0..PAIRS {
        pair(rng, &mut counts)?;
    }
    let pairs = counts.finish()?;
    Ok(pairs + full::run(rng)? + controls::run(rng)?)
}

fn pair(rng: &mut Rng, counts: &mut Counts) -> Check {
    let pair = Pair::new(rng)?;
    match lacks(&pair.first.offers, &pair.second.offers)[..] {
        [] => catch_up::holds(rng, pair, counts),
        [lacking] => may_fail(rng, &pair, lacking, counts),
        _ => Ok(()),
    }
}

/// A pair that lacks one thing alone, and whether a part of ticket 13 fails. Where the first was offered more it is the first
/// part.
fn may_fail(rng: &mut Rng, pair: &Pair, lacking: Lacks, counts: &mut Counts) -> Check {
    let (one, other) = (pair.first.content()?, pair.second.content()?);
    let (offer, _) = catch_up(rng, pair, &one);
    let catch_up = lacking != Lacks::SameRows && breaks(rng, &pair.first, &offer, &other)?;
    let fails = part(&one, &other).is_err() || catch_up;
    counts.controls.note(counts::name(lacking), fails);
    Ok(())
}
