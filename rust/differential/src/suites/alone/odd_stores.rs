//! Batch calls on sound stores that no call list leaves: rows held with foreign stamps, of sequence 0, at or below the
//! clock or ready; logs with gaps and repeats. The model answers.

use crate::census::{Census, FOLDS, MOVES};
use crate::model::modelled;
use crate::port::batches::{BatchRow, Offer};
use crate::port::lending::Lent;
use crate::port::rows::Held;
use crate::rng::Rng;
use crate::support::{Check, Outcome};
use crate::world::lists::Universe;
use crate::world::{self, World};

const CALLS: usize = 40_000;

pub fn run(rng: &mut Rng) -> Outcome {
    let mut census = Census::default();
    for _ in 0..CALLS {
        one(rng, &mut census)?;
    }
    census.folds("odd-stores", &FOLDS)?;
    census.finish("odd-stores", 5..=17, &MOVES)
}

fn one(rng: &mut Rng, census: &mut Census) -> Check {
    let world = if rng.once_in(40) {
        World::of(rng, 34)
    } else {
        World::new(rng)
    };
    let logged = rng.pick(&[0, 1, 3, 6]);
    let count = rng.pick(&[0, 1, 2, 4, 7]);
    let content = world.content(rng, logged, count);
    let mut areas = world::areas(rng, logged + 2);
    areas.write(&content);
    let start = rng.pick(&[0, 0, 1, 3]);
    let mut offer = Universe::of(rng, &world.authors, start).offer(rng);
    for held in &content.held {
        if rng.once_in(3) {
            meet(rng, held, &mut offer);
        }
    }
    modelled(census, &areas, &Lent::new(&offer, content.held.len()))
}

/// A row of the batch repeats a held one, or has its stamp.
fn meet(rng: &mut Rng, held: &Held, offer: &mut Offer) {
    let mut row = held.row.clone();
    if rng.once_in(2) {
        row.author = row.stamp.2;
        row.seq = rng.pick(&[1, 2, 3, row.seq]);
    }
    offer.rows.push(BatchRow::new(row));
    if rng.once_in(2) {
        offer.time = held.arrival;
        offer.limits.max_drift_ms = u64::MAX;
    }
}
