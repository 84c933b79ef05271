//! Batches as bytes: cut at every length, each byte replaced, each number overlong or around a capacity; settings, short
//! areas and damaged stores beside them. The model answers, with a reader of its own, and no other byte changes.

use cuwelfra::Limits;

use crate::census::Census;
use crate::leb128::longer;
use crate::model::{batch_call, modelled};
use crate::port::area::word;
use crate::port::batches::{BatchRow, Offer};
use crate::port::lending::Lent;
use crate::port::rows::SLOT;
use crate::port::store::{Areas, HEAD, HELD};
use crate::rng::Rng;
use crate::support::{agree, refused, Check, Outcome};
use crate::world::clocks::clock;
use crate::world::damage::{last_held, DAMAGES, HELD_DAMAGES};
use crate::world::lists::Universe;
use crate::world::pieces;

/// Batches that are cut and replaced at every place.
const BATCHES: usize = 50;
/// Stores that are broken in every way.
const STORES: usize = 12;

/// What a byte is replaced by, beside its neighbours.
const BYTES: [u8; 6] = [0, 1, 5, 0x7f, 0x80, 0xff];
/// What a number is replaced by.
const NUMBERS: [u64; 20] = [
    0,
    1,
    2,
    15,
    16,
    17,
    63,
    64,
    65,
    127,
    128,
    255,
    256,
    257,
    (1 << 32) - 1,
    1 << 32,
    1 << 63,
    u64::MAX - 1,
    u64::MAX,
    300,
];
/// Ten bytes for 2^63 and for 2^64, eleven for 0.
const LONG: [&[u8]; 3] = [
    &[0x80, 0x80, 0x80, 0x80, 0x80, 0x80, 0x80, 0x80, 0x80, 1],
    &[0x80, 0x80, 0x80, 0x80, 0x80, 0x80, 0x80, 0x80, 0x80, 2],
    &[
        0x80, 0x80, 0x80, 0x80, 0x80, 0x80, 0x80, 0x80, 0x80, 0x80, 0,
    ],
];

pub fn run(rng: &mut Rng) -> Outcome {
    let mut census = Census::default();
    for _ in 0..BATCHES {
        let sample = Sample::new(rng);
        sample.every_cut(&mut census)?;
        sample.every_byte(&mut census)?;
        sample.every_number(&mut census)?;
    }
    for _ in 0..STORES {
        let sample = Sample::new(rng);
        sample.capacities(&mut census)?;
        sample.in_order(&mut census)?;
        sample.damaged(&mut census)?;
    }
    census.overlong_batches("batch-bytes")?;
    census.folds("batch-bytes", &["passed"])?;
    census.finish("batch-bytes", 1..=4, &[])
}

/// A store, and a batch for it.
struct Sample {
    areas: Areas,
    rows: Vec<BatchRow>,
    lent: Lent,
}

impl Sample {
    fn new(rng: &mut Rng) -> Self {
        let universe = Universe::new(rng);
        let behind = rng.pick(&[0, 1, 703]);
        let mut areas = Areas::new(8, behind);
        let offer = |rng: &mut Rng| {
            let (limits, time) = (Limits::default(), universe.time(rng));
            let rows = universe.batch(rng);
            Offer {
                limits,
                time,
                clock: clock(rng, &limits, time, &rows),
                rows,
            }
        };
        for _ in 0..2 {
            (_, areas) = batch_call(&areas, &Lent::new(&offer(rng), 64));
        }
        let mut offer = offer(rng);
        offer.limits.max_pending_age_ms = rng.pick(&[1, 3, u64::MAX]);
        // Room for a row or two more than there are.
        let held = word(&areas.head, 1) as usize + rng.below(3);
        let lent = Lent::new(&offer, held);
        let rows = offer.rows;
        Self { areas, rows, lent }
    }

    fn with(&self, batch: Vec<u8>) -> Lent {
        Lent {
            batch,
            ..self.lent.clone()
        }
    }

    fn every_cut(&self, census: &mut Census) -> Check {
        let batch = &self.lent.batch;
        for len in 0..=batch.len() {
            modelled(census, &self.areas, &self.with(batch[..len].to_vec()))?;
        }
        for more in [0, 1, 0x80] {
            let mut longer = batch.clone();
            longer.push(more);
            modelled(census, &self.areas, &self.with(longer))?;
        }
        Ok(())
    }

    fn every_byte(&self, census: &mut Census) -> Check {
        for (at, byte) in self.lent.batch.iter().enumerate() {
            let near = [byte.wrapping_sub(1), byte.wrapping_add(1), byte ^ 0x80];
            for other in BYTES.into_iter().chain(near) {
                let mut batch = self.lent.batch.clone();
                batch[at] = other;
                modelled(census, &self.areas, &self.with(batch))?;
            }
        }
        Ok(())
    }

    /// Each number alone replaced, or written in more bytes, which is 3 whatever it is.
    fn every_number(&self, census: &mut Census) -> Check {
        let pieces = pieces::batch(&self.rows);
        for (at, ..) in pieces::numbers(&pieces) {
            let batch = |written: &[u8]| self.with(pieces::with(&pieces, at, written));
            for other in NUMBERS {
                modelled(census, &self.areas, &batch(&longer(other, 0)))?;
                self.unreadable(census, &batch(&longer(other, 1)))?;
            }
            for long in LONG {
                modelled(census, &self.areas, &batch(long))?;
            }
        }
        pieces::each_longer(&pieces, |batch, _, _| {
            self.unreadable(census, &self.with(batch.to_vec()))
        })
    }

    fn unreadable(&self, census: &mut Census, lent: &Lent) -> Check {
        let (answer, _) = batch_call(&self.areas, lent);
        agree(&answer.told.told, &refused(3), || format!("{lent:02x?}"))?;
        modelled(census, &self.areas, lent)
    }

    /// Batches and rows of every size around their capacities.
    fn capacities(&self, census: &mut Census) -> Check {
        let Some(first) = self.rows.first() else {
            return Ok(());
        };
        let mut check = |rows: &[BatchRow]| {
            let offer = Offer {
                limits: self.lent.limits,
                time: self.lent.time,
                clock: self.lent.clock,
                rows: rows.to_vec(),
            };
            modelled(census, &self.areas, &Lent::new(&offer, 64))
        };
        for count in [62, 63, 64, 65, 66, 127, 128, 129] {
            check(&vec![first.clone(); count])?;
        }
        for size in [15, 16, 17, 63, 64, 65, 127, 128, 129, 255, 256, 257, 300] {
            let mut other = first.clone();
            other.row.payload = vec![7; size];
            check(&[other])?;
            let mut other = first.clone();
            other.row.signature = vec![7; size];
            check(&[other])?;
            let mut other = first.clone();
            other.row.deps = (0..size as u64).map(|i| (300 + i, 0)).collect();
            check(&[other])?;
        }
        Ok(())
    }

    /// Faults of every kind together: the first in document 01's order is told.
    fn in_order(&self, census: &mut Census) -> Check {
        for faults in 0..1 << FAULTS.len() {
            let mut areas = self.areas.clone();
            let mut lent = self.lent.clone();
            for (i, fault) in FAULTS.iter().enumerate() {
                if faults >> i & 1 == 1 {
                    fault(&mut areas, &mut lent);
                }
            }
            modelled(census, &areas, &lent)?;
        }
        Ok(())
    }

    /// Each rule of the store broken alone, under a batch that is good or unreadable.
    fn damaged(&self, census: &mut Census) -> Check {
        let mut stores = Vec::new();
        for (_, damage) in DAMAGES {
            let mut areas = self.areas.clone();
            if damage(&mut areas).is_some() {
                stores.push(areas);
            }
        }
        for (_, at, value) in HELD_DAMAGES {
            let mut areas = self.areas.clone();
            if last_held(&mut areas, at, value).is_some() {
                stores.push(areas);
            }
        }
        for areas in stores {
            modelled(census, &areas, &self.lent)?;
            modelled(census, &areas, &self.with(Vec::new()))?;
        }
        Ok(())
    }
}

/// Each for another step of the order of refusals.
const FAULTS: [fn(&mut Areas, &mut Lent); 11] = [
    |_, lent| lent.limits.max_pending = 65,
    |_, lent| lent.limits.max_payload = 257,
    |areas, _| areas.log.truncate(SLOT - 1),
    |areas, _| areas.held.truncate(HELD - 1),
    |areas, _| areas.head.truncate(HEAD - 1),
    |areas, _| areas.head[8] = 1,
    |_, lent| lent.batch.push(0),
    |_, lent| lent.batch[0] = 65,
    |_, lent| lent.output = 0,
    |_, lent| lent.scratch = 703,
    |_, lent| lent.limits.max_drift_ms = 0,
];
