//! A store that starts empty, its hybrid clock, and what it was offered.

use cuwelfra_sys::{self as sys, HybridParts, Preparation, PreparedTold, Told};

use crate::model::demand::{Offers, Run};
use crate::model::folding::same_clock;
use crate::model::own::row_of;
use crate::port::area::{self, word, BYTES};
use crate::port::batches::{Offer, FRESH};
use crate::port::lending::{call, Lent};
use crate::port::own::{prepare, seal, Preparing, Sealing};
use crate::port::rows::{Row, Stamp};
use crate::port::store::Areas;
use crate::support::accepted;
use crate::world::own::Entry;

pub struct Desk {
    pub run: Run,
    /// Rows of its own are stamped by it.
    clock: HybridParts,
}

impl Desk {
    pub fn new(capacity: usize) -> Self {
        Self {
            run: Run {
                areas: Areas::new(capacity, 0),
                offers: Offers::default(),
            },
            clock: FRESH,
        }
    }

    /// Its own clock with another drift.
    pub fn clock(&self, max_drift_ms: u64) -> HybridParts {
        HybridParts {
            max_drift_ms,
            ..self.clock
        }
    }

    /// Whether the batch was accepted. Its stamps are folded into the hybrid clock that comes with it; where that is its own,
    /// it moves on.
    pub fn batch(&mut self, offer: &Offer) -> Result<bool, String> {
        let run = &mut self.run;
        let lent = Lent::new(offer, word(&run.areas.head, 1) as usize);
        let told = call(&mut run.areas, &lent).told;
        same_clock(&lent, &told)?;
        if offer.clock == self.clock(offer.clock.max_drift_ms) {
            self.clock.last_wall = told.last_wall;
            self.clock.last_counter = told.last_counter as u32;
        }
        let accepted = told.told == Told::default();
        if accepted {
            self.run.offers.batch(offer);
        }
        Ok(accepted)
    }

    pub fn set_floor(&mut self, stamp: Stamp) {
        let areas = &mut self.run.areas;
        let told = sys::set_floor(&areas.log, &areas.held, &mut areas.head, stamp);
        assert_eq!(told, Told::default(), "a sound store");
    }

    /// Prepares a row of its own; the clock moves on. `None` where it is refused.
    pub fn prepare(&mut self, entry: Entry) -> Option<Vec<u8>> {
        let mut clock = vec![0; BYTES];
        accepted(sys::log_clock(self.run.areas.lent(), &mut clock));
        let number = area::get(&clock, entry.author);
        let lent = Preparing {
            of: Preparation {
                author: entry.author,
                last_wall: self.clock.last_wall,
                last_counter: self.clock.last_counter,
                max_drift_ms: self.clock.max_drift_ms,
                time_ms: entry.time,
                issued: number.saturating_add(entry.ahead),
            },
            payload: entry.payload.to_vec(),
            clock,
            output: 624,
        };
        let (told, output) = prepare(&lent);
        self.clock.last_wall = told.last_wall;
        self.clock.last_counter = told.last_counter as u32;
        bytes(&told, &output)
    }

    /// Whether a sealing may stand: nothing is against it, or it is refused.
    pub fn may_stand(&self, lent: &Sealing) -> bool {
        self.run.offers.may_stand(&self.run.areas, lent)
    }

    /// Seals; an accepted row counts as offered, and what is against it is noted.
    pub fn seal(&mut self, lent: &Sealing) -> Option<Row> {
        let Run { areas, offers } = &mut self.run;
        let clock = areas.clock();
        if seal(areas, lent) != Told::default() {
            offers.refused += 1;
            return None;
        }
        let row = row_of(lent).expect("a row that was sealed");
        offers.sealing(&clock, row.clone());
        Some(row)
    }
}

fn bytes(told: &PreparedTold, output: &[u8]) -> Option<Vec<u8>> {
    (told.told == Told::default()).then(|| output[..told.len].to_vec())
}
