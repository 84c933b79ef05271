//! A store that starts empty, driven beside the original's merger, and what it was offered.

use cuwelfra_sys::{DeltaTold, Told};
use oracle::log::ReplicatedLog;

use crate::model::demand::Offers;
use crate::model::own::row_of;
use crate::original::joined::Joined;
use crate::port::batches::Offer;
use crate::port::own::Sealing;
use crate::port::rows::Row;
use crate::port::store::{self, Content};
use crate::rng::Rng;
use crate::support::Check;
use crate::world::own::Entry;

#[derive(Clone)]
pub struct Desk {
    pub joined: Joined,
    pub offers: Offers,
    /// How many batches were refused, and how many rows expired.
    pub refused: u64,
    pub expired: u64,
}

impl Desk {
    pub fn new(capacity: usize) -> Self {
        Self {
            joined: Joined::new(ReplicatedLog::new(), capacity),
            offers: Offers::default(),
            refused: 0,
            expired: 0,
        }
    }

    /// What the store holds.
    pub fn content(&self) -> Result<Content, String> {
        store::read(&self.joined.areas).ok_or_else(|| "  the store breaks a rule".into())
    }

    /// A batch call.
    pub fn batch(&mut self, rng: &mut Rng, offer: &Offer) -> Result<DeltaTold, String> {
        let told = self.joined.batch(rng, offer)?.told;
        match told.told == Told::default() {
            true => {
                self.offers.batch(offer);
                self.expired += told.expired;
            }
            false => self.refused += 1,
        }
        Ok(told)
    }

    /// Prepares a row of its own; `None` where it is refused.
    pub fn prepare(&self, entry: Entry) -> Result<Option<Vec<u8>>, String> {
        let author = entry.author;
        let clock = self.joined.areas.clock();
        let number = clock.get(&author).copied().unwrap_or(0);
        let row = Row {
            stamp: (entry.time, 0, author),
            author,
            seq: 0,
            deps: Vec::new(),
            payload: entry.payload.to_vec(),
            signature: Vec::new(),
        };
        let issued = number.saturating_add(entry.ahead);
        let (told, bytes) = self.joined.prepare(&row, issued)?;
        Ok((told == Told::default()).then_some(bytes))
    }

    /// Whether a sealing may stand in its list.
    pub fn may_stand(&self, lent: &Sealing) -> bool {
        self.offers.may_stand(&self.joined.areas, lent)
    }

    /// Seals; an accepted row counts as offered, and what is against it is noted.
    pub fn seal(&mut self, lent: &Sealing) -> Check {
        let clock = self.joined.areas.clock();
        if self.joined.seal(lent)? != Told::default() {
            self.offers.refused += 1;
            return Ok(());
        }
        let row = row_of(lent).ok_or("  a row that does not read was sealed")?;
        self.offers.sealing(&clock, row);
        Ok(())
    }
}
