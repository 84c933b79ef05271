//! Two call lists over a small universe: the first at any times, the second within the pending age.

use cuwelfra::Limits;
use cuwelfra_sys::Told;

use crate::port::batches::{BatchRow, Offer};
use crate::port::rows::Row;
use crate::rng::Rng;
use crate::suites::beside::expiring::desk::Desk;
use crate::support::Check;
use crate::world::clocks::clock;
use crate::world::lists::{batch, limits, offer, Universe};
use crate::world::own::{payload, sealing, Entry, Own};

/// How far the times of a list within the pending age lie apart, and its ages.
const SPANS: [(u64, &[u64]); 4] = [
    (0, &[0, 1, u64::MAX]),
    (1, &[1, 2, 5]),
    (7, &[7, 8, u64::MAX]),
    (100_000, &[100_000, 3_600_000, u64::MAX]),
];
const AGES: [u64; 6] = [0, 1, 2, 5, 3_600_000, u64::MAX];

/// The times of a list's batches and their pending ages.
#[derive(Clone, Copy)]
pub enum Timing {
    /// Any times and ages.
    Any,
    /// No row expires: the first time, how far the last is from it at most, and the ages.
    Within(u64, u64, &'static [u64]),
}

impl Timing {
    pub fn within(rng: &mut Rng, universe: &Universe) -> Self {
        let (width, ages) = rng.pick(&SPANS);
        Self::Within(universe.soon(rng), width, ages)
    }

    pub fn time(self, rng: &mut Rng, universe: &Universe) -> u64 {
        match self {
            Self::Any => any_time(rng, universe),
            Self::Within(from, width, _) => from.saturating_add(rng.next() % (width + 1)),
        }
    }

    pub fn age(self, rng: &mut Rng) -> u64 {
        match self {
            Self::Any => rng.pick(&AGES),
            Self::Within(.., ages) => rng.pick(ages),
        }
    }
}

/// Near the rows' stamps, far from them on either side, or at the ends.
fn any_time(rng: &mut Rng, universe: &Universe) -> u64 {
    let soon = universe.soon(rng);
    match rng.below(12) {
        0 => 0,
        1 => u64::MAX,
        2..=5 => soon.saturating_add(rng.pick(&[10, 1_000, 1 << 40])),
        6 => soon.saturating_sub(rng.pick(&[5, 10, 1_000])),
        _ => soon,
    }
}

/// A list in the making.
pub struct List<'a> {
    pub desk: Desk,
    universe: &'a Universe,
    timing: Timing,
    /// Its own author, with what is said of both lists.
    own: Option<(Own, u64)>,
}

impl<'a> List<'a> {
    pub fn new(
        rng: &mut Rng,
        universe: &'a Universe,
        timing: Timing,
        own: Option<(Own, u64)>,
    ) -> Self {
        Self {
            desk: Desk::new(rng.pick(&[1, 3, 16, 32, 32, 32])),
            universe,
            timing,
            own,
        }
    }

    /// Seals no row from now on.
    pub fn seal_nothing(&mut self) {
        self.own = None;
    }

    /// The rows that it was offered.
    pub fn offered(&self) -> Vec<Row> {
        self.desk.offers.rows.iter().cloned().collect()
    }

    /// A few batches of any of these rows, refused ones too, with floors and sealings between them.
    pub fn calls(&mut self, rng: &mut Rng, rows: &[Row]) -> Check {
        if rows.is_empty() {
            return Ok(());
        }
        for _ in 0..1 + rng.below(5) {
            if rng.once_in(2) {
                self.seal(rng)?;
            }
            let rows = batch(rng, rows);
            self.offer(rng, rows)?;
        }
        Ok(())
    }

    /// These rows in another order, some of them twice, over a few batches. A refused batch comes again with wide settings.
    pub fn deliver(&mut self, rng: &mut Rng, rows: Vec<Row>) -> Check {
        let rows = again(rng, rows);
        let mut rest = &rows[..];
        while !rest.is_empty() {
            let (rows, later) = rest.split_at(1 + rng.below(rest.len().min(64)));
            rest = later;
            if !self.offer(rng, rows.to_vec())? {
                self.offer_wide(rng, rows)?;
            }
        }
        Ok(())
    }

    /// Whether a batch of these rows was accepted; some are faulty, and some settings tight.
    fn offer(&mut self, rng: &mut Rng, rows: Vec<BatchRow>) -> Result<bool, String> {
        if rng.once_in(6) {
            let floor = self.universe.stamp(rng);
            self.desk.joined.set_floor(rng, floor)?;
        }
        let limits = limits(rng).with_max_pending_age_ms(self.timing.age(rng));
        let time = self.timing.time(rng, self.universe);
        let mut offer = offer(rng, limits, time, rows);
        if rng.once_in(4) {
            offer.clock = self.desk.joined.clock;
        }
        let told = self.desk.batch(rng, &offer)?;
        Ok(told.told == Told::default())
    }

    fn offer_wide(&mut self, rng: &mut Rng, rows: &[BatchRow]) -> Check {
        let limits = wide().with_max_pending_age_ms(self.timing.age(rng));
        let time = self.timing.time(rng, self.universe);
        let offer = Offer {
            limits,
            time,
            clock: clock(rng, &limits, time, rows),
            rows: rows.to_vec(),
        };
        self.desk.batch(rng, &offer).map(|_| ())
    }

    /// A row of its own, prepared and sealed as it may be; or one that is refused, or where sealings are unfair any.
    fn seal(&mut self, rng: &mut Rng) -> Check {
        let Some((own, author)) = self.own else {
            return Ok(());
        };
        let entry = Entry {
            author,
            ahead: own.ahead(rng),
            payload: payload(rng),
            time: self.timing.time(rng, self.universe),
        };
        let Some(bytes) = self.desk.prepare(entry)? else {
            return Ok(());
        };
        let lent = sealing(rng, self.universe, bytes);
        if own.fair && !self.desk.may_stand(&lent) {
            return Ok(());
        }
        self.desk.seal(&lent)?;
        match rng.once_in(4) {
            // Once more: the author's number has moved.
            true => self.desk.seal(&lent),
            false => Ok(()),
        }
    }
}

/// Settings that refuse no row for its quotas and its stamp.
pub fn wide() -> Limits {
    Limits::new()
        .with_max_pending_per_actor(u64::MAX)
        .with_max_pending_bytes(u64::MAX)
        .with_max_drift_ms(u64::MAX)
}

/// These rows in another order, some of them twice.
fn again(rng: &mut Rng, rows: Vec<Row>) -> Vec<BatchRow> {
    let mut rows: Vec<BatchRow> = rows.into_iter().map(BatchRow::new).collect();
    for _ in 0..rows.len() {
        if rng.once_in(5) {
            rows.push(rows[rng.below(rows.len())].clone());
        }
    }
    rng.shuffle(&mut rows);
    rows
}
