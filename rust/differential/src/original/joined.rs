//! A store of the port and the original's merger with its log and hybrid clock, driven by the same calls.

use cuwelfra_sys::{self as sys, HybridParts, Preparation, Told};
use oracle::log::ReplicatedLog;

use crate::model::batch_call;
use crate::model::folding::folded;
use crate::model::own::{prepare_call, row_of, seal_call};
use crate::original::beside::{authors_fit, operation, timestamp, told_number};
use crate::original::merger::Original;
use crate::port::area;
use crate::port::batches::{Answer, Offer, FRESH};
use crate::port::lending::{same_call, Lent};
use crate::port::own::{same_prepare, same_seal, Preparing, Sealing};
use crate::port::rows::{Row, Stamp};
use crate::port::store::{same_areas, Areas};
use crate::port::wrapped::{self, refusal, wrapped_stamp};
use crate::rng::Rng;
use crate::support::{agree, Check};

#[derive(Clone)]
pub struct Joined {
    pub original: Original,
    /// Lent to the port.
    pub areas: Areas,
    /// What they must hold.
    wanted: Areas,
    /// The hybrid clock as the last batch call left it.
    pub clock: HybridParts,
}

impl Joined {
    /// The original's log, and a log area for so many rows.
    pub fn new(log: ReplicatedLog, capacity: usize) -> Self {
        let original = Original::new(log);
        let mut wanted = Areas::new(capacity, 0);
        wanted.write(&original.content());
        Self {
            original,
            areas: wanted.clone(),
            wanted,
            clock: FRESH,
        }
    }

    /// What a call is lent.
    pub fn lent(&self, offer: &Offer) -> Lent {
        Lent::new(offer, self.original.held().len())
    }

    /// A batch call; its folds also by the model, one in sixteen whole by the model, one in six through the wrapper.
    pub fn batch(&mut self, rng: &mut Rng, offer: &Offer) -> Result<Answer, String> {
        let (answer, after) = self.original.apply(offer, self.areas.capacity());
        let mut lent = self.lent(offer);
        lent.scratch += rng.pick(&[0, 0, 1, 70]);
        lent.output += rng.pick(&[0, 0, 1, 70]);
        let modelled = rng.once_in(16).then(|| batch_call(&self.wanted, &lent));
        if let Some(after) = &after {
            self.wanted.write(&after.content());
        }
        let before = &self.original;
        let inputs = || format!("{offer:02x?}, the store {:02x?}", before.content());
        if let Some((told, areas)) = modelled {
            agree(&told, &answer, || format!("the model, {}", inputs()))?;
            same_areas(&areas, &self.wanted, || format!("the model, {}", inputs()))?;
        }
        if after.is_some() {
            let (last, folds) = folded(&offer.clock, offer.time, &offer.stamps());
            let told = Answer::accepted(answer.told, answer.lines.clone(), last, folds);
            agree(&told, &answer, || {
                format!("the model's folds, {}", inputs())
            })?;
        }
        if rng.once_in(6) {
            wrapped::same_call(&mut self.areas, offer, &answer, inputs)?;
            same_areas(&self.areas, &self.wanted, inputs)?;
        } else {
            same_call(&mut self.areas, &lent, &answer, &self.wanted, inputs)?;
        }
        if let Some(after) = after {
            self.original = after;
        }
        self.clock = HybridParts {
            last_wall: answer.told.last_wall,
            last_counter: answer.told.last_counter as u32,
            ..offer.clock
        };
        Ok(answer)
    }

    /// Raises the floor.
    pub fn set_floor(&mut self, rng: &mut Rng, floor: Stamp) -> Check {
        let inputs = format!("set_floor {floor:?} on {:02x?}", self.original.content());
        self.original.set_floor(floor);
        self.wanted.write_log(&self.original.content());
        let told = if rng.once_in(4) {
            let floor = wrapped_stamp(floor);
            refusal(self.areas.wrapped(|store| store.set_floor(&floor)))
        } else {
            let areas = &mut self.areas;
            sys::set_floor(&areas.log, &areas.held, &mut areas.head, floor)
        };
        agree(&told, &Told::default(), || inputs.clone())?;
        same_areas(&self.areas, &self.wanted, || inputs)
    }

    /// Logs a row of this desk itself, where there is room.
    pub fn insert(&mut self, row: &Row) -> Check {
        let mut log = self.original.log.clone();
        log.insert(operation(row));
        if log.len() > self.areas.capacity() || !authors_fit(&log) {
            return Ok(());
        }
        self.original.log = log;
        self.wanted.write_log(&self.original.content());
        let areas = &mut self.areas;
        let told = sys::insert(&mut areas.log, &areas.held, &mut areas.head, &row.slot());
        agree(&told, &Told::default(), || format!("insert {row:?}"))?;
        same_areas(&self.areas, &self.wanted, || format!("insert {row:?}"))
    }

    /// Prepares a row of this desk itself with the author, wall time, payload and signature of this one, and seals it; the
    /// original inserts it.
    pub fn own(&mut self, row: &Row, issued: u64) -> Result<Told, String> {
        let (told, bytes) = self.prepare(row, issued)?;
        match told == Told::default() {
            true => self.seal(&Sealing {
                bytes,
                signature: row.signature.clone(),
            }),
            false => Ok(told),
        }
    }

    /// Prepares a row of this desk itself with the author, wall time and payload of this one. The hybrid clock is at the
    /// latest watermark.
    pub fn prepare(&self, row: &Row, issued: u64) -> Result<(Told, Vec<u8>), String> {
        let content = self.original.content();
        let last = content.marks.values().max().copied().unwrap_or_default();
        let lent = Preparing {
            of: Preparation {
                author: row.author,
                last_wall: last.0,
                last_counter: last.1,
                max_drift_ms: 60_000,
                time_ms: row.stamp.0,
                issued,
            },
            payload: row.payload.clone(),
            clock: area::encode(content.clock).to_vec(),
            output: 624,
        };
        let (told, bytes) = prepare_call(&lent);
        same_prepare(&lent, &told, &bytes)?;
        Ok((told.told, bytes))
    }

    /// Seals a row; the original inserts it where the model accepts it.
    pub fn seal(&mut self, lent: &Sealing) -> Result<Told, String> {
        let inputs = format!("{lent:02x?}, the store {:02x?}", self.original.content());
        let (told, modelled) = seal_call(&self.wanted, lent);
        if told == Told::default() {
            let row = row_of(lent).ok_or("  a row that does not read was sealed")?;
            self.original.log.insert(operation(&row));
            self.wanted.write_log(&self.original.content());
            same_areas(&modelled, &self.wanted, || format!("the model, {inputs}"))?;
        }
        same_seal(&mut self.areas, lent, told, &self.wanted, || inputs.clone())?;
        Ok(told)
    }

    /// Removes the rows up to a stamp.
    pub fn compact(&mut self, cutoff: Stamp) -> Check {
        let removed = self.original.log.compact(&timestamp(cutoff)) as u64;
        self.wanted.write_log(&self.original.content());
        let areas = &mut self.areas;
        let answer = sys::compact(&mut areas.log, &areas.held, &mut areas.head, cutoff);
        let inputs = || format!("compact to {cutoff:?}");
        agree(&answer, &told_number(removed), inputs)?;
        same_areas(&self.areas, &self.wanted, inputs)
    }

    /// Another log under the rows that wait, as a snapshot brings it.
    pub fn replace(&mut self, log: ReplicatedLog) {
        if log.len() <= self.areas.capacity() && authors_fit(&log) {
            self.original.log = log;
            self.wanted.write_log(&self.original.content());
            self.areas.clone_from(&self.wanted);
        }
    }
}
