//! Batches and rows as bytes, most of which do not read.

use crate::census::Census;
use crate::fuzz::offers::{
    plainer_clocks, plainer_limits, shown_clock, shown_limits, shown_offer, smaller_offers,
};
use crate::fuzz::shrink::{hex, lower, smaller_bytes, without, Input};
use crate::leb128::lengthen_first;
use crate::model::{batch_call, modelled};
use crate::port::batches::{batch, Offer};
use crate::port::lending::Lent;
use crate::port::store::Areas;
use crate::rng::Rng;
use crate::suites::beside::row_faults::{faulty, same_row};
use crate::support::Check;
use crate::world::lists::Universe;
use crate::world::strange::{over_capacity, over_limits};

/// A batch call on the store that earlier calls leave, beside the model.
#[derive(Clone, Debug)]
pub struct BatchBytes {
    capacity: usize,
    before: Vec<Offer>,
    lent: Lent,
}

impl BatchBytes {
    pub fn any(rng: &mut Rng) -> Self {
        let universe = Universe::new(rng);
        let before = (0..rng.below(4)).map(|_| universe.offer(rng)).collect();
        let mut offer = universe.offer(rng);
        if rng.once_in(4) {
            over_capacity(rng, &mut offer.rows);
        }
        let mut lent = Lent::new(&offer, 64);
        for _ in 0..1 + rng.below(3) {
            strange(rng, &mut lent);
        }
        Self {
            capacity: 8,
            before,
            lent,
        }
    }

    fn with(&self, change: impl FnOnce(&mut Lent)) -> Self {
        let mut other = self.clone();
        change(&mut other.lent);
        other
    }
}

/// One change of what is lent.
fn strange(rng: &mut Rng, lent: &mut Lent) {
    let bytes = &mut lent.batch;
    let at = rng.below(bytes.len() + 1);
    match rng.below(10) {
        0 => bytes.truncate(at),
        1 => bytes.insert(at, rng.byte()),
        2 => {
            let end = bytes.len().min(at + rng.below(12));
            bytes.drain(at..end);
        }
        3 => {
            let end = bytes.len().min(at + rng.below(12));
            let part = bytes[at..end].to_vec();
            bytes.extend(part);
        }
        4 => *bytes = rng.bytes(at),
        5 => over_limits(rng, &mut lent.limits),
        6 => lent.scratch = rng.below(704 * 8),
        7 => lent.output = rng.below(18 * 8),
        8 => lengthen_first(bytes),
        _ if at < bytes.len() => bytes[at] = rng.edge() as u8,
        _ => bytes.push(rng.byte()),
    }
}

impl Input for BatchBytes {
    fn check(&self) -> Check {
        let mut areas = Areas::new(self.capacity, 0);
        for offer in &self.before {
            (_, areas) = batch_call(&areas, &Lent::new(offer, 64));
        }
        modelled(&mut Census::default(), &areas, &self.lent)
    }

    fn smaller(&self) -> Box<dyn Iterator<Item = Self> + '_> {
        let before = without(&self.before).map(|before| Self {
            before,
            ..self.clone()
        });
        let calls = self.before.iter().enumerate().flat_map(move |(at, offer)| {
            smaller_offers(offer).map(move |smaller| {
                let mut other = self.clone();
                other.before[at] = smaller;
                other
            })
        });
        let lent = &self.lent;
        let batches = smaller_bytes(&lent.batch).map(|batch| self.with(|lent| lent.batch = batch));
        let limits =
            plainer_limits(&lent.limits).map(|limits| self.with(|lent| lent.limits = limits));
        let times = lower(lent.time).map(|time| self.with(|lent| lent.time = time));
        let clocks = plainer_clocks(&lent.clock).map(|clock| self.with(|lent| lent.clock = clock));
        Box::new(
            before
                .chain(calls)
                .chain(batches)
                .chain(limits)
                .chain(times)
                .chain(clocks),
        )
    }

    fn shown(&self) -> String {
        let mut text = format!("a log of {} slots, empty\n", self.capacity);
        for (at, offer) in self.before.iter().enumerate() {
            text += &format!("  {}. {}", at + 1, shown_offer(offer));
        }
        text + &format!(
            "  then at time {}, {}, {}, with {} bytes of scratch and {} of output, the bytes\n     {}\n",
            self.lent.time,
            shown_limits(&self.lent.limits),
            shown_clock(&self.lent.clock),
            self.lent.scratch,
            self.lent.output,
            hex(&self.lent.batch)
        )
    }
}

/// A batch row.
#[derive(Clone, Debug)]
pub struct RowBytes {
    bytes: Vec<u8>,
    /// How much more room is lent.
    seed: u64,
}

impl RowBytes {
    pub fn any(rng: &mut Rng) -> Self {
        let bytes = match rng.below(8) {
            0 => {
                let len = rng.below(80);
                rng.bytes(len)
            }
            1 => {
                let universe = Universe::new(rng);
                batch(&universe.batch(rng))
            }
            _ => faulty(rng),
        };
        let seed = rng.next();
        Self { bytes, seed }
    }

    #[cfg(test)]
    pub fn bytes(&self) -> &[u8] {
        &self.bytes
    }
}

impl Input for RowBytes {
    fn check(&self) -> Check {
        same_row(&mut Rng::for_suite(self.seed, "row"), &self.bytes).map(|_| ())
    }

    fn smaller(&self) -> Box<dyn Iterator<Item = Self> + '_> {
        Box::new(smaller_bytes(&self.bytes).map(|bytes| Self { bytes, ..*self }))
    }

    fn shown(&self) -> String {
        format!("the row bytes {}\n", hex(&self.bytes))
    }
}
