//! Batch calls, and what they told.

use cuwelfra::{ActorId, HybridClock, Limits, Refusal, Report, Request, Store};

use crate::desk::{Desk, Offered};
use crate::known::{self, Known, Unfolded};
use crate::notice::{self, Before, Compared, Notice};
use crate::refused::Refused;
use crate::text::Offer;

/// When and how batches are offered.
pub struct Settings {
    /// The time of the calls.
    pub time_ms: u64,
    /// Whether a time that a file says is the time of its calls.
    pub replay: bool,
    pub limits: Limits,
}

impl Settings {
    fn request(&self, offer: &Offer) -> Request {
        let said = offer.time_ms.filter(|_| self.replay);
        Request::at(said.unwrap_or(self.time_ms)).with_limits(self.limits)
    }

    /// A clock for batches that are offered to a store of which this is the latest stamp. It stamps nothing, so that
    /// any author does.
    pub fn clock<'a>(&self, latest: Option<&'a Known>) -> (HybridClock, Option<Unfolded<'a>>) {
        known::clock(ActorId(0), self.limits.max_drift_ms, latest, self.time_ms)
    }
}

/// What a batch call told.
pub struct Told<'a> {
    /// What the batch is called.
    pub batch: String,
    pub offer: &'a Offer,
    pub answer: Result<Accepted, Refused>,
}

/// The report of an accepted batch, and the rows of it that a person has to know of.
pub struct Accepted {
    pub report: Report,
    pub notices: Vec<Notice>,
    /// The duplicates that cannot be compared, since what they repeat was compacted.
    pub compacted: Vec<(ActorId, u64)>,
}

impl Accepted {
    fn new(
        report: Report,
        request: &Request,
        offer: &Offer,
        before: &Before,
        store: &Store,
    ) -> Result<Self, Refusal> {
        let mut notices = notice::of(request, offer, before, &report, store)?;
        let compared = match report.duplicates {
            0 => Compared::default(),
            _ => Compared::of(offer, store)?,
        };
        notices.extend(compared.differing);
        Ok(Self {
            report,
            notices,
            compacted: compared.compacted,
        })
    }
}

impl Told<'_> {
    /// Whether the batch was accepted, and there is no row to know of.
    pub fn well(&self) -> bool {
        let accepted = self.answer.as_ref().ok();
        accepted.is_some_and(|accepted| accepted.notices.is_empty())
    }
}

/// Offers the desks' batches to a store, one desk after the other. The clock goes from batch to batch.
pub fn offer<'a>(
    store: &mut Store,
    clock: &mut HybridClock,
    desks: impl Iterator<Item = &'a Desk>,
    settings: &Settings,
) -> Result<Vec<Told<'a>>, Refusal> {
    let mut told = Vec::new();
    for desk in desks {
        for (i, offered) in desk.offered.iter().enumerate() {
            told.push(Told {
                batch: desk.batch(i),
                offer: &offered.offer,
                answer: call(store, clock, offered, settings)?,
            });
        }
    }
    let accepted = told.iter_mut().filter_map(|told| told.answer.as_mut().ok());
    notice::note_returned(accepted.flat_map(|accepted| &mut accepted.notices), store)?;
    Ok(told)
}

/// One batch call. An unsound store answers no question about its rows either: that is an error.
fn call(
    store: &mut Store,
    clock: &mut HybridClock,
    offered: &Offered,
    settings: &Settings,
) -> Result<Result<Accepted, Refused>, Refusal> {
    let bytes = match &offered.bytes {
        Ok(bytes) => bytes,
        Err(refused) => return Ok(Err(refused.clone())),
    };
    let offer = &offered.offer;
    let request = settings.request(offer);
    let before = Before::of(store, clock)?;
    Ok(match store.apply_delta(clock, &request, bytes) {
        Ok(report) => Ok(Accepted::new(report, &request, offer, &before, store)?),
        Err(refusal) => Err(Refused::by_call(refusal, offer, &before.held)),
    })
}
