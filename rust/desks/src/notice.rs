//! Rows that a person has to know of: what a report counts, by name.

use cuwelfra::{ActorId, ApplyError, BatchRow, Fate, HeldRow, HybridClock, Outcome};
use cuwelfra::{Refusal, Report, Request, Row, Store, VectorClock};

use crate::store::{causes, expires, logged, Logged};
use crate::text::Offer;

/// A row that a person has to know of after an accepted batch.
pub struct Notice {
    pub row: Row,
    pub news: News,
}

/// What there is to know of a row.
pub enum News {
    /// It waited too long.
    Expired(Waited),
    /// Its number was passed while it waited.
    Dropped(Waited),
    /// It is logged, and policy or state refused it.
    Rejected(ApplyError),
    /// It is logged, and its stamp is at or below the floor.
    Stale,
    /// It is merged, and the clock refused its stamp.
    Unfolded {
        /// Where it stands in its file.
        place: String,
        /// The answer that came with it.
        outcome: Outcome,
        /// 20 or 19.
        refusal: Refusal,
        /// The clock's time when it did.
        wall: u64,
    },
    /// It counts as a duplicate, and what is in the store under its number has other content or another answer.
    Differs {
        /// Where it stands in its file.
        place: String,
        /// The answer that came with it.
        outcome: Outcome,
        /// What is in the store.
        there: Found,
    },
}

/// How a row waited that does so no more.
pub struct Waited {
    pub since_ms: u64,
    /// The rows that it waited for.
    pub causes: Vec<(ActorId, u64)>,
    /// What policy and state said of it.
    pub outcome: Outcome,
    /// What the store has under its number after the last call.
    pub now: Option<Found>,
}

/// What a store has under an author and sequence.
#[derive(Clone)]
pub struct Found {
    pub held: bool,
    pub row: Row,
    /// What policy and state said of it, where the store knows that.
    pub outcome: Option<Outcome>,
}

/// What a store had before a batch, and the hybrid clock.
pub struct Before {
    pub held: Vec<HeldRow>,
    clock: VectorClock,
    hybrid: HybridClock,
}

impl Before {
    pub fn of(store: &Store, hybrid: &HybridClock) -> Result<Self, Refusal> {
        Ok(Self {
            held: store.held()?,
            clock: store.clock()?,
            hybrid: *hybrid,
        })
    }
}

/// What there is to know of an accepted batch, from what the store had before it and has after it; but for its
/// duplicates, which [`Compared`] has.
pub fn of(
    request: &Request,
    offer: &Offer,
    before: &Before,
    report: &Report,
    store: &Store,
) -> Result<Vec<Notice>, Refusal> {
    let mut notices = not_applied(offer, before, report)?;
    if report.expired + report.dropped > 0 {
        notices.extend(gone(request, before, report, store)?);
    }
    if report.failed_folds > 0 {
        notices.extend(unfolded(request, offer, &before.hybrid, report)?);
    }
    Ok(notices)
}

/// The rows whose stamps the clock refused. A report says how many they are; which, the clock as it was before the batch.
fn unfolded(
    request: &Request,
    offer: &Offer,
    before: &HybridClock,
    report: &Report,
) -> Result<Vec<Notice>, Refusal> {
    let mut clock = *before;
    let mut unfolded = Vec::new();
    for (i, BatchRow { row, outcome, .. }) in offer.rows.iter().enumerate() {
        let refusal = match clock.update(&row.timestamp, request.time_ms) {
            Ok(()) => continue,
            Err(refusal @ (Refusal::RemoteAhead { .. } | Refusal::CounterOverflow)) => refusal,
            Err(refusal) => return Err(refusal),
        };
        unfolded.push(Notice {
            row: row.clone(),
            news: News::Unfolded {
                place: offer.place(i),
                outcome: *outcome,
                refusal,
                wall: clock.last().0,
            },
        });
    }
    match unfolded.len() == report.failed_folds {
        true => Ok(unfolded),
        false => Err(Refusal::MisfitAnswer),
    }
}

/// A row's author and sequence.
fn number(row: &Row) -> (ActorId, u64) {
    (row.actor, row.seq)
}

/// The held rows that expired or were dropped.
fn gone(
    request: &Request,
    before: &Before,
    report: &Report,
    store: &Store,
) -> Result<Vec<Notice>, Refusal> {
    let left = store.held()?;
    let stays = |row: &Row| {
        let mut logged = report.logged.iter();
        logged.any(|logged| (logged.actor, logged.seq) == number(row))
            || left.iter().any(|left| number(&left.row) == number(row))
    };
    let mut gone = Vec::new();
    for held in &before.held {
        let row = &held.row;
        let expired = expires(held, &request.limits, request.time_ms);
        if !expired && stays(row) {
            continue;
        }
        let waited = Waited {
            since_ms: held.arrived_ms,
            causes: causes(row, &before.clock)?,
            outcome: held.outcome,
            now: None,
        };
        gone.push(Notice {
            row: row.clone(),
            news: match expired {
                true => News::Expired(waited),
                false => News::Dropped(waited),
            },
        });
    }
    Ok(gone)
}

/// Notes what the store has after the last call under the numbers of the rows that are gone.
pub fn note_returned<'a>(
    notices: impl Iterator<Item = &'a mut Notice>,
    store: &Store,
) -> Result<(), Refusal> {
    let there = found(store)?;
    for Notice { row, news } in notices {
        if let News::Expired(waited) | News::Dropped(waited) = news {
            let mut found = there
                .iter()
                .filter(|found| number(&found.row) == number(row));
            waited.now = found.next().cloned();
        }
    }
    Ok(())
}

/// The logged rows that are not applied. What a batch logs is one of its rows or was held.
fn not_applied(offer: &Offer, before: &Before, report: &Report) -> Result<Vec<Notice>, Refusal> {
    let offered = offer.rows.iter().map(|row| &row.row);
    let known = offered.chain(before.held.iter().map(|held| &held.row));
    let mut notices = Vec::new();
    for logged in &report.logged {
        let news = match logged.fate {
            Fate::Applied => continue,
            Fate::Rejected(error) => News::Rejected(error),
            Fate::Stale => News::Stale,
            // A later version's.
            _ => return Err(Refusal::MisfitAnswer),
        };
        let row = known
            .clone()
            .find(|row| number(row) == (logged.actor, logged.seq));
        notices.push(Notice {
            row: row.ok_or(Refusal::MisfitAnswer)?.clone(),
            news,
        });
    }
    Ok(notices)
}

/// The duplicates of a batch beside what the store has under their numbers.
#[derive(Default)]
pub struct Compared {
    /// Those that have other content or another answer.
    pub differing: Vec<Notice>,
    /// The numbers of those under which it has nothing any more.
    pub compacted: Vec<(ActorId, u64)>,
}

impl Compared {
    /// Compares the rows of an accepted batch with the store after it. A batch takes no row out of the log, so what made
    /// a row a duplicate is still there, unless it was compacted before; and a row that is none is there itself.
    pub fn of(offer: &Offer, store: &Store) -> Result<Self, Refusal> {
        let there = found(store)?;
        let mut compared = Self::default();
        for (i, BatchRow { row, outcome, .. }) in offer.rows.iter().enumerate() {
            let found = there
                .iter()
                .filter(|found| number(&found.row) == number(row));
            let mut found = found.peekable();
            if found.peek().is_none() {
                compared.compacted.push(number(row));
            }
            let differs = |found: &&Found| {
                found.row != *row || found.outcome.is_some_and(|known| known != *outcome)
            };
            let differing = found.filter(differs).map(|found| Notice {
                row: row.clone(),
                news: News::Differs {
                    place: offer.place(i),
                    outcome: *outcome,
                    there: found.clone(),
                },
            });
            compared.differing.extend(differing);
        }
        Ok(compared)
    }
}

/// All rows of a store.
fn found(store: &Store) -> Result<Vec<Found>, Refusal> {
    let logged = logged(store)?
        .into_iter()
        .map(|Logged { row, fate }| Found {
            held: false,
            row,
            outcome: fate.and_then(outcome),
        });
    let held = store.held()?.into_iter().map(|held| Found {
        held: true,
        row: held.row,
        outcome: Some(held.outcome),
    });
    Ok(logged.chain(held).collect())
}

/// What policy and state said of a row with this fate. Of a stale row that is not kept.
pub fn outcome(fate: Fate) -> Option<Outcome> {
    match fate {
        Fate::Applied => Some(Ok(())),
        Fate::Rejected(error) => Some(Err(error)),
        _ => None,
    }
}

#[cfg(test)]
mod tests {
    use super::*;
    use cuwelfra::{Batch, Timestamp};

    /// A report that counts more or fewer of them than the clock refuses is none of this batch.
    #[test]
    fn as_many_stamps_are_refused_as_the_report_counts() -> Result<(), Refusal> {
        let row = |seq| Row::new(Timestamp::new(30, u32::MAX - 1, ActorId(1)), seq, "x");
        let mut batch = Batch::new();
        for seq in 1..=3 {
            batch.push(&row(seq), true, Ok(()))?;
        }
        let offer = Offer::of(Batch::read(batch.bytes())?);
        let clock = HybridClock::new(ActorId(0));
        let mut report = Report::default();
        for failed in 0..=3 {
            report.failed_folds = failed;
            let notices = unfolded(&Request::at(20), &offer, &clock, &report);
            let rows = notices.map(|notices| {
                let rows = notices.into_iter().map(|notice| notice.row);
                rows.collect::<Vec<_>>()
            });
            let wanted = match failed {
                2 => Ok(vec![row(2), row(3)]),
                _ => Err(Refusal::MisfitAnswer),
            };
            assert_eq!(rows, wanted);
        }
        Ok(())
    }
}
