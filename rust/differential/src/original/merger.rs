//! The original's merger with its log, driven as a store of the port is, and its hybrid clock beside them.

use cuwelfra::Limits;
use cuwelfra_sys::{DeltaTold, Told};
use oracle::log::ReplicatedLog;
use oracle::merge::{MergeReport, Merger};
use oracle::stubs::ActorId;

use crate::original::beside::{authors_fit, content_of, operation, stamp, timestamp};
use crate::original::folding::folded;
use crate::original::judges::{merge_told, rejected_fate, reported, Applied, Outcomes, Verdicts};
use crate::original::pending;
use crate::port::batches::{Answer, Line, Offer};
use crate::port::rows::{Held, Stamp};
use crate::port::store::Content;
use crate::support::refused;

#[derive(Clone)]
pub struct Original {
    pub log: ReplicatedLog,
    merger: Merger,
    /// Once there is a floor, the same merger without one: its policy is asked about every logged row.
    unfloored: Option<Merger>,
    held: Vec<Held>,
}

/// What an accepted batch comes to, but for its folds.
struct Merged {
    counts: DeltaTold,
    lines: Vec<Line>,
    after: Original,
}

/// What a call of the original comes to.
struct Ran {
    report: MergeReport,
    /// The authors of the logged rows that are not stale, in logging order.
    authors: Vec<u64>,
    applied: Vec<Stamp>,
}

impl Original {
    pub fn new(log: ReplicatedLog) -> Self {
        Self {
            log,
            merger: Merger::default(),
            unfloored: None,
            held: Vec::new(),
        }
    }

    /// What a batch call answers, and the merger after it, `None` where it is refused.
    pub fn apply(&self, offer: &Offer, capacity: usize) -> (Answer, Option<Self>) {
        let merged = self.merged(offer).and_then(|merged| {
            // The original has no capacity.
            let after = &merged.after;
            match after.log.len() > capacity {
                true => Err(refused(17)),
                false if !authors_fit(&after.log) => Err(refused(18)),
                false => Ok(merged),
            }
        });
        match merged {
            Err(told) => (Answer::refused(told, &offer.clock), None),
            Ok(Merged {
                counts,
                lines,
                after,
            }) => {
                let (last, folds) = folded(&offer.clock, offer.time, &offer.stamps());
                (Answer::accepted(counts, lines, last, folds), Some(after))
            }
        }
    }

    fn merged(&self, offer: &Offer) -> Result<Merged, Told> {
        let mut after = self.clone();
        let mut ran = run(&mut after.merger, &mut after.log, offer)?;
        if let Some(unfloored) = &mut after.unfloored {
            let mut log = self.log.clone();
            ran.authors = run(unfloored, &mut log, offer)?.authors;
            assert_eq!(log, after.log, "a floor decides on no logged row");
        }
        after.held = pending::held(&after.merger);
        assert_eq!(after.held.len(), ran.report.buffered);
        Ok(Merged {
            counts: self.counts(&ran.report, &after, offer),
            lines: self.lines(&ran, &after),
            after,
        })
    }

    /// A line for each logged row, all of whose authors are told. An author's rows go in the order of their sequence.
    fn lines(&self, ran: &Ran, after: &Self) -> Vec<Line> {
        let mut clock = self.log.clock().clone();
        let floor = self.merger.floor();
        let mut lines = Vec::new();
        let mut applied = Vec::new();
        for author in &ran.authors {
            let actor = ActorId(*author);
            let seq = clock.get(actor) + 1;
            clock.observe(actor, seq);
            let mut logged = after.log.ops().iter();
            let logged = logged.find(|op| (op.actor, op.seq) == (actor, seq));
            let at = logged.expect("a logged row").timestamp;
            let mut rejected = ran.report.rejected.iter();
            let rejected = rejected.find(|no| (no.actor, no.seq) == (actor, seq));
            let (fate, detail) = match rejected {
                Some(no) => rejected_fate(&no.error),
                None if floor.is_some_and(|floor| at <= floor) => (1, 0),
                None => {
                    applied.push(stamp(&at));
                    (0, 0)
                }
            };
            lines.push(Line {
                author: *author,
                seq,
                fate,
                detail,
            });
        }
        assert_eq!(applied, ran.applied, "applied in this order");
        lines
    }

    /// The report, with the counts that document 01 adds.
    fn counts(&self, report: &MergeReport, after: &Self, offer: &Offer) -> DeltaTold {
        let age = offer.limits.max_pending_age_ms;
        let oldest = offer.time.saturating_sub(age);
        let expired = self.held.iter().filter(|held| held.arrival < oldest);
        let mut counts = reported(report);
        counts.expired = expired.count() as u64;
        let logged = (after.log.len() - self.log.len()) as u64;
        assert_eq!(counts.applied + counts.stale + counts.rejected, logged);
        // Of the rows before, these are left when all others are counted.
        let rows = (self.held.len() + offer.rows.len()) as u64;
        counts.dropped = rows - counts.expired - counts.duplicates - logged - counts.held;
        counts
    }

    /// Raises the floor.
    pub fn set_floor(&mut self, stamp: Stamp) {
        self.unfloored.get_or_insert_with(|| self.merger.clone());
        self.merger.set_floor(timestamp(stamp));
    }

    /// The rows that wait, with their arrival.
    pub fn held(&self) -> &[Held] {
        &self.held
    }

    /// What a store of the port must hold.
    pub fn content(&self) -> Content {
        Content {
            held: self.held.clone(),
            floor: self.merger.floor().as_ref().map(stamp),
            ..content_of(&self.log)
        }
    }
}

fn run(merger: &mut Merger, log: &mut ReplicatedLog, offer: &Offer) -> Result<Ran, Told> {
    merger.set_limits(settings(&offer.limits));
    let policy = Outcomes::default();
    let mut applied = Applied::default();
    let report = merger.apply_remote_ops(
        &Verdicts::of(&offer.rows),
        &policy,
        offer.time,
        &mut applied,
        log,
        offer.rows.iter().map(|lent| operation(&lent.row)).collect(),
    );
    Ok(Ran {
        report: report.map_err(|error| merge_told(&error))?,
        authors: policy.asked.into_inner(),
        applied: applied.stamps,
    })
}

fn settings(limits: &Limits) -> oracle::merge::MergeLimits {
    oracle::merge::MergeLimits {
        max_pending: limits.max_pending as usize,
        max_pending_per_actor: limits.max_pending_per_actor as usize,
        max_pending_bytes: limits.max_pending_bytes as usize,
        max_pending_age_ms: limits.max_pending_age_ms,
        max_drift_ms: limits.max_drift_ms,
        max_deps: limits.max_deps as usize,
        max_payload: limits.max_payload as usize,
    }
}
