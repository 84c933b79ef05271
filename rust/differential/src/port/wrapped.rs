//! Rows, stamps, clocks and refusals in the wrapper's form, and batch calls through it, on batches that it builds.

use cuwelfra::{ActorId, ApplyError, Batch, Fate, HybridClock, Logged, Outcome, Report, Request};
use cuwelfra_sys::{HybridParts, Told};

use crate::port::batches::{batch, Answer, BatchRow, Line, Offer};
use crate::port::rows::{Row, Stamp};
use crate::port::store::Areas;
use crate::support::{agree, Check};

/// Requires that the wrapper builds these bytes, and that its call answers so and moves the clock so.
pub fn same_call(
    areas: &mut Areas,
    offer: &Offer,
    answer: &Answer,
    inputs: impl Fn() -> String,
) -> Check {
    let built = build(&offer.rows);
    agree(&built.bytes(), &&batch(&offer.rows)[..], &inputs)?;
    agree(&built.len(), &offer.rows.len(), &inputs)?;
    let mut clock = wrapped_clock(&offer.clock);
    let report = areas.wrapped(|store| {
        let request = Request::at(offer.time).with_limits(offer.limits);
        let answer = store.apply_delta(&mut clock, &request, &built);
        answer.map_err(|refusal| refusal.told())
    });
    agree(&report, &expected(answer), &inputs)?;
    let after = HybridParts {
        last_wall: answer.told.last_wall,
        last_counter: answer.told.last_counter as u32,
        ..offer.clock
    };
    agree(&clock, &wrapped_clock(&after), inputs)
}

pub fn wrapped_clock(clock: &HybridParts) -> HybridClock {
    HybridClock::from_parts(cuwelfra::HybridParts {
        actor: ActorId(clock.actor),
        last_wall: clock.last_wall,
        last_counter: clock.last_counter,
        max_drift_ms: clock.max_drift_ms,
    })
}

fn build(rows: &[BatchRow]) -> Batch {
    let mut batch = Batch::new();
    for lent in rows {
        let outcome = wrapped_outcome(lent.outcome, lent.detail);
        let pushed = batch.push(&wrapped_row(&lent.row), lent.verdict == 1, outcome);
        pushed.expect("a row within capacity");
    }
    batch
}

pub fn wrapped_outcome(outcome: u64, detail: u64) -> Outcome {
    rejected(outcome, detail).map_or(Ok(()), Err)
}

/// What the wrapper has for outcomes 1 to 4.
fn rejected(outcome: u64, detail: u64) -> Option<ApplyError> {
    Some(match outcome {
        0 => return None,
        1 => ApplyError::MalformedOp,
        2 => ApplyError::UnknownOpTag(detail as u8),
        3 => ApplyError::Denied,
        _ => ApplyError::Invalid(detail as u8),
    })
}

fn expected(answer: &Answer) -> Result<Report, Told> {
    let told = &answer.told;
    if told.told != Told::default() {
        return Err(told.told);
    }
    let mut report = Report::default();
    report.applied = told.applied as usize;
    report.stale = told.stale as usize;
    report.rejected = told.rejected as usize;
    report.duplicates = told.duplicates as usize;
    report.held = told.held as usize;
    report.expired = told.expired as usize;
    report.dropped = told.dropped as usize;
    report.failed_folds = told.failed_folds as usize;
    report.logged = answer.lines.iter().map(logged).collect();
    Ok(report)
}

fn logged(line: &Line) -> Logged {
    let outcome = u64::from(line.fate.saturating_sub(1));
    let fate = match line.fate {
        1 => Fate::Stale,
        _ => rejected(outcome, u64::from(line.detail)).map_or(Fate::Applied, Fate::Rejected),
    };
    assert_eq!(fate.byte(), line.fate);
    Logged {
        actor: ActorId(line.author),
        seq: line.seq,
        fate,
    }
}

pub fn wrapped_row(row: &Row) -> cuwelfra::Row {
    cuwelfra::Row {
        timestamp: wrapped_stamp(row.stamp),
        actor: ActorId(row.author),
        seq: row.seq,
        deps: row.deps.iter().map(|(a, n)| (ActorId(*a), *n)).collect(),
        payload: row.payload.clone(),
        signature: row.signature.clone(),
    }
}

/// The clock as a batch call takes it.
pub fn plain_clock(clock: &HybridClock) -> HybridParts {
    let parts = clock.to_parts();
    HybridParts {
        actor: parts.actor.0,
        last_wall: parts.last_wall,
        last_counter: parts.last_counter,
        max_drift_ms: parts.max_drift_ms,
    }
}

/// What the wrapper refused with.
pub fn refusal(answer: Result<(), cuwelfra::Refusal>) -> Told {
    answer.err().map_or_else(Told::default, |r| r.told())
}

pub fn wrapped_stamp(stamp: Stamp) -> cuwelfra::Timestamp {
    cuwelfra::Timestamp {
        wall_time: stamp.0,
        logical_counter: stamp.1,
        actor_id: ActorId(stamp.2),
    }
}
