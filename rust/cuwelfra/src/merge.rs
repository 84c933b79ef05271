//! The batch call, and what it reports.

use cuwelfra_sys as sys;

use crate::outcome::{outcome_of, parts_of};
use crate::words::{size, small, within, word};
use crate::{ActorId, ApplyError, HybridClock, Refusal, Request, Store, MAX_BATCH, MAX_HELD};

/// Bytes of output for each logged row.
pub const LINE_BYTES: usize = 18;

/// What became of a logged row.
#[derive(Clone, Copy, Debug, PartialEq, Eq, Hash)]
#[non_exhaustive]
pub enum Fate {
    /// It fits.
    Applied,
    /// Its stamp is at or below the floor.
    Stale,
    /// Policy or state refused it.
    Rejected(ApplyError),
}

impl Fate {
    /// What the last two bytes of a batch's output line stand for, `None` where no line has them.
    pub(crate) fn of(fate: u8, detail: u8) -> Option<Self> {
        match (fate, detail) {
            (0, 0) => Some(Self::Applied),
            (1, 0) => Some(Self::Stale),
            _ => {
                let outcome = outcome_of(fate.checked_sub(1)?, detail)?;
                outcome.err().map(Self::Rejected)
            }
        }
    }

    /// Document 01's fate byte: 0 applied, 1 stale, 2 to 5 for its outcomes 1 to 4.
    ///
    /// ```
    /// use cuwelfra::{ApplyError, Fate};
    ///
    /// assert_eq!(Fate::Applied.byte(), 0);
    /// assert_eq!(Fate::Rejected(ApplyError::Denied).byte(), 4);
    /// ```
    pub fn byte(self) -> u8 {
        self.parts().0
    }

    /// The fate byte, and the detail that stands behind it in a batch's output line.
    pub(crate) fn parts(self) -> (u8, u8) {
        match self {
            Self::Applied => (0, 0),
            Self::Stale => (1, 0),
            Self::Rejected(error) => {
                let (outcome, detail) = parts_of(Err(error));
                (1 + outcome, detail)
            }
        }
    }
}

/// A row that a batch logged.
#[derive(Clone, Copy, Debug, PartialEq, Eq)]
pub struct Logged {
    /// Its author.
    pub actor: ActorId,
    /// The author's number for it.
    pub seq: u64,
    /// What became of it.
    pub fate: Fate,
}

impl Logged {
    fn from_line(line: &[u8; LINE_BYTES]) -> Result<Self, Refusal> {
        let [.., fate, detail] = *line;
        Ok(Self {
            actor: ActorId(word(line, 0)),
            seq: word(line, 8),
            fate: Fate::of(fate, detail).ok_or(Refusal::MisfitAnswer)?,
        })
    }
}

/// Counts from one accepted batch, and the rows that it logged.
///
/// The rows held before and the batch's are these together: `expired`, `duplicates`, `applied`, `stale`, `rejected`,
/// `dropped` and `held`. `failed_folds` is none of them: a row whose stamp the clock refused is merged like any other.
#[derive(Clone, Debug, Default, PartialEq, Eq)]
#[non_exhaustive]
pub struct Report {
    /// Rows logged that fit.
    pub applied: usize,
    /// Rows logged with a stamp at or below the floor.
    pub stale: usize,
    /// Rows logged that policy or state refused.
    pub rejected: usize,
    /// Rows that were there already.
    pub duplicates: usize,
    /// Rows that wait after this batch.
    pub held: usize,
    /// Held rows that waited too long.
    pub expired: usize,
    /// Ready rows that were not their author's next.
    pub dropped: usize,
    /// Stamps of the batch that the clock refused, with 20 or 19; the others were folded in.
    pub failed_folds: usize,
    /// The logged rows, in logging order.
    pub logged: Vec<Logged>,
}

impl Store {
    /// Merges the rows of a batch, a [`Batch`](crate::Batch) or its bytes: all of them, or none; 1 to 18. Then folds their
    /// stamps into the hybrid clock.
    ///
    /// The bytes may be any: what is not a batch is refused, with 3 or 4.
    ///
    /// The stamp of every row is folded in at the time of the request, in the order of the batch, duplicates and held rows
    /// too, as [`HybridClock::update`] does it. One that it refuses is counted in [`Report::failed_folds`], and the next
    /// goes on. A refused batch leaves the clock as it leaves the store. Hand in one clock from batch to batch, and let it
    /// stamp what is written here.
    ///
    /// ```
    /// use cuwelfra::{ActorId, Batch, HybridClock, Refusal, Request, Row, Store, Timestamp};
    ///
    /// // Two rows of author 2, stamped ahead of the time here, which is 1,000.
    /// let mut batch = Batch::new();
    /// for (seq, wall_time) in [(1, 5_000), (2, 9_000)] {
    ///     let stamp = Timestamp::new(wall_time, 3, ActorId(2));
    ///     batch.push(&Row::new(stamp, seq, "Kette = chain"), true, Ok(()))?;
    /// }
    /// let mut store = Store::with_capacity(16)?;
    /// let mut clock = HybridClock::new(ActorId(1));
    /// let report = store.apply_delta(&mut clock, &Request::at(1_000), &batch)?;
    /// assert_eq!((report.applied, report.failed_folds), (2, 0));
    ///
    /// // The next stamp is above those of the batch.
    /// let next = clock.now(1_000)?;
    /// assert_eq!(next, Timestamp::new(9_000, 5, ActorId(1)));
    /// assert!(store.logged()?.iter().all(|row| row.timestamp < next));
    ///
    /// // A clock whose drift is below the request's refuses the second stamp, with 20: it is counted, and the row is merged.
    /// let mut strict = HybridClock::new(ActorId(1));
    /// strict.set_max_drift(4_000);
    /// let mut store = Store::with_capacity(16)?;
    /// let report = store.apply_delta(&mut strict, &Request::at(1_000), &batch)?;
    /// assert_eq!((report.applied, report.failed_folds), (2, 1));
    /// assert_eq!(strict.last(), (5_000, 4));
    /// # Ok::<(), Refusal>(())
    /// ```
    pub fn apply_delta(
        &mut self,
        clock: &mut HybridClock,
        request: &Request,
        batch: impl AsRef<[u8]>,
    ) -> Result<Report, Refusal> {
        let batch = batch.as_ref();
        let rows = self.working_rows(batch);
        let mut output = [0; LINE_BYTES * (MAX_HELD + MAX_BATCH)];
        let (areas, scratch) = self.lent_mut(rows);
        let told = sys::apply_delta(
            request.limits.settings(),
            request.time_ms,
            clock.lent(),
            areas,
            batch,
            scratch,
            &mut output,
        );
        let (report, moved) = reported(*clock, &told, &output)?;
        self.note_fates(&report.logged)?;
        *clock = moved;
        Ok(report)
    }

    /// How many rows the call may have at work: the held ones and the batch's, as they are counted. It refuses a count
    /// that is wrong before it needs scratch for it.
    fn working_rows(&self, batch: &[u8]) -> usize {
        let held = size(word(self.areas().2, 8));
        let batch = size(sys::get_varint(batch, 0).value);
        held.min(MAX_HELD) + batch.min(MAX_BATCH)
    }
}

/// The answer and the clock moved on, once all of it is known to fit.
fn reported(
    mut clock: HybridClock,
    told: &sys::DeltaTold,
    output: &[u8],
) -> Result<(Report, HybridClock), Refusal> {
    Refusal::check(told.told)?;
    let (lines, _) = output.as_chunks();
    let rows = [told.stale, told.rejected];
    let rows = rows.into_iter().fold(told.applied, u64::saturating_add);
    let logged = lines.iter().take(within(rows, lines.len())?);
    let report = Report {
        applied: small(told.applied)?,
        stale: small(told.stale)?,
        rejected: small(told.rejected)?,
        duplicates: small(told.duplicates)?,
        held: small(told.held)?,
        expired: small(told.expired)?,
        dropped: small(told.dropped)?,
        failed_folds: within(told.failed_folds, MAX_BATCH)?,
        logged: logged.map(Logged::from_line).collect::<Result<_, _>>()?,
    };
    clock.moved(told.last_wall, told.last_counter)?;
    Ok((report, clock))
}

#[cfg(test)]
mod tests {
    use super::*;
    use crate::{Batch, Row, Timestamp};

    fn line(fate: u8, detail: u8) -> [u8; LINE_BYTES] {
        let mut line = [0; LINE_BYTES];
        [line[7], line[15], line[16], line[17]] = [5, 9, fate, detail];
        line
    }

    #[test]
    fn lines_are_read() {
        let fates = [
            (0, 0, Fate::Applied),
            (1, 0, Fate::Stale),
            (2, 0, Fate::Rejected(ApplyError::MalformedOp)),
            (3, 7, Fate::Rejected(ApplyError::UnknownOpTag(7))),
            (4, 0, Fate::Rejected(ApplyError::Denied)),
            (5, 8, Fate::Rejected(ApplyError::Invalid(8))),
        ];
        for (number, detail, fate) in fates {
            let logged = Logged {
                actor: ActorId(5),
                seq: 9,
                fate,
            };
            assert_eq!(Logged::from_line(&line(number, detail)), Ok(logged));
            assert_eq!(fate.parts(), (number, detail));
        }
        for (number, detail) in [(0, 1), (1, 1), (2, 1), (6, 0), (255, 0)] {
            assert_eq!(
                Logged::from_line(&line(number, detail)),
                Err(Refusal::MisfitAnswer)
            );
        }
    }

    /// More lines than there is output for, more folds than there are rows, a counter of 33 bits.
    #[test]
    fn an_answer_that_does_not_fit_moves_no_clock() {
        let output = [0; 2 * LINE_BYTES];
        let before = HybridClock::resume(ActorId(4), 10, 3);
        let fits = sys::DeltaTold {
            applied: 1,
            stale: 1,
            failed_folds: 64,
            last_wall: 20,
            last_counter: 0xffff_ffff,
            ..sys::DeltaTold::default()
        };
        let misfits = [
            sys::DeltaTold { stale: 2, ..fits },
            sys::DeltaTold {
                stale: u64::MAX,
                ..fits
            },
            sys::DeltaTold {
                failed_folds: 65,
                ..fits
            },
            sys::DeltaTold {
                last_counter: 1 << 32,
                ..fits
            },
        ];
        for told in misfits {
            assert_eq!(
                reported(before, &told, &output),
                Err(Refusal::MisfitAnswer),
                "{told:?}"
            );
        }
        let answer = reported(before, &fits, &output);
        let answer =
            answer.map(|(report, clock)| (report.logged.len(), report.failed_folds, clock));
        let moved = HybridClock::resume(ActorId(4), 20, u32::MAX);
        assert_eq!(answer, Ok((2, 64, moved)));
    }

    fn batch(stamps: &[(u64, u32)]) -> Result<Batch, Refusal> {
        let mut batch = Batch::new();
        for (seq, (wall, counter)) in (1..).zip(stamps) {
            let stamp = Timestamp::new(*wall, *counter, ActorId(1));
            batch.push(&Row::new(stamp, seq, "Kette"), true, Ok(()))?;
        }
        Ok(batch)
    }

    /// In the order of the batch, at the time of the request, whatever becomes of the rows.
    #[test]
    fn every_stamp_of_a_batch_is_folded_in() -> Result<(), Refusal> {
        let start = HybridClock::new(ActorId(9));
        let cases = [
            (&[][..], 90, (0, 0)),
            (&[(10, 5)], 9, (10, 6)),
            (&[(10, 5)], 10, (10, 6)),
            (&[(10, 5)], 11, (11, 0)),
            (&[(10, 5), (10, 7)], 10, (10, 8)),
            (&[(10, 7), (10, 5)], 10, (10, 9)),
        ];
        for (stamps, time_ms, wanted) in cases {
            let (batch, request) = (batch(stamps)?, Request::at(time_ms));
            let (mut store, mut clock) = (Store::with_capacity(2)?, start);
            let report = store.apply_delta(&mut clock, &request, &batch)?;
            assert_eq!((report.applied, report.failed_folds), (stamps.len(), 0));
            assert_eq!(clock.last(), wanted, "{stamps:?}");
            // Once more they are duplicates.
            let mut clock = start;
            let report = store.apply_delta(&mut clock, &request, &batch)?;
            assert_eq!((report.duplicates, report.failed_folds), (stamps.len(), 0));
            assert_eq!(clock.last(), wanted, "{stamps:?}");
        }
        // A row that waits.
        let waits = Row::new(Timestamp::new(10, 5, ActorId(1)), 2, "");
        let mut batch = Batch::new();
        batch.push(&waits, true, Ok(()))?;
        let (mut store, mut clock) = (Store::with_capacity(2)?, start);
        let report = store.apply_delta(&mut clock, &Request::at(1), &batch)?;
        assert_eq!((report.held, clock.last()), (1, (10, 6)));
        Ok(())
    }

    /// The folds of the call are those of the clock, one by one, also where some are refused.
    #[test]
    fn folds_are_those_of_the_clock() -> Result<(), Refusal> {
        let last = u32::MAX - 1;
        let walls = [10, 11, 15, 16, 12];
        let counters = [0, 7, last];
        let stamps: Vec<_> = walls
            .iter()
            .flat_map(|wall| counters.map(|counter| (*wall, counter)))
            .collect();
        let batch = batch(&stamps)?;
        let mut met = [0; 3];
        for (drift, wall, counter) in [(6, 0, 0), (5, 0, 0), (5, 15, last), (0, 12, u32::MAX)] {
            let mut clock = HybridClock::resume(ActorId(9), wall, counter);
            clock.set_max_drift(drift);
            let mut one_by_one = clock;
            let mut failed = 0;
            for (wall, counter) in &stamps {
                let stamp = Timestamp::new(*wall, *counter, ActorId(1));
                let kind = match one_by_one.update(&stamp, 10) {
                    Ok(()) => 0,
                    Err(Refusal::CounterOverflow) => 1,
                    Err(_) => 2,
                };
                met[kind] += 1;
                failed += usize::from(kind > 0);
            }
            let mut store = Store::with_capacity(stamps.len())?;
            let report = store.apply_delta(&mut clock, &Request::at(10), &batch)?;
            assert_eq!(
                (report.applied, report.failed_folds),
                (stamps.len(), failed)
            );
            assert_eq!(clock, one_by_one);
        }
        assert!(met.iter().all(|count| *count > 5), "{met:?}");
        Ok(())
    }

    #[test]
    fn a_refused_batch_moves_no_clock() -> Result<(), Refusal> {
        let before = HybridClock::resume(ActorId(9), 10, 3);
        let mut store = Store::with_capacity(1)?;
        let mut clock = before;
        let told = store.apply_delta(&mut clock, &Request::at(100), batch(&[(20, 0), (30, 0)])?);
        assert_eq!(told, Err(Refusal::LogFull));
        assert_eq!(clock, before);
        // Where a library moved it all the same, this one stays.
        let told = sys::DeltaTold {
            told: Refusal::LogFull.told(),
            last_wall: 20,
            ..sys::DeltaTold::default()
        };
        assert_eq!(reported(before, &told, &[]), Err(Refusal::LogFull));
        Ok(())
    }
}
