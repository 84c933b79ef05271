//! What became of the logged rows, in log order.

use std::collections::BTreeMap;

use crate::row::number_in;
use crate::{Fate, Logged, SLOT_BYTES};

/// One for each logged row, from the first on. `None` is not known, and so is what is missing at the end.
#[derive(Clone, Default)]
pub(crate) struct Fates(Vec<Option<Fate>>);

impl Fates {
    pub fn new(fates: Vec<Option<Fate>>) -> Self {
        Self(fates)
    }

    /// Those of a log of so many rows.
    pub fn of_rows(&self, rows: usize) -> Vec<Option<Fate>> {
        let mut fates = self.0.clone();
        fates.resize(rows, None);
        fates
    }

    /// Puts what a batch logged where its rows now stand in the log. There is no other row with the author and sequence
    /// of one of them. The rows are looked for from the end, where new ones mostly stand, until all are found.
    pub fn place(&mut self, log: &[[u8; SLOT_BYTES]], logged: &[Logged]) {
        if logged.is_empty() {
            return;
        }
        let new = logged.iter().map(|row| ((row.actor, row.seq), row.fate));
        let new: BTreeMap<_, _> = new.collect();
        self.0.resize(log.len().saturating_sub(logged.len()), None);
        let mut last = Vec::new();
        for slot in log.iter().rev() {
            if self.0.len() + last.len() == log.len() {
                break;
            }
            last.push(match new.get(&number_in(slot)) {
                Some(fate) => Some(*fate),
                None => self.0.pop().flatten(),
            });
        }
        self.0.extend(last.into_iter().rev());
    }

    /// A row was put at this position of the log, and this is what became of it.
    pub fn insert(&mut self, position: usize, fate: Option<Fate>) {
        if fate.is_some() && self.0.len() < position {
            self.0.resize(position, None);
        }
        if position < self.0.len() || fate.is_some() {
            self.0.insert(position, fate);
        }
    }

    /// So many rows were removed from the start of the log.
    pub fn remove_first(&mut self, rows: usize) {
        self.0.drain(..rows.min(self.0.len()));
    }
}

#[cfg(test)]
mod tests {
    use super::*;
    use crate::{ActorId, ApplyError, Batch, HybridClock, Outcome, Refusal, Report};
    use crate::{Request, Row, Slot, Store, Timestamp, VectorClock};

    /// Numbers as if by chance, the same in every run.
    struct Chance(u64);

    impl Chance {
        fn below(&mut self, bound: u64) -> u64 {
            // Xorshift.
            self.0 ^= self.0 << 13;
            self.0 ^= self.0 >> 7;
            self.0 ^= self.0 << 17;
            self.0 % bound
        }
    }

    /// Stamps repeat among the rows of an author.
    fn row(actor: u64, seq: u64) -> Row {
        let wall_time = 10 + (seq * 7 + actor * 3) % 40 / 4 + seq / 2;
        Row::new(Timestamp::new(wall_time, 0, ActorId(actor)), seq, "Kette")
    }

    fn outcome(row: &Row) -> Outcome {
        match (row.seq + row.actor.0) % 5 {
            0 => Err(ApplyError::Denied),
            1 => Err(ApplyError::Invalid(row.seq as u8)),
            _ => Ok(()),
        }
    }

    /// A clock says nothing about fates.
    fn clock() -> HybridClock {
        HybridClock::new(ActorId(9))
    }

    fn apply(store: &mut Store, rows: &[Row]) -> Result<Report, Refusal> {
        let mut batch = Batch::new();
        for row in rows {
            batch.push(row, true, outcome(row))?;
        }
        store.apply_delta(&mut clock(), &Request::at(100), &batch)
    }

    /// What the reports said of each row, found by its author and sequence.
    #[derive(Default)]
    struct Model(BTreeMap<(ActorId, u64), Fate>);

    impl Model {
        fn note(&mut self, report: &Report) {
            let rows = report.logged.iter();
            self.0
                .extend(rows.map(|row| ((row.actor, row.seq), row.fate)));
        }

        fn fates(&self, store: &Store) -> Result<Vec<Option<Fate>>, Refusal> {
            let rows = store.logged()?;
            let fates = rows.iter().map(|row| self.0.get(&(row.actor, row.seq)));
            Ok(fates.map(Option::<&Fate>::copied).collect())
        }
    }

    /// What a list of calls met, so that none of it is missing in the test.
    #[derive(Default)]
    struct Met {
        stale: usize,
        rejected: usize,
        held: usize,
        refused: usize,
        compacted: usize,
        between: usize,
        equals: usize,
    }

    /// One call as if by chance. What is refused leaves the fates as they were.
    fn call(
        store: &mut Store,
        model: &mut Model,
        chance: &mut Chance,
        met: &mut Met,
    ) -> Result<(), Refusal> {
        let before = store.fates()?;
        let actor = 1 + chance.below(3);
        let next = store.clock()?.get(ActorId(actor))? + 1;
        let stamp = Timestamp::new(5 + chance.below(60), 0, ActorId(chance.below(4)));
        match chance.below(12) {
            0 => store.set_floor(&stamp)?,
            1 => met.compacted += store.compact(&stamp)?,
            2 => match store.insert(&Slot::logged(&row(actor, next))?) {
                Ok(()) => {
                    let last = store.logged()?.last().map(|row| (row.actor.0, row.seq));
                    met.between += usize::from(last != Some((actor, next)));
                }
                Err(refusal) => {
                    assert_eq!(refusal, Refusal::LogFull);
                    assert_eq!(store.fates()?, before);
                }
            },
            _ => {
                let rows = (0..1 + chance.below(9)).map(|_| {
                    let actor = 1 + chance.below(3);
                    let clock = store.clock()?.get(ActorId(actor))?;
                    Ok(row(actor, (clock + chance.below(5)).max(1)))
                });
                let rows = rows.collect::<Result<Vec<_>, _>>()?;
                match apply(store, &rows) {
                    Ok(report) => {
                        model.note(&report);
                        met.stale += report.stale;
                        met.rejected += report.rejected;
                        met.held += report.held;
                    }
                    Err(_) => {
                        met.refused += 1;
                        assert_eq!(store.fates()?, before);
                    }
                }
            }
        }
        Ok(())
    }

    #[test]
    fn fates_are_those_of_the_reports() -> Result<(), Refusal> {
        let (mut chance, mut met) = (Chance(1), Met::default());
        for capacity in [3, 20, 60] {
            for _ in 0..30 {
                let mut store = Store::with_capacity(capacity)?;
                let mut model = Model::default();
                for _ in 0..40 {
                    call(&mut store, &mut model, &mut chance, &mut met)?;
                    assert_eq!(store.fates()?, model.fates(&store)?);
                }
                let rows = store.logged()?;
                let equals = rows
                    .windows(2)
                    .filter(|two| two[0].timestamp == two[1].timestamp);
                met.equals += equals.count();
            }
        }
        let met = [
            met.stale,
            met.rejected,
            met.held,
            met.refused,
            met.compacted,
            met.between,
            met.equals,
        ];
        assert!(met.iter().all(|count| *count > 50), "{met:?}");
        Ok(())
    }

    /// Author 1's rows 1 to 4, of which the first, the third and the fourth are equal in stamp: 2, 4, 3, 1.
    fn store() -> Result<(Store, [Option<Fate>; 4]), Refusal> {
        let mut batch = Batch::new();
        let walls = [30, 10, 30, 30];
        for (seq, wall_time) in (1..).zip(walls) {
            let outcome = Err(ApplyError::Invalid(seq as u8));
            let stamp = Timestamp::new(wall_time, 0, ActorId(1));
            batch.push(&Row::new(stamp, seq, "Kette"), true, outcome)?;
        }
        let mut store = Store::with_capacity(8)?;
        store.apply_delta(&mut clock(), &Request::at(100), &batch)?;
        let fates = [2, 4, 3, 1].map(|seq| Some(Fate::Rejected(ApplyError::Invalid(seq))));
        Ok((store, fates))
    }

    #[test]
    fn a_row_put_in_stands_before_its_equals_and_is_not_known() -> Result<(), Refusal> {
        let (mut store, [first, rest @ ..]) = store()?;
        assert_eq!(store.fates()?, [&[first], &rest[..]].concat());
        // It has the number of a row that is there.
        let again = Row::new(Timestamp::new(30, 0, ActorId(1)), 1, "Rad");
        store.insert(&Slot::logged(&again)?)?;
        assert_eq!(store.logged()?[1].payload, b"Rad");
        assert_eq!(store.fates()?, [&[first, None], &rest[..]].concat());
        Ok(())
    }

    #[test]
    fn what_makes_a_store_anew_forgets_them() -> Result<(), Refusal> {
        let (mut store, fates) = store()?;
        assert_eq!(store.clone().fates()?, fates);
        let (log, held, head) = store.clone().into_areas();
        let taken = Store::from_areas(log, held, head);
        assert_eq!(taken.fates()?, [None; 4]);
        assert_eq!(taken, store);

        let rows = store.logged()?;
        let slots = rows
            .iter()
            .map(Slot::logged)
            .collect::<Result<Vec<_>, _>>()?;
        let mut full = VectorClock::new();
        for actor in 2..34 {
            full.observe(ActorId(actor), 1)?;
        }
        assert_eq!(store.rebuild(&slots, &full), Err(Refusal::AuthorsFull));
        assert_eq!(store.fates()?, fates);
        store.rebuild(&slots, &VectorClock::new())?;
        assert_eq!(store.fates()?, [None; 4]);
        Ok(())
    }

    #[test]
    fn an_unsound_store_has_none() -> Result<(), Refusal> {
        let (log, held, mut head) = store()?.0.into_areas();
        head[7] = 9;
        let store = Store::from_areas(log, held, head);
        assert_eq!(store.fates(), Err(Refusal::UnsoundStore));
        Ok(())
    }
}
