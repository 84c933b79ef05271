//! How often calls were accepted, refused with each number, and moved rows in each way, and what became of stamps; how many
//! inputs were compared with the original, and how many have an overlong number.

use std::collections::BTreeMap;

use cuwelfra_sys::{DeltaTold, Told};

use crate::leb128::OVERLONG;
use crate::port::batches::Folds;
use crate::support::{note, refused, Check, Outcome, Refusing};

/// Refusals that a batch call has.
const REFUSALS: usize = 18;

#[derive(Default)]
pub struct Census {
    accepted: u64,
    refused: [u64; REFUSALS + 1],
    moved: [u64; 7],
    folds: [u64; 4],
    /// Batches that 3 refuses for a number in more bytes than it needs.
    pub overlong: u64,
    /// Rows of the desk's own, prepared and sealed or sealed as they are.
    pub own: Numbers,
}

/// What accepted calls do to rows.
pub const MOVES: [&str; 7] = [
    "applied",
    "stale",
    "rejected",
    "duplicates",
    "held",
    "expired",
    "dropped",
];

/// What becomes of the stamps of accepted batches, and how many batches would leave another clock in another order.
pub const FOLDS: [&str; 4] = ["passed", "failed by 20", "failed by 19", "in another order"];

impl Census {
    pub fn note(&mut self, told: &DeltaTold, folds: &Folds) {
        if told.told.number > 0 {
            self.refused[told.told.number as usize] += 1;
            return;
        }
        self.accepted += 1;
        let counts = [
            folds.passed,
            folds.ahead,
            folds.overflowed,
            folds.ordered.into(),
        ];
        for (all, count) in self.folds.iter_mut().zip(counts) {
            *all += count;
        }
        let counts = [
            told.applied,
            told.stale,
            told.rejected,
            told.duplicates,
            told.held,
            told.expired,
            told.dropped,
        ];
        for (calls, count) in self.moved.iter_mut().zip(counts) {
            *calls += u64::from(count > 0);
        }
    }

    fn calls(&self) -> u64 {
        self.accepted + self.refused.iter().sum::<u64>()
    }

    /// Prints what became of stamps. Requires that each of these occurred.
    pub fn folds(&self, suite: &str, kinds: &[&str]) -> Check {
        let [passed, ahead, overflowed, ordered] = self.folds;
        note(&format!(
            "{suite}: folds that passed {passed}, failed by 20 {ahead}, failed by 19 {overflowed}; \
             batches that leave another clock where they are folded in another order {ordered}"
        ));
        let mut counted = FOLDS.iter().zip(self.folds);
        match counted.find(|(kind, count)| kinds.contains(kind) && *count == 0) {
            Some((kind, _)) => Err(format!("  {suite}: no fold {kind}")),
            None => Ok(()),
        }
    }

    /// Prints how many batches an overlong number refuses, and how many calls are not. Requires both.
    pub fn overlong_batches(&self, suite: &str) -> Check {
        let (overlong, others) = (self.overlong, self.calls() - self.overlong);
        note(&format!(
            "{suite}: batches with an overlong number, refused with 3: {overlong}; calls with other batches {others}"
        ));
        both_met(suite, others, overlong)
    }

    /// Prints the counts. Requires that calls were accepted, and that each of these refusals and moves occurred.
    pub fn finish(
        &self,
        suite: &str,
        refusals: impl IntoIterator<Item = usize>,
        moves: &[&str],
    ) -> Outcome {
        let refused = self.refused.iter().enumerate().skip(1);
        let refused: Vec<String> = refused.map(|(i, n)| format!("{i}: {n}")).collect();
        let moved = MOVES.iter().zip(self.moved);
        let listed: Vec<String> = moved
            .clone()
            .map(|(name, n)| format!("{name} {n}"))
            .collect();
        note(&format!(
            "{suite}: accepted {}, of which with rows {}; refused by number {}",
            self.accepted,
            listed.join(", "),
            refused.join(", ")
        ));
        let lacking = moved.filter(|(name, n)| *n == 0 && moves.contains(name));
        let mut refusals = refusals.into_iter();
        let unprovoked = refusals.any(|number| self.refused[number] == 0);
        if self.accepted == 0 || unprovoked || lacking.count() > 0 {
            return Err("a refusal or a move never occurred".into());
        }
        Ok(self.calls())
    }
}

/// How many inputs were compared with the original, and of how many it was not asked, for a number in more bytes than it
/// needs.
#[derive(Default)]
pub struct Forms {
    compared: u64,
    overlong: u64,
}

impl Forms {
    /// What the port must answer: 30 for an overlong number, else what the original answers.
    pub fn wanted<T: Refusing>(&mut self, overlong: bool, original: impl FnOnce() -> T) -> T {
        self.note(overlong);
        match overlong {
            true => T::refusing(refused(OVERLONG)),
            false => original(),
        }
    }

    pub fn note(&mut self, overlong: bool) {
        match overlong {
            true => self.overlong += 1,
            false => self.compared += 1,
        }
    }

    /// All of them.
    pub fn cases(&self) -> u64 {
        self.compared + self.overlong
    }

    /// Prints both counts, and the number that refuses what is overlong. Requires both.
    pub fn finish(&self, suite: &str, number: u64) -> Check {
        let Self { compared, overlong } = *self;
        note(&format!(
            "{suite}: compared with the original {compared}; overlong, refused with {number} {overlong}"
        ));
        both_met(suite, compared, overlong)
    }
}

fn both_met(suite: &str, others: u64, overlong: u64) -> Check {
    match others > 0 && overlong > 0 {
        true => Ok(()),
        false => Err(format!("  {suite}: no overlong number, or nothing else")),
    }
}

/// How often calls were accepted, 0, or refused with each number.
#[derive(Default)]
pub struct Numbers(BTreeMap<u64, u64>);

impl Numbers {
    pub fn note(&mut self, told: &Told) {
        *self.0.entry(told.number).or_default() += 1;
    }

    /// Prints the counts. Requires that each of these numbers occurred.
    pub fn finish(&self, what: &str, numbers: &[u64]) -> Outcome {
        let accepted = self.0.get(&0).copied().unwrap_or(0);
        let refused = self.0.iter().filter(|(number, _)| **number > 0);
        let refused: Vec<String> = refused.map(|(i, n)| format!("{i}: {n}")).collect();
        note(&format!(
            "{what}: accepted {accepted}; refused by number {}",
            refused.join(", ")
        ));
        match numbers.iter().find(|number| !self.0.contains_key(number)) {
            Some(number) => Err(format!("  {what}: {number} never occurred")),
            None => Ok(self.0.values().sum()),
        }
    }
}

#[cfg(test)]
mod tests {
    use super::*;
    use cuwelfra_sys::NumberRead;

    /// A suite that meets no overlong number, or nothing else, fails.
    #[test]
    fn both_kinds_must_come_up() {
        let passes = |kinds: &[bool]| {
            let mut forms = Forms::default();
            kinds.iter().for_each(|overlong| forms.note(*overlong));
            assert_eq!(forms.cases(), kinds.len() as u64);
            forms.finish("tests", OVERLONG).is_ok()
        };
        assert!(!passes(&[]) && !passes(&[true]) && !passes(&[false; 2]));
        assert!(passes(&[false, true, false]));

        let mut census = Census {
            accepted: 1,
            ..Census::default()
        };
        assert!(census.overlong_batches("tests").is_err());
        (census.refused[3], census.overlong) = (1, 1);
        assert_eq!(census.overlong_batches("tests"), Ok(()));
    }

    #[test]
    fn the_original_is_not_asked_of_an_overlong_number() {
        let mut forms = Forms::default();
        let told: NumberRead = forms.wanted(true, || panic!("asked"));
        assert_eq!(told, NumberRead::refusing(refused(30)));
        let told = forms.wanted(false, || NumberRead::refusing(refused(22)));
        assert_eq!(told, NumberRead::refusing(refused(22)));
    }
}
