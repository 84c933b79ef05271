//! How often each kind of pair and of batch occurred.

use std::collections::BTreeMap;

use cuwelfra_sys::DeltaTold;

use crate::census::Numbers;
use crate::model::demand::held;
use crate::model::expiring::Lacks;
use crate::port::store::Content;
use crate::suites::beside::expiring::desk::Desk;
use crate::suites::beside::expiring::pairs::Pair;
use crate::support::{note, Check, Outcome};

/// Pairs that must be in use at least, and batches that must be accepted.
const IN_USE: u64 = 100_000;
const FIND_ROOM: u64 = 10_000;

const PAIRS: [&str; 9] = [
    "in use",
    "with expired rows in the first",
    "with sealings in the first",
    "with sealings in the second",
    "with sealings in both",
    "with refused calls",
    "with equal offers",
    "with fewer offers to the first",
    "with equal clocks and other held rows",
];

/// The batches by which first stores catch up: those past 12 that find room and that do not, and three kinds of accepted
/// ones; and how often a later one lets held rows expire again.
const BATCHES: [&str; 6] = [
    ROOM,
    NO_ROOM,
    "in which held rows expire",
    "after which rows are held",
    "with logged rows or repeats",
    AGAIN,
];
pub const ROOM: &str = "that find room";
pub const NO_ROOM: &str = "that find none";
pub const AGAIN: &str = "whose held rows expire again";

const CONTROLS: [&str; 6] = [
    HELD_LEFT_OUT,
    OTHER_ROW,
    name(Lacks::Span),
    name(Lacks::OneContent),
    name(Lacks::SameRows),
    name(Lacks::Sealings),
];

pub const HELD_LEFT_OUT: &str = "held rows left out";
pub const OTHER_ROW: &str = "another row in the batch";

/// What a pair that lacks it is counted under.
pub const fn name(lacking: Lacks) -> &'static str {
    match lacking {
        Lacks::OneContent => "two contents",
        Lacks::SameRows => "more offers to the first",
        Lacks::Span => "the second without the limit",
        Lacks::Sealings => "a sealing that may not stand",
    }
}

#[derive(Default)]
pub struct Counts {
    pub kinds: Tally,
    /// The answers to the batches by which first stores catch up.
    pub refused: Numbers,
    pub controls: Controls,
}

impl Counts {
    /// A pair in use, and what its stores hold.
    pub fn pair(&mut self, pair: &Pair, first: &Content, second: &Content) {
        let offers = [&pair.first, &pair.second].map(|desk| &desk.offers);
        let sealed = offers.map(|offers| offers.sealed > 0);
        let refused = |desk: &Desk| desk.refused + desk.offers.refused > 0;
        let equal = offers[0].rows == offers[1].rows;
        let held_differ = first.clock == second.clock && !held(first).eq(held(second));
        let holds = [
            true,
            pair.first.expired > 0,
            sealed[0],
            sealed[1],
            sealed[0] && sealed[1],
            refused(&pair.first) || refused(&pair.second),
            equal,
            !equal,
            held_differ,
        ];
        self.kinds.note_all(&PAIRS, holds);
    }

    /// An accepted batch, and whether it carried more than was missing.
    pub fn caught_up(&mut self, told: &DeltaTold, more: bool) {
        let [_, _, expire, held, duplicates, _] = BATCHES;
        self.kinds.note(expire, told.expired > 0);
        self.kinds.note(held, told.held > 0);
        self.kinds.note(duplicates, more);
    }

    /// Prints the counts; gives the pairs in use. Requires that each kind occurred, and each control failed.
    pub fn finish(&self) -> Outcome {
        self.kinds.finish("pairs", &PAIRS)?;
        self.kinds.finish("catch-up batches", &BATCHES)?;
        let numbers = [0, 7, 8, 9, 11, 14, 15, 16, 17];
        self.refused
            .finish("expiring: catch-up batches", &numbers)?;
        self.controls.finish()?;
        let in_use = self.kinds.count(PAIRS[0]);
        if in_use < IN_USE || self.kinds.count(ROOM) < FIND_ROOM {
            return Err("  too few pairs in use, or batches that find room".into());
        }
        Ok(in_use)
    }
}

#[derive(Default)]
pub struct Tally(BTreeMap<&'static str, u64>);

impl Tally {
    pub fn note(&mut self, kind: &'static str, holds: bool) {
        *self.0.entry(kind).or_default() += u64::from(holds);
    }

    /// The same for kinds in their order.
    pub fn note_all<const N: usize>(&mut self, kinds: &[&'static str; N], holds: [bool; N]) {
        for (kind, holds) in kinds.iter().zip(holds) {
            self.note(kind, holds);
        }
    }

    fn count(&self, kind: &str) -> u64 {
        self.0.get(kind).copied().unwrap_or(0)
    }

    /// Prints how often these kinds occurred. Requires that each did.
    pub fn finish(&self, what: &str, kinds: &[&str]) -> Check {
        let counts = kinds.iter().map(|kind| (kind, self.count(kind)));
        let listed = counts
            .clone()
            .map(|(kind, count)| format!("{kind} {count}"));
        let listed: Vec<String> = listed.collect();
        note(&format!("expiring: {what}: {}", listed.join(", ")));
        match counts.clone().find(|(_, count)| *count == 0) {
            Some((kind, _)) => Err(format!("  {what}: {kind} never occurred")),
            None => Ok(()),
        }
    }
}

/// Pairs and batches that lack one thing.
#[derive(Default)]
pub struct Controls {
    all: Tally,
    fail: Tally,
}

impl Controls {
    pub fn note(&mut self, control: &'static str, fails: bool) {
        self.all.note(control, true);
        self.fail.note(control, fails);
    }

    fn finish(&self) -> Check {
        self.all.finish("controls", &CONTROLS)?;
        self.fail.finish("controls that fail", &CONTROLS)
    }
}
