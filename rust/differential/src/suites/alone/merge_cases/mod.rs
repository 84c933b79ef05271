//! Batch calls written by hand: document 01's cases that are run, and its tempting mistakes; document 02's folds. Each fails
//! where the mistake is made.

mod content;
mod fates;
mod folds;
mod limits;
mod order;
mod quotas;
mod waiting;

use crate::rng::Rng;
use crate::support::{agree, Check, Outcome};

type Case = fn() -> Check;

/// What each case shows.
const CASES: &[(&str, Case)] = &[
    ("a row waits for another author's", waiting::waits),
    ("equality passes a quota", quotas::equality),
    ("quotas come after release", quotas::after_release),
    ("14, 15, 16, 17 and 18 in this order", quotas::in_order),
    ("16 names the lowest author", quotas::lowest_author),
    ("ties stand by falling sequence", order::ties),
    (
        "of the ready the least stamp goes first",
        order::least_first,
    ),
    ("held rows stand by stamp, author, sequence", order::held),
    ("stale rows are logged", fates::stale),
    ("a floor never falls, and none is not 0/0/0", fates::floors),
    (
        "rows are compared by value, and a number has one spelling",
        content::by_value,
    ),
    (
        "other content is 13, a zero dependency too",
        content::conflicts,
    ),
    (
        "other content at or below the clock is a duplicate",
        content::below_the_clock,
    ),
    ("the first outcome is kept", content::first_outcome),
    ("expiry keeps at equality", waiting::expiry),
    (
        "a duplicate does not renew the arrival",
        waiting::no_renewal,
    ),
    (
        "an expired row conflicts with nothing",
        waiting::expired_conflict,
    ),
    ("drift at equality passes, and saturates", limits::drift),
    (
        "an own dependency is below its sequence",
        content::own_dependency,
    ),
    ("faults come row by row, then conflicts", order::faults),
    (
        "an empty batch releases what a local row waits on",
        waiting::empty_batch,
    ),
    (
        "a held row at the clock is dropped when it is ready",
        waiting::dropped,
    ),
    ("the last sequence of all is logged", limits::last_sequence),
    ("a log that is full to the last slot", quotas::full_log),
    ("the 33rd author", quotas::full_clock),
    (
        "sizes of output and scratch count rows that expire",
        limits::room,
    ),
    ("settings at their capacity pass", limits::settings),
    ("the report's balance", fates::balance),
    ("stamps are folded in batch order", folds::in_order),
    (
        "duplicates and held rows are folded, released ones not again",
        folds::every_row,
    ),
    ("stamps are folded at the batch's time", folds::at_the_time),
    (
        "a fold that 20 stops is counted, and the next goes on",
        folds::remote_ahead,
    ),
    (
        "a fold that 19 stops is counted, and the next goes on",
        folds::counter_overflow,
    ),
    (
        "11 by the settings' drift, 20 by the clock's",
        folds::two_drifts,
    ),
    (
        "an empty batch and a refused one leave the clock",
        folds::nothing_to_fold,
    ),
];

pub fn run(_: &mut Rng) -> Outcome {
    for (name, case) in CASES {
        case().map_err(|difference| format!("  case:     {name}\n{difference}"))?;
    }
    Ok(CASES.len() as u64)
}

fn says(answer: String, wanted: &str) -> Check {
    agree(&answer.as_str(), &wanted, String::new)
}
