//! Questions to logs of up to 1,024 rows with 32 authors and watermarks and 64 held rows, their compaction, and batches on
//! them. Fails unless each call met full stores of each kind, and answers from nothing to all.

use std::collections::{BTreeMap, BTreeSet};

use oracle::log::ReplicatedLog;

use crate::original::beside::{entries, stamp, Pair};
use crate::original::full::{near_clock, Full, HELD_ROWS};
use crate::original::joined::Joined;
use crate::original::sized::Kinds;
use crate::port::area::AUTHORS;
use crate::port::store::LOGGED;
use crate::rng::Rng;
use crate::suites::beside::{chunks, compact, cutoff, delta, delta_sizes, lookup, peer_pending};
use crate::support::{note, Check, Outcome};
use crate::world::lists::gated;

const STORES: u64 = 2_500;
/// Stores on which two batches of 64 rows are called.
const BATCHED: u64 = 1_000;
/// The rows of both.
const OFFERED: usize = 128;
/// Rows of one stamp that make a store one of shared stamps.
const SHARED: usize = 100;

/// Each call, and the answers that it must reach: a number of rows, but `can_serve` answers 1 or 0, and `derive_clock`
/// counts authors.
const CALLS: [(&str, usize, usize); 10] = [
    ("cutoff", 0, LOGGED),
    ("can_serve", 0, 1),
    ("delta", 0, LOGGED),
    ("chunks", 0, LOGGED),
    ("sizes", 0, LOGGED),
    ("pending_ops", 0, LOGGED),
    ("lookup", 0, LOGGED + HELD_ROWS),
    ("derive_clock", 1, AUTHORS),
    ("compact", 0, LOGGED),
    ("apply_delta", 0, OFFERED),
];

/// What a store is counted by.
const KINDS: [&str; 7] = [
    "1,024 rows",
    "1,023 rows",
    "32 authors",
    "32 watermarks",
    "64 held rows",
    "100 rows of one stamp",
    "500 rows of one author",
];

type Kind = [bool; KINDS.len()];

#[derive(Default)]
struct Tally {
    questions: u64,
    /// Of which refused, as they must be.
    refused: u64,
    kinds: [u64; KINDS.len()],
    answers: BTreeSet<usize>,
}

#[derive(Default)]
struct Tallies(BTreeMap<&'static str, Tally>);

pub fn run(rng: &mut Rng) -> Outcome {
    let mut tallies = Tallies::default();
    for _ in 0..STORES {
        let full = Full::new(rng);
        let mut pair = full.pair(rng);
        ask(rng, &full, &mut pair, &mut tallies)?;
        pair.same(|| format!("questions to {}", pair.shown()))?;
        shrink(rng, &mut pair, &mut tallies)?;
    }
    for _ in 0..BATCHED {
        batches(rng, &mut tallies)?;
    }
    tallies.finish()
}

/// Two batches on a log that has room for their rows, for one less, or for none. The rows of both wait for the last.
fn batches(rng: &mut Rng, tallies: &mut Tallies) -> Check {
    let room = rng.pick(&[0, 1, 2, OFFERED - 1, OFFERED, OFFERED, OFFERED + 1, 400]);
    let log = Full::new(rng).log(rng, LOGGED - room);
    let mut joined = Joined::new(log, LOGGED);
    let authors = rng.pick(&[10, 30, 31, 32]);
    for offer in gated(rng, authors) {
        let kind = kind(&joined.original.log, joined.original.held().len());
        let told = joined.batch(rng, &offer)?.told;
        let logged = told.applied + told.stale + told.rejected;
        let reach = (told.told.number == 0).then_some(logged as usize);
        tallies.note("apply_delta", &kind, reach);
    }
    Ok(())
}

/// Some questions of each kind, which change nothing.
fn ask(rng: &mut Rng, full: &Full, pair: &mut Pair, tallies: &mut Tallies) -> Check {
    let kind = kind(&pair.original, pair.held.len());
    let clock = entries(pair.original.clock());
    let compacted = entries(pair.original.compacted());
    for _ in 0..4 {
        let frontier = near_clock(rng, &clock);
        tallies.note("cutoff", &kind, cutoff::asked(rng, pair, &frontier)?);
        let peer = near_clock(rng, &compacted);
        tallies.note("can_serve", &kind, cutoff::served(rng, pair, &peer)?);
        let peer = near_clock(rng, &clock);
        tallies.note("delta", &kind, delta::delta(rng, pair, &peer)?);
        tallies.note("chunks", &kind, chunks::chunks(rng, pair, &peer)?);
        let sizes = delta_sizes::sizes(rng, pair, &peer, &mut Kinds::default())?;
        tallies.note("sizes", &kind, sizes);
        let rows = peer_pending::pending_ops(rng, pair, &peer)?;
        tallies.note("pending_ops", &kind, rows);
    }
    for _ in 0..8 {
        let (author, seq) = lookup::wanted_id(rng, &full.world, pair);
        let place = lookup::lookup(rng, pair, author, seq)?;
        tallies.note("lookup", &kind, place);
    }
    Ok(())
}

/// Compaction to stamps of the log, and the derived clock, until the log is empty or some times.
fn shrink(rng: &mut Rng, pair: &mut Pair, tallies: &mut Tallies) -> Check {
    for _ in 0..3 {
        let kind = kind(&pair.original, pair.held.len());
        tallies.note("derive_clock", &kind, compact::derived(rng, pair)?);
        let ops = pair.original.ops();
        let cutoff = match rng.below(5) {
            0 => ops.last(),
            1 => ops.first(),
            _ if ops.is_empty() => None,
            _ => ops.get(rng.below(ops.len())),
        };
        let Some(op) = cutoff else {
            return Ok(());
        };
        let (wall, counter, author) = stamp(&op.timestamp);
        let author = if rng.once_in(4) {
            rng.near(author)
        } else {
            author
        };
        let removed = compact::compacted(rng, pair, (wall, counter, author))?;
        tallies.note("compact", &kind, removed);
    }
    Ok(())
}

fn kind(log: &ReplicatedLog, held: usize) -> Kind {
    let ops = log.ops();
    let mut by_author = BTreeMap::new();
    for op in ops {
        *by_author.entry(op.actor).or_insert(0) += 1;
    }
    let shared = ops
        .windows(SHARED)
        .any(|rows| rows[0].timestamp == rows[SHARED - 1].timestamp);
    [
        ops.len() == LOGGED,
        ops.len() == LOGGED - 1,
        log.clock().peers.len() == AUTHORS,
        log.watermarks().len() == AUTHORS,
        held == HELD_ROWS,
        shared,
        by_author.values().any(|rows| *rows >= 500),
    ]
}

impl Tallies {
    /// Stores are counted where the call was not refused.
    fn note(&mut self, call: &'static str, kind: &Kind, answer: Option<usize>) {
        let tally = self.0.entry(call).or_default();
        tally.questions += 1;
        let Some(answer) = answer else {
            tally.refused += 1;
            return;
        };
        for (count, holds) in tally.kinds.iter_mut().zip(kind) {
            *count += u64::from(*holds);
        }
        tally.answers.insert(answer);
    }

    /// Prints the counts, and requires that each call met each kind of store and gave both ends of its answers.
    fn finish(&self) -> Outcome {
        let mut cases = 0;
        for (call, least, most) in CALLS {
            let tally = self
                .0
                .get(call)
                .ok_or(format!("  {call} was never asked"))?;
            let kinds = KINDS.iter().zip(tally.kinds);
            let listed = kinds.clone().map(|(kind, n)| format!("{kind} {n}"));
            let listed: Vec<String> = listed.collect();
            note(&format!(
                "full-size: {call} {}, refused {}, answered with {}; answers from {least} to {most}",
                tally.questions,
                tally.refused,
                listed.join(", ")
            ));
            if let Some((kind, _)) = kinds.clone().find(|(_, n)| *n == 0) {
                return Err(format!("  {call} never met a store with {kind}"));
            }
            if let Some(end) = [least, most]
                .iter()
                .find(|end| !tally.answers.contains(end))
            {
                return Err(format!("  {call} never answered {end}"));
            }
            cases += tally.questions;
        }
        Ok(cases)
    }
}
