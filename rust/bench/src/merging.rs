//! Batch calls: the workloads, how their time grows, where the port's goes, and what the folds cost.

use std::time::Instant;

use cuwelfra::{Row, MAX_LOGGED};

use crate::case::{Before, Case, Counts};
use crate::rows::{among, chained, earlier, waiting};
use crate::timing::{micros, rounds, Spread};

/// Rounds of a workload.
const ROUNDS: usize = 200;
/// Rounds of a cell of the tables of growth.
const FEW: usize = 100;
const LOGS: [usize; 3] = [0, 512, 960];
const SMALL_LOGS: [usize; 5] = [0, 64, 128, 512, 960];

type Done = Result<(), String>;

/// What each log is offered.
type Offer = (
    &'static str,
    fn(usize) -> Option<(Before, Vec<Row>, Counts)>,
);

const OFFERS: [Offer; 7] = [
    ("64 fresh rows in order", |log| {
        Some((chain(log), next(log, 64), applied(64)))
    }),
    ("64 fresh rows in reverse causal order", |log| {
        let rows = next(log, 64).into_iter().rev().collect();
        Some((chain(log), rows, applied(64)))
    }),
    ("64 fresh rows with stamps before all logged ones", |log| {
        let rows = (0..64).map(earlier).collect();
        (log > 0).then_some((chain(log), rows, applied(64)))
    }),
    (
        "64 fresh rows with stamps spread among the logged ones",
        |log| {
            let rows = (0..64).map(|n| among(n, n * log as u64 / 64)).collect();
            (log > 0).then_some((chain(log), rows, applied(64)))
        },
    ),
    ("64 duplicates of logged rows", |log| {
        let rows = next(log.checked_sub(64)?, 64);
        let counts = Counts {
            duplicates: 64,
            ..Counts::default()
        };
        Some((chain(log), rows, counts))
    }),
    ("64 rows that fill the held rows", |log| {
        let counts = Counts {
            held: 64,
            ..Counts::default()
        };
        Some((chain(log), held(log), counts))
    }),
    ("1 row that releases 63 held ones", |log| {
        let before = Before {
            held: held(log).into_iter().take(63).collect(),
            ..chain(log)
        };
        Some((before, next(log, 1), applied(64)))
    }),
];

/// The first rows of the chain, logged.
fn chain(log: usize) -> Before {
    Before {
        logged: next(0, log),
        held: Vec::new(),
    }
}

/// So many rows of the chain from a place on.
fn next(from: usize, count: usize) -> Vec<Row> {
    (from..from + count).map(|n| chained(n as u64)).collect()
}

/// 64 rows that wait for the chain's next.
fn held(log: usize) -> Vec<Row> {
    (0..64).map(|n| waiting(n, log as u64)).collect()
}

fn applied(applied: usize) -> Counts {
    Counts {
        applied,
        ..Counts::default()
    }
}

/// The workloads, on log areas of 1,024 slots.
pub fn workloads() -> Done {
    table(&LOGS, |_| MAX_LOGGED)
}

/// The same, small logs too, on log areas that are just large enough for 64 rows more.
pub fn workloads_in_small_areas() -> Done {
    table(&SMALL_LOGS, |log| log + 64)
}

/// A line for each workload and each log, on an area of so many slots.
fn table(logs: &[usize], slots: fn(usize) -> usize) -> Done {
    println!("| batch call | rows logged | slots | port | original | port ÷ original | port through the wrapper | building the batch's bytes |");
    println!("|---|---|---|---|---|---|---|---|");
    for (name, offer) in OFFERS {
        for &log in logs {
            if let Some((before, rows, counts)) = offer(log) {
                workload(name, &before, slots(log), rows, counts)?;
            }
        }
    }
    println!();
    Ok(())
}

fn workload(name: &str, before: &Before, slots: usize, rows: Vec<Row>, counts: Counts) -> Done {
    let case =
        Case::new(before, slots, rows, counts).map_err(|error| format!("{name}: {error}"))?;
    let subjects = [
        case.exported(),
        case.original(),
        case.wrapped(),
        case.building(),
    ];
    let [port, original, wrapped, building] = rounds(ROUNDS, subjects);
    println!(
        "| {name} | {} | {slots} | {port} | {original} | {:.1} | {wrapped} | {building} |",
        before.logged.len(),
        port.over(&original)
    );
    Ok(())
}

/// The time of 64 fresh rows, and of its parts that can be called alone.
pub fn parts() -> Done {
    println!("| rows logged | slots | batch call | store rules alone | reading the rows alone | the rest |");
    println!("|---|---|---|---|---|---|");
    for (log, slots) in [(0, 64), (0, 1_024), (512, 576), (512, 1_024), (960, 1_024)] {
        let case = Case::new(&chain(log), slots, next(log, 64), applied(64))?;
        let subjects = [case.exported(), case.checking(), case.reading()];
        let [call, check, read] = rounds(ROUNDS, subjects);
        let rest = call.median.saturating_sub(check.median + read.median);
        println!(
            "| {log} | {slots} | {call} | {check} | {read} | {} |",
            micros(rest)
        );
    }
    println!();
    Ok(())
}

/// Rows logged and slots of a log area: 1,024 slots, then just enough for 64 rows more.
const AREAS: [(usize, usize); 5] = [(0, 1_024), (512, 1_024), (960, 1_024), (0, 64), (512, 576)];

/// The batch call with 64 fresh rows, and the folds of their stamps alone: the original's, and by the exported call for one
/// stamp, which reads no batch and is called 64 times.
pub fn folds() -> Done {
    println!("| batch call | rows logged | slots | port | original, merging and then folding | original's 64 folds alone | 64 calls of `cuwelfra_hybrid_update` |");
    println!("|---|---|---|---|---|---|---|");
    for (name, offer) in &OFFERS[..2] {
        for (log, slots) in AREAS {
            let (before, rows, counts) = offer(log).ok_or("a workload of every log")?;
            let case = Case::new(&before, slots, rows, counts)?;
            let subjects = [
                case.exported(),
                case.original(),
                case.original_folds(),
                case.exported_folds(),
            ];
            let [port, original, folds, exported] = rounds(ROUNDS, subjects);
            println!("| {name} | {log} | {slots} | {port} | {original} | {folds} | {exported} |");
        }
    }
    println!();
    Ok(())
}

const SIZES: [usize; 6] = [0, 128, 256, 512, 768, 960];
const BATCHES: [usize; 5] = [1, 8, 16, 32, 64];

/// The port and the original, by size of log and size of batch.
type Grown = [[[Spread; 2]; BATCHES.len()]; SIZES.len()];

/// Fresh rows in order: every size of log by every size of batch, in 1,024 slots.
pub fn growth() -> Done {
    let titles = BATCHES.map(|rows| format!("batch of {rows}"));
    println!("| rows logged | {} |", titles.join(" | "));
    println!("|---|---|---|---|---|---|");
    let mut grown = Grown::default();
    for (log, cells) in SIZES.into_iter().zip(&mut grown) {
        for (batch, cell) in BATCHES.into_iter().zip(cells.iter_mut()) {
            let case = Case::new(&chain(log), MAX_LOGGED, next(log, batch), applied(batch))?;
            *cell = rounds(FEW, [case.exported(), case.original()]);
        }
        let cells = cells.map(|cell| cell.map(|spread| micros(spread.median)).join(" / "));
        println!("| {log} | {} |", cells.join(" | "));
    }
    println!();
    slopes(&grown);
    Ok(())
}

/// What a further row costs, from the lower quartiles of those cells, which disturbances reach least.
fn slopes(grown: &Grown) {
    let [none, .., most] = grown;
    let logged = (SIZES[SIZES.len() - 1] - SIZES[0]) as f64;
    let steps = [
        ("a logged row, batch of 1", none[0], most[0], logged),
        ("a logged row, batch of 64", none[4], most[4], logged),
        (
            "a batch row from 1 to 16, empty log",
            none[0],
            none[2],
            15.0,
        ),
        (
            "a batch row from 32 to 64, empty log",
            none[3],
            none[4],
            32.0,
        ),
        (
            "a batch row from 1 to 64, 960 logged",
            most[0],
            most[4],
            63.0,
        ),
    ];
    println!("| one more | port | original |");
    println!("|---|---|---|");
    for (name, from, to, rows) in steps {
        let cost = |side: usize| {
            let more = to[side].low.as_secs_f64() - from[side].low.as_secs_f64();
            format!("{:.2}", more * 1e6 / rows)
        };
        println!("| {name} | {} | {} |", cost(0), cost(1));
    }
    println!();
}

/// The port's call alone, again and again, for a profiler.
pub fn repeat(seconds: u64, log: usize, batch: usize) -> Done {
    let case = Case::new(&chain(log), MAX_LOGGED, next(log, batch), applied(batch))?;
    let mut call = case.exported();
    let start = Instant::now();
    let mut calls = 0u64;
    while start.elapsed().as_secs() < seconds {
        call();
        calls += 1;
    }
    println!("{calls} calls");
    Ok(())
}
