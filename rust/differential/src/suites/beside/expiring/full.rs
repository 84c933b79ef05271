//! Stores of up to 1,024 logged rows, 32 authors and 64 held rows. A first store that was away catches up in as few batches
//! as can carry what it lacks; the times of these lie further apart than the pending age.

use std::collections::BTreeSet;

use cuwelfra::Limits;

use crate::model::demand::listing;
use crate::model::expiring::{caught_up, lacks, missing, part};
use crate::original::full::HELD_ROWS;
use crate::port::area::AUTHORS;
use crate::port::batches::{BatchRow, Offer};
use crate::port::rows::{Row, DEPS, PAYLOAD, SIGNATURE};
use crate::port::store::{Content, Entries, LOGGED};
use crate::rng::Rng;
use crate::suites::beside::expiring::catch_up::accepted;
use crate::suites::beside::expiring::counts::Tally;
use crate::suites::beside::expiring::desk::Desk;
use crate::support::{agree, Check, Outcome};
use crate::world::clocks::clock;

const PAIRS: u64 = 500;
/// Rows of a batch at most.
const BATCH: usize = 64;
/// The pending age of both lists.
const AGE: u64 = 1_000;
/// When both lists begin, which is after every stamp.
const START: u64 = 1_000_000;

/// What a pair is counted by: the second's store, what the first lacks of its log, and how it catches up.
const KINDS: [&str; 9] = [
    "1,024 rows",
    "32 authors",
    "64 held rows",
    "1,024 rows missing",
    "no row missing",
    "more than 64 rows missing",
    "with rows that expire on the way",
    "with a short batch first",
    "by one batch",
];

/// Rows in a causal order, and rows of the same authors that none of them makes ready.
struct Rows {
    logged: Vec<Row>,
    waiting: Vec<Row>,
}

pub fn run(rng: &mut Rng) -> Outcome {
    let mut tally = Tally::default();
    let mut batches = 0;
    for _ in 0..PAIRS {
        let rows = Rows::new(rng);
        let second = second(rng, &rows)?;
        let first = first(rng, &rows)?;
        batches += catches_up(rng, first, &second, &mut tally)?;
    }
    tally.finish("full size", &KINDS)?;
    Ok(batches)
}

impl Rows {
    fn new(rng: &mut Rng) -> Self {
        let authors = rng.pick(&[1, 5, AUTHORS, AUTHORS, AUTHORS]);
        let count = rng.pick(&[40, 700, LOGGED - 1, LOGGED, LOGGED]);
        let mut clock = Entries::new();
        let mut logged = Vec::with_capacity(count);
        for n in 0..count {
            let any = rng.below(authors);
            let author = if n < authors { n } else { any } as u64 + 1;
            let row = row(rng, n as u64, author, &clock);
            clock.insert(author, row.seq);
            logged.push(row);
        }
        let waiting = waiting(rng, &clock);
        Self { logged, waiting }
    }
}

/// Rows behind numbers that are never offered.
fn waiting(rng: &mut Rng, clock: &Entries) -> Vec<Row> {
    let authors: Vec<u64> = clock.keys().copied().collect();
    let count = rng.pick(&[0, 1, 30, HELD_ROWS as u64, HELD_ROWS as u64]);
    let rows = (1..=count).map(|n| {
        let author = rng.pick(&authors);
        let mut row = row(rng, n, author, clock);
        row.seq += n;
        row
    });
    rows.collect()
}

/// The author's next row by a clock, depending on what the clock has.
fn row(rng: &mut Rng, wall: u64, author: u64, clock: &Entries) -> Row {
    let (deps, payload, signature) = match rng.below(16) {
        0 => (DEPS, PAYLOAD, SIGNATURE),
        _ => (rng.below(4), rng.below(6), rng.below(3)),
    };
    let mut known: Vec<(u64, u64)> = clock.iter().map(|(on, number)| (*on, *number)).collect();
    rng.shuffle(&mut known);
    let deps = known.into_iter().take(deps);
    let deps: Entries = deps
        .map(|(on, number)| (on, number - rng.next() % number.min(3)))
        .collect();
    Row {
        stamp: (wall + rng.next() % 50, rng.pick(&[0, 0, 1]), author),
        author,
        seq: clock.get(&author).copied().unwrap_or(0) + 1,
        deps: deps.into_iter().collect(),
        payload: rng.bytes(payload),
        signature: rng.bytes(signature),
    }
}

/// The store that keeps the limit. Batches come in a causal order, their rows in any.
fn second(rng: &mut Rng, rows: &Rows) -> Result<Desk, String> {
    let mut desk = Desk::new(LOGGED);
    let mut batches: Vec<&[Row]> = rows.logged.chunks(BATCH).collect();
    let place = rng.below(batches.len() + 1);
    batches.insert(place, &rows.waiting);
    for rows in batches {
        let time = START + rng.next() % AGE;
        shuffled(rng, &mut desk, time, rows)?;
    }
    Ok(desk)
}

/// The store that was away: it was offered the rows up to one, and then some others, most of which wait. Times are further
/// apart than the pending age.
fn first(rng: &mut Rng, rows: &Rows) -> Result<Desk, String> {
    let mut desk = Desk::new(LOGGED);
    let count = rows.logged.len();
    let taken = match rng.below(6) {
        0 => 0,
        1 => count,
        2 => count - count.min(rng.below(BATCH)),
        _ => rng.below(count),
    };
    let (known, later) = rows.logged.split_at(taken);
    let mut time = START;
    for rows in known.chunks(BATCH) {
        time += 2 * AGE;
        shuffled(rng, &mut desk, time, rows)?;
    }
    let mut others = [later, &rows.waiting].concat();
    rng.shuffle(&mut others);
    others.truncate(rng.pick(&[0, 1, 20, BATCH]));
    batch(rng, &mut desk, time + 2 * AGE, &others)?;
    Ok(desk)
}

/// The first catches up in as few batches as the missing and the held rows fill. Gives how many there were.
fn catches_up(
    rng: &mut Rng,
    mut first: Desk,
    second: &Desk,
    tally: &mut Tally,
) -> Result<u64, String> {
    let (one, other) = (first.content()?, second.content()?);
    let lacks = lacks(&first.offers, &second.offers);
    agree(&lacks, &Vec::new(), || "a pair of full size".into())?;
    agree(&part(&one, &other), &Ok(()), || "full size".into())?;
    let lacking = lacking(&one, &other);
    let total = lacking.len() + other.held.len();
    let count = total.div_ceil(BATCH).max(1);
    // A batch has room for all held rows, so these are rows of the log.
    let early = &lacking[..total.saturating_sub(BATCH)];
    let batches = early.rchunks(BATCH).len() + 1;
    agree(&batches, &count, || format!("{total} rows in batches"))?;
    let expired = first.expired;
    bring(rng, &mut first, second, early)?;
    let after = first.content()?;
    agree(&caught_up(&after, &other), &Ok(()), || {
        format!("{count} batches, the first then {after:02x?}, the second {other:02x?}")
    })?;
    let holds = [
        other.rows.len() == LOGGED,
        other.clock.len() == AUTHORS,
        other.held.len() == HELD_ROWS,
        lacking.len() == LOGGED,
        lacking.is_empty(),
        lacking.len() > BATCH,
        first.expired > expired,
        early.len() % BATCH > 0,
        count == 1,
    ];
    tally.note_all(&KINDS, holds);
    Ok(count as u64)
}

/// Batches cut from the end, so that the first is the short one, bring rows that can be logged when they come. The last brings
/// every row that is not logged then.
fn bring(rng: &mut Rng, first: &mut Desk, second: &Desk, early: &[&Row]) -> Check {
    let mut time = START + 100 * AGE;
    for rows in early.rchunks(BATCH).rev() {
        let rows: Vec<Row> = rows.iter().map(|row| (*row).clone()).collect();
        time += AGE + 1 + rng.next() % AGE;
        batch(rng, first, time, &rows)?;
    }
    let before = first.content()?;
    let logged = |row: &&Row| before.clock.get(&row.author) >= Some(&row.seq);
    let all = early.iter().all(logged);
    agree(&all, &true, || "rows are logged".into())?;
    let rows = missing(&before, &second.offers).into_iter().cloned();
    let rows: Vec<Row> = rows.collect();
    batch(rng, first, time + AGE + 1, &rows)
}

/// The rows of the second's log that the first's has not, in an order in which each can be logged when it comes.
fn lacking<'a>(first: &Content, second: &'a Content) -> Vec<&'a Row> {
    let logged: BTreeSet<&Row> = first.rows.iter().collect();
    let rows = second.rows.iter().filter(|row| !logged.contains(row));
    listing(&first.clock, &rows.collect::<Vec<_>>())
}

/// A batch of these rows in any order, which is accepted.
fn shuffled(rng: &mut Rng, desk: &mut Desk, time: u64, rows: &[Row]) -> Check {
    let mut rows = rows.to_vec();
    rng.shuffle(&mut rows);
    batch(rng, desk, time, &rows)
}

/// The same in this order.
fn batch(rng: &mut Rng, desk: &mut Desk, time: u64, rows: &[Row]) -> Check {
    let rows: Vec<BatchRow> = rows.iter().cloned().map(BatchRow::new).collect();
    let limits = Limits::new().with_max_pending_age_ms(AGE);
    let offer = Offer {
        limits,
        time,
        clock: clock(rng, &limits, time, &rows),
        rows,
    };
    let told = desk.batch(rng, &offer)?;
    agree(&accepted(&told), &true, || {
        let rows = offer.rows.len();
        format!("a batch of {rows} rows at {time}: {told:?}")
    })
}
