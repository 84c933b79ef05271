//! A desk that was away longer than the pending age: what to send it, in how many batches, and how it sees that it has
//! caught up. docs/GUIDE.md, "A desk that was away", says on what conditions.

use std::collections::BTreeMap;

use cuwelfra::{ActorId, Batch, HybridClock, Limits, Refusal, Report, Request, Row};
use cuwelfra::{Store, Timestamp, VectorClock, MAX_BATCH};

/// The batches for a desk with this clock, to be applied in this order; `None` where the server has compacted rows that
/// the desk lacks.
fn catch_up(server: &Store, desk: &VectorClock) -> Result<Option<Vec<Vec<Row>>>, Refusal> {
    if !server.can_serve(desk)? {
        return Ok(None);
    }
    let mut rows = causal(server.delta(desk)?.rows()?, desk)?;
    rows.extend(held(server)?);
    // Cut from the end: a store holds at most 64 rows, so that the last batch has them all. Those before it bring rows
    // that are logged when they come.
    let mut batches: Vec<Vec<Row>> = rows.rchunks(MAX_BATCH).map(<[Row]>::to_vec).collect();
    batches.reverse();
    Ok(Some(batches))
}

/// The rows in an order in which each can be logged when it comes: its author's next number, its dependencies met. A row
/// that has no place in it goes last; on the guide's conditions there is none.
fn causal(mut rows: Vec<Row>, desk: &VectorClock) -> Result<Vec<Row>, Refusal> {
    let mut reached: BTreeMap<ActorId, u64> = desk.entries()?.into_iter().collect();
    let mut ordered = Vec::new();
    loop {
        let number = |actor: &ActorId| reached.get(actor).copied().unwrap_or(0);
        let next = rows.iter().position(|row| {
            row.seq.checked_sub(1) == Some(number(&row.actor))
                && row.deps.iter().all(|(actor, seq)| *seq <= number(actor))
        });
        let Some(at) = next else {
            ordered.append(&mut rows);
            return Ok(ordered);
        };
        let row = rows.remove(at);
        reached.insert(row.actor, row.seq);
        ordered.push(row);
    }
}

/// Whether the desk has caught up. Where the clocks are equal, so are the logs.
fn caught_up(server: &Store, desk: &Store) -> Result<bool, Refusal> {
    Ok(server.clock()? == desk.clock()? && held(server)? == held(desk)?)
}

fn held(store: &Store) -> Result<Vec<Row>, Refusal> {
    let held = store.held()?.into_iter();
    Ok(held.map(|held| held.row).collect())
}

const HOUR: u64 = 3_600_000;

/// A store with its hybrid clock. Signatures and policy are left out here.
struct Site {
    store: Store,
    clock: HybridClock,
    limits: Limits,
}

impl Site {
    fn new(own: u64, max_pending_age_ms: u64) -> Result<Self, Refusal> {
        Ok(Self {
            store: Store::with_capacity(128)?,
            clock: HybridClock::new(ActorId(own)),
            limits: Limits::new().with_max_pending_age_ms(max_pending_age_ms),
        })
    }

    fn take_in(&mut self, time_ms: u64, rows: &[Row]) -> Result<Report, Refusal> {
        let mut batch = Batch::new();
        for row in rows {
            batch.push(row, true, Ok(()))?;
        }
        let request = Request::at(time_ms).with_limits(self.limits);
        self.store.apply_delta(&mut self.clock, &request, &batch)
    }
}

fn row(author: u64, seq: u64) -> Row {
    let stamp = Timestamp::new(seq, 0, ActorId(author));
    Row::new(stamp, seq, "Kette = chain")
}

/// A server and a desk that was away for two hours, where rows may wait for one.
pub fn main() -> Result<(), Refusal> {
    // At the server no row expires, however late the batches come. Author 1's rows are logged; author 2's second waits.
    let mut server = Site::new(8, u64::MAX)?;
    let rows: Vec<Row> = (1..=100).map(|seq| row(1, seq)).collect();
    for (hours, rows) in (2..).zip(rows.chunks(MAX_BATCH)) {
        server.take_in(hours * HOUR, rows)?;
    }
    server.take_in(9 * HOUR, &[row(2, 2)])?;

    // The desk has both authors' rows without the first ones, is away for two hours, and lets them expire.
    let mut desk = Site::new(9, HOUR)?;
    assert_eq!(desk.take_in(2 * HOUR, &[row(1, 3), row(2, 2)])?.held, 2);
    let back = desk.take_in(4 * HOUR, &[row(1, 1)])?;
    assert_eq!((back.applied, back.expired, back.held), (1, 2, 0));

    // It writes a row of its own. The server gets that first.
    let prepared = desk
        .store
        .prepare(&mut desk.clock, 5 * HOUR, 0, "Rad = wheel")?;
    desk.store.seal(&prepared.bytes, [])?;
    let own = desk.store.delta(&server.store.clock()?)?.rows()?;
    assert_eq!(server.take_in(10 * HOUR, &own)?.applied, 1);
    assert!(!caught_up(&server.store, &desk.store)?);

    // 99 rows are missing from its log, and the server holds one: two batches. They may come hours apart.
    let Some(batches) = catch_up(&server.store, &desk.store.clock()?)? else {
        unreachable!("the server has compacted nothing");
    };
    assert_eq!(batches.iter().map(Vec::len).collect::<Vec<_>>(), [36, 64]);
    for (hours, rows) in (11..).step_by(5).zip(&batches) {
        desk.take_in(hours * HOUR, rows)?;
    }
    assert!(caught_up(&server.store, &desk.store)?);
    assert_eq!(desk.store.logged()?, server.store.logged()?);

    // A later batch lets the held row expire again. The log is whole all the same, and the clocks say so.
    assert_eq!(desk.take_in(20 * HOUR, &[])?.expired, 1);
    assert_eq!(desk.store.clock()?, server.store.clock()?);
    assert_eq!(desk.store.logged()?, server.store.logged()?);
    Ok(())
}
