//! The rows of the workloads, in the forms of the port and of the original.

use cuwelfra::{ActorId, Row, Timestamp};
use oracle::log::StampedOperation;
use oracle::open;

/// Authors that take turns.
const AUTHORS: u64 = 8;
const PAYLOAD: usize = 64;
const SIGNATURE: usize = 64;
/// The wall time of the first row; one ms passes from row to row.
const START: u64 = 1_000_000;

/// The time of every batch call: all rows are in its past, and none that waits is too old.
pub const NOW: u64 = START + 10_000;

/// Row `n` of one causal chain. Its author has seen all rows before it, so it depends on as many authors as there are,
/// which is what the original's engine writes.
pub fn chained(n: u64) -> Row {
    let seen = |author: u64| (n + AUTHORS - 1 - author) / AUTHORS;
    let deps = (0..AUTHORS).map(|author| (ActorId(1 + author), seen(author)));
    let mut row = row(1 + n % AUTHORS, 1 + n / AUTHORS, START + n);
    row.deps = deps.filter(|(_, number)| *number > 0).collect();
    row
}

/// Row `n` of authors that the chain has not, with stamps before all of the chain's and no dependencies.
pub fn earlier(n: u64) -> Row {
    row(101 + n % AUTHORS, 1 + n / AUTHORS, START - 1_000 + n)
}

/// Row `n` of those authors, its stamp behind that of row `place` of the chain, with no dependencies.
pub fn among(n: u64, place: u64) -> Row {
    row(101 + n % AUTHORS, 1 + n / AUTHORS, START + place)
}

/// Row `n` of those authors, which waits for row `cause` of the chain.
pub fn waiting(n: u64, cause: u64) -> Row {
    let mut row = row(101 + n % AUTHORS, 1 + n / AUTHORS, START + 5_000 + n);
    row.deps = vec![(ActorId(1 + cause % AUTHORS), 1 + cause / AUTHORS)];
    row
}

fn row(author: u64, seq: u64, wall_time: u64) -> Row {
    let bytes = |len: usize, mark: u64| -> Vec<u8> {
        (0..len as u64).map(|i| (i * 31 + mark) as u8).collect()
    };
    Row::new(
        Timestamp::new(wall_time, 0, ActorId(author)),
        seq,
        bytes(PAYLOAD, author + seq),
    )
    .signed(bytes(SIGNATURE, author ^ seq))
}

/// The original's form.
pub fn operation(row: &Row) -> StampedOperation {
    let at = &row.timestamp;
    let deps = row.deps.iter().map(|(author, seq)| (author.0, *seq));
    open::operation(
        (at.wall_time, at.logical_counter, at.actor_id.0),
        row.actor.0,
        row.seq,
        deps,
        &row.payload,
        &row.signature,
    )
}

pub fn operations(rows: &[Row]) -> Vec<StampedOperation> {
    rows.iter().map(operation).collect()
}
