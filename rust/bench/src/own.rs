//! Rows of the desk's own: preparing and sealing, each beside the original's `local_op`, which does both.

use cuwelfra::{ActorId, HybridClock, Prepared, Row, Store, MAX_LOGGED, MAX_UNSIGNED_BYTES};
use cuwelfra_sys as sys;
use oracle::clock::ManualClock;
use oracle::engine::{LogImage, Replica};
use oracle::log::ReplicatedLog;
use oracle::stubs::crypto::{Signature, Signer};
use oracle::stubs::UirNode;

use crate::case::{same_log, store_of, Always, Nothing};
use crate::lists::{line, log_of, refused};
use crate::rows::{chained, NOW};
use crate::timing::time;

const ROUNDS: usize = 100;
/// An author of the chain.
const OWN: u64 = 1;
const PAYLOAD: [u8; 64] = [7; 64];
const SIGNATURE: [u8; 64] = [9; 64];

/// A signer that costs nothing.
struct Signed;

impl Signer for Signed {
    fn sign(&self, _: &[u8]) -> Signature {
        SIGNATURE.to_vec()
    }
}

/// One row more in an empty log and in a large one, on areas of 1,024 slots.
pub fn own() -> Result<(), String> {
    for logged in [0, 960] {
        let rows: Vec<Row> = (0..logged).map(chained).collect();
        one_more(&rows)?;
    }
    Ok(())
}

fn one_more(rows: &[Row]) -> Result<(), String> {
    let store = store_of(rows, MAX_LOGGED).map_err(refused)?;
    let log = log_of(rows);
    let clock = folded(rows).map_err(refused)?;
    let prepared = (store.prepare(&mut clock.clone(), NOW, 0, PAYLOAD)).map_err(refused)?;
    same_row(&store, &log, &prepared)?;
    let original = || {
        let mut replica = replica(&log);
        let bytes = PAYLOAD.to_vec();
        time(|| {
            replica
                .as_mut()
                .map(|replica| replica.local_op(UirNode { bytes }))
        })
    };
    let area = store.clock().map_err(refused)?;
    let parts = clock.to_parts();
    let of = sys::Preparation {
        author: OWN,
        last_wall: parts.last_wall,
        last_counter: parts.last_counter,
        max_drift_ms: parts.max_drift_ms,
        time_ms: NOW,
        issued: 0,
    };
    let mut output = [0; MAX_UNSIGNED_BYTES];
    let prepare = || time(|| sys::prepare(of, &PAYLOAD, area.area(), &mut output));
    let seal = || {
        let (mut log, held, mut head) = store.clone().into_areas();
        time(|| sys::seal(&mut log, &held, &mut head, &prepared.bytes, &SIGNATURE))
    };
    let logged = rows.len();
    line(
        &format!("prepare, {logged} rows logged; `local_op`"),
        ROUNDS,
        Box::new(prepare),
        Box::new(original),
    );
    line(
        &format!("seal, {logged} rows logged; `local_op`"),
        ROUNDS,
        Box::new(seal),
        Box::new(original),
    );
    Ok(())
}

/// The clock after the stamps that the original's restoring folds in.
fn folded(rows: &[Row]) -> Result<HybridClock, cuwelfra::Refusal> {
    let mut clock = HybridClock::new(ActorId(OWN));
    for row in rows {
        clock.update(&row.timestamp, NOW)?;
    }
    Ok(clock)
}

fn replica(log: &ReplicatedLog) -> Result<Replica<Nothing>, String> {
    let image = LogImage {
        ops: log.ops().to_vec(),
        compacted: Default::default(),
        floor: None,
        state_hash: 0,
        issued: 0,
    };
    let replica = Replica::restore(
        oracle::stubs::ActorId(OWN),
        Nothing,
        image,
        Box::new(Signed),
        Box::new(Always),
        Box::new(ManualClock::new(NOW)),
    );
    replica.map_err(refused)
}

/// Requires that both sides log the same row.
fn same_row(store: &Store, log: &ReplicatedLog, prepared: &Prepared) -> Result<(), String> {
    let mut store = store.clone();
    store.seal(&prepared.bytes, SIGNATURE).map_err(refused)?;
    let mut replica = replica(log)?;
    let bytes = PAYLOAD.to_vec();
    replica.local_op(UirNode { bytes }).map_err(refused)?;
    same_log(&store, replica.log())
}
