//! Batches handed to the original's `Replica` and to the batch call: what one refuses the other refuses, with the same
//! number and values. Both report the same, count the same failed folds, and leave the same log, watermarks and number of
//! held rows; both hybrid clocks issue the same stamps afterwards, the replica's by rows of its own.
//!
//! A replica gives its merger and its clock one drift. So 20 fails no fold here; `call-lists` has clocks of other drifts.

use cuwelfra_sys::{self as sys, HybridParts, IssuedStamp, Told};
use oracle::error::EngineError;
use oracle::log::ReplicatedLog;

use crate::census::Census;
use crate::model::folding::same_clock;
use crate::original::beside::{content_of, log_of};
use crate::original::clock_told;
use crate::original::replica::{Driven, Ran, Restoring, Signing};
use crate::port::area::word;
use crate::port::batches::{outcome_of, Folds, Offer, FRESH, LINE};
use crate::port::lending::{call, Lent};
use crate::port::store::{self, Areas, Content, Entries};
use crate::rng::Rng;
use crate::support::{agree, note, refused, Check, Outcome};
use crate::world::lists::Universe;

const LISTS: u64 = 60_000;
/// More slots than a list has rows: a replica has no 17.
const SLOTS: usize = 64;
/// The replica's own author, who offers nothing. An empty payload of his fits.
const OWN: u64 = 1_000;
/// What accepted calls do to rows, and the replica counts.
const MOVES: [&str; 5] = ["applied", "stale", "rejected", "duplicates", "held"];
/// What becomes of stamps.
const FOLDS: [&str; 3] = ["passed", "failed by 19", "in another order"];

#[derive(Default)]
struct Counts {
    census: Census,
    /// Replicas that are not restored: their clock cannot take the floor in.
    unrestored: u64,
    /// Rows of its own between batches and after the last, and those that 19 refuses.
    issued: u64,
    refused: u64,
}

pub fn run(rng: &mut Rng) -> Outcome {
    let mut counts = Counts::default();
    for _ in 0..LISTS {
        list(rng, &mut counts)?;
    }
    let Counts {
        census,
        unrestored,
        issued,
        refused,
    } = counts;
    note(&format!(
        "replica: lists {LISTS}, of which not restored {unrestored}; stamps issued afterwards {issued}, refused with 19 {refused}"
    ));
    let all = [unrestored, issued, refused];
    agree(&all.contains(&0), &false, || {
        "something never occurred".into()
    })?;
    census.folds("replica", &FOLDS)?;
    census.finish("replica", (5..=7).chain(10..=16), &MOVES)
}

/// A replica of the original, and a store with a hybrid clock.
struct Both {
    replica: Driven,
    areas: Areas,
    clock: HybridParts,
}

/// Some batches, on an empty store or one that was compacted and has a floor; rows of its own between them and at the end.
fn list(rng: &mut Rng, counts: &mut Counts) -> Check {
    let universe = Universe::new(rng);
    let start = universe.start;
    let authors = universe.authors.iter().filter(|_| start > 0);
    let compacted: Entries = authors.map(|author| (*author, start)).collect();
    let from = Restoring {
        author: OWN,
        floor: rng.once_in(3).then(|| universe.stamp(rng)),
        issued: 0,
        time: universe.time(rng),
        signing: Signing(8),
    };
    let Some(mut both) = begin(&log_of(&[], &compacted), from)? else {
        counts.unrestored += 1;
        return Ok(());
    };
    for _ in 0..1 + rng.below(5) {
        let mut offer = offer(rng, &universe);
        offer.clock = HybridParts {
            max_drift_ms: offer.limits.max_drift_ms,
            ..both.clock
        };
        batch(&offer, &mut both, &mut counts.census)?;
        if rng.once_in(4) {
            local(&mut both, universe.time(rng), counts)?;
        }
    }
    settle(&mut both, counts)
}

/// Both sides restored, which folds the floor in; `None` where neither can.
fn begin(log: &ReplicatedLog, from: Restoring) -> Result<Option<Both>, String> {
    let mut areas = Areas::new(SLOTS, 0);
    areas.write(&Content {
        floor: from.floor,
        ..content_of(log)
    });
    let mut clock = HybridParts {
        actor: OWN,
        ..FRESH
    };
    let mut told = Told::default();
    if let Some(floor) = from.floor {
        let HybridParts {
            actor,
            last_wall,
            last_counter,
            max_drift_ms,
        } = clock;
        let folded = sys::hybrid_update(
            actor,
            last_wall,
            last_counter,
            max_drift_ms,
            floor,
            from.time,
        );
        told = folded.told;
        move_to(&mut clock, folded.last_wall, folded.last_counter);
    }
    let replica = Driven::restored(log, from);
    agree(&(told == Told::default()), &replica.is_some(), || {
        format!("restoring at {} with floor {:?}", from.time, from.floor)
    })?;
    Ok(replica.map(|replica| Both {
        replica,
        areas,
        clock,
    }))
}

/// A batch at the largest `max_deps` and `max_payload`: a replica's own are above them, and no setting.
fn offer(rng: &mut Rng, universe: &Universe) -> Offer {
    let mut offer = universe.offer(rng);
    offer.limits.max_deps = 16;
    offer.limits.max_payload = 256;
    for lent in &mut offer.rows {
        (lent.outcome, lent.detail) = outcome_of(lent.row.author, &lent.row.payload);
    }
    offer
}

fn batch(offer: &Offer, both: &mut Both, census: &mut Census) -> Check {
    let lent = Lent::new(offer, word(&both.areas.head, 1) as usize);
    let inputs = format!("{offer:02x?}, the store {:02x?}", store::read(&both.areas));
    let answered = call(&mut both.areas, &lent);
    let folds = same_clock(&lent, &answered.told)?;
    census.note(&answered.told, &folds);
    let mut told = answered.told;
    (told.expired, told.dropped) = (0, 0);
    (told.last_wall, told.last_counter) = (0, 0);
    let logged = told.applied + told.stale + told.rejected;
    let lines = answered.output.chunks(LINE).take(logged as usize);
    let here = Ran {
        told,
        rejected: lines.map(line).filter(|line| line.2 > 1).collect(),
        folds: Folds {
            ordered: false,
            ..folds
        },
    };
    agree(&here, &both.replica.apply(offer), || inputs.clone())?;
    both.clock = offer.clock;
    let told = answered.told;
    move_to(&mut both.clock, told.last_wall, told.last_counter);
    same_store(both, inputs)
}

/// Author, sequence, fate and detail.
fn line(bytes: &[u8]) -> (u64, u64, u8, u8) {
    (word(bytes, 0), word(bytes, 1), bytes[16], bytes[17])
}

fn move_to(clock: &mut HybridParts, last_wall: u64, last_counter: u64) {
    clock.last_wall = last_wall;
    clock.last_counter = u32::try_from(last_counter).expect("32 bits");
}

/// Requires that both have the same log, clock, watermarks and number of held rows.
fn same_store(both: &mut Both, inputs: String) -> Check {
    let content = store::read(&both.areas).ok_or(format!("  an unsound store after {inputs}"))?;
    agree(&content.held.len(), &both.replica.pending(), || {
        inputs.clone()
    })?;
    let log = Content {
        held: Vec::new(),
        floor: None,
        ..content
    };
    agree(&log, &content_of(both.replica.log()), || inputs)
}

/// A row of the replica's own: requires that the clock here issues its stamp, and logs it here too. Whether there is one.
fn local(both: &mut Both, time: u64, counts: &mut Counts) -> Result<bool, String> {
    let HybridParts {
        actor,
        last_wall,
        last_counter,
        max_drift_ms,
    } = both.clock;
    let inputs = || format!("a stamp at {time} of {:?}", both.clock);
    let issued = sys::hybrid_now(actor, last_wall, last_counter, max_drift_ms, time);
    match both.replica.local_op(time, &[]) {
        Ok(row) => {
            let (wall_time, counter, actor_id) = row.stamp;
            let wanted = IssuedStamp {
                told: Told::default(),
                wall_time,
                logical_counter: counter.into(),
                actor_id,
                last_wall: wall_time,
                last_counter: counter.into(),
            };
            agree(&issued, &wanted, inputs)?;
            move_to(&mut both.clock, issued.last_wall, issued.last_counter);
            let areas = &mut both.areas;
            let told = sys::insert(&mut areas.log, &areas.held, &mut areas.head, &row.slot());
            agree(&told, &Told::default(), || format!("insert {row:?}"))?;
            counts.issued += 1;
            Ok(true)
        }
        Err(EngineError::Clock(error)) => {
            agree(&clock_told(&error), &refused(19), inputs)?;
            agree(&issued.told, &refused(19), inputs)?;
            counts.refused += 1;
            Ok(false)
        }
        Err(error) => Err(format!("  {error:?}: {}", inputs())),
    }
}

/// Finds out where the replica's clock stands: at time 0 it adds one to its counter, unless that is the last one. Then it
/// issues nothing up to its wall.
fn settle(both: &mut Both, counts: &mut Counts) -> Check {
    if local(both, 0, counts)? {
        return Ok(());
    }
    let wall = both.clock.last_wall;
    let later = wall.checked_add(1);
    let own = local(both, wall, counts)?;
    let later = later.map_or(Ok(true), |later| local(both, later, counts))?;
    agree(&(own, later), &(false, true), || {
        format!("the wall of {:?}", both.clock)
    })
}
