//! `Replica::local_op` of the original beside preparing and sealing, on replicas that are restored from any log, compacted
//! clock and number last issued, between batches. Stamps, sequences, dependencies, the bytes to sign, log, clock, watermarks
//! and the number last issued are equal.
//!
//! The original moves its hybrid clock even where it has no next sequence. Here a refusal moves nothing: the clock is then
//! moved by hand.

use cuwelfra::{ActorId, Fate, HybridClock, HybridParts, Prepared};
use cuwelfra_sys::{self as sys, Preparation, Told};
use oracle::error::{ApplyError, EngineError};
use oracle::log::ReplicatedLog;
use oracle::stubs::crypto::Signer;

use crate::model::folding::same_clock;
use crate::model::own::{prepare_call, seal_call};
use crate::original::beside::{authors_fit, content_of, log_of, operation};
use crate::original::replica::{Driven, Restoring, Signing};
use crate::original::{clock_told, written};
use crate::port::area::{self, word};
use crate::port::batches::outcome_of;
use crate::port::lending::{call, Lent};
use crate::port::own::{prepare, seal, Preparing, Sealing};
use crate::port::rows::{Row, DEPS, PAYLOAD};
use crate::port::store::{self, same_areas, Areas, Content, Entries};
use crate::port::wrapped::{plain_clock, refusal, wrapped_stamp};
use crate::rng::Rng;
use crate::support::{agree, note, refused, Check, Outcome};
use crate::world::lists::Universe;

const REPLICAS: u64 = 16_000;
/// More slots than a list has rows: a replica has no 17.
const SLOTS: usize = 64;

#[derive(Default)]
struct Counts {
    /// Replicas that are not restored: their clock cannot take a stamp in.
    unrestored: u64,
    rows: u64,
    beside_held: u64,
    /// Of 16 dependencies.
    widest: u64,
    wrapped: u64,
    /// 26, which the original has at other sizes.
    too_large: u64,
    overflows: u64,
    exhausted: u64,
    by_hand: u64,
    /// By policy or state.
    rejected: u64,
    batches: u64,
    unfolded: u64,
}

pub fn run(rng: &mut Rng) -> Outcome {
    let mut counts = Counts::default();
    for _ in 0..REPLICAS {
        list(rng, &mut counts)?;
    }
    let Counts {
        unrestored,
        rows,
        beside_held,
        widest,
        wrapped,
        too_large,
        overflows,
        exhausted,
        by_hand,
        rejected,
        batches,
        unfolded,
    } = counts;
    note(&format!(
        "desk: replicas {REPLICAS}, of which not restored {unrestored}; rows {rows}, beside held rows {beside_held}, with 16 dependencies {widest}, through the wrapper {wrapped}; \
         refused by number 19: {overflows}, 26: {too_large}, 27: {exhausted}, the clock moved by hand {by_hand}; \
         by policy or state {rejected}; batches between {batches}, stamps not folded {unfolded}"
    ));
    let all = [
        unrestored,
        rows,
        beside_held,
        widest,
        wrapped,
        too_large,
        overflows,
        exhausted,
        by_hand,
        rejected,
        batches,
        unfolded,
    ];
    agree(&all.contains(&0), &false, || {
        "something never occurred".into()
    })?;
    Ok(rows + too_large + overflows + exhausted + rejected)
}

/// A replica of the original, and the server's side of a store.
struct Both {
    replica: Driven,
    areas: Areas,
    clock: HybridClock,
    issued: u64,
    signing: Signing,
}

fn list(rng: &mut Rng, counts: &mut Counts) -> Check {
    let mut universe = Universe::new(rng);
    if rng.once_in(4) {
        // Stamps near the last counter.
        for row in &mut universe.rows {
            row.stamp.1 = u32::MAX - rng.pick(&[1, 2, 3, 4, 9]);
        }
    }
    let Some(mut both) = begin(rng, &universe)? else {
        counts.unrestored += 1;
        return Ok(());
    };
    for _ in 0..2 + rng.below(7) {
        if rng.once_in(3) {
            batch(rng, &universe, &mut both, counts)?;
        } else {
            local(rng, &universe, &mut both, counts)?;
        }
    }
    Ok(())
}

/// A log of some rows above a compacted clock, which may be as wide as a row's dependencies or wider; `None` where on both
/// sides the clock cannot take its stamps in.
fn begin(rng: &mut Rng, universe: &Universe) -> Result<Option<Both>, String> {
    let log = start(rng, universe);
    let author = match rng.below(8) {
        0 => rng.edge(),
        _ => rng.pick(&universe.authors),
    };
    let number = log.clock().get(oracle::stubs::ActorId(author));
    let from = Restoring {
        author,
        floor: rng.once_in(4).then(|| universe.stamp(rng)),
        issued: match rng.below(16) {
            0 => u64::MAX - rng.next() % 6,
            1 => rng.edge(),
            2..=4 => number.saturating_add(rng.next() % 4),
            5 | 6 => number.saturating_sub(rng.next() % 3),
            _ => number,
        },
        time: universe.soon(rng),
        signing: Signing(rng.pick(&[0, 1, 8, 63, 64])),
    };
    let mut areas = Areas::new(SLOTS, rng.pick(&[0, 0, 5]));
    areas.write(&Content {
        floor: from.floor,
        ..content_of(&log)
    });
    let clock = folded(&log, &from);
    let replica = Driven::restored(&log, from);
    agree(&clock.is_some(), &replica.is_some(), || {
        format!("restoring at {} of {:02x?}", from.time, content_of(&log))
    })?;
    let both = clock.zip(replica).map(|(clock, replica)| Both {
        replica,
        areas,
        clock,
        issued: from.issued,
        signing: from.signing,
    });
    Ok(both)
}

fn start(rng: &mut Rng, universe: &Universe) -> ReplicatedLog {
    let mut compacted = Entries::new();
    for author in &universe.authors {
        if universe.start > 0 || rng.once_in(4) {
            compacted.insert(*author, universe.start);
        }
    }
    if rng.once_in(6) {
        let count = rng.pick(&[10, 11, 12, 13, 14, 15, 16, 24]);
        compacted.extend((0..count).map(|i| (100 + i, rng.next() % 3)));
    }
    let count = rng.pick(&[0, 0, 1, 2, 4]);
    let rows = (0..count).map(|_| universe.rows[rng.below(universe.rows.len())].clone());
    let log = log_of(&rows.collect::<Vec<_>>(), &compacted);
    match authors_fit(&log) {
        true => log,
        false => ReplicatedLog::new(),
    }
}

/// The hybrid clock after the stamps that restoring folds in.
fn folded(log: &ReplicatedLog, from: &Restoring) -> Option<HybridClock> {
    let mut clock = HybridClock::new(ActorId(from.author));
    // From the last on, as the replica is handed them.
    let rows: Vec<Row> = content_of(log).rows.into_iter().rev().collect();
    let stamps = from
        .floor
        .into_iter()
        .chain(rows.iter().map(|row| row.stamp));
    for stamp in stamps {
        clock.update(&wrapped_stamp(stamp), from.time).ok()?;
    }
    Some(clock)
}

/// A batch on both sides, whose stamps are folded in. A replica gives its merger and its clock one drift.
fn batch(rng: &mut Rng, universe: &Universe, both: &mut Both, counts: &mut Counts) -> Check {
    let mut offer = universe.offer(rng);
    offer.limits.max_deps = 16;
    offer.limits.max_payload = 256;
    for lent in &mut offer.rows {
        (lent.outcome, lent.detail) = outcome_of(lent.row.author, &lent.row.payload);
    }
    both.clock.set_max_drift(offer.limits.max_drift_ms);
    offer.clock = plain_clock(&both.clock);
    let lent = Lent::new(&offer, word(&both.areas.head, 1) as usize);
    let told = call(&mut both.areas, &lent).told;
    same_clock(&lent, &told)?;
    let ran = both.replica.apply(&offer);
    agree(&told.told, &ran.told.told, || format!("{offer:02x?}"))?;
    agree(&told.failed_folds, &ran.told.failed_folds, || {
        format!("stamps of {offer:02x?}")
    })?;
    moved(&mut both.clock, told.last_wall, told.last_counter);
    counts.batches += u64::from(told.told == Told::default());
    counts.unfolded += told.failed_folds;
    same_store(both, || format!("{offer:02x?}"))
}

/// Requires that the replica has the log, the count of held rows and the number last issued of this side.
fn same_store(both: &mut Both, inputs: impl Fn() -> String) -> Check {
    let content =
        store::read(&both.areas).ok_or(format!("  an unsound store after {}", inputs()))?;
    agree(&content.held.len(), &both.replica.pending(), &inputs)?;
    agree(&both.issued, &both.replica.issued(), &inputs)?;
    let log = Content {
        held: Vec::new(),
        floor: None,
        ..content
    };
    agree(&log, &content_of(both.replica.log()), &inputs)
}

fn local(rng: &mut Rng, universe: &Universe, both: &mut Both, counts: &mut Counts) -> Check {
    let time = universe.time(rng);
    let payload = payload(rng, both.clock.to_parts().actor.0);
    let content = store::read(&both.areas).ok_or("a sound store")?;
    let lent = lent(both, &content, time, &payload, rng);
    let inputs = format!("{lent:02x?}, the store {content:02x?}");
    let (told, bytes) = prepare_call(&lent);
    let (answer, output) = prepare(&lent);
    agree(&answer, &told, || format!("the model, {inputs}"))?;
    agree(&&output[..answer.len], &&bytes[..], || inputs.clone())?;
    if content.clock.len() > DEPS || payload.len() > PAYLOAD {
        // The original takes more.
        counts.too_large += 1;
        return agree(&answer.told, &refused(26), || inputs);
    }
    match both.replica.local_op(time, &payload) {
        Ok(row) => {
            issued(&answer, &bytes, &row, &inputs)?;
            counts.rows += 1;
            counts.beside_held += u64::from(!content.held.is_empty());
            counts.widest += u64::from(row.deps.len() == DEPS);
            if rng.once_in(6) {
                counts.wrapped += 1;
                through_wrapper(both, time, &row, &bytes)?;
            } else {
                sealed(both, &row, &bytes, &inputs)?;
                moved(&mut both.clock, answer.last_wall, answer.last_counter);
            }
            both.issued = row.seq;
        }
        Err(EngineError::Clock(error)) => {
            counts.overflows += 1;
            agree(&answer.told, &clock_told(&error), || inputs.clone())?;
        }
        Err(EngineError::SequenceExhausted) => {
            counts.exhausted += 1;
            agree(&answer.told, &refused(27), || inputs.clone())?;
            let before = both.clock;
            let by_hand = both.clock.now(time);
            agree(&by_hand.is_ok(), &true, || inputs.clone())?;
            counts.by_hand += u64::from(both.clock != before);
        }
        Err(EngineError::Apply(error)) => {
            counts.rejected += 1;
            // Prepared, and then refused by the server, which keeps the clock that moved on.
            agree(&answer.told, &Told::default(), || inputs.clone())?;
            rejected(both, &payload, &error)?;
            moved(&mut both.clock, answer.last_wall, answer.last_counter);
        }
        Err(EngineError::OperationTooLarge) => return Err(format!("  too large: {inputs}")),
    }
    same_store(both, || inputs.clone())
}

/// Mostly one that policy and state agree to.
fn payload(rng: &mut Rng, author: u64) -> Vec<u8> {
    let len = rng.pick(&[1, 2, 3, 4, 5, 6, 100, 127, 128, 255, 256, 257]);
    let mut payload = rng.bytes(len);
    while outcome_of(author, &payload).0 > 0 && !rng.once_in(8) {
        rng.fill(&mut payload);
    }
    payload
}

fn lent(both: &Both, content: &Content, time: u64, payload: &[u8], rng: &mut Rng) -> Preparing {
    let parts = both.clock.to_parts();
    let mut clock = area::encode(content.clock.clone()).to_vec();
    let room = rng.pick(&[0, 0, 7]);
    clock.extend(rng.bytes(room));
    Preparing {
        of: Preparation {
            author: parts.actor.0,
            last_wall: parts.last_wall,
            last_counter: parts.last_counter,
            max_drift_ms: parts.max_drift_ms,
            time_ms: time,
            issued: both.issued,
        },
        payload: payload.to_vec(),
        clock,
        output: 624 + room,
    }
}

/// Requires that what was prepared is the original's row, and the bytes are what its author signs.
fn issued(answer: &sys::PreparedTold, bytes: &[u8], row: &Row, inputs: &str) -> Check {
    let counter = u64::from(row.stamp.1);
    let stamp = (answer.wall_time, answer.logical_counter, answer.actor_id);
    agree(&stamp, &(row.stamp.0, counter, row.stamp.2), || {
        inputs.into()
    })?;
    agree(&answer.sequence, &row.seq, || inputs.into())?;
    let pairs = answer.dep_authors.into_iter().zip(answer.dep_numbers);
    let deps: Vec<(u64, u64)> = pairs.take(answer.deps as usize).collect();
    agree(&deps, &row.deps, || inputs.into())?;
    let last = (answer.last_wall, answer.last_counter);
    agree(&last, &(row.stamp.0, counter), || inputs.into())?;
    let signed = written(|writer| writer.unsigned_op(&operation(row)));
    agree(&bytes, &&signed[..], || inputs.into())
}

/// Seals the bytes with the signature that the replica's author makes of them.
fn sealed(both: &mut Both, row: &Row, bytes: &[u8], inputs: &str) -> Check {
    let lent = Sealing {
        bytes: bytes.to_vec(),
        signature: both.signing.sign(bytes),
    };
    agree(&lent.signature, &row.signature, || inputs.into())?;
    let (told, wanted) = seal_call(&both.areas, &lent);
    agree(&told, &Told::default(), || format!("the model, {inputs}"))?;
    agree(&seal(&mut both.areas, &lent), &told, || inputs.into())?;
    same_areas(&both.areas, &wanted, || inputs.into())
}

fn moved(clock: &mut HybridClock, last_wall: u64, last_counter: u64) {
    *clock = HybridClock::from_parts(HybridParts {
        last_wall,
        last_counter: u32::try_from(last_counter).expect("32 bits"),
        ..clock.to_parts()
    });
}

/// The wrapper's two calls, as a server makes them. Areas, with the bytes behind them, and fates are as they must be.
fn through_wrapper(both: &mut Both, time: u64, row: &Row, bytes: &[u8]) -> Check {
    let lent = Sealing {
        bytes: bytes.to_vec(),
        signature: both.signing.sign(bytes),
    };
    let (_, wanted) = seal_call(&both.areas, &lent);
    let Both {
        areas,
        clock,
        issued,
        signing,
        ..
    } = both;
    let mut fates = Vec::new();
    let told = areas.wrapped(|store| {
        let prepared = store.prepare(clock, time, *issued, &row.payload)?;
        let signature = signing.sign(&prepared.bytes);
        same_prepared(&prepared, row, bytes);
        store.seal(&prepared.bytes, signature)?;
        fates = store.fates()?;
        Ok(())
    });
    agree(&refusal(told), &Told::default(), || format!("{row:?}"))?;
    same_areas(areas, &wanted, || format!("{row:?}"))?;
    agree(&fates, &sealed_fates(areas, row), || {
        format!("fates after {row:?}")
    })?;
    agree(&clock.last(), &(row.stamp.0, row.stamp.1), || {
        "the clock".into()
    })
}

/// The sealed row's fate is applied. The areas do not tell those of the others.
fn sealed_fates(areas: &Areas, row: &Row) -> Vec<Option<Fate>> {
    let logged = store::read(areas).map_or_else(Vec::new, |content| content.rows);
    // Before its equals.
    let at = logged.iter().position(|other| other.stamp == row.stamp);
    let fate = |i| (Some(i) == at).then_some(Fate::Applied);
    (0..logged.len()).map(fate).collect()
}

fn same_prepared(prepared: &Prepared, row: &Row, bytes: &[u8]) {
    assert_eq!(prepared.timestamp, wrapped_stamp(row.stamp));
    assert_eq!((prepared.actor.0, prepared.seq), (row.author, row.seq));
    let deps: Vec<(u64, u64)> = prepared.deps.iter().map(|(a, n)| (a.0, *n)).collect();
    assert_eq!((&deps, &prepared.bytes[..]), (&row.deps, bytes));
}

/// Requires that policy or state would refuse the payload here too.
fn rejected(both: &Both, payload: &[u8], error: &ApplyError) -> Check {
    let (outcome, _) = outcome_of(both.clock.to_parts().actor.0, payload);
    agree(&(outcome > 0), &true, || {
        format!("{error:?} of {payload:02x?}")
    })
}
