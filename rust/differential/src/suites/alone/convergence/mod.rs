//! Pairs of call lists on two stores: fair offers and sealings meet demand 3. Unfair ones show that the check can fail. The
//! stores' hybrid clocks are any, and are not compared with each other.

mod controls;
mod desk;

use cuwelfra::Limits;

use self::desk::Desk;
use crate::model::demand::{check, in_time, one_content, Against, Run};
use crate::port::batches::{BatchRow, Offer};
use crate::port::rows::Row;
use crate::port::store;
use crate::rng::Rng;
use crate::support::{agree, note, Check, Outcome};
use crate::world::clocks::clock;
use crate::world::lists::Universe;
use crate::world::own::{payload, sealing, Entry, Own};

const PAIRS: u64 = 100_000;

/// What may be against sealings alone. That the row was offered before never is: `controls` says why.
const ALONE: [(Against, &str); 3] = [
    (Against::Depending, "a row depending on it"),
    (Against::Later, "a later one"),
    (Against::Number, "its number"),
];

/// How many pairs there were of each kind.
#[derive(Default)]
struct Kinds {
    /// Fair: equal offers, more offers to one, others.
    equal: u64,
    more: u64,
    others: u64,
    refused: u64,
    /// Unfair, and how many of them fail the check.
    conflicting: u64,
    conflicting_fail: u64,
    expiring: u64,
    expiring_fail: u64,
    /// With sealings against which one thing is alone, by `ALONE`, and with several.
    unfair: [u64; ALONE.len() + 1],
    unfair_fail: [u64; ALONE.len() + 1],
    /// Fair pairs with a sealing, with sealings in both, with a refused one, and those that have equal offers.
    sealed: u64,
    sealed_both: u64,
    sealed_refused: u64,
    sealed_equal: u64,
}

pub fn run(rng: &mut Rng) -> Outcome {
    let mut kinds = Kinds::default();
    for _ in 0..PAIRS {
        pair(rng, &mut kinds)?;
    }
    note(&format!(
        "convergence: fair pairs with equal offers {}, with more offers {}, others {}, with refused calls {}",
        kinds.equal, kinds.more, kinds.others, kinds.refused
    ));
    note(&format!(
        "convergence: pairs with two contents {}, of which fail {}; with rows that expire {}, of which fail {}",
        kinds.conflicting, kinds.conflicting_fail, kinds.expiring, kinds.expiring_fail
    ));
    note(&format!(
        "convergence: fair pairs with a sealing {}, in both stores {}, with a refused one {}, with equal offers {}",
        kinds.sealed, kinds.sealed_both, kinds.sealed_refused, kinds.sealed_equal
    ));
    kinds.note_unfair();
    let counts = [
        kinds.equal,
        kinds.more,
        kinds.others,
        kinds.refused,
        kinds.conflicting_fail,
        kinds.expiring_fail,
        kinds.sealed,
        kinds.sealed_both,
        kinds.sealed_refused,
        kinds.sealed_equal,
    ];
    let all = [&counts[..], &kinds.unfair_fail].concat();
    agree(&all.contains(&0), &false, || "a kind of pair".into())?;
    agree(&kinds.all(), &PAIRS, || "every pair is counted".into())?;
    Ok(kinds.fair() + controls::run()?)
}

fn pair(rng: &mut Rng, kinds: &mut Kinds) -> Check {
    let kind = rng.below(8);
    let ages: &[u64] = if kind == 0 {
        &[0, 1, 2]
    } else {
        &[7, 8, u64::MAX]
    };
    let size = rng.pick(&[1, 2, 3, 4]);
    let mut universe = Universe::of(rng, &[1, 2, 3, 4][..size], 0);
    if kind != 1 {
        universe.keep_one_content();
    }
    let own = (rng.below(3) > 0).then(|| Own::new(rng, &mut universe, kind != 2));
    let (first, mut refused) = list(rng, &universe, ages, own.map(|own| (own, 0)))?;
    let rows: Vec<Row> = first.offers.rows.iter().cloned().collect();
    let second = match rng.below(4) {
        0 => {
            let (second, refused_too) = list(rng, &universe, ages, own.map(|own| (own, 1)))?;
            refused |= refused_too;
            second
        }
        1 => {
            let left = rng.below(rows.len() + 1);
            again(rng, &universe, &rows[left..], ages)?
        }
        _ => again(rng, &universe, &rows, ages)?,
    };
    if own.is_none_or(|own| own.fair) {
        let against: Vec<&Against> = first.offers.against.union(&second.offers.against).collect();
        agree(&against, &Vec::new(), || {
            let offers = [&first.offers.rows, &second.offers.rows];
            format!("against sealings that were made fair, offers {offers:02x?}")
        })?;
    }
    let holds = check(&first, &second);
    let failed = u64::from(holds.is_err());
    if !one_content(&first.offers, &second.offers) {
        kinds.conflicting += 1;
        kinds.conflicting_fail += failed;
        return Ok(());
    }
    if !in_time(&first.offers, &second.offers) {
        kinds.expiring += 1;
        kinds.expiring_fail += failed;
        return Ok(());
    }
    if kinds.unfair(&first, &second, failed)? {
        return Ok(());
    }
    kinds.refused += u64::from(refused);
    kinds.sealings(&first, &second);
    match (
        first.offers.rows.is_subset(&second.offers.rows),
        second.offers.rows.is_subset(&first.offers.rows),
    ) {
        (true, true) => kinds.equal += 1,
        (false, false) => kinds.others += 1,
        _ => kinds.more += 1,
    }
    agree(&holds, &Ok(()), || {
        let offers = [&first.offers.rows, &second.offers.rows];
        let stores = [&first, &second].map(|run| store::read(&run.areas));
        format!("offers {offers:02x?}, the stores {stores:02x?}")
    })
}

impl Kinds {
    /// The pairs that were required to hold.
    fn fair(&self) -> u64 {
        self.equal + self.more + self.others
    }

    fn all(&self) -> u64 {
        let unfair: u64 = self.unfair.iter().sum();
        self.fair() + self.conflicting + self.expiring + unfair
    }

    /// Whether something is against a sealing; the pair is counted then.
    fn unfair(&mut self, first: &Run, second: &Run, failed: u64) -> Result<bool, String> {
        let all: Vec<&Against> = first.offers.against.union(&second.offers.against).collect();
        let place = match all[..] {
            [] => return Ok(false),
            [one] => ALONE.iter().position(|(alone, _)| alone == one),
            _ => Some(ALONE.len()),
        };
        let place = place.ok_or_else(|| format!("  alone against a sealing: {all:?}"))?;
        self.unfair[place] += 1;
        self.unfair_fail[place] += failed;
        Ok(true)
    }

    fn note_unfair(&self) {
        let names = ALONE.iter().map(|(_, name)| *name).chain(["several"]);
        let counts = self.unfair.iter().zip(self.unfair_fail);
        let texts = names
            .zip(counts)
            .map(|(name, (pairs, fail))| format!("{name} {pairs}, of which fail {fail}"));
        let texts: Vec<String> = texts.collect();
        note(&format!(
            "convergence: pairs with something against a sealing: {}",
            texts.join("; ")
        ));
    }

    fn sealings(&mut self, first: &Run, second: &Run) {
        let sealed = [first, second].map(|run| run.offers.sealed > 0);
        self.sealed += u64::from(sealed.contains(&true));
        self.sealed_both += u64::from(!sealed.contains(&false));
        self.sealed_refused += u64::from(first.offers.refused + second.offers.refused > 0);
        self.sealed_equal +=
            u64::from(sealed.contains(&true) && first.offers.rows == second.offers.rows);
    }
}

/// Batches and floors of any kind, refused ones too, and sealings of one of the own authors; whether a batch was refused.
fn list(
    rng: &mut Rng,
    universe: &Universe,
    ages: &[u64],
    own: Option<(Own, usize)>,
) -> Result<(Run, bool), String> {
    let mut desk = Desk::new(rng.pick(&[1, 3, 16]));
    let mut refused = false;
    for _ in 0..1 + rng.below(5) {
        if rng.once_in(6) {
            desk.set_floor(universe.stamp(rng));
            continue;
        }
        if let (Some((own, store)), true) = (own, rng.once_in(2)) {
            seal(rng, universe, &mut desk, own, own.authors[store]);
        }
        let mut offer = universe.offer(rng);
        offer.time = universe.soon(rng);
        offer.limits.max_pending_age_ms = rng.pick(ages);
        if !rng.once_in(4) {
            offer.clock = desk.clock(offer.clock.max_drift_ms);
        }
        refused |= !desk.batch(&offer)?;
    }
    Ok((desk.run, refused))
}

/// A row of the author's own, prepared and sealed as it may be; or one that is refused, or where sealings are unfair any.
fn seal(rng: &mut Rng, universe: &Universe, desk: &mut Desk, own: Own, author: u64) {
    let entry = Entry {
        author,
        ahead: own.ahead(rng),
        payload: payload(rng),
        time: universe.soon(rng),
    };
    let Some(bytes) = desk.prepare(entry) else {
        return;
    };
    let lent = sealing(rng, universe, bytes);
    if !own.fair || desk.may_stand(&lent) {
        desk.seal(&lent);
        // Once more: the author's number has moved.
        if rng.once_in(4) {
            desk.seal(&lent);
        }
    }
}

/// These rows in another order, some of them twice, over a few batches.
fn again(rng: &mut Rng, universe: &Universe, rows: &[Row], ages: &[u64]) -> Result<Run, String> {
    let mut desk = Desk::new(16);
    let mut rows: Vec<BatchRow> = rows.iter().cloned().map(BatchRow::new).collect();
    for _ in 0..rows.len() {
        let (i, j) = (rng.below(rows.len()), rng.below(rows.len()));
        rows.swap(i, j);
        if rng.once_in(5) {
            rows.push(rows[i].clone());
        }
    }
    let mut rest = &rows[..];
    while !rest.is_empty() {
        let (batch, later) = rest.split_at(1 + rng.below(rest.len()));
        rest = later;
        let limits = Limits::new().with_max_pending_age_ms(rng.pick(ages));
        let time = universe.soon(rng);
        desk.batch(&Offer {
            limits,
            time,
            clock: clock(rng, &limits, time, batch),
            rows: batch.to_vec(),
        })?;
    }
    Ok(desk.run)
}
