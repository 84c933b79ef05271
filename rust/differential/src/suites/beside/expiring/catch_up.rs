//! What is required of two stores after their lists, and of the batch by which the first catches up.

use cuwelfra_sys::{DeltaTold, Told};

use crate::model::demand::held;
use crate::model::expiring::{by_clocks, carries, caught_up, finds_room, missing, part, to_send};
use crate::port::batches::{BatchRow, Offer};
use crate::port::rows::Row;
use crate::port::store::Content;
use crate::rng::Rng;
use crate::suites::beside::expiring::counts::{self, Counts};
use crate::suites::beside::expiring::desk::Desk;
use crate::suites::beside::expiring::lists::{wide, Timing};
use crate::suites::beside::expiring::pairs::Pair;
use crate::support::{agree, Check};
use crate::world::clocks::clock;
use crate::world::lists::{limits, Universe};

/// Whether a batch was accepted.
pub fn accepted(told: &DeltaTold) -> bool {
    told.told == Told::default()
}

/// A pair of which ticket 13 speaks: both parts of it hold.
pub fn holds(rng: &mut Rng, mut pair: Pair, counts: &mut Counts) -> Check {
    let (one, other) = (pair.first.content()?, pair.second.content()?);
    counts.pair(&pair, &one, &other);
    let shown = || format!("the stores {:02x?}", [&one, &other]);
    agree(&part(&one, &other), &Ok(()), shown)?;
    agree(&by_clocks(&one, &other), &Ok(()), shown)?;
    let sent = missing(&one, &pair.second.offers);
    agree(&to_send(&one, &other), &sent, shown)?;
    if rng.once_in(4) {
        broken_batches(rng, &pair, &one, &other, counts)?;
    }
    let (offer, more) = catch_up(rng, &pair, &one);
    let whole = carries(&offer.rows, &one, &pair.second.offers);
    agree(&whole, &true, || format!("{offer:02x?}, {}", shown()))?;
    let told = pair.first.batch(rng, &offer)?;
    counts.refused.note(&told.told);
    accepted_with_room(&pair.first, &other, &offer, &told, counts)?;
    if !accepted(&told) {
        return Ok(());
    }
    let after = pair.first.content()?;
    agree(&caught_up(&after, &other), &Ok(()), || {
        format!("{offer:02x?}, {}, the first then {after:02x?}", shown())
    })?;
    counts.caught_up(&told, more);
    match told.held > 0 {
        true => expires_again(rng, &mut pair.first, offer.time, &other, counts),
        false => Ok(()),
    }
}

/// A batch that carries what is missing, at any time; whether it carries logged rows or repeats besides.
pub fn catch_up(rng: &mut Rng, pair: &Pair, first: &Content) -> (Offer, bool) {
    let second = &pair.second.offers;
    let mut rows: Vec<&Row> = missing(first, second).into_iter().collect();
    let count = rows.len();
    let offered: Vec<&Row> = second.rows.iter().collect();
    if !offered.is_empty() && rng.once_in(2) {
        rows.extend((0..rng.below(5)).map(|_| rng.pick(&offered)));
    }
    let more = rows.len() > count;
    rng.shuffle(&mut rows);
    (any_offer(rng, &pair.universe, rows), more)
}

/// A batch of these rows at any time, with wide settings or any.
fn any_offer(rng: &mut Rng, universe: &Universe, rows: Vec<&Row>) -> Offer {
    let rows: Vec<BatchRow> = rows.into_iter().cloned().map(BatchRow::new).collect();
    let limits = match rng.once_in(2) {
        true => wide(),
        false => limits(rng),
    };
    let limits = limits.with_max_pending_age_ms(Timing::Any.age(rng));
    let time = Timing::Any.time(rng, universe);
    Offer {
        limits,
        time,
        clock: clock(rng, &limits, time, &rows),
        rows,
    }
}

/// A batch that passes 12 is accepted where the first finds room for all that the second has, and nowhere else; 13 never
/// comes.
fn accepted_with_room(
    first: &Desk,
    second: &Content,
    offer: &Offer,
    told: &DeltaTold,
    counts: &mut Counts,
) -> Check {
    let number = told.told.number;
    if (1..=12).contains(&number) {
        return Ok(());
    }
    let room = finds_room(first.joined.areas.capacity(), &offer.limits, second);
    counts.kinds.note(counts::ROOM, room);
    counts.kinds.note(counts::NO_ROOM, !room);
    let refused = (14..=18).contains(&number);
    agree(&(accepted(told), refused), &(room, !room), || {
        format!("refused with {number}: {offer:02x?}")
    })
}

/// 02: "a later batch may let its held rows expire again".
fn expires_again(
    rng: &mut Rng,
    first: &mut Desk,
    time: u64,
    second: &Content,
    counts: &mut Counts,
) -> Check {
    let limits = wide().with_max_pending_age_ms(rng.pick(&[0, 1, 5]));
    let time = time.saturating_add(1 + rng.next() % 10);
    let empty = Offer {
        limits,
        time,
        clock: clock(rng, &limits, time, &[]),
        rows: Vec::new(),
    };
    let told = first.batch(rng, &empty)?;
    let differ = !held(&first.content()?).eq(held(second));
    agree(&differ, &(told.expired > 0), || "the held rows".into())?;
    counts.kinds.note(counts::AGAIN, differ);
    Ok(())
}

/// Batches that do not carry what they must: one row is among them that the second was not offered, or held rows are left
/// out.
fn broken_batches(
    rng: &mut Rng,
    pair: &Pair,
    first: &Content,
    second: &Content,
    counts: &mut Counts,
) -> Check {
    let mut rows: Vec<&Row> = missing(first, &pair.second.offers).into_iter().collect();
    let seq = rng.pick(&[1, 2]);
    let other = pair.universe.row(rng, 7, seq);
    let with_other = any_offer(rng, &pair.universe, [&rows[..], &[&other]].concat());
    let fails = breaks(rng, &pair.first, &with_other, second)?;
    counts.controls.note(counts::OTHER_ROW, fails);
    if !first.held.is_empty() {
        rows.retain(|row| held(first).all(|held| held != *row));
        let without_held = any_offer(rng, &pair.universe, rows);
        let fails = breaks(rng, &pair.first, &without_held, second)?;
        counts.controls.note(counts::HELD_LEFT_OUT, fails);
    }
    Ok(())
}

/// Whether the first accepts a batch and differs from the second then.
pub fn breaks(
    rng: &mut Rng,
    first: &Desk,
    offer: &Offer,
    second: &Content,
) -> Result<bool, String> {
    let mut first = first.clone();
    let told = first.batch(rng, offer)?;
    Ok(accepted(&told) && caught_up(&first.content()?, second).is_err())
}
