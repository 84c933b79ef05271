//! Demand 3: what two stores hold after two call lists, by what was offered to them.

use std::collections::{BTreeMap, BTreeSet};

use cuwelfra_sys::Told;

use crate::model::own::{row_of, seal_call};
use crate::port::batches::Offer;
use crate::port::own::Sealing;
use crate::port::rows::Row;
use crate::port::store::{self, Areas, Content, Entries};

/// A store after its call list.
pub struct Run {
    pub areas: Areas,
    pub offers: Offers,
}

/// What a call list offered to its store.
#[derive(Clone, Default)]
pub struct Offers {
    /// The rows of accepted batches and sealings.
    pub rows: BTreeSet<Row>,
    /// Time and pending age of accepted batches.
    pub times: Vec<(u64, u64)>,
    /// What is against its accepted sealings.
    pub against: BTreeSet<Against>,
    /// How many sealings were accepted, and refused.
    pub sealed: u64,
    pub refused: u64,
}

/// Why an accepted sealing may not stand in a call list.
#[derive(Clone, Copy, Debug, PartialEq, Eq, PartialOrd, Ord)]
pub enum Against {
    /// The row itself was offered before.
    Offered,
    /// A row that depends on it was.
    Depending,
    /// A later one of its author was.
    Later,
    /// It is not as prepared with the author's number in the log's clock as the number last issued.
    Number,
}

/// What is against an accepted sealing of a row, by the clock before it and the rows that were offered before. 02: "sealed
/// as prepared, counts as offered to its store if neither it nor a row depending on it or later by its author was offered
/// there before sealing, and the number last issued is the author's number in that store's log clock at sealing, 0 if
/// absent". That a row is as prepared is seen from its content: sealing tests the rest of it.
pub fn against(clock: &Entries, before: &BTreeSet<Row>, row: &Row) -> BTreeSet<Against> {
    let depends = |other: &Row| {
        let mut deps = other.deps.iter();
        deps.any(|(author, number)| *author == row.author && *number >= row.seq)
    };
    let later = |other: &Row| other.author == row.author && other.seq > row.seq;
    let number = clock.get(&row.author).copied().unwrap_or(0);
    let next = number.checked_add(1) == Some(row.seq);
    // No clock issues a stamp of wall time 0 and counter 0.
    let issued = (row.stamp.0, row.stamp.1) > (0, 0);
    let holds = [
        (Against::Offered, before.contains(row)),
        (Against::Depending, before.iter().any(depends)),
        (Against::Later, before.iter().any(later)),
        (Against::Number, !(next && issued)),
    ];
    let held = holds.into_iter().filter(|(_, holds)| *holds);
    held.map(|(what, _)| what).collect()
}

impl Offers {
    /// Takes an accepted batch in.
    pub fn batch(&mut self, offer: &Offer) {
        let rows = offer.rows.iter().map(|lent| lent.row.clone());
        self.rows.extend(rows);
        self.times
            .push((offer.time, offer.limits.max_pending_age_ms));
    }

    /// Takes an accepted sealing of a row in, with what is against it by the clock before it.
    pub fn sealing(&mut self, clock: &Entries, row: Row) {
        self.against.extend(against(clock, &self.rows, &row));
        self.rows.insert(row);
        self.sealed += 1;
    }

    /// Whether a sealing may stand in the list of this store: nothing is against it, or it is refused.
    pub fn may_stand(&self, areas: &Areas, lent: &Sealing) -> bool {
        let fair = |row: Row| against(&areas.clock(), &self.rows, &row).is_empty();
        row_of(lent).is_none_or(fair) || seal_call(areas, lent).0 != Told::default()
    }

    /// Whether the times of accepted batches span at most the least pending age among them.
    pub fn in_time(&self) -> bool {
        let times = self.times.iter().map(|(time, _)| *time);
        let age = self.times.iter().map(|(_, age)| *age).min();
        match (times.clone().min(), times.max(), age) {
            (Some(first), Some(last), Some(age)) => last - first <= age,
            _ => true,
        }
    }
}

/// Whether no author and sequence was offered with two contents, in one store or across both.
pub fn one_content(first: &Offers, second: &Offers) -> bool {
    let rows: BTreeSet<&Row> = first.rows.union(&second.rows).collect();
    let ids: BTreeSet<_> = rows.iter().map(|row| (row.author, row.seq)).collect();
    ids.len() == rows.len()
}

/// Whether nothing that was accepted could expire.
pub fn in_time(first: &Offers, second: &Offers) -> bool {
    first.in_time() && second.in_time()
}

/// A causal listing of rows behind a clock: each is its author's next number, each dependency is at most the number of that
/// author's rows before it. No other row of them can follow.
pub fn listing<'a>(clock: &Entries, rows: &[&'a Row]) -> Vec<&'a Row> {
    let mut listing = Vec::new();
    let mut counts = clock.clone();
    loop {
        let count = |author: u64| counts.get(&author).copied().unwrap_or(0);
        let next = rows.iter().find(|row| {
            row.seq.checked_sub(1) == Some(count(row.author))
                && row.deps.iter().all(|(on, number)| *number <= count(*on))
        });
        let Some(row) = next else {
            return listing;
        };
        listing.push(*row);
        counts.insert(row.author, row.seq);
    }
}

/// What demand 3 says of one store, and of two; `Err` names the part that does not hold.
pub fn check(first: &Run, second: &Run) -> Result<(), &'static str> {
    let one = alone(first)?;
    let other = alone(second)?;
    let [offered, others] = [first, second].map(|run| &run.offers.rows);
    if others.is_subset(offered) {
        sublist(&other.rows, &one.rows)?;
    }
    if offered.is_subset(others) {
        sublist(&one.rows, &other.rows)?;
    }
    if offered == others {
        equal(&one, &other)?;
    }
    Ok(())
}

/// Equal logs, clocks and held rows. 01: "Arrival times and outcomes of held rows are not compared."
pub fn equal(one: &Content, other: &Content) -> Result<(), &'static str> {
    require(one.rows == other.rows, "equal logs")?;
    require(one.clock == other.clock, "equal clocks")?;
    require(held(one).eq(held(other)), "equal held rows")
}

fn alone(run: &Run) -> Result<Content, &'static str> {
    let content = store::read(&run.areas).ok_or("the store keeps the rules")?;
    let logged: BTreeSet<&Row> = content.rows.iter().collect();
    let offered: Vec<&Row> = run.offers.rows.iter().collect();
    let ends = listing(&Entries::new(), &offered).into_iter().collect();
    require(logged == ends, "the log has what ends a causal listing")?;
    require(
        logged.len() == content.rows.len(),
        "the log has no row twice",
    )?;
    let mut counts: BTreeMap<u64, u64> = BTreeMap::new();
    for row in &content.rows {
        *counts.entry(row.author).or_default() += 1;
    }
    require(content.clock == counts, "the clock counts the log's rows")?;
    let waiting = run.offers.rows.iter().filter(|row| !logged.contains(row));
    let mut waiting: Vec<&Row> = waiting.collect();
    waiting.sort_by_key(|row| row.key());
    let all = held(&content).eq(waiting);
    require(all, "held is what was offered and not logged")?;
    Ok(content)
}

/// The held rows in their order.
pub fn held(content: &Content) -> impl Iterator<Item = &Row> {
    content.held.iter().map(|held| &held.row)
}

/// Every row of the one log is in the other, in the same relative order.
pub fn sublist(less: &[Row], more: &[Row]) -> Result<(), &'static str> {
    let mut rest = more.iter();
    let found = less.iter().all(|row| rest.any(|other| other == row));
    require(found, "more log in the same relative order")
}

pub fn require(holds: bool, part: &'static str) -> Result<(), &'static str> {
    holds.then_some(()).ok_or(part)
}
