//! Ticket 13: a store whose rows may expire, the first, beside one whose rows may not, the second.

use std::collections::{BTreeMap, BTreeSet};

use cuwelfra::Limits;

use crate::model::demand::{self, held, one_content, require, Offers};
use crate::port::batches::BatchRow;
use crate::port::rows::Row;
use crate::port::store::Content;

/// Why ticket 13 says nothing of two lists.
#[derive(Clone, Copy, Debug, PartialEq, Eq, PartialOrd, Ord)]
pub enum Lacks {
    /// An author and sequence was offered with two contents.
    OneContent,
    /// 02: "both offered the same rows". Here the first was offered one that the second was not; it may have fewer.
    SameRows,
    /// 02: "the limit on the span of batch times for one of two stores, the other keeping it". The second does not.
    Span,
    /// Something is against an accepted sealing.
    Sealings,
}

/// What is lacking of two lists; of others the ticket speaks.
pub fn lacks(first: &Offers, second: &Offers) -> Vec<Lacks> {
    let fair = first.against.is_empty() && second.against.is_empty();
    let holds = [
        (Lacks::OneContent, one_content(first, second)),
        (Lacks::SameRows, first.rows.is_subset(&second.rows)),
        (Lacks::Span, second.in_time()),
        (Lacks::Sealings, fair),
    ];
    let lacking = holds.into_iter().filter(|(_, holds)| !holds);
    lacking.map(|(what, _)| what).collect()
}

/// 02: "every row offered in the second's whole list that the first has not logged". A row that it holds is among them.
pub fn missing<'a>(first: &Content, second: &'a Offers) -> BTreeSet<&'a Row> {
    let logged: BTreeSet<&Row> = first.rows.iter().collect();
    let offered = second.rows.iter();
    offered.filter(|row| !logged.contains(row)).collect()
}

/// The same by what the stores hold: the second's logged rows above the first's clock, and its held ones.
pub fn to_send<'a>(first: &Content, second: &'a Content) -> BTreeSet<&'a Row> {
    let number = |author: u64| first.clock.get(&author).copied().unwrap_or(0);
    let logged = second.rows.iter();
    let above = logged.filter(|row| row.seq > number(row.author));
    above.chain(held(second)).collect()
}

/// Whether a batch carries what is missing, and no row that the second was not offered.
pub fn carries(batch: &[BatchRow], first: &Content, second: &Offers) -> bool {
    let rows: BTreeSet<&Row> = batch.iter().map(|lent| &lent.row).collect();
    let no_other = rows.iter().all(|row| second.rows.contains(*row));
    no_other && missing(first, second).is_subset(&rows)
}

/// 02: "Every row of the first's log is in the second's log, in the same relative order."
pub fn part(first: &Content, second: &Content) -> Result<(), &'static str> {
    demand::sublist(&first.rows, &second.rows)
}

/// 02: "both logs, clocks and held rows are equal". It is so directly after the first accepted a batch that carries what it
/// must.
pub fn caught_up(first: &Content, second: &Content) -> Result<(), &'static str> {
    demand::equal(first, second)
}

/// Each log is a causal listing of the second's offers, so that equal clocks tell equal logs.
pub fn by_clocks(first: &Content, second: &Content) -> Result<(), &'static str> {
    let told = first.clock != second.clock || first.rows == second.rows;
    require(told, "equal clocks, equal logs")
}

/// Whether the first finds room for all that the second has: a log area with so many slots, and the quotas of a batch.
pub fn finds_room(slots: usize, limits: &Limits, second: &Content) -> bool {
    let mut authors: BTreeMap<u64, u64> = BTreeMap::new();
    for row in held(second) {
        *authors.entry(row.author).or_default() += 1;
    }
    let payloads = held(second).map(|row| row.payload.len() as u64);
    second.rows.len() <= slots
        && second.held.len() as u64 <= limits.max_pending
        && payloads.sum::<u64>() <= limits.max_pending_bytes
        && authors
            .values()
            .all(|count| *count <= limits.max_pending_per_actor)
}
