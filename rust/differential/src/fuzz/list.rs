//! Lists of calls on one store of the port and one merger and hybrid clock of the original.

use std::collections::BTreeSet;

use crate::fuzz::offers::{
    shown_offer, shown_row, shown_stamp, smaller_offers, smaller_rows, smaller_stamps,
};
use crate::fuzz::shrink::{hex, lower, without, Input};
use crate::original::beside::{authors_fit, log_of};
use crate::original::joined::Joined;
use crate::port::batches::{outcome_of, Offer};
use crate::port::rows::{Row, Stamp};
use crate::port::store::Entries;
use crate::rng::Rng;
use crate::suites::beside::call_lists::{ignored, sealing};
use crate::support::Check;

/// A log that did not come through the merger.
#[derive(Clone, Debug, Default, PartialEq, Eq)]
pub struct Snapshot {
    pub rows: Vec<Row>,
    pub compacted: Entries,
}

#[derive(Clone, Debug)]
pub enum Call {
    /// With a seed: how much more room is lent, and whether the model and the wrapper are asked too.
    Batch(Offer, u64),
    Floor(Stamp, u64),
    Compact(Stamp),
    Insert(Row),
    /// A row of the desk's own, prepared like this one with this number last issued, and sealed.
    Own(Row, u64),
    /// A row sealed as it is.
    Seal(Row),
    Replace(Snapshot),
}

#[derive(Clone, Debug)]
pub struct List {
    pub start: Snapshot,
    /// Slots of the log area.
    pub capacity: usize,
    pub calls: Vec<Call>,
}

impl List {
    /// The list with every row changed.
    fn changed(&self, change: &impl Fn(&mut Row)) -> Self {
        let mut other = self.clone();
        other.rows_mut().into_iter().for_each(change);
        other
    }

    fn rows_mut(&mut self) -> Vec<&mut Row> {
        let mut rows: Vec<&mut Row> = self.start.rows.iter_mut().collect();
        for call in &mut self.calls {
            match call {
                Call::Batch(offer, _) => {
                    rows.extend(offer.rows.iter_mut().map(|lent| &mut lent.row));
                }
                Call::Insert(row) | Call::Own(row, _) | Call::Seal(row) => rows.push(row),
                Call::Replace(snapshot) => rows.extend(&mut snapshot.rows),
                Call::Floor(..) | Call::Compact(_) => {}
            }
        }
        rows
    }

    /// Every content of a row once.
    fn contents(&self) -> BTreeSet<Row> {
        let mut copy = self.clone();
        copy.rows_mut().into_iter().map(|row| row.clone()).collect()
    }

    /// One row smaller, wherever it occurs.
    fn smaller_contents(&self) -> impl Iterator<Item = Self> + '_ {
        self.contents().into_iter().flat_map(move |row| {
            let smaller = smaller_rows(&row).into_iter();
            smaller.map(move |other| {
                self.changed(&|found| {
                    if *found == row {
                        found.clone_from(&other);
                    }
                })
            })
        })
    }

    /// One author with a lower number, which another may have.
    fn renamed(&self) -> impl Iterator<Item = Self> + '_ {
        let authors = self.authors().into_iter();
        let pairs = authors.flat_map(|author| lower(author).map(move |other| (author, other)));
        pairs.map(|(author, other)| self.with_author(author, other))
    }

    fn authors(&self) -> BTreeSet<u64> {
        let mut authors: BTreeSet<u64> = self.start.compacted.keys().copied().collect();
        for row in self.contents() {
            authors.extend([row.author, row.stamp.2]);
            authors.extend(row.deps.iter().map(|(author, _)| *author));
        }
        for call in &self.calls {
            match call {
                Call::Floor(stamp, _) | Call::Compact(stamp) => {
                    authors.insert(stamp.2);
                }
                Call::Replace(snapshot) => authors.extend(snapshot.compacted.keys()),
                Call::Batch(..) | Call::Insert(_) | Call::Own(..) | Call::Seal(_) => {}
            }
        }
        authors
    }

    fn with_author(&self, from: u64, to: u64) -> Self {
        let rename = |author: &mut u64| {
            if *author == from {
                *author = to;
            }
        };
        let renamed = |entries: &mut Entries| {
            if let Some(number) = entries.remove(&from) {
                entries.insert(to, number);
            }
        };
        let mut other = self.changed(&|row| {
            rename(&mut row.author);
            rename(&mut row.stamp.2);
            row.deps.iter_mut().for_each(|dep| rename(&mut dep.0));
            row.deps.sort();
            row.deps.dedup_by_key(|dep| dep.0);
        });
        renamed(&mut other.start.compacted);
        for call in &mut other.calls {
            match call {
                Call::Floor(stamp, _) | Call::Compact(stamp) => rename(&mut stamp.2),
                Call::Replace(snapshot) => renamed(&mut snapshot.compacted),
                Call::Batch(..) | Call::Insert(_) | Call::Own(..) | Call::Seal(_) => {}
            }
        }
        other
    }

    /// One call smaller in itself.
    fn smaller_calls(&self) -> impl Iterator<Item = Self> + '_ {
        self.calls.iter().enumerate().flat_map(move |(at, call)| {
            smaller_calls(call).map(move |smaller| {
                let mut other = self.clone();
                other.calls[at] = smaller;
                other
            })
        })
    }
}

impl Input for List {
    fn check(&self) -> Check {
        let log = log_of(&self.start.rows, &self.start.compacted);
        if log.len() > self.capacity || !authors_fit(&log) {
            return Ok(());
        }
        let mut joined = Joined::new(log, self.capacity);
        for (at, call) in self.calls.iter().enumerate() {
            let made = perform(&mut joined, call);
            made.map_err(|difference| format!("  in call {}\n{difference}", at + 1))?;
        }
        Ok(())
    }

    fn smaller(&self) -> Box<dyn Iterator<Item = Self> + '_> {
        let fewer = without(&self.calls).map(|calls| Self {
            calls,
            ..self.clone()
        });
        let starts = smaller_snapshots(&self.start).map(|start| Self {
            start,
            ..self.clone()
        });
        let capacities = lower(self.capacity as u64).filter(|slots| *slots > 0);
        let capacities = capacities.map(|slots| Self {
            capacity: slots as usize,
            ..self.clone()
        });
        let listed = fewer.chain(starts).chain(self.smaller_calls());
        let listed = listed.chain(self.smaller_contents()).chain(self.renamed());
        Box::new(listed.chain(capacities))
    }

    fn shown(&self) -> String {
        let mut text = format!(
            "a log of {} slots with {}",
            self.capacity,
            shown_snapshot(&self.start)
        );
        for (at, call) in self.calls.iter().enumerate() {
            text += &format!("  {}. {}", at + 1, shown_call(call));
        }
        text
    }
}

fn perform(joined: &mut Joined, call: &Call) -> Check {
    let rng = |seed: &u64| Rng::for_suite(*seed, "call");
    match call {
        Call::Batch(offer, seed) => {
            let offer = settled(joined, offer);
            joined.batch(&mut rng(seed), &offer).map(|_| ())
        }
        Call::Floor(stamp, seed) => joined.set_floor(&mut rng(seed), *stamp),
        Call::Compact(stamp) => joined.compact(*stamp),
        Call::Insert(row) => joined.insert(row),
        Call::Own(row, issued) => joined.own(row, *issued).map(|_| ()),
        Call::Seal(row) => joined.seal(&sealing(row)).map(|_| ()),
        Call::Replace(snapshot) => {
            joined.replace(log_of(&snapshot.rows, &snapshot.compacted));
            Ok(())
        }
    }
}

/// Only rows that the call ignores may have another outcome than policy and state look up.
fn settled(joined: &Joined, offer: &Offer) -> Offer {
    let mut settled = offer.clone();
    for (lent, ignored) in settled.rows.iter_mut().zip(ignored(joined, offer)) {
        if !ignored {
            (lent.outcome, lent.detail) = outcome_of(lent.row.author, &lent.row.payload);
        }
    }
    settled
}

fn smaller_calls(call: &Call) -> Box<dyn Iterator<Item = Call> + '_> {
    match call {
        Call::Batch(offer, seed) => {
            Box::new(smaller_offers(offer).map(|offer| Call::Batch(offer, *seed)))
        }
        Call::Floor(stamp, seed) => {
            Box::new(smaller_floors(*stamp).map(|stamp| Call::Floor(stamp, *seed)))
        }
        Call::Compact(stamp) => Box::new(smaller_floors(*stamp).map(Call::Compact)),
        Call::Insert(_) | Call::Seal(_) => Box::new(std::iter::empty()),
        Call::Own(row, issued) => {
            Box::new(lower(*issued).map(|issued| Call::Own(row.clone(), issued)))
        }
        Call::Replace(snapshot) => Box::new(smaller_snapshots(snapshot).map(Call::Replace)),
    }
}

/// An earlier stamp, of a lower author too.
fn smaller_floors(stamp: Stamp) -> impl Iterator<Item = Stamp> {
    let (wall, counter, author) = stamp;
    let authors = lower(author).map(move |author| (wall, counter, author));
    smaller_stamps(stamp).chain(authors)
}

fn smaller_snapshots(snapshot: &Snapshot) -> impl Iterator<Item = Snapshot> + '_ {
    let rows = without(&snapshot.rows).map(|rows| Snapshot {
        rows,
        ..snapshot.clone()
    });
    let entries: Vec<(u64, u64)> = snapshot.compacted.clone().into_iter().collect();
    let fewer: Vec<_> = without(&entries).collect();
    let lowered = entries.clone().into_iter().flat_map(move |(author, n)| {
        let entries = entries.clone();
        lower(n).map(move |n| {
            let mut entries = entries.clone();
            let found = entries.iter_mut().filter(|entry| entry.0 == author);
            found.for_each(|entry| entry.1 = n);
            entries
        })
    });
    let compacted = fewer.into_iter().chain(lowered).map(|entries| Snapshot {
        compacted: entries.into_iter().collect(),
        ..snapshot.clone()
    });
    rows.chain(compacted)
}

fn shown_snapshot(snapshot: &Snapshot) -> String {
    let mut text = format!("compacted clock {:?}", snapshot.compacted);
    text += if snapshot.rows.is_empty() {
        ", no rows\n"
    } else {
        " and rows\n"
    };
    for row in &snapshot.rows {
        text += &format!("     {}\n", shown_row(row));
    }
    text
}

fn shown_call(call: &Call) -> String {
    match call {
        Call::Batch(offer, _) => shown_offer(offer),
        Call::Floor(stamp, _) => format!("floor {}\n", shown_stamp(*stamp)),
        Call::Compact(stamp) => format!("compact to {}\n", shown_stamp(*stamp)),
        Call::Insert(row) => format!("insert {}\n", shown_row(row)),
        Call::Own(row, issued) => format!(
            "prepare author {}, time {}, payload [{}], last issued {issued}, and seal with signature [{}]\n",
            row.author,
            row.stamp.0,
            hex(&row.payload),
            hex(&row.signature)
        ),
        Call::Seal(row) => format!("seal {}\n", shown_row(row)),
        Call::Replace(snapshot) => format!("another log, with {}", shown_snapshot(snapshot)),
    }
}
