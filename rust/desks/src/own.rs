//! Rows that are written at a store: stamped by a clock that is above all that the store has, prepared and sealed.

use cuwelfra::{ActorId, HybridClock, Limits, Refusal, Store};
use cuwelfra::{MAX_DEPS, MAX_PAYLOAD, MAX_SIGNATURE};

use crate::advice::{advice, Advice, AHEAD_FLOOR, LARGE_PAYLOAD, MANY_AUTHORS};
use crate::known::{self, latest, Known, Unfolded};
use crate::plain::plain;
use crate::refused::{above, Refused};
use crate::table::cut;
use crate::text::Entry;
use crate::time;

/// Who writes rows, and when.
pub struct Writer {
    pub author: ActorId,
    pub time_ms: u64,
    /// Whether the time was given.
    pub timed: bool,
    /// How far ahead of the time the store's stamps may be.
    pub max_drift_ms: u64,
}

/// What was refused, and why.
pub struct Stopped {
    pub what: String,
    pub refused: Refused,
    pub advice: Advice,
}

impl From<Refusal> for Stopped {
    fn from(refusal: Refusal) -> Self {
        Self {
            what: "the store".to_owned(),
            refused: Refused {
                refusal,
                faults: Vec::new(),
            },
            advice: advice(refusal),
        }
    }
}

/// What a store had before rows were written.
struct Before {
    latest: Option<Known>,
    authors: usize,
}

impl Writer {
    /// Seals a row for each payload in turn, and gives their numbers. Where one is refused, those before it are sealed.
    pub fn seal(&self, store: &mut Store, entries: &[Entry]) -> Result<Vec<u64>, Stopped> {
        let before = Before {
            latest: latest(store)?,
            authors: authors(store)?,
        };
        let mut clock = self.clock(before.latest.as_ref())?;
        let mut sealed = Vec::new();
        for (i, entry) in entries.iter().enumerate() {
            match self.seal_one(store, &mut clock, entry) {
                Ok(seq) => sealed.push(seq),
                Err(refusal) => {
                    let authors = authors(store)?;
                    return Err(Stopped {
                        what: format!("payload {}, {}", i + 1, beginning(&entry.payload)),
                        refused: Refused {
                            refusal,
                            faults: faults(refusal, entry, &before, authors),
                        },
                        advice: advice_on(refusal, authors),
                    });
                }
            }
        }
        Ok(sealed)
    }

    /// A clock that issues stamps above all that the store knows.
    fn clock(&self, latest: Option<&Known>) -> Result<HybridClock, Stopped> {
        match known::clock(self.author, self.max_drift_ms, latest, self.time_ms) {
            (clock, None) => Ok(clock),
            (_, Some(unfolded)) => Err(self.not_folded(unfolded)),
        }
    }

    fn not_folded(&self, Unfolded { latest, refusal }: Unfolded) -> Stopped {
        let time = format!("its time is {} UTC", latest.time());
        let fault = match refusal {
            Refusal::RemoteAhead { .. } => {
                // So long before its time other stores take a stamp, too.
                let lead = self.max_drift_ms.min(Limits::new().max_drift_ms);
                let from = latest.stamp.wall_time.saturating_sub(lead);
                format!("{time}; adding goes on at {} UTC", time::shown(from))
            }
            _ => time,
        };
        Stopped {
            what: format!("the stamp {}", latest.shown()),
            refused: Refused {
                refusal,
                faults: vec![fault],
            },
            advice: match refusal {
                Refusal::RemoteAhead { .. } if latest.is_floor() => AHEAD_FLOOR,
                _ => advice(refusal),
            },
        }
    }

    fn seal_one(
        &self,
        store: &mut Store,
        clock: &mut HybridClock,
        entry: &Entry,
    ) -> Result<u64, Refusal> {
        let issued = store.clock()?.get(self.author)?;
        let prepared = store.prepare(clock, self.time_ms, issued, &entry.payload)?;
        // Every other store would refuse the row, and all that come after it.
        if prepared.timestamp.logical_counter == u32::MAX {
            let (actor, seq) = (prepared.actor, prepared.seq);
            return Err(Refusal::SpentCounter { actor, seq });
        }
        store.seal(
            &prepared.bytes,
            entry.signature.as_deref().unwrap_or_default(),
        )?;
        Ok(prepared.seq)
    }
}

/// How many authors a store has rows of, or had before they were compacted.
pub fn authors(store: &Store) -> Result<usize, Refusal> {
    Ok(store.clock()?.entries()?.len())
}

/// So much of a payload that it is known again.
fn beginning(payload: &[u8]) -> String {
    cut(&plain(payload), 60)
}

/// What is at fault: what is too large, or the stamp above which there is none.
fn faults(refusal: Refusal, entry: &Entry, before: &Before, authors: usize) -> Vec<String> {
    let signature = entry.signature.as_deref().unwrap_or_default().len();
    let faults = match refusal {
        Refusal::OperationTooLarge => vec![
            above("the payload has", entry.payload.len(), "bytes", MAX_PAYLOAD),
            match before.authors < authors {
                // The first payload's row would be the author's first.
                true => above(
                    "with payload 1 the store would have rows of",
                    authors,
                    "authors",
                    MAX_DEPS,
                ),
                false => above("the store has rows of", authors, "authors", MAX_DEPS),
            },
        ],
        Refusal::OverCapacity => vec![above(
            "the signature has",
            signature,
            "bytes",
            MAX_SIGNATURE,
        )],
        Refusal::CounterOverflow | Refusal::SpentCounter { .. } => {
            let latest = before.latest.as_ref();
            vec![latest.map(|known| {
                let (stamp, time) = (known.shown(), known.time());
                format!("the store's latest stamp is {stamp}, at {time} UTC")
            })]
        }
        _ => Vec::new(),
    };
    faults.into_iter().flatten().collect()
}

/// What to do about a payload that is refused: of 26 only what applies.
fn advice_on(refusal: Refusal, authors: usize) -> Advice {
    match refusal {
        Refusal::OperationTooLarge if authors > MAX_DEPS => MANY_AUTHORS,
        Refusal::OperationTooLarge => LARGE_PAYLOAD,
        _ => advice(refusal),
    }
}
