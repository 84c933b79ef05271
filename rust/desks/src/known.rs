//! The latest stamp that a store knows, and clocks that begin above it.

use cuwelfra::{ActorId, HybridClock, Refusal, Row, Store, Timestamp};

use crate::text::id;
use crate::{show, time};

/// A stamp that a store knows, and of what it is.
pub struct Known {
    pub stamp: Timestamp,
    place: String,
}

impl Known {
    fn of_row(kind: &str, row: &Row) -> Self {
        Self {
            stamp: row.timestamp,
            place: format!("{kind} row {}", id(row.actor, row.seq)),
        }
    }

    pub fn shown(&self) -> String {
        format!("{} of {}", show::stamp(self.stamp), self.place)
    }

    pub fn time(&self) -> String {
        time::shown(self.stamp.wall_time)
    }

    pub fn is_floor(&self) -> bool {
        self.place == FLOOR
    }
}

/// What the floor's stamp is of.
const FLOOR: &str = "the floor";

/// The latest stamp that a store knows: the floor, a watermark, or that of a logged or a held row.
pub fn latest(store: &Store) -> Result<Option<Known>, Refusal> {
    let floor = store.floor()?.map(|stamp| Known {
        stamp,
        place: FLOOR.to_owned(),
    });
    let compacted = store
        .watermarks()?
        .into_iter()
        .map(|(author, stamp)| Known {
            stamp,
            place: format!("a compacted row of author {}", author.0),
        });
    let (logged, held) = (store.logged()?, store.held()?);
    let logged = logged.iter().map(|row| Known::of_row("logged", row));
    let held = held.iter().map(|held| Known::of_row("held", &held.row));
    let all = floor.into_iter().chain(compacted).chain(logged).chain(held);
    // Of equal ones the last: a row that is there says more than a watermark.
    Ok(all.max_by_key(|known| known.stamp))
}

/// The latest stamp of a store, which a clock refused.
pub struct Unfolded<'a> {
    pub latest: &'a Known,
    pub refusal: Refusal,
}

/// A clock that issues stamps above all that a store knows, unless it refused the latest of them. A stamp that is not
/// above the clock tells it nothing, and would cost a counter: the latest of all is folded in alone.
pub fn clock(
    author: ActorId,
    max_drift_ms: u64,
    latest: Option<&Known>,
    time_ms: u64,
) -> (HybridClock, Option<Unfolded<'_>>) {
    let mut clock = HybridClock::new(author);
    clock.set_max_drift(max_drift_ms);
    let unfolded = latest.and_then(|latest| {
        let refusal = clock.update(&latest.stamp, time_ms).err()?;
        Some(Unfolded { latest, refusal })
    });
    (clock, unfolded)
}
