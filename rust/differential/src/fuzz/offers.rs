//! Batch calls and rows: smaller ones, and how they are shown.

use cuwelfra::Limits;
use cuwelfra_sys::HybridParts;

use crate::fuzz::shrink::{hex, lower, smaller_bytes, without};
use crate::port::batches::{batch, BatchRow, Offer, FRESH};
use crate::port::rows::{Row, Stamp};

/// The settings, each of which can be put back.
const SETTINGS: [fn(&mut Limits) -> &mut u64; 7] = [
    |limits| &mut limits.max_pending,
    |limits| &mut limits.max_pending_per_actor,
    |limits| &mut limits.max_pending_bytes,
    |limits| &mut limits.max_pending_age_ms,
    |limits| &mut limits.max_drift_ms,
    |limits| &mut limits.max_deps,
    |limits| &mut limits.max_payload,
];

/// The same with one setting as it is by default.
pub fn plainer_limits(limits: &Limits) -> impl Iterator<Item = Limits> {
    let limits = *limits;
    let plainer = SETTINGS.iter().map(move |setting| {
        let mut plainer = limits;
        *setting(&mut plainer) = *setting(&mut Limits::default());
        plainer
    });
    plainer.filter(move |plainer| *plainer != limits)
}

/// A fresh clock; then one with the default drift, no actor, an earlier wall or a lower counter.
pub fn plainer_clocks(clock: &HybridParts) -> impl Iterator<Item = HybridParts> {
    let clock = *clock;
    let plain = [
        FRESH,
        HybridParts {
            max_drift_ms: FRESH.max_drift_ms,
            ..clock
        },
        HybridParts { actor: 0, ..clock },
    ];
    let walls = lower(clock.last_wall).map(move |last_wall| HybridParts { last_wall, ..clock });
    let counters = lower(clock.last_counter.into()).map(move |counter| HybridParts {
        last_counter: counter as u32,
        ..clock
    });
    let plainer = plain.into_iter().chain(walls).chain(counters);
    plainer.filter(move |plainer| *plainer != clock)
}

/// Fewer rows; then settings by default, an earlier time, a plainer clock, rows that verify with their own outcome.
pub fn smaller_offers(offer: &Offer) -> impl Iterator<Item = Offer> + '_ {
    let with = |rows: Vec<BatchRow>| Offer {
        rows,
        ..offer.clone()
    };
    let fewer = without(&offer.rows).map(with);
    let limits = plainer_limits(&offer.limits).map(|limits| Offer {
        limits,
        ..offer.clone()
    });
    let earlier = lower(offer.time).map(|time| Offer {
        time,
        ..offer.clone()
    });
    let clocks = plainer_clocks(&offer.clock).map(|clock| Offer {
        clock,
        ..offer.clone()
    });
    let plain = (0..offer.rows.len()).filter_map(move |at| {
        let mut rows = offer.rows.clone();
        let row = BatchRow::new(rows[at].row.clone());
        let changed = rows[at] != row;
        rows[at] = row;
        changed.then(|| with(rows))
    });
    let plainer = limits.chain(earlier).chain(clocks);
    fewer.chain(plainer).chain(plain)
}

/// The same author with less of everything else.
pub fn smaller_rows(row: &Row) -> Vec<Row> {
    let mut smaller = Vec::new();
    let mut put = |change: &dyn Fn(&mut Row)| {
        let mut other = row.clone();
        change(&mut other);
        smaller.push(other);
    };
    for deps in without(&row.deps) {
        put(&|row| row.deps.clone_from(&deps));
    }
    for payload in smaller_bytes(&row.payload) {
        put(&|row| row.payload.clone_from(&payload));
    }
    for signature in smaller_bytes(&row.signature) {
        put(&|row| row.signature.clone_from(&signature));
    }
    for (at, (_, number)) in row.deps.iter().enumerate() {
        lower(*number).for_each(|number| put(&|row| row.deps[at].1 = number));
    }
    for stamp in smaller_stamps(row.stamp) {
        put(&|row| row.stamp = stamp);
    }
    lower(row.seq).for_each(|seq| put(&|row| row.seq = seq));
    smaller
}

/// An earlier stamp of the same author.
pub fn smaller_stamps((wall, counter, author): Stamp) -> impl Iterator<Item = Stamp> {
    let walls = lower(wall).map(move |wall| (wall, counter, author));
    let counters = lower(counter.into()).map(move |counter| (wall, counter as u32, author));
    walls.chain(counters)
}

pub fn shown_stamp((wall, counter, author): Stamp) -> String {
    format!("{wall}/{counter}/{author}")
}

pub fn shown_row(row: &Row) -> String {
    let deps = row.deps.iter().map(|(author, n)| format!("{author}:{n}"));
    format!(
        "{}:{} stamp {} needs [{}] payload [{}] signature [{}]",
        row.author,
        row.seq,
        shown_stamp(row.stamp),
        deps.collect::<Vec<_>>().join(" "),
        hex(&row.payload),
        hex(&row.signature)
    )
}

pub fn shown_limits(limits: &Limits) -> String {
    if *limits == Limits::default() {
        return "default settings".into();
    }
    format!("{limits:?}")
}

pub fn shown_clock(clock: &HybridParts) -> String {
    format!(
        "clock of {} at {}/{} with drift {}",
        clock.actor, clock.last_wall, clock.last_counter, clock.max_drift_ms
    )
}

pub fn shown_offer(offer: &Offer) -> String {
    let mut text = format!(
        "batch of {} at time {}, {}, {}\n",
        offer.rows.len(),
        offer.time,
        shown_limits(&offer.limits),
        shown_clock(&offer.clock)
    );
    for lent in &offer.rows {
        text += &format!(
            "     {} verdict {} outcome {} detail {}\n",
            shown_row(&lent.row),
            lent.verdict,
            lent.outcome,
            lent.detail
        );
    }
    text + &format!("     bytes {}\n", hex(&batch(&offer.rows)))
}
