//! Quotas and the capacities of the store.

use super::says;
use crate::port::desk::{row, Desk};
use crate::support::{agree, Check};

pub fn equality() -> Check {
    let mut desk = Desk::new(8);
    desk.limits.max_pending = 1;
    says(desk.offer([row(1, 2)]), "held 1")?;
    says(desk.offer([row(1, 3)]), "refused 14 1 0")?;
    says(desk.held(), "1:2")?;
    let mut desk = Desk::new(8);
    desk.limits.max_pending_bytes = 4;
    says(desk.offer([row(1, 2), row(2, 2)]), "held 2")?;
    says(desk.offer([row(3, 2).payload(&[0])]), "refused 15 4 0")?;
    desk.limits.max_pending_per_actor = 1;
    says(desk.offer([row(1, 3).payload(&[])]), "refused 16 1 1")
}

pub fn after_release() -> Check {
    let mut desk = Desk::new(8);
    desk.limits.max_pending = 0;
    desk.limits.max_pending_bytes = 0;
    desk.limits.max_pending_per_actor = 0;
    let rows = [row(1, 3), row(1, 2), row(1, 1)];
    says(desk.offer_all(&rows), "logged 1:1, 1:2, 1:3")
}

pub fn in_order() -> Check {
    let mut desk = Desk::new(1);
    desk.limits.max_pending = 0;
    desk.limits.max_pending_bytes = 0;
    desk.limits.max_pending_per_actor = 0;
    let mut rows: Vec<_> = (1..=33).map(|author| row(author, 1)).collect();
    rows.push(row(1, 3));
    says(desk.offer_all(&rows), "refused 14 0 0")?;
    desk.limits.max_pending = 1;
    says(desk.offer_all(&rows), "refused 15 0 0")?;
    desk.limits.max_pending_bytes = 2;
    says(desk.offer_all(&rows), "refused 16 0 1")?;
    desk.limits.max_pending_per_actor = 1;
    says(desk.offer_all(&rows), "refused 17 0 0")?;
    let mut larger = Desk::new(33);
    says(larger.offer_all(&rows), "refused 18 0 0")
}

pub fn lowest_author() -> Check {
    let mut desk = Desk::new(8);
    desk.limits.max_pending_per_actor = 1;
    // Authors 3 and 2 have two rows each; 3 comes first by stamp and in the batch.
    let rows = [row(3, 2), row(3, 3), row(1, 9), row(2, 8), row(2, 9)];
    says(desk.offer_all(&rows), "refused 16 1 2")
}

pub fn full_log() -> Check {
    let mut desk = Desk::new(2);
    says(
        desk.offer([row(1, 1), row(1, 2), row(1, 3)]),
        "refused 17 0 0",
    )?;
    says(desk.offer([row(1, 1), row(1, 2)]), "logged 1:1, 1:2")?;
    says(desk.offer([row(1, 3)]), "refused 17 0 0")?;
    says(desk.offer([row(1, 4), row(1, 2)]), "held 1; duplicates 1")
}

pub fn full_clock() -> Check {
    let mut desk = Desk::new(64);
    let rows: Vec<_> = (1..=32).map(|author| row(author, 1)).collect();
    desk.offer_all(&rows);
    agree(&desk.content().clock.len(), &32, String::new)?;
    says(desk.offer([row(33, 1)]), "refused 18 0 0")?;
    says(desk.offer([row(32, 2), row(33, 2)]), "logged 32:2; held 1")?;
    // Watermarks are full where the clock is not.
    desk.change(|content| {
        content.rows.clear();
        content.clock.clear();
    });
    says(desk.offer([row(33, 1)]), "refused 18 0 0")?;
    says(desk.offer([row(32, 1)]), "logged 32:1; held 1")?;
    // A clock is full where watermarks are not.
    let mut desk = Desk::new(8);
    desk.change(|content| {
        content.compacted = (1..=32).map(|author| (author, 0)).collect();
        content.clock = content.compacted.clone();
    });
    says(desk.offer([row(33, 1)]), "refused 18 0 0")?;
    says(desk.offer([row(32, 1)]), "logged 32:1")
}
