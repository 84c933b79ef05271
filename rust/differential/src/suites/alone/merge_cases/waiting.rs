//! Rows that wait: released, expired, dropped.

use super::says;
use crate::port::desk::{row, Desk};
use crate::support::Check;

pub fn waits() -> Check {
    let mut desk = Desk::new(8);
    says(desk.offer([row(2, 1).needs(1, 1)]), "held 1")?;
    says(desk.offer([row(1, 1)]), "logged 1:1, 2:1")
}

pub fn empty_batch() -> Check {
    let mut desk = Desk::new(8);
    says(desk.offer([row(2, 1).needs(1, 1)]), "held 1")?;
    desk.change(|content| {
        let local = row(1, 1).row;
        content.clock.insert(1, 1);
        content.marks.insert(1, local.stamp);
        content.rows.push(local);
    });
    says(desk.offer([]), "logged 2:1")
}

pub fn expiry() -> Check {
    let mut desk = Desk::new(8);
    desk.limits.max_pending_age_ms = 50;
    desk.time = 100;
    says(desk.offer([row(1, 2)]), "held 1")?;
    desk.time = 150;
    says(desk.offer([]), "held 1")?;
    desk.time = 151;
    says(desk.offer([]), "expired 1")?;
    // The time minus the age is not below 0.
    desk.time = 10;
    says(desk.offer([row(1, 2)]), "held 1")?;
    desk.time = 49;
    says(desk.offer([]), "held 1")
}

pub fn no_renewal() -> Check {
    let mut desk = Desk::new(8);
    desk.limits.max_pending_age_ms = 50;
    desk.time = 100;
    says(desk.offer([row(1, 2)]), "held 1")?;
    desk.time = 140;
    says(desk.offer([row(1, 2)]), "held 1; duplicates 1")?;
    desk.time = 151;
    says(desk.offer([]), "expired 1")
}

pub fn expired_conflict() -> Check {
    let mut desk = Desk::new(8);
    desk.limits.max_pending_age_ms = 0;
    says(desk.offer([row(1, 2)]), "held 1")?;
    desk.time += 1;
    let other = row(1, 2).payload(&[9]);
    says(desk.offer([other, row(1, 1)]), "logged 1:1, 1:2; expired 1")
}

pub fn dropped() -> Check {
    let mut desk = Desk::new(8);
    let rows = [row(1, 2), row(1, 3).needs(2, 1)];
    says(desk.offer(rows), "held 2")?;
    // A snapshot brings the clock past both.
    desk.change(|content| {
        content.clock.insert(1, 3);
        content.compacted.insert(1, 3);
    });
    says(desk.offer([row(1, 2)]), "held 1; duplicates 1; dropped 1")?;
    says(desk.held(), "1:3")?;
    says(desk.offer([row(2, 1)]), "logged 2:1; dropped 1")
}
