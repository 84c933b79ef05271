//! What becomes of logged rows, and the counts.

use super::says;
use crate::port::desk::{row, Desk};
use crate::support::{agree, Check};

pub fn stale() -> Check {
    let mut desk = Desk::new(8);
    says(desk.set_floor((2, 0, 1)), "")?;
    let rows = [
        row(1, 1).outcome(2, 77),
        row(1, 2),
        row(1, 3),
        row(2, 1).at(2),
    ];
    says(desk.offer(rows), "logged 1:1 stale, 1:2 stale, 2:1, 1:3")?;
    says(desk.log(), "1:1 1:2 2:1 1:3")
}

pub fn floors() -> Check {
    let mut desk = Desk::new(8);
    says(desk.offer([row(0, 1).at(0)]), "logged 0:1")?;
    says(desk.set_floor((0, 0, 0)), "")?;
    says(desk.offer([row(0, 2).at(0)]), "logged 0:2 stale")?;
    says(desk.set_floor((5, 1, 2)), "")?;
    for lower in [(5, 1, 1), (5, 0, 9), (4, 9, 9)] {
        says(desk.set_floor(lower), "")?;
    }
    agree(&desk.content().floor, &Some((5, 1, 2)), String::new)
}

pub fn balance() -> Check {
    let mut desk = Desk::new(8);
    desk.limits.max_pending_age_ms = 10;
    // Held before: 3.
    says(desk.offer([row(9, 2)]), "held 1")?;
    desk.time += 5;
    says(desk.offer([row(1, 2), row(8, 2)]), "held 3")?;
    desk.change(|content| {
        content.clock.insert(8, 2);
        content.compacted.insert(8, 2);
    });
    desk.set_floor((1, 0, 1));
    desk.time += 6;
    // In the batch: 6. Expired 1, duplicates 2, applied 1, stale 1, rejected 1, dropped 1, held 2: together 9.
    let rows = [
        row(1, 2),
        row(1, 1),
        row(1, 3).outcome(3, 0),
        row(7, 5),
        row(7, 5),
        row(6, 6),
    ];
    let wanted = "logged 1:1 stale, 1:2, 1:3 fate 4/0; held 2; duplicates 2; expired 1; dropped 1";
    says(desk.offer(rows), wanted)
}
