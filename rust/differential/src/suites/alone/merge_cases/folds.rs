//! Where the hybrid clock stands after a batch.

use super::says;
use crate::port::desk::{row, Desk};
use crate::support::Check;

/// A store whose clock stands at 0/0, at this time.
fn at(time: u64) -> Desk {
    let mut desk = Desk::new(8);
    desk.time = time;
    desk
}

pub fn in_order() -> Check {
    let (low, high) = (row(1, 1).at(10).counter(5), row(2, 1).at(10).counter(7));
    let mut desk = at(10);
    says(desk.offer([low.clone(), high.clone()]), "logged 1:1, 2:1")?;
    says(desk.stands(), "10/8")?;
    let mut desk = at(10);
    says(desk.offer([high, low]), "logged 1:1, 2:1")?;
    says(desk.stands(), "10/9")
}

pub fn every_row() -> Check {
    let mut desk = at(10);
    let held = row(1, 2).at(10);
    says(desk.offer([held.clone()]), "held 1")?;
    says(desk.stands(), "10/1")?;
    says(desk.offer([held.clone(), held]), "held 1; duplicates 2")?;
    says(desk.stands(), "10/3")?;
    // The held row was folded when it came.
    says(desk.offer([row(1, 1).at(10)]), "logged 1:1, 1:2")?;
    says(desk.stands(), "10/4")?;
    // A duplicate of other content.
    says(desk.offer([row(1, 1).at(50)]), "duplicates 1")?;
    says(desk.stands(), "50/1")
}

pub fn at_the_time() -> Check {
    let mut desk = at(1_000);
    says(desk.offer([row(1, 1), row(1, 2)]), "logged 1:1, 1:2")?;
    says(desk.stands(), "1000/1")?;
    (desk.clock.last_wall, desk.clock.last_counter) = (5_000, 9);
    says(desk.offer([row(1, 3)]), "logged 1:3")?;
    says(desk.stands(), "5000/10")
}

pub fn remote_ahead() -> Check {
    let mut desk = at(1_000);
    desk.clock.max_drift_ms = 5;
    let rows = [
        row(1, 1).at(1_005),
        row(2, 1).at(1_006),
        row(3, 1).at(1_003),
    ];
    let wanted = "logged 3:1, 1:1, 2:1; failed folds 1";
    says(desk.offer(rows), wanted)?;
    says(desk.stands(), "1005/2")
}

pub fn counter_overflow() -> Check {
    let mut desk = at(1_000);
    let last = row(1, 1).at(2_000).counter(4_294_967_294);
    let rows = [last, row(2, 1).at(2_000), row(3, 1).at(2_001)];
    let wanted = "logged 2:1, 1:1, 3:1; failed folds 1";
    says(desk.offer(rows), wanted)?;
    says(desk.stands(), "2001/1")?;
    desk.clock.last_counter = 4_294_967_295;
    says(desk.offer([row(4, 1)]), "logged 4:1; failed folds 1")?;
    says(desk.stands(), "2001/4294967295")?;
    // A time above the wall begins anew.
    desk.time = 2_002;
    says(desk.offer([row(4, 2)]), "logged 4:2")?;
    says(desk.stands(), "2002/0")
}

pub fn two_drifts() -> Check {
    let mut desk = at(1_000);
    desk.limits.max_drift_ms = 5;
    says(desk.offer([row(1, 1).at(1_006)]), "refused 11 1 1")?;
    says(desk.stands(), "0/0")?;
    says(desk.offer([row(1, 1).at(1_005)]), "logged 1:1")?;
    says(desk.stands(), "1005/1")?;
    // The time and a drift do not pass 2^64 - 1.
    let mut desk = at(u64::MAX - 1);
    desk.clock.max_drift_ms = 0;
    let last = row(1, 1).at(u64::MAX);
    says(desk.offer([last.clone()]), "logged 1:1; failed folds 1")?;
    says(desk.stands(), "0/0")?;
    desk.clock.max_drift_ms = 5;
    says(desk.offer([last]), "duplicates 1")?;
    says(desk.stands(), "18446744073709551615/1")
}

pub fn nothing_to_fold() -> Check {
    let mut desk = at(u64::MAX);
    (desk.clock.last_wall, desk.clock.last_counter) = (7, 3);
    says(desk.offer([]), "")?;
    says(desk.stands(), "7/3")?;
    desk.time = 1_000;
    let rows = [row(1, 1), row(2, 1).unverified()];
    says(desk.offer(rows), "refused 12 2 1")?;
    says(desk.stands(), "7/3")
}
