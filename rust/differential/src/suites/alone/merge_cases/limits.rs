//! Settings, time, and sizes at their limits.

use super::says;
use crate::port::desk::{row, Desk};
use crate::support::{agree, Check};

pub fn drift() -> Check {
    let mut desk = Desk::new(8);
    desk.limits.max_drift_ms = 60_000;
    desk.time = 1_000;
    says(desk.offer([row(1, 1).at(61_000)]), "logged 1:1")?;
    says(desk.offer([row(1, 2).at(61_001)]), "refused 11 1 2")?;
    desk.time = u64::MAX - 5;
    says(desk.offer([row(1, 2).at(u64::MAX)]), "logged 1:2")
}

pub fn last_sequence() -> Check {
    let mut desk = Desk::new(8);
    desk.change(|content| {
        content.clock.insert(1, u64::MAX - 1);
        content.compacted.insert(1, u64::MAX - 1);
    });
    let last = row(1, u64::MAX).at(5);
    let wanted = format!("logged 1:{}", u64::MAX);
    says(desk.offer([last.clone()]), &wanted)?;
    says(desk.offer([last, row(1, 1)]), "duplicates 2")
}

pub fn room() -> Check {
    let mut desk = Desk::new(8);
    desk.limits.max_pending_age_ms = 0;
    says(desk.offer([row(1, 2)]), "held 1")?;
    desk.time += 1;
    let exact = desk.lent(&[row(1, 1)]);
    agree(
        &(exact.scratch, exact.output),
        &(2 * 704, 2 * 18),
        String::new,
    )?;
    let mut short = exact.clone();
    short.scratch -= 1;
    says(desk.call(&short), "refused 2 0 0")?;
    let mut short = exact.clone();
    short.output -= 1;
    says(desk.call(&short), "refused 2 0 0")?;
    says(desk.call(&exact), "logged 1:1; expired 1")
}

pub fn settings() -> Check {
    let mut desk = Desk::new(8);
    let most = desk.limits;
    says(desk.offer([]), "")?;
    desk.limits.max_pending = 65;
    says(desk.offer([]), "refused 4 0 0")?;
    desk.limits = most;
    desk.limits.max_deps = 17;
    says(desk.offer([]), "refused 4 0 0")?;
    desk.limits = most;
    desk.limits.max_payload = 257;
    says(desk.offer([]), "refused 4 0 0")
}
