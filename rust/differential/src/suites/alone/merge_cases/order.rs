//! Which row comes first: in logging, in the areas, among faults.

use super::says;
use crate::port::desk::{row, Desk};
use crate::support::Check;

pub fn ties() -> Check {
    let mut desk = Desk::new(8);
    let rows = [row(1, 3).at(5), row(1, 1).at(5), row(1, 2).at(5)];
    says(desk.offer(rows), "logged 1:1, 1:2, 1:3")?;
    says(desk.log(), "1:3 1:2 1:1")?;
    says(
        desk.offer([row(1, 4).at(5), row(2, 1).at(5)]),
        "logged 1:4, 2:1",
    )?;
    says(desk.log(), "1:4 1:3 1:2 1:1 2:1")
}

pub fn least_first() -> Check {
    let mut desk = Desk::new(8);
    // 3:1 is released by the last of the others, and yet goes before 2:2.
    let rows = [
        row(2, 2).at(9),
        row(1, 1).at(7),
        row(2, 1).at(8),
        row(3, 1).at(1).needs(2, 1),
    ];
    says(desk.offer(rows), "logged 1:1, 2:1, 3:1, 2:2")
}

pub fn held() -> Check {
    let mut desk = Desk::new(8);
    let rows = [
        row(2, 4).at(5),
        row(1, 9).at(6),
        row(2, 3).at(5),
        row(1, 7).at(5),
    ];
    says(desk.offer(rows), "held 4")?;
    says(desk.held(), "1:7 2:3 2:4 1:9")?;
    // A held row may have a foreign stamp: its author decides where stamps are equal.
    desk.change(|content| content.held[0].row.stamp.2 = 2);
    says(desk.offer([row(2, 2).at(5)]), "held 5")?;
    says(desk.held(), "1:7 2:2 2:3 2:4 1:9")?;
    desk.change(|content| content.held[0].row.author = 0);
    desk.change(|content| content.held[3].row.author = 3);
    says(desk.offer([row(2, 8).at(5)]), "held 6")?;
    says(desk.held(), "0:7 2:2 2:3 2:8 3:4 1:9")
}

pub fn faults() -> Check {
    let mut desk = Desk::new(8);
    let conflict = [row(1, 2), row(1, 2).at(1)];
    says(desk.offer(conflict.clone()), "refused 13 1 2")?;
    // All faults of a row, the first of them alone.
    let mut all = row(1, 2).at(u64::MAX).needs(1, 9).unverified();
    desk.limits.max_payload = 1;
    desk.limits.max_deps = 0;
    all.row.stamp.1 = u32::MAX;
    all.row.stamp.2 = 7;
    all.row.seq = 0;
    let mut told = Vec::new();
    for _ in 5..=12 {
        let [first, second] = conflict.clone().map(|row| row.payload(&[]));
        told.push(desk.offer([first, second, all.clone(), row(3, 0)]));
        match told.len() {
            1 => all.row.seq = 2,
            2 => all.row.stamp.2 = 1,
            3 => all.row.stamp.1 = 0,
            4 => desk.limits.max_payload = 2,
            5 => desk.limits.max_deps = 1,
            6 => all.row.deps[0].1 = 1,
            _ => all.row.stamp.0 = 0,
        }
    }
    let wanted = "refused 5 1 0, refused 6 1 2, refused 7 1 2, refused 8 1 2, refused 9 1 2, \
                  refused 10 1 2, refused 11 1 2, refused 12 1 2";
    says(told.join(", "), wanted)
}
