//! Whether two rows are one.

use super::says;
use crate::port::desk::{row, Desk};
use crate::support::{agree, Check};

pub fn by_value() -> Check {
    let mut desk = Desk::new(8);
    let held = row(1, 2).needs(2, 0);
    says(desk.offer([held.clone()]), "held 1")?;
    let lent = desk.lent(&[held]);
    says(desk.call(&lent), "held 1; duplicates 1")?;
    let start: &[u8] = &[1, 2, 0, 1, 1, 2, 1, 2, 0];
    agree(&&lent.batch[..9], &start, String::new)?;
    // The dependency's number, 00, as 80 00; the wall time, 02, as 82 00; the count, 01, as 81 00.
    for (at, longer) in [(8, [0x80, 0]), (1, [0x82, 0]), (0, [0x81, 0])] {
        let mut lent = lent.clone();
        lent.batch.splice(at..at + 1, longer);
        says(desk.call(&lent), "refused 3 0 0")?;
        says(desk.held(), "1:2")?;
    }
    Ok(())
}

pub fn conflicts() -> Check {
    let held = row(1, 2).at(7);
    let mut signed = held.clone();
    signed.row.signature.push(0);
    let mut counted = held.clone();
    counted.row.stamp.1 = 1;
    let others = [
        held.clone().at(8),
        counted,
        held.clone().needs(2, 0),
        held.clone().payload(&[1]),
        signed,
    ];
    for other in others {
        let mut desk = Desk::new(8);
        says(desk.offer([held.clone(), other.clone()]), "refused 13 1 2")?;
        says(desk.offer([held.clone()]), "held 1")?;
        says(desk.offer([row(1, 1), other]), "refused 13 1 2")?;
        says(desk.log(), "")?;
        says(desk.held(), "1:2")?;
    }
    Ok(())
}

pub fn below_the_clock() -> Check {
    let mut desk = Desk::new(8);
    says(desk.offer([row(1, 1)]), "logged 1:1")?;
    says(
        desk.offer([row(1, 1).payload(&[9]), row(1, 1).at(3)]),
        "duplicates 2",
    )
}

pub fn first_outcome() -> Check {
    let mut desk = Desk::new(8);
    let first = row(1, 2).outcome(2, 77);
    let rows = [first.clone(), first.clone().outcome(0, 0)];
    says(desk.offer(rows), "held 1; duplicates 1")?;
    let rows = [first.outcome(3, 0), row(1, 1).outcome(4, 255)];
    let wanted = "logged 1:1 fate 5/255, 1:2 fate 3/77; duplicates 1";
    says(desk.offer(rows), wanted)
}

pub fn own_dependency() -> Check {
    let mut desk = Desk::new(8);
    says(desk.offer([row(1, 1).needs(1, 1)]), "refused 10 1 1")?;
    says(desk.offer([row(1, 1).needs(1, 0)]), "logged 1:1")?;
    says(desk.offer([row(1, 2).needs(1, 1)]), "logged 1:2")
}
