//! The smallest lists with a sealing that may not stand: each breaks demand 3, and one part of the condition alone is against
//! it. Three parts have such a list: a row depending on it, a later one by its author, the number last issued, which a row
//! that is made up by hand can miss as a prepared one does.
//!
//! Two parts have none. A row with the right number that is not as prepared has the stamp of wall time 0 and counter 0,
//! which no clock issues: demand 3 holds with it. A row that was offered before, and could be sealed, is held and ready
//! where nothing expires: batches leave no such row, only another sealing that may not stand.

use crate::model::demand::{check, Against, Run};
use crate::port::batches::{unsigned, BatchRow, Offer, FRESH};
use crate::port::desk::row;
use crate::port::own::Sealing;
use crate::suites::alone::convergence::desk::Desk;
use crate::support::{agree, Check, Outcome};
use crate::world::own::Entry;

/// What is left out of the condition, what is then against the sealing, and the list.
type Control = (&'static str, Against, fn() -> Run);

const CONTROLS: [Control; 4] = [
    ("a row depending on it", Against::Depending, || {
        let mut desk = offered(row(1, 1).needs(2, 1));
        seal_own(&mut desk, 2, 0);
        desk.run
    }),
    ("a later one by its author", Against::Later, || {
        let mut desk = offered(row(1, 2));
        seal_own(&mut desk, 1, 0);
        desk.run
    }),
    ("the number last issued", Against::Number, || {
        let mut desk = Desk::new(4);
        seal_own(&mut desk, 1, 1);
        desk.run
    }),
    ("its number, made up by hand", Against::Number, || {
        let mut desk = Desk::new(4);
        seal(&mut desk, unsigned(&row(1, 2).row));
        desk.run
    }),
];

pub fn run() -> Outcome {
    for (what, against, list) in CONTROLS {
        let (run, again) = (list(), list());
        agree(&run.offers.sealed, &1, || format!("{what}: a sealing"))?;
        same_against(&run, &[against], what)?;
        let broken = check(&run, &again).is_err();
        agree(&broken, &true, || {
            format!("{what} left out: demand 3 breaks")
        })?;
    }
    Ok(CONTROLS.len() as u64 + fair()? + not_as_prepared()? + it()?)
}

/// A stamp that no clock issues: the sealing may not stand, and demand 3 holds all the same.
fn not_as_prepared() -> Outcome {
    let list = || {
        let mut desk = Desk::new(4);
        seal(&mut desk, unsigned(&row(1, 1).at(0).row));
        desk.run
    };
    let run = list();
    same_against(&run, &[Against::Number], "a stamp of 0")?;
    agree(&check(&run, &list()), &Ok(()), || "a stamp of 0".into())?;
    Ok(1)
}

/// A row that was offered is sealed: something else is against the sealing that made it ready.
fn it() -> Outcome {
    let waiting = row(1, 1).needs(2, 1);
    let list = || {
        let mut desk = offered(waiting.clone());
        seal_own(&mut desk, 2, 0);
        seal(&mut desk, unsigned(&waiting.row));
        desk.run
    };
    let run = list();
    same_against(&run, &[Against::Offered, Against::Depending], "it")?;
    let broken = check(&run, &list()).is_err();
    agree(&broken, &true, || "it left out: demand 3 breaks".into())?;
    Ok(1)
}

fn same_against(run: &Run, wanted: &[Against], what: &str) -> Check {
    let found: Vec<Against> = run.offers.against.iter().copied().collect();
    agree(&&found[..], &wanted, || format!("{what}: against it"))
}

/// The sealing of the first two lists before their batch: it may stand, and demand 3 holds.
fn fair() -> Outcome {
    let lists = [(row(1, 1).needs(2, 1), 2), (row(1, 2), 1)];
    for (later, author) in lists {
        let list = || {
            let mut desk = Desk::new(4);
            seal_own(&mut desk, author, 0);
            batch(&mut desk, later.clone());
            desk.run
        };
        let run = list();
        agree(&run.offers.against.is_empty(), &true, || {
            "a fair sealing".into()
        })?;
        agree(&check(&run, &list()), &Ok(()), || "demand 3".into())?;
    }
    Ok(2)
}

/// A store to which a row was offered.
fn offered(row: BatchRow) -> Desk {
    let mut desk = Desk::new(4);
    batch(&mut desk, row);
    desk
}

fn batch(desk: &mut Desk, row: BatchRow) {
    let accepted = desk.batch(&Offer {
        limits: cuwelfra::Limits::new(),
        time: 1_000,
        clock: FRESH,
        rows: vec![row],
    });
    assert_eq!(accepted, Ok(true), "a row that waits");
}

fn seal_own(desk: &mut Desk, author: u64, ahead: u64) {
    let bytes = desk.prepare(Entry {
        author,
        time: 10,
        payload: &[],
        ahead,
    });
    seal(desk, bytes.expect("a prepared row"));
}

fn seal(desk: &mut Desk, bytes: Vec<u8>) {
    let lent = Sealing {
        bytes,
        signature: Vec::new(),
    };
    desk.seal(&lent).expect("a sealed row");
}
