//! The smallest lists that break ticket 13 where one thing is lacking, and beside each the nearby lists that hold.

use cuwelfra::Limits;

use crate::model::expiring::{carries, caught_up, lacks, missing, part, Lacks};
use crate::port::batches::{BatchRow, Offer, FRESH};
use crate::port::desk::row;
use crate::port::own::Sealing;
use crate::rng::Rng;
use crate::suites::beside::expiring::catch_up::accepted;
use crate::suites::beside::expiring::desk::Desk;
use crate::support::{agree, Check, Outcome};
use crate::world::own::Entry;

/// Two stores after their lists, and the batch by which the first catches up; where there is none, it is just the missing
/// rows at time 10 with age 0.
struct Case {
    first: Desk,
    second: Desk,
    batch: Option<Vec<BatchRow>>,
}

/// The part of ticket 13 that breaks.
#[derive(Clone, Copy, Debug, PartialEq, Eq)]
enum Part {
    Log,
    CatchUp,
}

/// The lists, with the thing lacking or not.
type Lists = fn(&mut Rng, bool) -> Result<Case, String>;

/// What is lacking, by the model's word where it is not the batch that lacks it; the part that breaks; the lists.
const CONTROLS: [(&str, Option<Lacks>, Part, Lists); 7] = [
    ("no other row in the batch", None, Part::CatchUp, other_row),
    ("held rows in the batch", None, Part::CatchUp, held_rows),
    (
        "one content",
        Some(Lacks::OneContent),
        Part::Log,
        two_contents,
    ),
    (
        "no more offers to the first",
        Some(Lacks::SameRows),
        Part::Log,
        more_logged,
    ),
    (
        "no more sealings in the first",
        Some(Lacks::SameRows),
        Part::Log,
        more_sealed,
    ),
    ("the limit", Some(Lacks::Span), Part::Log, second_expires),
    (
        "the condition on sealings",
        Some(Lacks::Sealings),
        Part::Log,
        sealed_late,
    ),
];

pub fn run(rng: &mut Rng) -> Outcome {
    for (what, lacking, breaks, lists) in CONTROLS {
        let case = lists(rng, true)?;
        let broken = judge(rng, case)?;
        let expected = Judged {
            lacks: lacking.into_iter().collect(),
            carries: lacking.is_some(),
            breaks: Some(breaks),
        };
        agree(&broken, &expected, || format!("{what}, left out"))?;
        let case = lists(rng, false)?;
        let fair = judge(rng, case)?;
        let expected = Judged {
            lacks: Vec::new(),
            carries: true,
            breaks: None,
        };
        agree(&fair, &expected, || what.into())?;
    }
    Ok(2 * CONTROLS.len() as u64)
}

/// What is lacking, whether the batch carries what it must, and the first part that breaks.
#[derive(Debug, PartialEq, Eq)]
struct Judged {
    lacks: Vec<Lacks>,
    carries: bool,
    breaks: Option<Part>,
}

fn judge(rng: &mut Rng, case: Case) -> Result<Judged, String> {
    let Case {
        mut first,
        second,
        batch,
    } = case;
    let (one, other) = (first.content()?, second.content()?);
    let lacks = lacks(&first.offers, &second.offers);
    let missing = missing(&one, &second.offers).into_iter().cloned();
    let rows = batch.unwrap_or_else(|| missing.map(BatchRow::new).collect());
    let carries = carries(&rows, &one, &second.offers);
    offer(rng, &mut first, 10, 0, rows)?;
    let breaks = match (part(&one, &other), caught_up(&first.content()?, &other)) {
        (Err(_), _) => Some(Part::Log),
        (_, Err(_)) => Some(Part::CatchUp),
        _ => None,
    };
    Ok(Judged {
        lacks,
        carries,
        breaks,
    })
}

/// The second was offered nothing, and the batch carries a row.
fn other_row(rng: &mut Rng, lacking: bool) -> Result<Case, String> {
    let (first, mut second) = (Desk::new(4), Desk::new(4));
    let waits = row(2, 4);
    if !lacking {
        offer(rng, &mut second, 0, 5, vec![waits.clone()])?;
    }
    Ok(Case {
        first,
        second,
        batch: Some(vec![waits]),
    })
}

/// Both hold a row that expires in an empty batch.
fn held_rows(rng: &mut Rng, lacking: bool) -> Result<Case, String> {
    let (mut first, mut second) = (Desk::new(4), Desk::new(4));
    let waits = row(1, 1).needs(2, 1);
    offer(rng, &mut first, 0, 5, vec![waits.clone()])?;
    offer(rng, &mut second, 0, 5, vec![waits])?;
    Ok(Case {
        first,
        second,
        batch: lacking.then(Vec::new),
    })
}

/// The second logged another content before; the first's is a duplicate to it.
fn two_contents(rng: &mut Rng, lacking: bool) -> Result<Case, String> {
    let (mut first, mut second) = (Desk::new(4), Desk::new(4));
    if lacking {
        let other = row(1, 1).payload(&[9]);
        offer(rng, &mut second, 0, 5, vec![other])?;
    }
    offer(rng, &mut first, 0, 5, vec![row(1, 1)])?;
    offer(rng, &mut second, 0, 5, vec![row(1, 1)])?;
    Ok(case(first, second))
}

/// The first logs a row that the second was not offered.
fn more_logged(rng: &mut Rng, lacking: bool) -> Result<Case, String> {
    let (mut first, mut second) = (Desk::new(4), Desk::new(4));
    offer(rng, &mut first, 0, 5, vec![row(1, 1)])?;
    if !lacking {
        offer(rng, &mut second, 0, 5, vec![row(1, 1)])?;
    }
    Ok(case(first, second))
}

/// The same with a row of the first's own.
fn more_sealed(rng: &mut Rng, lacking: bool) -> Result<Case, String> {
    let (mut first, mut second) = (Desk::new(4), Desk::new(4));
    seal(&mut first, 1)?;
    if !lacking {
        take_all(rng, &mut second, &first)?;
    }
    Ok(case(first, second))
}

/// The second waits for a row that comes when the waiting one expires, or just before.
fn second_expires(rng: &mut Rng, lacking: bool) -> Result<Case, String> {
    let (mut first, mut second) = (Desk::new(4), Desk::new(4));
    let age = if lacking { 9 } else { 10 };
    offer(rng, &mut second, 0, age, vec![row(1, 1).needs(2, 1)])?;
    offer(rng, &mut second, 10, age, vec![row(2, 1)])?;
    take_all(rng, &mut first, &second)?;
    Ok(case(first, second))
}

/// The second seals a row behind which another waits already, or before that one comes.
fn sealed_late(rng: &mut Rng, lacking: bool) -> Result<Case, String> {
    let (mut first, mut second) = (Desk::new(4), Desk::new(4));
    if !lacking {
        seal(&mut second, 2)?;
    }
    offer(rng, &mut second, 0, 5, vec![row(2, 2)])?;
    if lacking {
        seal(&mut second, 2)?;
    }
    take_all(rng, &mut first, &second)?;
    Ok(case(first, second))
}

/// The first catches up by just the missing rows.
fn case(first: Desk, second: Desk) -> Case {
    Case {
        first,
        second,
        batch: None,
    }
}

/// One batch of all that another store was offered.
fn take_all(rng: &mut Rng, desk: &mut Desk, from: &Desk) -> Check {
    let rows = from.offers.rows.iter().cloned().map(BatchRow::new);
    offer(rng, desk, 0, 5, rows.collect())
}

/// A batch that is accepted; outcomes are those that the original finds.
fn offer(rng: &mut Rng, desk: &mut Desk, time: u64, age: u64, rows: Vec<BatchRow>) -> Check {
    let rows = rows.into_iter().map(|lent| BatchRow::new(lent.row));
    let offer = Offer {
        limits: Limits::new().with_max_pending_age_ms(age),
        time,
        clock: FRESH,
        rows: rows.collect(),
    };
    let told = desk.batch(rng, &offer)?;
    agree(&accepted(&told), &true, || format!("{offer:02x?}"))
}

/// Seals a row of the desk's own.
fn seal(desk: &mut Desk, author: u64) -> Check {
    let bytes = desk.prepare(Entry {
        author,
        time: 10,
        payload: &[],
        ahead: 0,
    })?;
    desk.seal(&Sealing {
        bytes: bytes.ok_or("  a row was not prepared")?,
        signature: Vec::new(),
    })
}
