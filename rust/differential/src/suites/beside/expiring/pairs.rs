//! Pairs of lists: mostly those of which ticket 13 speaks, and some that lack one thing.

use crate::model::expiring::Lacks;
use crate::port::rows::Row;
use crate::rng::Rng;
use crate::suites::beside::expiring::desk::Desk;
use crate::suites::beside::expiring::lists::{List, Timing};
use crate::support::Check;
use crate::world::lists::Universe;
use crate::world::own::Own;

/// What a pair is made to lack, one in twelve each.
const LACKING: [Lacks; 4] = [
    Lacks::OneContent,
    Lacks::SameRows,
    Lacks::Span,
    Lacks::Sealings,
];

/// Two stores after their lists, and the universe of their rows.
pub struct Pair {
    pub universe: Universe,
    pub first: Desk,
    pub second: Desk,
}

impl Pair {
    pub fn new(rng: &mut Rng) -> Result<Self, String> {
        let lacking = LACKING.get(rng.below(12)).copied();
        let size = rng.pick(&[1, 2, 3, 4]);
        let mut universe = Universe::of(rng, &[1, 2, 3, 4][..size], 0);
        if lacking != Some(Lacks::OneContent) {
            universe.keep_one_content();
        }
        let fair = lacking != Some(Lacks::Sealings);
        let own = (!fair || rng.below(3) > 0).then(|| Own::new(rng, &mut universe, fair));
        let timing = match lacking {
            Some(Lacks::Span) => Timing::Any,
            _ => Timing::within(rng, &universe),
        };
        let side = rng.below(2);
        let own = |side: usize| own.map(|own| (own, own.authors[side]));
        let mut making = Making {
            universe: &universe,
            first: List::new(rng, &universe, Timing::Any, own(side)),
            second: List::new(rng, &universe, timing, own(1 - side)),
            more: lacking == Some(Lacks::SameRows),
        };
        match rng.below(3) {
            0 if !making.more => making.second_first(rng)?,
            1 => making.first_first(rng)?,
            _ => making.in_turns(rng)?,
        }
        let (first, second) = (making.first.desk, making.second.desk);
        Ok(Self {
            universe,
            first,
            second,
        })
    }
}

/// Two lists in the making, and whether the first is to be offered more than the second.
struct Making<'a> {
    universe: &'a Universe,
    first: List<'a>,
    second: List<'a>,
    more: bool,
}

impl Making<'_> {
    /// The first is offered a part of the second's rows, or all of them. Rows of its own the second would not have.
    fn second_first(&mut self, rng: &mut Rng) -> Check {
        self.second.calls(rng, &self.universe.rows)?;
        let rows = self.second.offered();
        self.first.seal_nothing();
        if rng.once_in(2) {
            self.first.calls(rng, &rows)?;
        }
        let rows = match rng.once_in(2) {
            true => rows,
            false => some(rng, rows),
        };
        self.first.deliver(rng, rows)
    }

    /// The second is offered all rows of the first, and maybe others.
    fn first_first(&mut self, rng: &mut Rng) -> Check {
        self.first.calls(rng, &self.universe.rows)?;
        if rng.once_in(2) {
            self.second.calls(rng, &self.universe.rows)?;
        }
        let rows = self.first.offered();
        self.deliver_rest(rng, rows)
    }

    /// Each is offered rows of the universe and of the other, and at the end the second all of the first.
    fn in_turns(&mut self, rng: &mut Rng) -> Check {
        for _ in 0..2 {
            let rows = [&self.universe.rows[..], &self.second.offered()].concat();
            self.first.calls(rng, &rows)?;
            let rows = [&self.universe.rows[..], &self.first.offered()].concat();
            self.second.calls(rng, &rows)?;
        }
        let mut rows = self.first.offered();
        rows.retain(|row| !self.second.desk.offers.rows.contains(row));
        self.deliver_rest(rng, rows)
    }

    /// The second is offered these rows; where the first is to have more, some of them.
    fn deliver_rest(&mut self, rng: &mut Rng, rows: Vec<Row>) -> Check {
        let rows = match self.more {
            true => some(rng, rows),
            false => rows,
        };
        self.second.deliver(rng, rows)
    }
}

fn some(rng: &mut Rng, mut rows: Vec<Row>) -> Vec<Row> {
    rows.retain(|_| rng.once_in(2));
    rows
}
