//! Stores made anew from lists of rows and a compacted clock, whatever the areas held before.

use cuwelfra_sys::{self as sys, Told};

use crate::original::beside::{authors_fit, content_of, log_of, operation};
use crate::port::area::{self, BYTES};
use crate::port::rows::{self, Row, SLOT};
use crate::port::store::{same_areas, Areas, Content, Entries, HEAD, HELD};
use crate::port::wrapped::refusal;
use crate::rng::Rng;
use crate::support::{agree, pattern, refused, Check, Outcome};
use crate::world::World;

const LISTS: usize = 200_000;

pub fn run(rng: &mut Rng) -> Outcome {
    let mut cases = new_stores()?;
    for list in small_lists(3) {
        for compacted in small_clocks() {
            let parts = Parts::of(&list, &compacted, 3);
            parts.made(&mut Areas::new(3, 1))?;
            cases += 1;
        }
    }
    cases += large(rng)?;
    let mut areas = Areas::new(1, 0);
    for _ in 0..LISTS {
        let parts = Parts::random(rng);
        let fresh = rng.once_in(8) || parts.areas_differ(&areas);
        if fresh {
            areas = parts.areas(rng);
        }
        parts.made(&mut areas)?;
        cases += 1;
    }
    Ok(cases)
}

/// The wrapper's new stores are all zero, and empty.
fn new_stores() -> Outcome {
    let sizes = [0, 1, 2, 1_024, 1_025, usize::MAX];
    for rows in sizes {
        let store = cuwelfra::Store::with_capacity(rows);
        let wanted = match rows {
            0 => Err(2),
            1..=1_024 => Ok((Areas::new(rows, 0), Ok(()), Ok(0), Ok(None))),
            _ => Err(4),
        };
        let store = store.map_err(|refusal| refusal.number()).map(|store| {
            let answers = (store.check(), store.logged_len(), store.logged_at(0));
            let (log, held, head) = store.into_areas();
            (Areas { log, held, head }, answers.0, answers.1, answers.2)
        });
        agree(&store, &wanted, || format!("a store of {rows} rows"))?;
    }
    Ok(sizes.len() as u64)
}

/// Logs around 1,024 rows, in areas with 1,026 slots: more rows are 17, and the last two slots stay.
fn large(rng: &mut Rng) -> Outcome {
    let world = World::new(rng);
    for count in [1_023, 1_024, 1_025, 1_026] {
        let rows = world.rows(rng, count);
        let mut areas = Areas::new(1_024, 2 * SLOT);
        areas.held.fill(7);
        let clock = small_clocks().remove(4);
        Parts::of(&rows, &clock, 1_024).made(&mut areas)?;
        if count > 1_024 {
            continue;
        }
        // The 1,024th row fits, the 1,025th does not.
        let row = world.row(rng);
        let mut after = areas.clone();
        let mut told = refused(17);
        if count < 1_024 {
            let mut log = log_of(&rows, &clock);
            log.insert(operation(&row));
            after.write(&content_of(&log));
            told = Told::default();
        }
        let inputs = || format!("insert into {count} rows");
        let (log, held, head) = (&mut areas.log, &areas.held, &mut areas.head);
        agree(&sys::insert(log, held, head, &row.slot()), &told, inputs)?;
        same_areas(&areas, &after, inputs)?;
    }
    Ok(4)
}

/// All lists of up to `len` rows of two authors, two times and three numbers.
pub fn small_lists(len: usize) -> Vec<Vec<Row>> {
    let mut rows = Vec::new();
    for i in 0..12u64 {
        let author = 1 + i % 2;
        rows.push(Row {
            stamp: (1 + i / 2 % 2, 0, author),
            author,
            seq: i / 4,
            deps: Vec::new(),
            payload: vec![i as u8],
            signature: Vec::new(),
        });
    }
    let mut lists = vec![Vec::new()];
    let mut last = lists.clone();
    for _ in 0..len {
        let longer = last.iter().flat_map(|list: &Vec<Row>| {
            rows.iter().map(move |row| {
                let mut longer = list.clone();
                longer.push(row.clone());
                longer
            })
        });
        last = longer.collect();
        lists.extend(last.clone());
    }
    lists
}

/// Clocks over the same authors, zeros among them.
pub fn small_clocks() -> Vec<Entries> {
    let clocks: [&[(u64, u64)]; 6] = [
        &[],
        &[(1, 0)],
        &[(1, 1)],
        &[(2, 2)],
        &[(1, 0), (2, 1)],
        &[(1, 2), (2, 0)],
    ];
    clocks.map(|clock| clock.iter().copied().collect()).to_vec()
}

struct Parts {
    /// `None` where a slot was damaged.
    rows: Option<Vec<Row>>,
    parts: Vec<u8>,
    count: usize,
    compacted: Entries,
    clock: Vec<u8>,
    capacity: usize,
    behind: usize,
    /// Bytes that the three areas lack.
    lack: [usize; 3],
}

impl Parts {
    fn of(rows: &[Row], compacted: &Entries, capacity: usize) -> Self {
        Self {
            rows: Some(rows.to_vec()),
            parts: rows.iter().flat_map(Row::slot).collect(),
            count: rows.len(),
            compacted: compacted.clone(),
            clock: area::encode(compacted.clone()).to_vec(),
            capacity,
            behind: 1,
            lack: [0; 3],
        }
    }

    fn random(rng: &mut Rng) -> Self {
        let many = rng.once_in(50);
        let world = if many {
            let size = rng.pick(&[32, 33, 34, 40]);
            World::of(rng, size)
        } else {
            World::new(rng)
        };
        let count = if many {
            33 + rng.below(20)
        } else {
            rng.below(9)
        };
        let most = world.authors.len().min(area::AUTHORS);
        let compacted = world.clock(rng, most);
        let capacity = rng.pick(&[1, 4, 8, 8, 60]);
        let mut parts = Self::of(&world.rows(rng, count), &compacted, capacity);
        parts.behind = rng.pick(&[0, 7, SLOT - 1]);
        parts.parts.extend(pattern(rng.pick(&[0, 0, 1, SLOT])));
        parts.clock.extend(pattern(rng.pick(&[0, 0, 3])));
        parts.spoil(rng);
        parts
    }

    fn spoil(&mut self, rng: &mut Rng) {
        if rng.once_in(10) && self.count > 0 {
            let i = rng.below(self.count);
            let slot = &mut self.parts[i * SLOT..][..SLOT];
            let place = rng.pick(&[1, 5, 6, 7, 8, 9, 10, 11, 15, 47, 79, 87]);
            area::set_word(slot, place, rng.edge());
            if rows::read_logged(slot).is_none() {
                self.rows = None;
            } else {
                slot.copy_from_slice(&self.rows.as_ref().expect("not damaged yet")[i].slot());
            }
        }
        if rng.once_in(20) {
            area::set_word(&mut self.clock, 0, rng.pick(&[33, u64::MAX]));
        }
        match rng.below(40) {
            0 => self.parts.truncate((self.count * SLOT).saturating_sub(1)),
            1 => self.count = self.parts.len() / SLOT + 1,
            2 => self.count = usize::MAX / SLOT + 1 + rng.below(3),
            3 => self.clock.truncate(BYTES - 1),
            4 => self.lack = rng.pick(&[[1, 0, 0], [0, 1, 0], [0, 0, 1], [1, 1, 1]]),
            _ => {}
        }
    }

    fn areas_differ(&self, areas: &Areas) -> bool {
        self.lack != [0; 3]
            || areas.capacity() != self.capacity
            || areas.held.len() < HELD
            || areas.head.len() < HEAD
    }

    /// Areas with any bytes.
    fn areas(&self, rng: &mut Rng) -> Areas {
        let mut areas = Areas::new(self.capacity, self.behind);
        areas.log.fill(rng.byte());
        areas.held.fill(rng.byte());
        areas.head.fill(rng.byte());
        if self.lack[0] > 0 {
            areas.log.truncate(SLOT - 1);
        }
        if self.lack[1] > 0 {
            areas.held.truncate(HELD - 1);
        }
        if self.lack[2] > 0 {
            areas.head.truncate(HEAD - 1);
        }
        areas
    }

    /// What the original makes of the rows.
    fn content(&self) -> Result<Content, u64> {
        let short =
            self.lack != [0; 3] || self.clock.len() < BYTES || self.count > self.parts.len() / SLOT;
        if short {
            return Err(2);
        }
        if !area::is_sound(&self.clock) {
            return Err(1);
        }
        let rows = self.rows.as_ref().ok_or(1u64)?;
        let rows = &rows[..self.count];
        let log = log_of(rows, &self.compacted);
        if rows.len() > self.capacity {
            return Err(17);
        }
        if !authors_fit(&log) {
            return Err(18);
        }
        Ok(content_of(&log))
    }

    fn made(&self, areas: &mut Areas) -> Check {
        let mut after = areas.clone();
        let wanted = match self.content() {
            Ok(content) => {
                after.write(&content);
                Told::default()
            }
            Err(number) => refused(number),
        };
        let inputs = || {
            format!(
                "from_parts of {:02x?}, {} counted in {} bytes, compacted {:?}, capacity {}",
                self.rows,
                self.count,
                self.parts.len(),
                self.compacted,
                self.capacity
            )
        };
        let told = self.call(areas);
        agree(&told, &wanted, inputs)?;
        same_areas(areas, &after, inputs)
    }

    /// Through the wrapper where it can say the same.
    fn call(&self, areas: &mut Areas) -> Told {
        let exact = self.parts.len() == self.count.wrapping_mul(SLOT) && self.clock.len() == BYTES;
        if !exact || self.count & 1 == 0 {
            return sys::from_parts(
                &mut areas.log,
                &mut areas.held,
                &mut areas.head,
                &self.parts,
                self.count,
                &self.clock,
            );
        }
        let slots = self.parts.chunks(SLOT).map(|slot| {
            let slot = slot.try_into();
            cuwelfra::Slot::from_area(slot.expect("a slot's bytes"))
        });
        let slots: Vec<_> = slots.collect();
        let clock = self.clock[..].try_into();
        let clock = cuwelfra::VectorClock::from_area(clock.expect("a clock's bytes"));
        let lent = std::mem::take(areas);
        let mut store = cuwelfra::Store::from_areas(lent.log, lent.held, lent.head);
        let told = refusal(store.rebuild(&slots, &clock));
        let (log, held, head) = store.into_areas();
        *areas = Areas { log, held, head };
        told
    }
}
