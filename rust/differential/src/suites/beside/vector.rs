//! A million steps of vector clocks. Whole areas are compared after each step.

use cuwelfra_sys::{self as sys, ClockNumber, Told};
use oracle::clock::{CausalOrder, VectorClock};
use oracle::stubs::ActorId;

use crate::original::clock_told;
use crate::port::area::{self, Area, AUTHORS, BYTES};
use crate::rng::Rng;
use crate::support::{agree, pattern, refused, Check, Outcome};

const STEPS: u64 = 1_000_000;
const STEPS_OF_A_WORLD: usize = 250;
const CLOCKS: usize = 3;

pub fn run(rng: &mut Rng) -> Outcome {
    let mut steps = 0;
    while steps < STEPS {
        let mut world = World::new(rng);
        for _ in 0..STEPS_OF_A_WORLD {
            let what = world.step(rng)?;
            world.short(rng, what)?;
            steps += 1;
        }
    }
    Ok(steps)
}

#[derive(Clone, Copy, Debug)]
enum Call {
    Observe(u64, u64),
    Increment(u64),
    Get(u64),
    Merge(usize),
    Dominates(usize),
    Compare(usize),
}

/// A few clocks over one set of authors.
struct World {
    authors: Vec<u64>,
    clocks: Vec<VectorClock>,
}

impl World {
    fn new(rng: &mut Rng) -> Self {
        let size = rng.pick(&[1, 2, 3, 5, 8, 31, 32, 33, 34, 40]);
        let authors: Vec<u64> = match rng.below(3) {
            0 => (0..size).collect(),
            1 => (0..size).map(|i| u64::MAX - i).collect(),
            _ => (0..size).map(|_| rng.edge()).collect(),
        };
        let clocks = (0..CLOCKS).map(|_| start(rng, &authors)).collect();
        Self { authors, clocks }
    }

    fn call(&self, rng: &mut Rng) -> Call {
        let author = rng.pick(&self.authors);
        let other = rng.below(CLOCKS);
        match rng.below(9) {
            0..=2 => Call::Observe(author, number(rng, self.clocks[other].get(ActorId(author)))),
            3 | 4 => Call::Increment(author),
            5 => Call::Get(author),
            6 => Call::Merge(other),
            7 => Call::Dominates(other),
            _ => Call::Compare(other),
        }
    }

    /// One call on one clock. Gives them for the call on a short area.
    fn step(&mut self, rng: &mut Rng) -> Result<(usize, Call), String> {
        let own = rng.below(CLOCKS);
        let call = self.call(rng);
        let before = encode(&self.clocks[own]);
        let other = self.other(call);
        let inputs = || format!("{call:?} on {}", shown(&before, &other));
        let (wanted, after) = self.original(own, call);
        // Bytes past the area are not the call's.
        let extra = rng.pick(&[0, 0, 0, 1, 8, 100]);
        let mut lent = lend(&before, extra);
        let answer = port(&mut lent, call, &lend(&other, extra));
        agree(&answer, &wanted, inputs)?;
        let expected = lend(&encode(&after), extra);
        agree(&lent, &expected, inputs)?;
        let (answer, area) = wrapped(&before, call, &other);
        agree(&(answer, &area[..]), &(wanted, &expected[..BYTES]), inputs)?;
        self.clocks[own] = after;
        if rng.once_in(60) {
            self.clocks[own] = start(rng, &self.authors);
        }
        Ok((own, call))
    }

    /// The area of the other clock of a call.
    fn other(&self, call: Call) -> Area {
        match call {
            Call::Merge(j) | Call::Dominates(j) | Call::Compare(j) => encode(&self.clocks[j]),
            _ => [0; BYTES],
        }
    }

    /// The original's answer and its clock afterwards; 18 where it would have more authors than there are places.
    fn original(&self, own: usize, call: Call) -> (ClockNumber, VectorClock) {
        let mut clock = self.clocks[own].clone();
        let answer = match call {
            Call::Observe(author, seq) => {
                clock.observe(ActorId(author), seq);
                Ok(0)
            }
            Call::Increment(author) => clock.increment(ActorId(author)),
            Call::Get(author) => Ok(clock.get(ActorId(author))),
            Call::Merge(j) => {
                clock.merge(&self.clocks[j]);
                Ok(0)
            }
            Call::Dominates(j) => Ok(u64::from(clock.dominates(&self.clocks[j]))),
            Call::Compare(j) => Ok(match clock.compare(&self.clocks[j]) {
                CausalOrder::Before => 0,
                CausalOrder::After => 1,
                CausalOrder::Equal => 2,
                CausalOrder::Concurrent => 3,
            }),
        };
        if clock.peers.len() > AUTHORS {
            return (told(refused(18)), self.clocks[own].clone());
        }
        match answer {
            Ok(number) => (told_number(number), clock),
            Err(error) => (told(clock_told(&error)), clock),
        }
    }

    /// The same call with one or both areas too short is refused with 2.
    fn short(&self, rng: &mut Rng, (own, call): (usize, Call)) -> Check {
        let other = self.other(call);
        let area = encode(&self.clocks[own]);
        let cut = rng.pick(&[BYTES - 1, BYTES - 1, BYTES - 8, 8, 0]);
        let two = matches!(call, Call::Merge(_) | Call::Dominates(_) | Call::Compare(_));
        let (own_len, other_len) = match rng.below(3) {
            0 if two => (BYTES, cut),
            1 if two => (cut, cut),
            _ => (cut, BYTES),
        };
        let mut lent = area[..own_len].to_vec();
        let answer = port(&mut lent, call, &other[..other_len]);
        let inputs = || format!("{call:?} on areas of {own_len} and {other_len} bytes");
        agree(&answer, &told(refused(2)), inputs)?;
        agree(&lent, &area[..own_len].to_vec(), inputs)
    }
}

/// A clock to start from: empty, or with some entries, zeros among them.
fn start(rng: &mut Rng, authors: &[u64]) -> VectorClock {
    let mut clock = VectorClock::new();
    if rng.once_in(3) {
        return clock;
    }
    for _ in 0..rng.below(2 * AUTHORS) {
        if clock.peers.len() < AUTHORS {
            let number = number(rng, 0);
            clock.peers.insert(ActorId(rng.pick(authors)), number);
        }
    }
    clock
}

/// A number around 0, 2^32, 2^64 or the one given.
fn number(rng: &mut Rng, last: u64) -> u64 {
    match rng.below(4) {
        0 => rng.near(last),
        1 => rng.next() % 3,
        _ => rng.edge(),
    }
}

fn encode(clock: &VectorClock) -> Area {
    area::encode(clock.peers.iter().map(|(actor, seq)| (actor.0, *seq)))
}

/// The area with some bytes after it.
fn lend(area: &Area, extra: usize) -> Vec<u8> {
    let mut lent = area.to_vec();
    lent.extend(pattern(extra));
    lent
}

fn told(told: Told) -> ClockNumber {
    ClockNumber { told, number: 0 }
}

fn told_number(number: u64) -> ClockNumber {
    ClockNumber {
        told: Told::default(),
        number,
    }
}

fn port(area: &mut [u8], call: Call, other: &[u8]) -> ClockNumber {
    match call {
        Call::Observe(author, seq) => told(sys::clock_observe(area, author, seq)),
        Call::Increment(author) => sys::clock_increment(area, author),
        Call::Get(author) => sys::clock_get(area, author),
        Call::Merge(_) => told(sys::clock_merge(area, other)),
        Call::Dominates(_) => sys::clock_dominates(area, other),
        Call::Compare(_) => sys::clock_compare(area, other),
    }
}

/// The same call through the wrapper.
fn wrapped(area: &Area, call: Call, other: &Area) -> (ClockNumber, Area) {
    let mut clock = cuwelfra::VectorClock::from_area(*area);
    let other = cuwelfra::VectorClock::from_area(*other);
    let answer = match call {
        Call::Observe(author, seq) => clock.observe(cuwelfra::ActorId(author), seq).map(|()| 0),
        Call::Increment(author) => clock.increment(cuwelfra::ActorId(author)),
        Call::Get(author) => clock.get(cuwelfra::ActorId(author)),
        Call::Merge(_) => clock.merge(&other).map(|()| 0),
        Call::Dominates(_) => clock.dominates(&other).map(u64::from),
        Call::Compare(_) => clock.compare(&other).map(|order| order as u64),
    };
    let answer = match answer {
        Ok(number) => told_number(number),
        Err(refusal) => told(refusal.told()),
    };
    (answer, *clock.area())
}

fn shown(area: &Area, other: &Area) -> String {
    let own: Vec<_> = area::entries(area).collect();
    let other: Vec<_> = area::entries(other).collect();
    format!("{own:?}, other {other:?}")
}
