//! Hybrid clocks: every choice of numbers around each boundary, one step each, and then a million steps at random, each
//! list of steps on one clock. Fails unless each line of the paper's figure was met, and each refusal.
//!
//! The original's state is seen through its stamps: a last look at the end of each list settles it.

use cuwelfra_sys::{self as sys, Hybrid, IssuedStamp, Told, UpdatedClock};
use oracle::clock::{HybridClock, ManualClock, Timestamp};
use oracle::error::ClockError;
use oracle::stubs::ActorId;

use crate::original::clock_told;
use crate::original::figure::{Lines, Step};
use crate::rng::Rng;
use crate::support::{agree, Check, Outcome};

const STEPS: u64 = 1_000_000;

/// Walls and physical times: both ends, and numbers in between that have an earlier and a later one.
const WALLS: [u64; 7] = [0, 1, 2, 3, 1 << 32, u64::MAX - 1, u64::MAX];
/// Counters; the last has no next.
const COUNTERS: [u32; 5] = [0, 1, 2, u32::MAX - 1, u32::MAX];
const DRIFTS: [u64; 4] = [0, 1, 60_000, u64::MAX];

/// Wall and counter of a clock or a stamp.
type Last = (u64, u32);

pub fn run(rng: &mut Rng) -> Outcome {
    let lines = &mut Lines::default();
    for own in pairs(WALLS, COUNTERS) {
        each_send(own, lines)?;
        each_stamp(own, lines)?;
    }
    at_random(rng, lines)?;
    lines.finish("hybrid")
}

fn pairs<A: Copy, B: Copy, const N: usize, const M: usize>(
    firsts: [A; N],
    seconds: [B; M],
) -> impl Iterator<Item = (A, B)> {
    firsts
        .into_iter()
        .flat_map(move |first| seconds.map(|second| (first, second)))
}

/// Sends at each time.
fn each_send(own: Last, lines: &mut Lines) -> Check {
    for physical in WALLS {
        let mut clocks = Clocks::at(own)?;
        lines.note(&clocks.now(physical)?)?;
        clocks.settle()?;
    }
    Ok(())
}

/// Takes in each stamp.
fn each_stamp(own: Last, lines: &mut Lines) -> Check {
    pairs(WALLS, COUNTERS).try_for_each(|remote| each_receive(own, remote, lines))
}

/// Takes a stamp in at each time and drift.
fn each_receive(own: Last, remote: Last, lines: &mut Lines) -> Check {
    for (physical, drift) in pairs(WALLS, DRIFTS) {
        let mut clocks = Clocks::at(own)?;
        clocks.set_max_drift(drift)?;
        lines.note(&clocks.update((remote.0, remote.1, 7), physical)?)?;
        clocks.settle()?;
    }
    Ok(())
}

fn at_random(rng: &mut Rng, lines: &mut Lines) -> Check {
    let mut steps = 0;
    while steps < STEPS {
        let mut clocks = Clocks::new(rng.edge())?;
        if !rng.once_in(4) {
            let wall = rng.edge();
            let counter = counter(rng, 0);
            clocks.bring_to((wall, counter))?;
            clocks.set_max_drift(drift(rng))?;
        }
        let list = if rng.once_in(2) { 1 } else { 1 + rng.below(40) };
        for _ in 0..list {
            if let Some(step) = clocks.step(rng)? {
                lines.note(&step)?;
            }
            steps += 1;
        }
        clocks.settle()?;
    }
    Ok(())
}

fn drift(rng: &mut Rng) -> u64 {
    match rng.below(4) {
        0 => 60_000,
        1 => rng.below(3) as u64,
        _ => rng.edge(),
    }
}

/// A counter around 0, 2^32 or the one given.
fn counter(rng: &mut Rng, last: u32) -> u32 {
    match rng.below(3) {
        0 => rng.near(u64::from(last)) as u32,
        1 => rng.near(0) as u32,
        _ => rng.edge32(),
    }
}

/// One clock of the original, of the exported calls and of the wrapper.
struct Clocks {
    original: HybridClock,
    source: ManualClock,
    port: Hybrid,
    wrapped: cuwelfra::HybridClock,
}

impl Clocks {
    fn new(actor: u64) -> Result<Self, String> {
        let source = ManualClock::new(0);
        let port = sys::hybrid_new(actor);
        let fresh = Hybrid {
            actor,
            last_wall: 0,
            last_counter: 0,
            max_drift_ms: oracle::clock::DEFAULT_MAX_DRIFT_MS,
        };
        agree(&port, &fresh, || format!("hybrid_new of {actor}"))?;
        Ok(Self {
            original: HybridClock::new(ActorId(actor), Box::new(source.clone())),
            source,
            port,
            wrapped: cuwelfra::HybridClock::new(cuwelfra::ActorId(actor)),
        })
    }

    fn at(own: Last) -> Result<Self, String> {
        let mut clocks = Self::new(9)?;
        clocks.bring_to(own)?;
        Ok(clocks)
    }

    /// One step brings a new clock to any wall and counter.
    fn bring_to(&mut self, (wall, counter): Last) -> Check {
        self.set_max_drift(u64::MAX)?;
        if counter > 0 {
            self.update((wall, counter - 1, 7), 0)?;
        } else if wall > 0 {
            self.now(wall)?;
        }
        let state = (self.port.last_wall, self.port.last_counter);
        agree(&state, &(wall, u64::from(counter)), || {
            format!("brought to {wall}/{counter}")
        })
    }

    /// A step that sends or receives, or another drift.
    fn step(&mut self, rng: &mut Rng) -> Result<Option<Step>, String> {
        let last = self.port.last_wall;
        let physical = match rng.below(4) {
            0 => rng.near(last),
            1 => last.saturating_sub(rng.next() % 100),
            2 => last.saturating_add(rng.next() % 3),
            _ => rng.edge(),
        };
        match rng.below(8) {
            0 => self.set_max_drift(drift(rng)).map(|()| None),
            1..=3 => self.now(physical).map(Some),
            _ => {
                let remote = self.remote(rng, physical);
                self.update(remote, physical).map(Some)
            }
        }
    }

    /// A stamp around the own, the physical time and the end of the drift.
    fn remote(&self, rng: &mut Rng, physical: u64) -> (u64, u32, u64) {
        let last = self.port.last_wall;
        let limit = physical.saturating_add(self.port.max_drift_ms);
        let wall = match rng.below(7) {
            0 => last,
            1 => physical,
            2 => rng.near(last),
            3 => rng.near(physical),
            4 => limit,
            5 => rng.near(limit),
            _ => rng.edge(),
        };
        let counter = counter(rng, self.port.last_counter as u32);
        (wall, counter, rng.edge())
    }

    fn set_max_drift(&mut self, drift: u64) -> Check {
        let before = self.port;
        self.original.set_max_drift(drift);
        self.wrapped.set_max_drift(drift);
        self.port = sys::hybrid_set_max_drift(
            before.actor,
            before.last_wall,
            before.last_counter as u32,
            before.max_drift_ms,
            drift,
        );
        let wanted = Hybrid {
            max_drift_ms: drift,
            ..before
        };
        agree(&self.port, &wanted, || {
            format!("set_max_drift of {before:?} to {drift}")
        })?;
        self.same_wrapped(|| format!("set_max_drift of {before:?} to {drift}"))
    }

    fn now(&mut self, physical: u64) -> Result<Step, String> {
        let before = self.port;
        let inputs = || format!("now of {before:?} at {physical}");
        self.source.set(physical);
        let original = self.original.now();
        let issued = sys::hybrid_now(
            before.actor,
            before.last_wall,
            before.last_counter as u32,
            before.max_drift_ms,
            physical,
        );
        agree(&issued, &issued_by(&before, &original), inputs)?;
        self.port.last_wall = issued.last_wall;
        self.port.last_counter = issued.last_counter;
        let wrapped = self.wrapped.now(physical).map_err(|r| r.told());
        let wanted = original.map(wrap).map_err(|e| clock_told(&e));
        agree(&wrapped, &wanted, inputs)?;
        self.same_wrapped(inputs)?;
        Ok(Step {
            own: before.last_wall,
            remote: None,
            physical,
            refused: issued.told.number,
        })
    }

    fn update(&mut self, remote: (u64, u32, u64), physical: u64) -> Result<Step, String> {
        let before = self.port;
        let inputs = || format!("update of {before:?} with {remote:?} at {physical}");
        self.source.set(physical);
        let stamp = Timestamp {
            wall_time: remote.0,
            logical_counter: remote.1,
            actor_id: ActorId(remote.2),
        };
        let original = self.original.update(&stamp).map_err(|e| clock_told(&e));
        let updated = sys::hybrid_update(
            before.actor,
            before.last_wall,
            before.last_counter as u32,
            before.max_drift_ms,
            remote,
            physical,
        );
        match original {
            // Where the clock stands now shows in the stamps that follow.
            Ok(()) => agree(&updated.told, &Told::default(), inputs)?,
            Err(told) => {
                let wanted = UpdatedClock {
                    told,
                    last_wall: before.last_wall,
                    last_counter: before.last_counter,
                };
                agree(&updated, &wanted, inputs)?;
            }
        }
        self.port.last_wall = updated.last_wall;
        self.port.last_counter = updated.last_counter;
        let wrapped = self.wrapped.update(&wrap(stamp), physical);
        agree(&wrapped.map_err(|r| r.told()), &original, inputs)?;
        self.same_wrapped(inputs)?;
        Ok(Step {
            own: before.last_wall,
            remote: Some(remote.0),
            physical,
            refused: updated.told.number,
        })
    }

    fn same_wrapped(&self, inputs: impl FnOnce() -> String) -> Check {
        let (wall, counter) = self.wrapped.last();
        let wrapped = Hybrid {
            actor: self.wrapped.actor().0,
            last_wall: wall,
            last_counter: u64::from(counter),
            max_drift_ms: self.wrapped.max_drift_ms(),
        };
        agree(&wrapped, &self.port, inputs)
    }

    /// Finds out where the original stands: at time 0 it adds one to its counter, unless that is the last one.
    fn settle(mut self) -> Check {
        let port = (self.port.last_wall, self.port.last_counter);
        let inputs = || format!("the state after a list that ends in {:?}", self.port);
        self.source.set(0);
        match self.original.now() {
            Ok(stamp) => {
                let state = (stamp.wall_time, u64::from(stamp.logical_counter) - 1);
                agree(&port, &state, inputs)
            }
            Err(_) => {
                agree(&port.1, &u64::from(u32::MAX), inputs)?;
                let own = self.issues_at(port.0);
                let later = port.0.checked_add(1).map(|wall| self.issues_at(wall));
                agree(&(own, later.unwrap_or(true)), &(false, true), || {
                    format!("the wall after a list that ends in {:?}", self.port)
                })
            }
        }
    }

    /// Whether the original issues a stamp at this time, its counter being the last one.
    fn issues_at(&mut self, physical: u64) -> bool {
        self.source.set(physical);
        self.original.now().is_ok()
    }
}

fn issued_by(before: &Hybrid, original: &Result<Timestamp, ClockError>) -> IssuedStamp {
    match original {
        Ok(stamp) => IssuedStamp {
            told: Told::default(),
            wall_time: stamp.wall_time,
            logical_counter: u64::from(stamp.logical_counter),
            actor_id: stamp.actor_id.0,
            last_wall: stamp.wall_time,
            last_counter: u64::from(stamp.logical_counter),
        },
        Err(error) => IssuedStamp {
            told: clock_told(error),
            last_wall: before.last_wall,
            last_counter: before.last_counter,
            ..IssuedStamp::default()
        },
    }
}

fn wrap(stamp: Timestamp) -> cuwelfra::Timestamp {
    cuwelfra::Timestamp {
        wall_time: stamp.wall_time,
        logical_counter: stamp.logical_counter,
        actor_id: cuwelfra::ActorId(stamp.actor_id.0),
    }
}
