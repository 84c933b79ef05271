//! The original's hybrid clock, brought to any wall and counter, and a batch's stamps folded into it one after the other, as
//! its `Replica::apply_delta` folds them.

use cuwelfra_sys::HybridParts;
use oracle::clock::{HybridClock, ManualClock, Timestamp};
use oracle::error::ClockError;
use oracle::stubs::ActorId;

use crate::original::beside::timestamp;
use crate::port::batches::Folds;
use crate::port::rows::Stamp;

/// Wall and counter of a clock.
type Last = (u64, u32);

pub struct Clock {
    clock: HybridClock,
    source: ManualClock,
}

impl Clock {
    /// One step brings a new clock to any wall and counter.
    pub fn at(parts: &HybridParts) -> Self {
        let source = ManualClock::new(0);
        let mut clock = HybridClock::new(ActorId(parts.actor), Box::new(source.clone()));
        clock.set_max_drift(u64::MAX);
        let step = match parts.last_counter.checked_sub(1) {
            Some(counter) => clock.update(&timestamp((parts.last_wall, counter, 0))),
            None if parts.last_wall == 0 => Ok(()),
            None => {
                source.set(parts.last_wall);
                clock.now().map(|_| ())
            }
        };
        assert_eq!(step, Ok(()), "brought to {parts:?}");
        clock.set_max_drift(parts.max_drift_ms);
        Self { clock, source }
    }

    fn update(&mut self, stamp: Stamp, time: u64) -> Result<(), ClockError> {
        self.source.set(time);
        self.clock.update(&timestamp(stamp))
    }

    pub fn now(&mut self, time: u64) -> Result<Timestamp, ClockError> {
        self.source.set(time);
        self.clock.now()
    }

    /// Folds the stamps in at one time, and counts what became of them.
    pub fn fold<'a>(&mut self, time: u64, stamps: impl Iterator<Item = &'a Stamp>) -> Folds {
        let mut folds = Folds::default();
        for stamp in stamps {
            match self.update(*stamp, time) {
                Ok(()) => folds.passed += 1,
                Err(ClockError::RemoteTooFarAhead { .. }) => folds.ahead += 1,
                Err(ClockError::CounterOverflow) => folds.overflowed += 1,
            }
        }
        folds
    }

    /// Where it stands, which it keeps to itself: at time 0 it adds one to its counter, unless that is the last one. Then it
    /// stands at one of these walls, the one up to which it issues nothing.
    fn last(mut self, mut walls: Vec<u64>) -> Last {
        if let Ok(stamp) = self.now(0) {
            return (stamp.wall_time, stamp.logical_counter - 1);
        }
        walls.sort_unstable();
        for wall in walls {
            assert!(self.now(wall).is_err(), "it stands at none of the walls");
            let later = wall.checked_add(1);
            if later.is_none_or(|later| self.now(later).is_ok()) {
                return (wall, u32::MAX);
            }
        }
        panic!("it stands above all the walls");
    }
}

/// Where the clock stands after the stamps, and what became of them.
pub fn folded(parts: &HybridParts, time: u64, stamps: &[Stamp]) -> (Last, Folds) {
    let walls = || {
        let walls = stamps.iter().map(|stamp| stamp.0);
        walls.chain([parts.last_wall, time]).collect()
    };
    let mut clock = Clock::at(parts);
    let mut folds = clock.fold(time, stamps.iter());
    let last = clock.last(walls());
    if stamps.len() > 1 {
        let mut other = Clock::at(parts);
        other.fold(time, stamps.iter().rev());
        folds.ordered = other.last(walls()) != last;
    }
    (last, folds)
}
