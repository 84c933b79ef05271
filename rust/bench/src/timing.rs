//! Repeated timings of several subjects, one after the other in each round, so that disturbances hit all of them.

use std::fmt;
use std::fs;
use std::hint::black_box;
use std::sync::atomic::{AtomicU64, Ordering::Relaxed};
use std::time::{Duration, Instant};

/// Rounds before those that count.
const WARM_UP: usize = 5;
/// How often a call is made at most until nothing disturbs it.
const ATTEMPTS: usize = 8;

/// The median and the quartiles.
#[derive(Clone, Copy, Default)]
pub struct Spread {
    pub low: Duration,
    pub median: Duration,
    pub high: Duration,
    /// Most of the times are of disturbed calls.
    disturbed: bool,
}

impl Spread {
    fn of(mut times: Vec<Timed>) -> Self {
        times.sort_by_key(|timed| timed.time);
        let at = |quarter: usize| times[(times.len() - 1) * quarter / 4].time;
        let disturbed = times.iter().filter(|timed| timed.disturbed).count();
        Self {
            low: at(1),
            median: at(2),
            high: at(3),
            disturbed: 2 * disturbed > times.len(),
        }
    }

    /// How many times the other's median this one's is.
    pub fn over(&self, other: &Self) -> f64 {
        self.median.as_secs_f64() / other.median.as_secs_f64()
    }
}

/// In microseconds.
impl fmt::Display for Spread {
    fn fmt(&self, f: &mut fmt::Formatter) -> fmt::Result {
        let [low, median, high] = [self.low, self.median, self.high].map(micros);
        let mark = if self.disturbed { " disturbed" } else { "" };
        write!(f, "{median} ({low} to {high}){mark}")
    }
}

/// Three figures where there are less than three before the point.
pub fn micros(time: Duration) -> String {
    let micros = time.as_secs_f64() * 1e6;
    match micros {
        0.0..10.0 => format!("{micros:.2}"),
        10.0..100.0 => format!("{micros:.1}"),
        _ => format!("{micros:.0}"),
    }
}

/// The time of a call, and whether another process had the core meanwhile.
pub struct Timed {
    time: Duration,
    disturbed: bool,
}

/// Something that prepares what it needs, and times the part that counts.
pub type Subject<'a> = Box<dyn FnMut() -> Timed + 'a>;

/// Times one call. What the call gives is dropped outside.
pub fn time<T>(call: impl FnOnce() -> T) -> Timed {
    let before = slices();
    let start = Instant::now();
    let given = call();
    let time = start.elapsed();
    let disturbed = slices() != before;
    black_box(given);
    Timed { time, disturbed }
}

/// How often this thread was given a core, as Linux counts it; always 0 where that is not told.
fn slices() -> u64 {
    let told = fs::read_to_string("/proc/thread-self/schedstat").unwrap_or_default();
    let slices = told.split_whitespace().nth(2);
    slices.and_then(|number| number.parse().ok()).unwrap_or(0)
}

/// Times all subjects in each of so many rounds.
pub fn rounds<const N: usize>(count: usize, mut subjects: [Subject; N]) -> [Spread; N] {
    let mut times = [const { Vec::new() }; N];
    for round in 0..WARM_UP + count {
        for (times, subject) in times.iter_mut().zip(&mut subjects) {
            let time = undisturbed(subject);
            if round >= WARM_UP {
                times.push(time);
            }
        }
    }
    times.map(Spread::of)
}

/// The first time that no other process had a share in; the last of some, where there is none.
fn undisturbed(subject: &mut Subject) -> Timed {
    for _ in 1..ATTEMPTS {
        let timed = subject();
        CALLS.fetch_add(1, Relaxed);
        if !timed.disturbed {
            return timed;
        }
        REPEATED.fetch_add(1, Relaxed);
    }
    let timed = subject();
    CALLS.fetch_add(1, Relaxed);
    KEPT.fetch_add(u64::from(timed.disturbed), Relaxed);
    timed
}

/// All calls that were timed, those made again, and those kept though disturbed.
static CALLS: AtomicU64 = AtomicU64::new(0);
static REPEATED: AtomicU64 = AtomicU64::new(0);
static KEPT: AtomicU64 = AtomicU64::new(0);

/// How much other processes disturbed.
pub fn disturbances() -> String {
    let [calls, repeated, kept] = [&CALLS, &REPEATED, &KEPT].map(|count| count.load(Relaxed));
    format!(
        "Of {calls} timed calls {repeated} were made again, since another process had the core meanwhile; \
         {kept} that were disturbed each time are counted."
    )
}
