//! `differential fuzz MINUTES [SEED]`: rounds of random inputs until the time is over or a disagreement is found, which
//! is then made as small as it goes. A round follows from its seed alone: the seed that a round printed starts a run
//! with that round.

mod any_list;
mod bytes;
mod list;
mod offers;
mod shrink;
mod stores;

#[cfg(test)]
mod tests;

use std::panic::{catch_unwind, set_hook, AssertUnwindSafe};
use std::process::ExitCode;
use std::sync::mpsc::{channel, Sender};
use std::sync::{Arc, Mutex};
use std::thread;
use std::time::{Duration, Instant, SystemTime, UNIX_EPOCH};

use crate::rng::Rng;
use crate::support::Check;
use any_list::any_list;
use bytes::{BatchBytes, RowBytes};
use shrink::{smallest, Input};
use stores::StoreBytes;

/// Inputs of a round: call lists, batches and rows as bytes, changed stores.
const ROUND: [u64; 4] = [4_000, 10_000, 40_000, 10_000];
/// How long an input is made smaller at most.
const SHRINKING: Duration = Duration::from_secs(120);

const USAGE: &str = "usage: differential fuzz MINUTES [SEED]";

/// What a thread has to tell.
enum Told {
    Passed,
    /// The disagreement, with its input.
    Found(String),
}

/// The rounds that were begun, and the next one's seed.
struct Rounds {
    begun: u64,
    next: u64,
}

pub fn run(arguments: &[String]) -> ExitCode {
    let Some((minutes, seed)) = parse(arguments) else {
        eprintln!("{USAGE}");
        return ExitCode::from(2);
    };
    // A panic is told as a disagreement.
    set_hook(Box::new(|_| {}));
    let until = Instant::now() + Duration::from_secs_f64(60.0 * minutes);
    let rounds = Arc::new(Mutex::new(Rounds {
        begun: 0,
        next: seed,
    }));
    let (sender, receiver) = channel();
    for _ in 0..thread::available_parallelism().map_or(1, |n| n.get()) {
        let (rounds, sender) = (rounds.clone(), sender.clone());
        thread::spawn(move || work(&rounds, until, &sender));
    }
    drop(sender);
    let mut passed = 0;
    for told in receiver {
        match told {
            Told::Passed => passed += 1,
            Told::Found(text) => {
                println!("{text}");
                return ExitCode::FAILURE;
            }
        }
    }
    let [lists, batches, rows, stores] = ROUND.map(|count| count * passed);
    println!(
        "fuzz: no disagreement in {passed} rounds: {lists} call lists, {batches} batches of bytes, \
         {rows} rows of bytes, {stores} changed stores"
    );
    ExitCode::SUCCESS
}

fn parse(arguments: &[String]) -> Option<(f64, u64)> {
    let (minutes, seed) = match arguments {
        [minutes] => (minutes, from_time()),
        [minutes, seed] => (minutes, seed.parse().ok()?),
        _ => return None,
    };
    let minutes: f64 = minutes.parse().ok()?;
    // At most a year.
    (0.0..=525_600.0)
        .contains(&minutes)
        .then_some((minutes, seed))
}

fn from_time() -> u64 {
    let time = SystemTime::now().duration_since(UNIX_EPOCH);
    time.map_or(0, |time| time.as_nanos() as u64)
}

/// Rounds until the time is over.
fn work(rounds: &Mutex<Rounds>, until: Instant, sender: &Sender<Told>) {
    while let Some(seed) = begin(rounds, until) {
        let ran = safely(|| round(seed));
        let told = match ran {
            Ok(()) => Told::Passed,
            Err(text) => Told::Found(format!("fuzz: DISAGREES (seed {seed})\n{text}")),
        };
        if sender.send(told).is_err() {
            return;
        }
    }
}

/// The next round's seed, which is printed before the round begins. The first round begins in any case.
fn begin(rounds: &Mutex<Rounds>, until: Instant) -> Option<u64> {
    let mut rounds = rounds.lock().ok()?;
    if rounds.begun > 0 && Instant::now() >= until {
        return None;
    }
    let seed = rounds.next;
    rounds.begun += 1;
    rounds.next = Rng::for_suite(seed, "next").next();
    println!("round {}: seed {seed}", rounds.begun);
    Some(seed)
}

fn round(seed: u64) -> Check {
    let mut rng = Rng::for_suite(seed, "fuzz");
    let [lists, batches, rows, stores] = ROUND;
    told(search(&mut rng, lists, any_list, checked))?;
    told(search(&mut rng, batches, BatchBytes::any, checked))?;
    told(search(&mut rng, rows, RowBytes::any, checked))?;
    told(search(&mut rng, stores, StoreBytes::any, checked))
}

/// So many random inputs; the first that disagrees comes back as small as it goes, with what differs.
fn search<I: Input>(
    rng: &mut Rng,
    count: u64,
    any: fn(&mut Rng) -> I,
    check: impl Fn(&I) -> Check,
) -> Result<(), (I, String)> {
    for _ in 0..count {
        let input = any(rng);
        if let Err(difference) = check(&input) {
            let until = Instant::now() + SHRINKING;
            let input = smallest(input, until, |input| check(input).is_err());
            let difference = check(&input).err().unwrap_or(difference);
            return Err((input, difference));
        }
    }
    Ok(())
}

fn told<I: Input>(searched: Result<(), (I, String)>) -> Check {
    searched.map_err(|(input, difference)| {
        format!(
            "The smallest input found is {}What differs:\n{difference}",
            input.shown()
        )
    })
}

fn checked<I: Input>(input: &I) -> Check {
    safely(|| input.check())
}

/// A panic is a disagreement.
fn safely(check: impl FnOnce() -> Check) -> Check {
    catch_unwind(AssertUnwindSafe(check)).unwrap_or_else(|panic| {
        let text = panic.downcast_ref::<String>().cloned();
        let text = text.or_else(|| panic.downcast_ref::<&str>().map(|text| (*text).into()));
        Err(format!("  a panic: {}", text.unwrap_or_default()))
    })
}
