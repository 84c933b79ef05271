//! Runs suites on every core, the longest first. What each wrote is printed whole, in the listed order.

use std::panic::catch_unwind;
use std::sync::mpsc::{channel, Receiver, Sender};
use std::sync::{Arc, Mutex};
use std::thread;

use crate::rng::Rng;
use crate::suites::{Suite, LONGEST};
use crate::support::notes;

/// What became of a suite.
struct Ran {
    /// Its place in the list.
    at: usize,
    text: String,
    /// `None` where it was skipped.
    passed: Option<bool>,
}

/// Places in the list that no thread has taken, the next one last.
type Queue = Arc<Mutex<Vec<usize>>>;

/// How many suites passed and were skipped, `None` at the first that failed.
pub fn run(suites: Vec<&'static Suite>, seed: u64) -> Option<(usize, usize)> {
    let count = suites.len();
    let queue = Arc::new(Mutex::new(longest_last(&suites)));
    let suites = Arc::new(suites);
    let (sender, receiver) = channel();
    let threads = thread::available_parallelism().map_or(1, |n| n.get());
    for _ in 0..threads {
        let (queue, suites, sender) = (queue.clone(), suites.clone(), sender.clone());
        thread::spawn(move || work(&queue, &suites, seed, &sender));
    }
    drop(sender);
    print_in_order(count, &receiver)
}

fn longest_last(suites: &[&Suite]) -> Vec<usize> {
    let rank = |at: &usize| {
        let longest = LONGEST.iter().position(|name| *name == suites[*at].name());
        longest.unwrap_or(LONGEST.len() + at)
    };
    let mut places: Vec<usize> = (0..suites.len()).collect();
    places.sort_by_key(rank);
    places.reverse();
    places
}

fn work(queue: &Queue, suites: &[&'static Suite], seed: u64, sender: &Sender<Ran>) {
    loop {
        let Some(at) = queue.lock().ok().and_then(|mut places| places.pop()) else {
            return;
        };
        let (text, passed) = run_one(suites[at], seed);
        if sender.send(Ran { at, text, passed }).is_err() {
            return;
        }
    }
}

fn run_one(suite: &Suite, seed: u64) -> (String, Option<bool>) {
    let name = suite.name();
    let Some(body) = suite.run else {
        return (
            format!("{name}: skipped, it needs the Rust original\n"),
            None,
        );
    };
    let ran = catch_unwind(|| body(&mut Rng::for_suite(seed, &name)));
    let ran = ran.unwrap_or_else(|_| Err("  it panicked".into()));
    let text = match &ran {
        Ok(cases) => format!("{}{name}: {cases} cases, ok\n", notes()),
        Err(difference) => format!("{}{name}: DISAGREES (seed {seed})\n{difference}\n", notes()),
    };
    (text, Some(ran.is_ok()))
}

/// Prints each suite's text once those listed before it are printed; a failure at once.
fn print_in_order(count: usize, receiver: &Receiver<Ran>) -> Option<(usize, usize)> {
    let mut waiting: Vec<Option<Ran>> = (0..count).map(|_| None).collect();
    let mut printed = 0;
    let mut passed = 0;
    while printed < count {
        let ran = receiver.recv().ok()?;
        if ran.passed == Some(false) {
            print!("{}", ran.text);
            return None;
        }
        let at = ran.at;
        waiting[at] = Some(ran);
        while let Some(ran) = waiting.get_mut(printed).and_then(Option::take) {
            print!("{}", ran.text);
            passed += usize::from(ran.passed == Some(true));
            printed += 1;
        }
    }
    Some((passed, count - passed))
}
