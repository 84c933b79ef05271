//! `held STORE`: the held rows, what each waits for, since when, and when it will expire.

use std::path::Path;

use cuwelfra::Limits;

use crate::answer::Answer;
use crate::error::Error;
use crate::show;
use crate::store::{expires, load, View};
use crate::table::counted;
use crate::time;
use crate::words::Words;

pub fn run(mut words: Words) -> Result<Answer, Error> {
    let time_ms = words.time()?;
    let limits = words.age(Limits::new())?;
    let [file] = words.exactly()?;
    let view = View::of(&load(Path::new(&file))?)?;
    Ok(Answer::well(
        show::held(&view, &limits) + &overdue(&view, &limits, time_ms),
    ))
}

/// How many rows the next join lets expire.
fn overdue(view: &View, limits: &Limits, time_ms: u64) -> String {
    let held = view.held.iter().map(|waiting| &waiting.held);
    let overdue = held.filter(|held| expires(held, limits, time_ms));
    match overdue.count() {
        0 => String::new(),
        count => format!(
            "\nA join at {} UTC lets {} expire, unless --age gives more time.\n",
            time::shown(time_ms),
            counted(count, "row")
        ),
    }
}
