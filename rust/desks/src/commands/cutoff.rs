//! `cutoff STORE FRONTIER...`: the latest stamp that is safe to compact to.

use crate::answer::Answer;
use crate::error::Error;
use crate::frontier::{frontier, NO_CUTOFF};
use crate::show::stamp;
use crate::store::load;
use crate::text::pairs;
use crate::words::Words;

pub fn run(words: Words) -> Result<Answer, Error> {
    let (file, clocks) = words.one_and_more("")?;
    let frontier = frontier(&file, &clocks)?;
    let cutoff = load(&file)?.cutoff(&frontier)?;
    let all = format!("Frontier: {}\n", pairs(&frontier.entries()?));
    Ok(Answer::well(match cutoff {
        Some(cutoff) => format!("{all}Cutoff: {}\n", stamp(cutoff)),
        None => format!("{all}{NO_CUTOFF}"),
    }))
}
