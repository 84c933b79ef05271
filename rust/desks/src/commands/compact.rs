//! `compact STORE [STAMP] [--cutoff FRONTIER...]`: removes the rows at or below a stamp that the peers' acknowledgements
//! allow.

use std::path::{Path, PathBuf};

use cuwelfra::{Refusal, Store, Timestamp, VectorClock};

use crate::answer::Answer;
use crate::error::Error;
use crate::frontier::{frontier, NO_CUTOFF};
use crate::plain::{command, name, shell};
use crate::show;
use crate::store::{load, logged, Change, Logged};
use crate::table::counted;
use crate::words::{stamp, Words};

pub fn run(mut words: Words) -> Result<Answer, Error> {
    let (force, dry) = (words.flag("--force"), words.flag("--dry-run"));
    let clocks = words.list("--cutoff")?;
    let usage = words.usage();
    let (file, wanted) = match &words.rest()?[..] {
        [file] if clocks.is_some() => (PathBuf::from(file), None),
        [file, word] => (PathBuf::from(file), Some(stamp(word.clone())?)),
        [_] => return Err(Error::NoCutoff),
        _ => return Err(usage),
    };
    let frontier = clocks.map(|clocks| frontier(&file, &clocks)).transpose()?;
    let asked = Asked { wanted, frontier };
    if dry {
        return listed(&file, &load(&file)?, &asked);
    }
    let change = Change::of_existing(file)?;
    let safe = asked.safe(&change.store)?;
    if let Some(why) = asked.objection(safe).filter(|_| !force) {
        let file = change.file;
        return Err(Error::Unsafe { file, why });
    }
    match asked.wanted.or(safe) {
        Some(cutoff) => compact(change, &cutoff),
        None => Ok(nothing()),
    }
}

/// What was asked for.
struct Asked {
    /// A stamp to compact to; where there is none, the one that the peers allow.
    wanted: Option<Timestamp>,
    /// How far all peers have acknowledged.
    frontier: Option<VectorClock>,
}

impl Asked {
    /// The latest stamp that the peers' acknowledgements allow.
    fn safe(&self, store: &Store) -> Result<Option<Timestamp>, Refusal> {
        match &self.frontier {
            Some(frontier) => store.cutoff(frontier),
            None => Ok(None),
        }
    }

    /// Why the stamp that was asked for is not safe.
    fn objection(&self, safe: Option<Timestamp>) -> Option<String> {
        let wanted = self.wanted?;
        match safe {
            Some(safe) if wanted <= safe => None,
            Some(safe) => Some(format!(
                "what the peers have acknowledged allows no more than {}",
                show::stamp(safe)
            )),
            None if self.frontier.is_some() => {
                Some("what the peers have acknowledged allows no cutoff".to_owned())
            }
            None => Some("nothing says that the peers have these rows".to_owned()),
        }
    }
}

fn nothing() -> Answer {
    Answer::well(NO_CUTOFF.to_owned())
}

/// The rows at or below a stamp.
fn below(store: &Store, cutoff: &Timestamp) -> Result<Vec<Logged>, Error> {
    let mut rows = logged(store)?;
    rows.retain(|logged| logged.row.timestamp <= *cutoff);
    Ok(rows)
}

/// What would go.
fn listed(file: &Path, store: &Store, asked: &Asked) -> Result<Answer, Error> {
    let safe = asked.safe(store)?;
    let Some(cutoff) = asked.wanted.or(safe) else {
        return Ok(nothing());
    };
    let rows = below(store, &cutoff)?;
    let objection = asked.objection(safe).map_or(String::new(), |why| {
        format!("\nWithout --force this is refused: {why}.\n")
    });
    Ok(Answer::well(format!(
        "{}: {} at or below {} would go; nothing is changed.\n{}{objection}",
        name(file),
        counted(rows.len(), "row"),
        show::stamp(cutoff),
        table(&rows)
    )))
}

fn table(rows: &[Logged]) -> String {
    match rows.is_empty() {
        true => String::new(),
        false => format!("\n{}", show::rows(rows.iter())),
    }
}

fn compact(mut change: Change, cutoff: &Timestamp) -> Result<Answer, Error> {
    let rows = below(&change.store, cutoff)?;
    let removed = change.store.compact(cutoff)?;
    let left = change.store.logged_len()?;
    let (file, cutoff) = (change.file.clone(), show::stamp(*cutoff));
    let Some(last) = rows.last() else {
        let text = format!(
            "{}: no row at or below {cutoff}; left as it was.\n",
            name(&file)
        );
        return Ok(Answer::well(text));
    };
    let last = show::stamp(last.row.timestamp);
    let kept = change.back_up()?;
    let written = change.save()?;
    Ok(Answer::well(format!(
        "{}: {} at or below {cutoff} removed, {left} left; {written}.\n\
         {} is the file as it was before.\n{}\n\
         Where such rows may still come, raise the floor, and they are logged as stale: {} floor {} {last}\n",
        name(&file),
        counted(removed, "row"),
        name(&kept),
        table(&rows),
        command(),
        shell(&file),
    )))
}
