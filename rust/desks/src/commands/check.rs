//! `check STORE`: whether the file is whole and its store keeps the rules, and what it has.

use std::path::Path;

use cuwelfra::{Fate, MAX_AUTHORS, MAX_DEPS, MAX_HELD};

use crate::answer::Answer;
use crate::error::Error;
use crate::own::authors;
use crate::plain::name;
use crate::show::stamp;
use crate::store::load;
use crate::text::pairs;
use crate::words::Words;

pub fn run(words: Words) -> Result<Answer, Error> {
    let [file] = words.exactly()?;
    let store = load(Path::new(&file))?;
    Ok(Answer::well(format!(
        "{}: sound\n\
         logged     {} of {} rows\n\
         fates      {}\n\
         held       {} of {MAX_HELD} rows\n\
         authors    {} of {MAX_AUTHORS}; rows can be added with up to {MAX_DEPS}\n\
         clock      {}\n\
         compacted  {}\n\
         floor      {}\n",
        name(file),
        store.logged_len()?,
        store.capacity(),
        fates(&store.fates()?),
        store.held_len()?,
        authors(&store)?,
        pairs(&store.clock()?.entries()?),
        pairs(&store.compacted()?.entries()?),
        store.floor()?.map_or("-".to_owned(), stamp),
    )))
}

/// How many rows have each fate.
fn fates(fates: &[Option<Fate>]) -> String {
    let count = |of: fn(&&Option<Fate>) -> bool| fates.iter().filter(of).count();
    format!(
        "{} applied, {} rejected, {} stale, {} not known",
        count(|fate| matches!(fate, Some(Fate::Applied))),
        count(|fate| matches!(fate, Some(Fate::Rejected(_)))),
        count(|fate| matches!(fate, Some(Fate::Stale))),
        count(|fate| fate.is_none()),
    )
}
