//! `floor STORE [STAMP]`: the floor, and raising it.

use std::path::Path;

use cuwelfra::Store;

use crate::answer::Answer;
use crate::error::Error;
use crate::plain::name;
use crate::show;
use crate::store::{load, Change};
use crate::words::{stamp, Words};

pub fn run(words: Words) -> Result<Answer, Error> {
    let usage = words.usage();
    match &words.rest()?[..] {
        [file] => shown(&load(Path::new(file))?),
        [file, word] => {
            let floor = stamp(word.clone())?;
            let mut change = Change::of_existing(file.into())?;
            let before = change.store.floor()?;
            change.store.set_floor(&floor)?;
            let mut answer = shown(&change.store)?;
            let file = name(&change.file);
            let done = match before == change.store.floor()? {
                true => "a floor is never lowered; left as it was".to_owned(),
                false => change.save()?,
            };
            answer.text += &format!("{file}: {done}.\n");
            Ok(answer)
        }
        _ => Err(usage),
    }
}

fn shown(store: &Store) -> Result<Answer, Error> {
    Ok(Answer::well(match store.floor()? {
        Some(floor) => format!(
            "Floor: {}; rows with stamps at or below it are logged as stale.\n",
            show::stamp(floor)
        ),
        None => "No floor.\n".to_owned(),
    }))
}
