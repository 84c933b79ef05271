//! `join STORE FILE...`: offers the files' batches to the store.

use cuwelfra::{Refusal, MAX_DEPS};

use crate::answer::Answer;
use crate::calls::{self, Settings, Told};
use crate::commands::add::closed;
use crate::desk::Desk;
use crate::error::Error;
use crate::known::{latest, Unfolded};
use crate::own::authors;
use crate::plain::name;
use crate::show;
use crate::store::Change;
use crate::table::{counted, paragraph};
use crate::waiting::Held;
use crate::words::Words;

pub fn run(mut words: Words) -> Result<Answer, Error> {
    let settings = words.settings()?;
    let (file, files) = words.one_and_more("")?;
    let desks = Desk::read_all(files)?;
    let mut change = Change::begin(file.clone())?;
    let before = change.store.logged_len()?;
    let authors_before = authors(&change.store)?;
    let latest = latest(&change.store)?;
    let (mut clock, unfolded) = settings.clock(latest.as_ref());
    let without = unfolded.map_or(Ok(String::new()), without)?;
    let told = calls::offer(&mut change.store, &mut clock, desks.iter(), &settings)?;
    let (logged, held) = (change.store.logged_len()?, change.store.held_len()?);
    let waiting = Held {
        file: &file,
        store: &change.store,
        limits: settings.limits,
        time_ms: settings.time_ms,
        timed: false,
    };
    let next = waiting.expiry()?;
    let closed = match authors(&change.store)? {
        authors if authors > MAX_DEPS && authors_before <= MAX_DEPS => closed(authors),
        _ => String::new(),
    };
    let accepted = told.iter().any(|told| told.answer.is_ok());
    let written = match accepted || change.new {
        true => change.save()?,
        false => "left as it was".to_owned(),
    };
    let text = format!(
        "{}\n{}{without}{}: {} logged, {} of them now; {held} held; {written}.\n{closed}{next}",
        show::reports(&told),
        remarks(&desks, &settings),
        name(&file),
        counted(logged, "row"),
        logged - before
    );
    Ok(Answer {
        text,
        well: told.iter().all(Told::well),
    })
}

/// Why the clock began without the store's latest stamp.
fn without(Unfolded { latest, refusal }: Unfolded) -> Result<String, Refusal> {
    let why = match refusal {
        Refusal::RemoteAhead { .. } => {
            "further ahead of the time of this command than --drift allows"
        }
        Refusal::CounterOverflow => {
            "not past yet, and its counter is the last that there is, 4,294,967,295"
        }
        refusal => return Err(refusal),
    };
    let (stamp, time) = (latest.shown(), latest.time());
    Ok(paragraph(&format!(
        "The clock began without the store's latest stamp, {stamp}: its time, {time} UTC, is {why}. The join goes on all \
         the same."
    )))
}

/// Files without a row, and times that do not count.
pub fn remarks(desks: &[Desk], settings: &Settings) -> String {
    let mut text = String::new();
    for desk in desks {
        if desk.offered.is_empty() {
            text += &format!("{} is empty: there is no row in it.\n", desk.name);
        }
        if desk.is_timed() && !settings.replay {
            text += &format!(
                "{}: its `time` lines do not count without --replay.\n",
                desk.name
            );
        }
    }
    text
}
