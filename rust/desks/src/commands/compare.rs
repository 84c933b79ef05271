//! `compare FILE...`: joins files of batches in the given order and in the reverse, and compares the stores.

use cuwelfra::{Refusal, Store, MAX_LOGGED};

use crate::answer::Answer;
use crate::calls::{self, Settings, Told};
use crate::commands::join::remarks;
use crate::desk::Desk;
use crate::error::Error;
use crate::show;
use crate::store::{View, Waiting};
use crate::table::counted;
use crate::text::{self, pairs};
use crate::words::Words;

pub fn run(mut words: Words) -> Result<Answer, Error> {
    let settings = words.settings()?;
    let desks = Desk::read_all(words.some()?)?;
    let (first, second) = both_orders(&desks, &settings)?;
    let differences = differences(&first.view, &second.view);
    let text = format!(
        "{}{}{}{}",
        section(desks.iter(), &first, &settings),
        section(desks.iter().rev(), &second, &settings),
        remarks(&desks, &settings),
        verdict(&differences, &first.view)
    );
    Ok(Answer {
        text,
        well: differences.is_empty(),
    })
}

/// What the calls on an empty store told, and the store after them.
pub struct Joined<'a> {
    pub told: Vec<Told<'a>>,
    pub store: Store,
    pub view: View,
}

/// Joins the desks in the given order and in the reverse, at the same times.
pub fn both_orders<'a>(
    desks: &'a [Desk],
    settings: &Settings,
) -> Result<(Joined<'a>, Joined<'a>), Refusal> {
    Ok((
        join(desks.iter(), settings)?,
        join(desks.iter().rev(), settings)?,
    ))
}

fn join<'a>(
    desks: impl Iterator<Item = &'a Desk>,
    settings: &Settings,
) -> Result<Joined<'a>, Refusal> {
    let mut store = Store::with_capacity(MAX_LOGGED)?;
    // An empty store knows no stamp.
    let (mut clock, _) = settings.clock(None);
    let told = calls::offer(&mut store, &mut clock, desks, settings)?;
    let view = View::of(&store)?;
    Ok(Joined { told, store, view })
}

/// What one order of desks came to.
fn section<'a>(
    desks: impl Iterator<Item = &'a Desk>,
    joined: &Joined,
    settings: &Settings,
) -> String {
    let names: Vec<&str> = desks.map(|desk| desk.name.as_str()).collect();
    let view = &joined.view;
    format!(
        "== {}\n\n{}\n{}\n{}\n{}\n",
        names.join(", then "),
        show::reports(&joined.told),
        show::log(view),
        show::held(view, &settings.limits),
        show::clock(view)
    )
}

/// The last line, and before it what differs.
pub fn verdict(differences: &[String], view: &View) -> String {
    if !differences.is_empty() {
        return format!("The two orders differ:\n{}\n", differences.join("\n"));
    }
    format!(
        "Equal in both orders of files: the logs ({}), the held rows ({}) and the clocks.\n",
        counted(view.log.len(), "row"),
        view.held.len()
    )
}

/// Where two stores differ: logs and held rows row by row, by author, sequence, content and answer, and the clocks.
pub fn differences(first: &View, second: &View) -> Vec<String> {
    let mut differences = rows_apart("log", &first.log, &second.log, show::with_fate);
    differences.extend(rows_apart(
        "held rows",
        &first.held,
        &second.held,
        |Waiting { held, .. }| text::answered(&held.row, Some(held.outcome)),
    ));
    if first.clock != second.clock {
        let (first, second) = (pairs(&first.clock), pairs(&second.clock));
        differences.push(format!(
            "clock: {first} in the first, {second} in the second"
        ));
    }
    differences
}

/// Where two lists of rows differ, each row as it is shown.
fn rows_apart<T>(
    place: &str,
    first: &[T],
    second: &[T],
    shown: impl Fn(&T) -> String,
) -> Vec<String> {
    let shown = |rows: &[T], i: usize| rows.get(i).map_or("nothing".to_owned(), &shown);
    (0..first.len().max(second.len()))
        .map(|i| (i, shown(first, i), shown(second, i)))
        .filter(|(_, one, other)| one != other)
        .map(|(i, one, other)| {
            format!("{place}, position {i}: {one} in the first, {other} in the second")
        })
        .collect()
}
