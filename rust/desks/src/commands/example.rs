//! `./run` alone: joins desks into a store made anew, shows what came of it, and compares with the reverse order.

use std::path::Path;

use crate::answer::Answer;
use crate::commands::compare::{both_orders, differences, verdict};
use crate::desk::{make_folder, Desk};
use crate::error::Error;
use crate::plain::{name, shell};
use crate::show;
use crate::store::replace;
use crate::text::pairs;
use crate::words::Words;

pub fn run(mut words: Words) -> Result<Answer, Error> {
    let settings = words.settings()?;
    let (file, files) = words.one_and_more("")?;
    let names: Vec<String> = files.iter().map(name).collect();
    let desks = Desk::read_all(files)?;
    let (joined, reverse) = both_orders(&desks, &settings)?;
    if let Some(folder) = file.parent().filter(|folder| *folder != Path::new("")) {
        make_folder(folder)?;
    }
    let replaced = replace(&file, &joined.store)?;

    let view = &joined.view;
    let differences = differences(view, &reverse.view);
    let text = format!(
        "Joined {} into an empty store.\n\n{}\n{}\n{}\n{}\n{}\n\
         The store is in {shown}.{replaced} Try next, at the top of the repository:\n\n    \
         ./run join {file} examples/desk-c.txt\n    \
         ./run check {file}\n    \
         ./run cutoff {file} {}\n    \
         ./run explain 13\n    \
         ./run --help\n",
        names.join(", then "),
        show::reports(&joined.told),
        show::log(view),
        show::held(view, &settings.limits),
        show::clock(view),
        verdict(&differences, view),
        pairs(&view.clock),
        shown = name(&file),
        file = shell(&file),
    );
    Ok(Answer {
        text,
        well: differences.is_empty(),
    })
}
