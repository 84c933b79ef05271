//! The commands, each in its module.

mod add;
mod check;
mod compact;
mod compare;
mod cutoff;
mod delta;
mod example;
mod explain;
mod floor;
mod held;
mod join;
mod log;
mod pack;
mod unpack;

use std::ffi::OsString;

use crate::answer::Answer;
use crate::error::Error;
use crate::words::Words;

const HELP: &str = include_str!("../../help.txt");
const VERSION: &str = env!("CARGO_PKG_VERSION");

/// A command's name, the words that it takes, as the help writes them, and what it does.
struct Command(
    &'static str,
    &'static str,
    fn(Words) -> Result<Answer, Error>,
);

const COMMANDS: [Command; 15] = [
    Command("join", "STORE FILE... [TIMES]", join::run),
    Command(
        "add",
        "STORE --author N PAYLOAD... [--time MS] [--drift SPAN] [--force]",
        add::run,
    ),
    Command("log", "STORE", log::run),
    Command("held", "STORE [--age SPAN] [--time MS]", held::run),
    Command("check", "STORE", check::run),
    Command(
        "delta",
        "FROM TO [--rows N] [--bytes N] [--out FILE | --sizes [--sender N] [--signature N]]",
        delta::run,
    ),
    Command("cutoff", "STORE FRONTIER...", cutoff::run),
    Command(
        "compact",
        "STORE [STAMP] [--dry-run] [--force] [--cutoff FRONTIER...]",
        compact::run,
    ),
    Command("floor", "STORE [STAMP]", floor::run),
    Command("explain", "[NUMBER]", explain::run),
    Command("pack", "FILE OUT", pack::run),
    Command("unpack", "FILE...", unpack::run),
    Command("compare", "FILE... [TIMES]", compare::run),
    // What `./run` alone does.
    Command("example", "STORE FILE... [TIMES]", example::run),
    Command("help", "", help),
];

/// Does what the words say.
pub fn run(words: Vec<OsString>) -> Result<Answer, Error> {
    // Behind -- a word is no option.
    let mut options = words.iter().take_while(|word| *word != "--");
    if options.clone().any(|word| word == "--help" || word == "-h") {
        return Ok(Answer::well(HELP.to_owned()));
    }
    if options.any(|word| word == "--version") {
        return Ok(Answer::well(format!("cuwelfra {VERSION}\n")));
    }
    let mut words = words.into_iter();
    let name = words.next().ok_or(Error::NoCommand)?;
    let found = COMMANDS.iter().find(|command| name == command.0);
    let Some(Command(name, wanted, run)) = found else {
        return Err(Error::UnknownCommand(name));
    };
    run(Words::new(name, wanted, words.collect()))
}

fn help(words: Words) -> Result<Answer, Error> {
    let [] = words.exactly()?;
    Ok(Answer::well(HELP.to_owned()))
}

/// Every command's name, and the words that it takes.
#[cfg(test)]
pub fn names() -> impl Iterator<Item = (&'static str, &'static str)> {
    COMMANDS.iter().map(|command| (command.0, command.1))
}
