//! Joins desks' batches into stores on disk and shows what is in them. `./run` at the top of the repository builds and
//! starts it; help.txt lists the commands.

#![forbid(unsafe_code)]
#![cfg_attr(
    not(test),
    deny(
        clippy::unwrap_used,
        clippy::expect_used,
        clippy::panic,
        clippy::indexing_slicing
    )
)]

mod advice;
mod answer;
mod calls;
mod commands;
mod desk;
mod doubts;
mod error;
mod frontier;
mod known;
mod notice;
mod own;
mod plain;
mod refused;
mod screen;
mod show;
mod sizes;
mod store;
mod table;
#[cfg(test)]
mod tests;
mod text;
mod time;
mod waiting;
mod words;

use std::env;
use std::io::{self, Write};
use std::process::ExitCode;

use answer::Answer;

fn main() -> ExitCode {
    match commands::run(env::args_os().skip(1).collect()) {
        Ok(answer) => print(&answer),
        Err(error) => failed(2, &error.told()),
    }
}

fn print(answer: &Answer) -> ExitCode {
    let mut out = io::stdout().lock();
    let printed = out
        .write_all(answer.text.as_bytes())
        .and_then(|()| out.flush());
    match printed {
        Ok(()) => status(answer),
        // Who reads only the beginning has seen enough, where there is nothing that he has to know.
        Err(error) if error.kind() == io::ErrorKind::BrokenPipe && answer.well => status(answer),
        // What the command did is done: the answer goes where it can still be seen.
        Err(error) => failed(4, &format!("cannot print: {error}\n{}", answer.text)),
    }
}

fn status(answer: &Answer) -> ExitCode {
    match answer.well {
        true => ExitCode::SUCCESS,
        false => ExitCode::FAILURE,
    }
}

fn failed(status: u8, why: &str) -> ExitCode {
    // Where this cannot be written either, the status still tells it.
    let _ = writeln!(io::stderr(), "{}: {why}", plain::command());
    ExitCode::from(status)
}
