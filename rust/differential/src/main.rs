//! Runs the port against the Rust original: `differential [SUITE...]`, all suites without a name.
//! `differential fuzz MINUTES [SEED]` compares random inputs until the time is over; `fuzz` says how.
//! `differential record FILE` writes a sample of the original's answers, in the form that `record` describes.

// Without the original some shared functions have no caller.
#![cfg_attr(not(oracle_present), allow(dead_code))]
#![forbid(unsafe_code)]

mod boundaries;
mod census;
#[cfg(oracle_present)]
mod fuzz;
mod leb128;
mod model;
#[cfg(oracle_present)]
mod original;
mod port;
mod readings;
#[cfg(oracle_present)]
mod record;
mod rng;
mod runner;
mod suites;
mod support;
mod world;

use std::process::ExitCode;

use suites::Suite;

fn main() -> ExitCode {
    let names: Vec<String> = std::env::args().skip(1).collect();
    if names.first().is_some_and(|command| command == "fuzz") {
        return fuzz(&names[1..]);
    }
    if let [command, file] = &names[..] {
        if command == "record" {
            return record(file);
        }
    }
    if let Some(unknown) = names.iter().find(|name| find(name).is_none()) {
        eprintln!("no suite {unknown}; there are: {}", all_names());
        return ExitCode::from(2);
    }
    if !oracle::PRESENT {
        println!(
            "The Rust original is absent: TPT_REPLICATE_SRC names no folder, and there is no \
             ../shared/docs/src beside the repository. Suites that need it are skipped."
        );
    }
    let suites = suites::all().filter(|suite| chosen(suite, &names));
    match runner::run(suites.collect(), rng::seed()) {
        Some((passed, skipped)) => {
            if skipped > 0 {
                println!("differential: {skipped} suites skipped, they need the Rust original");
            }
            println!("differential: {passed} suites passed");
            ExitCode::SUCCESS
        }
        None => ExitCode::FAILURE,
    }
}

#[cfg(oracle_present)]
fn fuzz(arguments: &[String]) -> ExitCode {
    fuzz::run(arguments)
}

#[cfg(not(oracle_present))]
fn fuzz(_: &[String]) -> ExitCode {
    eprintln!("The port is compared with the Rust original, and the original is absent.");
    ExitCode::FAILURE
}

/// Writes the sample.
#[cfg(oracle_present)]
fn record(file: &str) -> ExitCode {
    match record::record(&mut rng::Rng::for_suite(rng::seed(), "record"), file) {
        Ok((records, bytes)) => {
            print!("{}", support::notes());
            println!("{file}: {records} records, {bytes} bytes");
            ExitCode::SUCCESS
        }
        Err(error) => {
            eprintln!("{error}");
            ExitCode::FAILURE
        }
    }
}

#[cfg(not(oracle_present))]
fn record(_: &str) -> ExitCode {
    eprintln!("The sample is made of the Rust original's answers, and the original is absent.");
    ExitCode::FAILURE
}

fn chosen(suite: &Suite, names: &[String]) -> bool {
    names.is_empty() || names.contains(&suite.name())
}

fn find(name: &str) -> Option<&'static Suite> {
    suites::all().find(|suite| suite.name() == name)
}

fn all_names() -> String {
    let names: Vec<String> = suites::all().map(Suite::name).collect();
    names.join(", ")
}
