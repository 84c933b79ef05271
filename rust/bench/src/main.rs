//! Times the port beside the Rust original and prints tables in Markdown: `bench`.
//! `bench repeat SECONDS LOGGED BATCH` repeats the port's batch call alone, for a profiler.

#![forbid(unsafe_code)]

#[cfg(oracle_present)]
mod case;
#[cfg(oracle_present)]
mod lists;
#[cfg(oracle_present)]
mod merging;
#[cfg(oracle_present)]
mod messages;
#[cfg(oracle_present)]
mod own;
#[cfg(oracle_present)]
mod rows;
#[cfg(oracle_present)]
mod stamps;
#[cfg(oracle_present)]
mod timing;

use std::process::ExitCode;

fn main() -> ExitCode {
    let arguments: Vec<String> = std::env::args().skip(1).collect();
    match run(&arguments) {
        Ok(()) => ExitCode::SUCCESS,
        Err(error) => {
            eprintln!("bench: {error}");
            ExitCode::FAILURE
        }
    }
}

#[cfg(oracle_present)]
fn run(arguments: &[String]) -> Result<(), String> {
    let number = |text: &String| text.parse().map_err(|_| format!("{text} is no number"));
    match arguments {
        [] => {
            println!("Times are in µs: the median, and the quartiles where there are two more numbers.\n");
            println!("### Batch calls\n");
            merging::workloads()?;
            println!("### Batch calls on log areas that are just large enough\n");
            merging::workloads_in_small_areas()?;
            println!("### Where the port's time goes, 64 fresh rows in order\n");
            merging::parts()?;
            println!("### What the folds cost\n");
            merging::folds()?;
            println!("### How the batch call grows, fresh rows in order: port / original\n");
            merging::growth()?;
            println!("### Other calls\n");
            lists::lists()?;
            println!("\n{}", timing::disturbances());
            Ok(())
        }
        [command, seconds, log, batch] if command == "repeat" => {
            let (log, batch) = (number(log)?, number(batch)?);
            merging::repeat(number(seconds)?, log as usize, batch as usize)
        }
        _ => Err("usage: bench, or bench repeat SECONDS LOGGED BATCH".into()),
    }
}

#[cfg(not(oracle_present))]
fn run(_: &[String]) -> Result<(), String> {
    Err("the Rust original is absent: name its folder in TPT_REPLICATE_SRC".into())
}
