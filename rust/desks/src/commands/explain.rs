//! `explain [NUMBER]`: what a refusal means and what to do about it.

use cuwelfra::{Explained, Refusal};

use crate::advice::{by_number, Advice};
use crate::answer::Answer;
use crate::error::Error;
use crate::plain::with_command;
use crate::table::indented;
use crate::text::number;
use crate::words::Words;

pub fn run(words: Words) -> Result<Answer, Error> {
    let usage = words.usage();
    let explained: Vec<String> = match &words.rest()?[..] {
        [] => Refusal::all().iter().map(shown).collect(),
        [word] => {
            let number = word.to_str().and_then(|word| number("", word).ok());
            let found = number.and_then(Refusal::explain).ok_or(Error::Word {
                word: word.clone(),
                wanted: "refusal; ./run explain lists them",
            });
            vec![shown(found?)]
        }
        _ => return Err(usage),
    };
    Ok(Answer::well(explained.join("\n")))
}

fn shown(explained: &Explained) -> String {
    let Explained {
        number,
        word,
        values,
        meaning,
        advice,
        ..
    } = explained;
    let values = match values.is_empty() {
        true => String::new(),
        false => format!(": {}", values.join(", ")),
    };
    let words = match by_number(*number) {
        Some(Advice { meaning, advice }) => {
            indented(&with_command(meaning)) + &indented(&with_command(advice))
        }
        None => {
            let advice = format!("No command meets it, only a program. {advice}");
            indented(meaning) + &indented(&advice)
        }
    };
    format!("{number}, {word}{values}\n{words}")
}
