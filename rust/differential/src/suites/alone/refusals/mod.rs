//! Each refusal is provoked through an exported call, and comes through the wrapper with its number and
//! values. Fails where a number was not provoked.

mod batches;
mod lent;
mod messages;
mod numbers;
mod own;

use cuwelfra::Refusal;
use cuwelfra_sys::Told;

use crate::rng::Rng;
use crate::support::{agree, note, Check, Outcome};

/// Document 01's numbers, and document 02's from 26 on.
const LAST: usize = 30;

/// What is wrong, the answer that the documents give it (number and two values, 0 where it carries none), and the call.
type Provocation = (&'static str, [u64; 3], fn() -> Told);

pub fn run(rng: &mut Rng) -> Outcome {
    let provocations = [
        lent::PROVOCATIONS,
        batches::PROVOCATIONS,
        numbers::PROVOCATIONS,
        own::PROVOCATIONS,
        messages::PROVOCATIONS,
    ]
    .concat();
    let mut provoked = [0; LAST + 1];
    for (what, [number, first, second], call) in &provocations {
        let wanted = Told {
            number: *number,
            first: *first,
            second: *second,
        };
        let told = call();
        agree(&told, &wanted, || (*what).to_owned())?;
        comes_through(told)?;
        provoked[*number as usize] += 1;
    }
    let counts: Vec<String> = (1..=LAST)
        .map(|i| format!("{i}: {}", provoked[i]))
        .collect();
    note(&format!(
        "refusals: provoked by number {}",
        counts.join(", ")
    ));
    if let Some(number) = (1..=LAST).find(|i| provoked[*i] == 0) {
        return Err(format!("  refusal {number} was not provoked"));
    }
    Ok(provocations.len() as u64 + mapped(rng)?)
}

/// Requires that the wrapper's refusal has the number and the values, and shows them.
fn comes_through(told: Told) -> Check {
    let inputs = || format!("{told:?}");
    let refusal = Refusal::check(told).err();
    agree(&refusal.map(Refusal::told), &Some(told), inputs)?;
    agree(&refusal.map(Refusal::number), &Some(told.number), inputs)?;
    let text = refusal.map(|r| r.to_string()).unwrap_or_default();
    for value in [told.first, told.second] {
        let shown = value == 0 || text.contains(&value.to_string());
        agree(&shown, &true, || format!("{told:?} as \"{text}\""))?;
    }
    Ok(())
}

/// How many values each of the refusals 1 to 30 carries.
fn values(number: u64) -> usize {
    match number {
        5..=13 | 16 | 20 => 2,
        14 | 15 | 29 => 1,
        _ => 0,
    }
}

/// The wrapper's refusals with any values, and its answer to numbers that the documents do not have.
fn mapped(rng: &mut Rng) -> Outcome {
    let mut cases = 0;
    for number in 1..=LAST as u64 {
        let mut told = Told {
            number,
            first: rng.next(),
            second: rng.next(),
        };
        if values(number) < 2 {
            told.second = 0;
        }
        if values(number) < 1 {
            told.first = 0;
        }
        comes_through(told)?;
        cases += 1;
    }
    for number in [LAST as u64 + 1, Refusal::MISFIT - 1] {
        let told = Told {
            number,
            ..Told::default()
        };
        let unknown = Err(Refusal::UnknownAnswer(told));
        agree(&Refusal::check(told), &unknown, || format!("{told:?}"))?;
        cases += 1;
    }
    let misfit = Refusal::MisfitAnswer;
    agree(&Refusal::check(misfit.told()), &Err(misfit), String::new)?;
    agree(&Refusal::check(Told::default()), &Ok(()), String::new)?;
    Ok(cases + 2)
}
