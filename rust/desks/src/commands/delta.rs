//! `delta FROM TO`: the rows that one store has logged and another has not, or what sending them takes.

use std::collections::BTreeMap;
use std::ffi::OsStr;
use std::path::{Path, PathBuf};

use cuwelfra::{ActorId, BatchRow, Refusal, Store, VectorClock, MAX_BATCH};

use crate::answer::Answer;
use crate::desk::write_new;
use crate::error::Error;
use crate::notice::outcome;
use crate::plain::name;
use crate::show;
use crate::sizes::Frames;
use crate::store::{load, logged, needs, Logged};
use crate::table::counted;
use crate::text::{self, id, Offer};
use crate::words::Words;

pub fn run(mut words: Words) -> Result<Answer, Error> {
    let max_rows = words.number("--rows")?.unwrap_or(MAX_BATCH as u64);
    let max_bytes = words.number("--bytes")?.unwrap_or(u64::MAX);
    let out = words.option("--out")?.map(PathBuf::from);
    let frames = frames(&mut words, out.is_some())?;
    let [from, to] = words.exactly()?;
    let (store, other) = (load(Path::new(&from))?, peer(&to)?);
    let clock = other.clock()?;
    let chunks = chunks(&store, &clock, max_rows, max_bytes)?;
    let (from, to, start) = (name(from), called(&to, "a"), called(&to, "A"));

    let rows: usize = chunks.iter().map(Vec::len).sum();
    let mut text = format!("{start} lacks {} of {from}.\n", counted(rows, "row"));
    let told = match &frames {
        Some(frames) => frames.told(&store.delta(&clock)?, max_rows, max_bytes)?,
        None => Answer::well(listed(&chunks)),
    };
    text += &told.text;
    let held = store.held_len()?;
    if held > 0 {
        let held = counted(held, "held row");
        text += &format!("\nA delta has logged rows alone, not the {held} of {from}.\n");
    }
    let differing = differing(&logged(&store)?, &logged(&other)?);
    if !differing.is_empty() {
        text += &format!("\nUnder these numbers {from} and {to} have other content or another fate:\n\n{differing}");
    }
    let whole = store.can_serve(&clock)?;
    if !whole {
        text += &format!(
            "\nThese are not all: {from} has compacted rows that {to} lacks. {start} needs a store that still has them.\n"
        );
    }
    let unanswered = unanswered(&chunks);
    if let Some(out) = &out {
        let rows = causally(chunks.into_iter().flatten().collect(), &clock)?;
        let offers = offers(&rows, max_rows, max_bytes)?;
        text += &format!("\n{}", write_out(out, &unanswered, &offers)?);
        text.extend(unanswered.iter().map(|line| format!("{line}\n")));
    }
    let unknown = out.is_some() && !unanswered.is_empty();
    Ok(Answer {
        text,
        well: told.well && whole && differing.is_empty() && !unknown,
    })
}

/// The messages that `--sizes` counts; `None` without it.
fn frames(words: &mut Words, out: bool) -> Result<Option<Frames>, Error> {
    let sizes = words.flag("--sizes");
    let sender = words.number("--sender")?;
    let signature = words.number("--signature")?;
    match sizes {
        true if out => Err(words.lacking("--sizes only counts, so --out cannot stand beside it")),
        true => Ok(Some(Frames::new(sender, signature))),
        false if sender.or(signature).is_some() => {
            Err(words.lacking("--sender and --signature go with --sizes alone"))
        }
        false => Ok(None),
    }
}

/// The word for a store that has nothing.
const NOTHING: &str = "-";

/// The store that may lack rows.
fn peer(to: &OsStr) -> Result<Store, Error> {
    match to == NOTHING {
        true => Ok(Store::with_capacity(1)?),
        false => load(Path::new(to)),
    }
}

/// What that store is called, with this article where it has no name.
fn called(to: &OsStr, article: &str) -> String {
    match to == NOTHING {
        true => format!("{article} store that has nothing"),
        false => name(to),
    }
}

/// The rows of both logs that have one number and other content, or another fate where both are known.
fn differing(from: &[Logged], to: &[Logged]) -> String {
    let pairs = from.iter().flat_map(|one| {
        let same_number =
            |other: &&Logged| (one.row.actor, one.row.seq) == (other.row.actor, other.row.seq);
        to.iter().filter(same_number).map(move |other| (one, other))
    });
    let differ = pairs.filter(|(one, other)| {
        let fates = one.fate.zip(other.fate);
        one.row != other.row || fates.is_some_and(|(one, other)| one != other)
    });
    let lines = differ.map(|(one, other)| {
        let (one, other) = (show::with_fate(one), show::with_fate(other));
        format!("{one}\n{other}\n\n")
    });
    lines.collect()
}

/// The rows chunk by chunk; nothing where there is none.
fn listed(chunks: &[Vec<Logged>]) -> String {
    match chunks.is_empty() {
        true => String::new(),
        false => format!(
            "Rows of each chunk: {}\n\n{}",
            lengths(chunks),
            show::delta(chunks)
        ),
    }
}

/// How many rows each chunk has; equal numbers that follow each other once.
fn lengths(chunks: &[Vec<Logged>]) -> String {
    let equal = chunks.chunk_by(|one, next| one.len() == next.len());
    let lengths = equal.map(|chunks| match chunks {
        [one] => one.len().to_string(),
        all => format!("{} ({} times)", all.first().map_or(0, Vec::len), all.len()),
    });
    lengths.collect::<Vec<_>>().join(", ")
}

/// Writes batches as text, with comments before them, and says so.
fn write_out(out: &Path, comments: &[String], offers: &[Offer]) -> Result<String, Error> {
    let comments = comments.iter().map(|line| format!("# {line}\n"));
    let text = comments.collect::<String>() + &text::write(offers);
    let remark = write_new(out, text.as_bytes())?;
    let batches = match offers.len() {
        1 => "1 batch".to_owned(),
        count => format!("{count} batches"),
    };
    Ok(format!("Written to {}: {batches}.\n{remark}", name(out)))
}

/// The rows in an order in which none has to wait for a later one, as far as there is one: those that need nothing beyond
/// the other store's clock and the rows before them, in the log's order, and so on with what is left. A log is by stamp, and
/// has the later first of an author's rows with one stamp: in that order a store might have to hold more rows than it can.
fn causally(mut rows: Vec<Logged>, clock: &VectorClock) -> Result<Vec<Logged>, Refusal> {
    let mut known: BTreeMap<ActorId, u64> = clock.entries()?.into_iter().collect();
    let mut ordered = Vec::with_capacity(rows.len());
    loop {
        let before = ordered.len();
        let mut left = Vec::new();
        for logged in rows {
            let is_known = |(author, number)| number <= known.get(&author).copied().unwrap_or(0);
            let ready = needs(&logged.row).all(is_known);
            if ready {
                let most = known.entry(logged.row.actor).or_default();
                *most = logged.row.seq.max(*most);
                ordered.push(logged);
            } else {
                left.push(logged);
            }
        }
        if ordered.len() == before {
            ordered.append(&mut left);
            return Ok(ordered);
        }
        rows = left;
    }
}

/// What a peer with this clock lacks, chunk by chunk.
fn chunks(
    store: &Store,
    clock: &VectorClock,
    max_rows: u64,
    max_bytes: u64,
) -> Result<Vec<Vec<Logged>>, Error> {
    let delta = store.delta(clock)?;
    let lens = delta.chunk_lens(max_rows, max_bytes)?;
    let mut log: Vec<Option<Logged>> = logged(store)?.into_iter().map(Some).collect();
    let mut lacking = delta.positions().iter().map(|position| {
        let row = log.get_mut(*position).and_then(Option::take);
        row.ok_or(Refusal::MisfitAnswer)
    });
    let chunk = |len| lacking.by_ref().take(len).collect();
    Ok(lens.into_iter().map(chunk).collect::<Result<_, _>>()?)
}

/// The rows of which the store does not know what policy and state said. A file cannot say that of a row: they are
/// written as fitting.
fn unanswered(chunks: &[Vec<Logged>]) -> Vec<String> {
    let rows = chunks.iter().flatten();
    let unanswered = rows.filter(|logged| logged.fate.and_then(outcome).is_none());
    let line = |Logged { row, fate }: &Logged| {
        let (row, fate) = (id(row.actor, row.seq), show::fate(*fate));
        format!("{row} is written as fitting: its fate is {fate}, and its answer is not kept")
    };
    unanswered.map(line).collect()
}

/// Batches of these rows with the answers of policy and state: of at most so many rows, and so many bytes as a chunk's rows
/// count with, but of one row at least.
fn offers(rows: &[Logged], max_rows: u64, max_bytes: u64) -> Result<Vec<Offer>, Refusal> {
    let most = max_rows.clamp(1, MAX_BATCH as u64) as usize;
    let mut batches: Vec<Vec<BatchRow>> = Vec::new();
    let mut bytes: u64 = 0;
    for Logged { row, fate } in rows {
        let size = (row.signing_bytes()?.len() + row.signature.len() + 16) as u64;
        bytes = bytes.saturating_add(size);
        let row = BatchRow {
            row: row.clone(),
            verified: true,
            outcome: fate.and_then(outcome).unwrap_or(Ok(())),
        };
        match batches.last_mut() {
            Some(batch) if batch.len() < most && bytes <= max_bytes => batch.push(row),
            _ => {
                batches.push(vec![row]);
                bytes = size;
            }
        }
    }
    Ok(batches.into_iter().map(Offer::of).collect())
}
