//! Calls, rows, stamps and stores as plain text.

use std::fmt::Display;

use cuwelfra::{ActorId, ChunkSize, Fate, Limits, Refusal, Row, Timestamp};

use crate::advice::{advice, Advice};
use crate::calls::{Accepted, Told};
use crate::notice::{News, Notice, Waited};
use crate::plain::{plain, with_command};
use crate::refused::Refused;
use crate::store::{kept_until, Logged, View, Waiting};
use crate::table::{indented, one_line, or_dash, paragraph, Table};
use crate::text::{self, answer, id, pairs};
use crate::time;

/// The report of every call, then the rows that a person has to know of, then what was refused and what to do about it.
pub fn reports(told: &[Told]) -> String {
    let parts = [
        format!("Reports:\n\n{}", calls(told)),
        expired(told),
        dropped(told),
        not_applied(told),
        unfolded(told),
        differing(told),
        not_compared(told),
        refused(told),
    ];
    parts.concat()
}

/// What each batch call told.
fn calls(told: &[Told]) -> Table {
    Table {
        titles: vec![
            "batch",
            "rows",
            "applied",
            "stale",
            "rejected",
            "duplicates",
            "held",
            "expired",
            "dropped",
            "logged, in this order",
        ],
        rows: told.iter().map(call).collect(),
    }
}

fn call(told: &Told) -> Vec<String> {
    let rows = match &told.answer {
        // One that does not read has nobody knows how many.
        Err(_) if told.offer.rows.is_empty() => String::new(),
        _ => told.offer.rows.len().to_string(),
    };
    let mut cells = vec![told.batch.clone(), rows];
    match &told.answer {
        Ok(accepted) => {
            let report = &accepted.report;
            let counts = [
                report.applied,
                report.stale,
                report.rejected,
                report.duplicates,
                report.held,
                report.expired,
                report.dropped,
            ];
            cells.extend(counts.map(|count| count.to_string()));
            cells.push(logged(&report.logged));
        }
        Err(refused) => {
            cells.extend([const { String::new() }; 7]);
            cells.push(format!("refused with {}", refused.refusal.number()));
        }
    }
    cells
}

/// Logged rows in their order, each with its fate where it is not applied.
fn logged(logged: &[cuwelfra::Logged]) -> String {
    let rows = logged.iter().map(|logged| {
        let fate = match logged.fate {
            Fate::Applied => String::new(),
            fate => format!(" ({})", self::fate(Some(fate))),
        };
        (logged.actor, logged.seq, fate)
    });
    or_dash(ranges(&rows.collect::<Vec<_>>()))
}

/// Authors and sequences, with what stands behind each. Three or more rows of one author whose numbers follow each other
/// and that have the same behind them are a range.
fn ranges(rows: &[(ActorId, u64, String)]) -> String {
    let ranges = counted_ranges(rows).into_iter().map(|(range, _)| range);
    ranges.collect::<Vec<_>>().join(", ")
}

/// Rows by their numbers, the first five ranges of them, and how many more there are.
pub fn few(rows: impl Iterator<Item = (ActorId, u64)>) -> String {
    let mut rows: Vec<_> = rows
        .map(|(actor, seq)| (actor, seq, String::new()))
        .collect();
    rows.sort();
    let mut ranges = counted_ranges(&rows);
    let rest = ranges.split_off(ranges.len().min(5));
    let first: Vec<String> = ranges.into_iter().map(|(range, _)| range).collect();
    match rest.iter().map(|(_, count)| count).sum::<usize>() {
        0 => first.join(", "),
        more => format!("{} and {more} more", first.join(", ")),
    }
}

/// Ranges, and of how many rows each is.
fn counted_ranges(rows: &[(ActorId, u64, String)]) -> Vec<(String, usize)> {
    let follows = |one: &(ActorId, u64, String), next: &(ActorId, u64, String)| {
        (one.0, &one.2) == (next.0, &next.2) && one.1.checked_add(1) == Some(next.1)
    };
    let ranges = rows.chunk_by(follows).flat_map(|range| match range {
        [(actor, seq, behind), .., (_, last, _)] if range.len() > 2 => {
            let text = format!("{}-{last}{behind}", id(*actor, *seq));
            vec![(text, range.len())]
        }
        rows => {
            let row = |(actor, seq, behind): &(ActorId, u64, String)| {
                (format!("{}{behind}", id(*actor, *seq)), 1)
            };
            rows.iter().map(row).collect()
        }
    });
    ranges.collect()
}

/// What became of a logged row, in a word.
pub fn fate(fate: Option<Fate>) -> String {
    match fate {
        None => "not known".to_owned(),
        Some(Fate::Applied) => "applied".to_owned(),
        Some(Fate::Stale) => "stale".to_owned(),
        Some(Fate::Rejected(error)) => answer(error),
        // A later version's.
        Some(fate) => format!("fate {}", fate.byte()),
    }
}

/// A logged row as a file has it, with its fate behind it.
pub fn with_fate(logged: &Logged) -> String {
    format!("{} ({})", text::row(&logged.row), fate(logged.fate))
}

/// Rows that waited and do so no more, each as a line of a file, so that it can be joined again.
fn gone(told: &[Told], title: &str, kind: fn(&News) -> Option<&Waited>) -> String {
    let lines = notices(told).filter_map(|(batch, Notice { row, news })| {
        let waited = kind(news)?;
        Some(format!(
            "{batch}: {} waited since {} UTC for {}{}\n    {}\n",
            id(row.actor, row.seq),
            time::shown(waited.since_ms),
            pairs(&waited.causes),
            now(row, waited),
            text::answered(row, Some(waited.outcome)),
        ))
    });
    section(title, lines.collect())
}

/// What the store has now under the number of a row that waited.
fn now(row: &Row, waited: &Waited) -> String {
    match &waited.now {
        None => String::new(),
        Some(found)
            if found.row == *row && found.outcome.is_none_or(|now| now == waited.outcome) =>
        {
            "; it came again".to_owned()
        }
        Some(found) => format!(
            "; under its number the store has now\n    {}\n  and not",
            text::answered(&found.row, found.outcome)
        ),
    }
}

fn expired(told: &[Told]) -> String {
    let title = "Expired: these rows waited too long. Those that did not come again are no longer in the store: join them \
                 again when what they wait for has come.";
    gone(told, title, |news| match news {
        News::Expired(waited) => Some(waited),
        _ => None,
    })
}

fn dropped(told: &[Told]) -> String {
    let title = "Dropped: the numbers of these rows were passed while they waited. They are no longer in the store.";
    gone(told, title, |news| match news {
        News::Dropped(waited) => Some(waited),
        _ => None,
    })
}

/// The logged rows that are not applied.
fn not_applied(told: &[Told]) -> String {
    let rows = notices(told).filter_map(|(batch, Notice { row, news })| {
        let why = match news {
            News::Rejected(error) => answer(*error),
            News::Stale => "stale".to_owned(),
            _ => return None,
        };
        Some(vec![
            batch.to_owned(),
            id(row.actor, row.seq),
            why,
            plain(&row.payload),
            stamp(row.timestamp),
        ])
    });
    let table = Table {
        titles: vec!["batch", "row", "fate", "payload", "stamp"],
        rows: rows.collect(),
    };
    let title = "Not applied: these rows are logged, but policy or state refused them, or they are stale: at or below \
                 the floor.";
    match table.rows.is_empty() {
        true => String::new(),
        false => section(title, table.to_string()),
    }
}

/// Rows whose stamps the clock refused, each as a line of a file, and what that means for a stamp that is issued here.
fn unfolded(told: &[Told]) -> String {
    let lines = notices(told).filter_map(|(batch, Notice { row, news })| {
        let News::Unfolded {
            place,
            outcome,
            refusal,
            wall,
        } = news
        else {
            return None;
        };
        let next = match refusal {
            Refusal::CounterOverflow => format!(
                "there may be no stamp above it up to {} UTC",
                time::shown(*wall)
            ),
            _ => "a stamp that is issued here may be below it".to_owned(),
        };
        let id = id(row.actor, row.seq);
        let line = one_line(&format!("{batch}, {place}: {id}, {refusal}; {next}"));
        let row = text::answered(row, Some(*outcome));
        Some(format!("{line}    {row}\n"))
    });
    let title = "Refused by the clock: these rows are merged as always, and only their stamps were not taken in.";
    section(title, lines.collect())
}

/// Text below a title, where there is any.
fn section(title: &str, text: String) -> String {
    match text.is_empty() {
        true => text,
        false => format!("\n{}\n{text}", paragraph(title)),
    }
}

/// The accepted batches.
fn accepted<'a>(told: &'a [Told]) -> impl Iterator<Item = (&'a str, &'a Accepted)> {
    told.iter()
        .filter_map(|told| Some((told.batch.as_str(), told.answer.as_ref().ok()?)))
}

/// What there is to know of all calls, with the batch of each.
fn notices<'a>(told: &'a [Told]) -> impl Iterator<Item = (&'a str, &'a Notice)> {
    accepted(told).flat_map(|(batch, accepted)| {
        let notices = accepted.notices.iter();
        notices.map(move |notice| (batch, notice))
    })
}

/// Duplicates that are not what the store has under their numbers: both, as a file has them.
fn differing(told: &[Told]) -> String {
    let differing = notices(told).filter_map(|(batch, Notice { row, news })| {
        let News::Differs {
            place,
            outcome,
            there,
        } = news
        else {
            return None;
        };
        let held = if there.held { "held" } else { "logged" };
        Some(format!(
            "{batch}, {place}: {} has other content or another answer\n    {held:<6}  {}\n    came    {}\n",
            id(row.actor, row.seq),
            text::answered(&there.row, there.outcome),
            text::answered(row, Some(*outcome)),
        ))
    });
    let title = "Duplicates that differ: the store keeps what it had under these numbers.";
    section(title, differing.collect())
}

/// Duplicates of compacted rows, of which nobody can say any more whether they differ.
fn not_compared(told: &[Told]) -> String {
    let numbers = accepted(told).flat_map(|(_, accepted)| &accepted.compacted);
    let mut numbers: Vec<_> = numbers.collect();
    numbers.sort();
    numbers.dedup();
    let rows = numbers
        .into_iter()
        .map(|(actor, seq)| (*actor, *seq, String::new()));
    let list = ranges(&rows.collect::<Vec<_>>());
    let title = "Not compared: the rows that the store had under the numbers of these duplicates were compacted.";
    section(title, paragraph(&list))
}

/// What was refused, what of it is at fault, what that means and what to do.
pub fn refusal(what: &str, refused: &Refused, advice: &Advice) -> String {
    let faults = refused.faults.iter();
    let faults: String = faults.map(|fault| format!("    {fault}\n")).collect();
    format!(
        "{}{faults}{}{}",
        one_line(&format!("{what}: {}", refused.refusal)),
        indented(&with_command(advice.meaning)),
        indented(&with_command(advice.advice))
    )
}

/// The batches that were refused, what to do about each, and the rows that were left out with them.
fn refused(told: &[Told]) -> String {
    let refused: Vec<_> = told
        .iter()
        .filter_map(|told| Some((told, told.answer.as_ref().err()?)))
        .collect();
    if refused.is_empty() {
        return String::new();
    }
    let mut text = "\nRefused, with nothing of the batch taken:\n\n".to_owned();
    for (Told { batch, .. }, refused) in &refused {
        text += &refusal(batch, refused, &advice(refused.refusal));
    }
    let rows = refused.iter().flat_map(|(told, _)| {
        let rows = told.offer.rows.iter().enumerate();
        rows.map(|(i, row)| {
            let place = told.offer.place(i);
            format!("{}, {place}: {}\n", told.batch, text::line(row))
        })
    });
    text + &section("Left out with them:", rows.collect())
}

/// The logged rows, by position.
pub fn log(view: &View) -> String {
    let log = view.log.iter().enumerate();
    let rows = log.map(|(i, Logged { row, fate })| (vec![i.to_string(), self::fate(*fate)], row));
    let unknown = unknown(&view.log);
    titled("Log", rows_with(&["position", "fate"], rows)) + &unknown
}

/// How many fates are not known, and why.
fn unknown(log: &[Logged]) -> String {
    match log.iter().filter(|logged| logged.fate.is_none()).count() {
        0 => String::new(),
        count => format!(
            "\n{count} of {} fates are not known: a file of version 1 kept none.\n",
            log.len()
        ),
    }
}

/// The held rows, with what each waits for, since when, until when it is kept, and what policy and state said of it.
pub fn held(view: &View, limits: &Limits) -> String {
    let rows = view.held.iter().map(|Waiting { held, causes }| {
        let row = &held.row;
        vec![
            id(row.actor, row.seq),
            pairs(causes),
            time::shown(held.arrived_ms),
            kept_until(held, limits).map_or("never".to_owned(), time::shown),
            plain(&row.payload),
            held.outcome.map_or_else(answer, |()| "fits".to_owned()),
            stamp(row.timestamp),
            pairs(&row.deps),
        ]
    });
    let table = Table {
        titles: vec![
            "row",
            "waits for",
            "since (UTC)",
            "expires after (UTC)",
            "payload",
            "answer",
            "stamp",
            "depends on",
        ],
        rows: rows.collect(),
    };
    titled("Held", table)
}

fn titled(title: &str, table: Table) -> String {
    match table.rows.is_empty() {
        true => format!("{title}: no row\n"),
        false => format!("{title}:\n\n{table}"),
    }
}

/// The clock on a line.
pub fn clock(view: &View) -> String {
    format!("Clock: {}\n", pairs(&view.clock))
}

/// The rows of a delta's chunks, by chunk.
pub fn delta(chunks: &[Vec<Logged>]) -> Table {
    let chunks = (1..).zip(chunks);
    let rows = chunks.flat_map(|(i, chunk)| {
        let rows = chunk.iter();
        rows.map(move |logged| (vec![i.to_string(), fate(logged.fate)], &logged.row))
    });
    rows_with(&["chunk", "fate"], rows)
}

/// Rows and bytes of a delta's chunks, and their sums. Numbers of chunks stand to the right, although one line has none.
pub fn sizes(sizes: &[ChunkSize]) -> Table {
    let line = |chunk: &dyn Display, rows: usize, bytes: usize| {
        vec![format!("{chunk:>5}"), rows.to_string(), bytes.to_string()]
    };
    let chunks = (1..).zip(sizes);
    let mut rows: Vec<Vec<String>> = chunks
        .map(|(i, size): (u64, _)| line(&i, size.rows, size.bytes))
        .collect();
    let sum = |part: fn(&ChunkSize) -> usize| sizes.iter().map(part).sum();
    rows.push(line(&"sum", sum(|size| size.rows), sum(|size| size.bytes)));
    Table {
        titles: vec!["chunk", "rows", "bytes"],
        rows,
    }
}

/// Logged rows with their fates.
pub fn rows<'a>(rows: impl Iterator<Item = &'a Logged>) -> Table {
    rows_with(
        &["fate"],
        rows.map(|logged| (vec![fate(logged.fate)], &logged.row)),
    )
}

/// Rows that are new, with their fates. What they depend on is all that was logged: the payload has its room.
pub fn added(rows: &[Logged]) -> Table {
    let line = |Logged { row, fate }: &Logged| {
        vec![
            self::fate(*fate),
            stamp(row.timestamp),
            id(row.actor, row.seq),
            plain(&row.payload),
        ]
    };
    Table {
        titles: vec!["fate", "stamp", "row", "payload"],
        rows: rows.iter().map(line).collect(),
    }
}

/// Rows with columns before them.
fn rows_with<'a>(
    titles: &[&'static str],
    rows: impl Iterator<Item = (Vec<String>, &'a Row)>,
) -> Table {
    let line = |(first, row): (Vec<String>, &Row)| {
        let row = [
            stamp(row.timestamp),
            id(row.actor, row.seq),
            pairs(&row.deps),
            plain(&row.payload),
        ];
        first.into_iter().chain(row).collect()
    };
    Table {
        titles: [titles, &["stamp", "row", "depends on", "payload"]].concat(),
        rows: rows.map(line).collect(),
    }
}

/// A stamp in one word.
pub fn stamp(stamp: Timestamp) -> String {
    let Timestamp {
        wall_time,
        logical_counter,
        actor_id,
    } = stamp;
    format!("{wall_time}/{logical_counter}/{}", actor_id.0)
}
