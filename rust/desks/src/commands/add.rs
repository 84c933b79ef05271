//! `add STORE --author N PAYLOAD...`: logs rows that are written here, all of them or none.

use std::path::Path;

use cuwelfra::{Limits, Refusal, Row, Store};

use crate::answer::Answer;
use crate::doubts::{Ahead, Doubts};
use crate::error::Error;
use crate::own::{authors, Stopped, Writer};
use crate::plain::{command, name, quoted, shell};
use crate::store::{logged, Change};
use crate::table::{counted, one_line, paragraph};
use crate::text::{self, id, Entry};
use crate::waiting::Held;
use crate::words::Words;
use crate::{show, time};

pub fn run(mut words: Words) -> Result<Answer, Error> {
    let force = words.flag("--force");
    let writer = words.writer()?;
    let (file, payloads) = words.one_and_more("no payload is given")?;
    let entries = text::entries(&payloads);
    let entries = entries.map_err(|(word, fault)| Error::Payload(word.clone(), fault))?;
    let mut change = Change::begin(file)?;
    let doubts = Doubts::of(&writer, &change.store)?;
    let why = doubts.told(&writer);
    if !why.is_empty() && !force {
        let file = change.file;
        return Err(Error::Doubted { file, why });
    }
    let before = change.store.clock()?.get(writer.author)?;
    match writer.seal(&mut change.store, &entries) {
        Ok(sealed) => {
            let added = Added {
                writer,
                doubts,
                before,
                sealed,
            };
            added.save(change, &entries)
        }
        Err(stopped) => Ok(refused(&change, &stopped)),
    }
}

/// Rows that are sealed.
struct Added {
    writer: Writer,
    doubts: Doubts,
    /// The author's last number before them.
    before: u64,
    /// Their numbers.
    sealed: Vec<u64>,
}

impl Added {
    /// Writes the store, and says what is new in it.
    fn save(&self, change: Change, entries: &[Entry]) -> Result<Answer, Error> {
        let (file, store) = (change.file.clone(), &change.store);
        let told = [
            self.origin(change.new, &store.logged()?),
            self.notices(store)?,
            self.waiting(&file, store)?,
            self.sending(&file),
        ];
        let (count, room) = (store.logged_len()?, store.capacity());
        let (rows, held) = (self.rows(store)?, store.held_len()?);
        let written = change.save()?;
        let stand = format!(
            "{}: {count} of {room} rows logged, {} of them now; {held} held; {written}.",
            name(&file),
            self.sealed.len(),
        );
        Ok(Answer::well(format!(
            "Added:\n\n{rows}{}\n{}{}",
            self.signatures(entries),
            one_line(&stand),
            told.concat()
        )))
    }

    /// The new rows.
    fn rows(&self, store: &Store) -> Result<String, Refusal> {
        let mut rows = logged(store)?;
        rows.retain(|logged| {
            logged.row.actor == self.writer.author && self.sealed.contains(&logged.row.seq)
        });
        Ok(show::added(&rows).to_string())
    }

    /// Which rows are signed, where one is.
    fn signatures(&self, entries: &[Entry]) -> String {
        let signed = entries.iter().zip(&self.sealed).filter_map(|(entry, seq)| {
            let signature = entry.signature.as_ref()?;
            let bytes = counted(signature.len(), "byte");
            (!signature.is_empty())
                .then(|| format!("{} with {bytes}", id(self.writer.author, *seq)))
        });
        match signed.collect::<Vec<_>>() {
            none if none.is_empty() => String::new(),
            signed => format!(
                "\n{}",
                paragraph(&format!("Signed: {}.", signed.join(", ")))
            ),
        }
    }

    /// What a wrong name or a wrong number would show itself by.
    fn origin(&self, new: bool, rows: &[Row]) -> String {
        let author = self.writer.author;
        let text = match (new, self.before) {
            (true, _) => "There was no such file: it is new. Where another store is meant, remove it and add there.".to_owned(),
            (false, 0) => format!(
                "These are the first rows of author {} in this store. An author's rows are added at one store alone.",
                author.0
            ),
            // More is said of these.
            _ if self.is_elsewhere() => return String::new(),
            (false, last) => {
                let mut rows = rows.iter();
                let row = rows.find(|row| (row.actor, row.seq) == (author, last));
                let row = row.map_or(", which is compacted".to_owned(), |row| {
                    format!(" {}", quoted(&row.payload))
                });
                format!(
                    "Author {} went on from {}{row}. Where that was added at another store, {} is or will be given there too.",
                    author.0,
                    id(author, last),
                    id(author, last.saturating_add(1)),
                )
            }
        };
        paragraph(&text)
    }

    /// What follows from rows that were added all the same.
    fn notices(&self, store: &Store) -> Result<String, Refusal> {
        let mut text = String::new();
        if self.doubts.one_too_many {
            text += &closed(authors(store)?);
        }
        if let Some(Ahead { time_ms, by_ms }) = self.doubts.ahead {
            text += &paragraph(&format!(
                "Stamped {} ahead, at {} UTC: other stores refuse it with 11 until a minute before that.",
                time::about(by_ms),
                time::shown(time_ms)
            ));
        }
        Ok(text)
    }

    /// What becomes of the held rows.
    fn waiting(&self, file: &Path, store: &Store) -> Result<String, Refusal> {
        let held = Held {
            file,
            store,
            limits: Limits::new(),
            time_ms: self.writer.time_ms,
            timed: self.writer.timed,
        };
        Ok([held.dropped()?, held.expiry()?, held.ready()?].concat())
    }

    /// How the new rows come to other stores. A command stands on a line of its own, so that it can be copied.
    fn sending(&self, file: &Path) -> String {
        if self.is_elsewhere() {
            let rows = self.sealed.iter().map(|seq| (self.writer.author, *seq));
            return paragraph(&format!(
                "{} may have another content elsewhere; a store that has that one keeps it.",
                show::few(rows)
            ));
        }
        let (command, file) = (command(), shell(file));
        let said = "Other stores lack what is new. The first of these writes all rows, the second those that store OTHER \
                    lacks; the third takes them in there:";
        format!(
            "{}    {command} delta {file} - --out FILE\n    {command} delta {file} OTHER --out FILE\n    \
             {command} join OTHER FILE\n",
            paragraph(said)
        )
    }

    /// Whether the numbers may be given elsewhere.
    fn is_elsewhere(&self) -> bool {
        !self.doubts.elsewhere.is_empty()
    }
}

/// What is said of a store that has just got rows of so many authors that none can be added.
pub fn closed(authors: usize) -> String {
    format!("This store has rows of {authors} authors now: no row can be added here any more.\n")
}

/// What was refused and what to do about it. Nothing is written.
fn refused(change: &Change, stopped: &Stopped) -> Answer {
    let left = match change.new {
        true => "not made",
        false => "left as it was",
    };
    let end = format!(
        "{}: {left}. Payloads are added all together or not at all.",
        name(&change.file)
    );
    Answer {
        text: format!(
            "Refused, with nothing added:\n\n{}\n{}",
            show::refusal(&stopped.what, &stopped.refused, &stopped.advice),
            one_line(&end),
        ),
        well: false,
    }
}
