//! What speaks against adding rows. `add` then does it with `--force` alone, since a row that is added stays.

use cuwelfra::{Limits, Refusal, Row, Store, MAX_DEPS};

use crate::known::latest;
use crate::own::{authors, Writer};
use crate::plain::command;
use crate::{show, time};

/// What speaks against adding.
pub struct Doubts {
    /// The held rows that tell of rows of the author which the store has not logged.
    pub elsewhere: Vec<Row>,
    /// The author would be the first that is one too many for adding.
    pub one_too_many: bool,
    /// The new rows' time, where it is further ahead of the machine's than other stores take.
    pub ahead: Option<Ahead>,
}

/// A time that is ahead of the machine's.
pub struct Ahead {
    pub time_ms: u64,
    pub by_ms: u64,
}

impl Doubts {
    pub fn of(writer: &Writer, store: &Store) -> Result<Self, Refusal> {
        let is_new = store.clock()?.get(writer.author)? == 0;
        Ok(Self {
            elsewhere: telling_of_more(writer, store)?,
            one_too_many: is_new && authors(store)? == MAX_DEPS,
            ahead: ahead(writer, store)?,
        })
    }

    /// Each doubt in words.
    pub fn told(&self, writer: &Writer) -> Vec<String> {
        let author = writer.author.0;
        let elsewhere = (!self.elsewhere.is_empty()).then(|| {
            let rows = self.elsewhere.iter().map(|row| (row.actor, row.seq));
            format!(
                "Author {author} has rows elsewhere that are not logged here, since held rows are among them or need them: {}. \
                 A new row would get a number that one of them has. Join first what they wait for, which `{} held` \
                 names, or add under another author.",
                show::few(rows),
                command(),
            )
        });
        let one_too_many = self.one_too_many.then(|| {
            format!(
                "The store has rows of {MAX_DEPS} authors, and author {author} would be one more. After that no row can \
                 be added here any more, under any author. Look whether the author is right, or add at another store."
            )
        });
        let ahead = self.ahead.as_ref().map(|ahead| {
            format!(
                "The new rows would be stamped {} ahead of the machine's time, at {} UTC. Other stores refuse them with \
                 11 until a minute before that, and all that is added here later is stamped above them. {}",
                time::about(ahead.by_ms),
                time::shown(ahead.time_ms),
                match writer.timed {
                    true => "Look whether --time is in ms.",
                    false => "A stamp that the store has is so far ahead: add when its time has come.",
                }
            )
        });
        [elsewhere, one_too_many, ahead]
            .into_iter()
            .flatten()
            .collect()
    }
}

/// The held rows that tell of rows of an author which the store has not logged: those of its own that come after its last
/// logged one, and those that depend on such. A row that is written here would get a number that is given already.
fn telling_of_more(writer: &Writer, store: &Store) -> Result<Vec<Row>, Refusal> {
    let author = writer.author;
    let last = store.clock()?.get(author)?;
    let mut rows: Vec<Row> = store.held()?.into_iter().map(|held| held.row).collect();
    rows.retain(|row| {
        let named = row.deps.iter().copied().chain([(row.actor, row.seq)]);
        named
            .into_iter()
            .any(|(of, number)| of == author && number > last)
    });
    Ok(rows)
}

/// The new rows' time, where it is ahead. A store's stamp that --drift does not allow is refused with 20 instead.
fn ahead(writer: &Writer, store: &Store) -> Result<Option<Ahead>, Refusal> {
    let latest = latest(store)?.map_or(0, |known| known.stamp.wall_time);
    if latest.saturating_sub(writer.time_ms) > writer.max_drift_ms {
        return Ok(None);
    }
    let time_ms = writer.time_ms.max(latest);
    // Where the machine has no time, the one that was given has to do.
    let by_ms = time_ms.saturating_sub(time::now().unwrap_or(writer.time_ms));
    let is_ahead = by_ms > Limits::new().max_drift_ms;
    Ok(is_ahead.then_some(Ahead { time_ms, by_ms }))
}
