//! What the next batch does with the rows that are held.

use std::path::{Path, PathBuf};

use cuwelfra::{ActorId, HeldRow, Limits, Refusal, Row, Store};

use crate::plain::{command, quoted, shell};
use crate::store::{causes, expires, kept_until};
use crate::table::paragraph;
use crate::text::id;
use crate::{show, time};

/// The held rows of a store's file, and the time and the limits of the command that tells of them.
pub struct Held<'a> {
    pub file: &'a Path,
    pub store: &'a Store,
    pub limits: Limits,
    pub time_ms: u64,
    /// Whether the time was given.
    pub timed: bool,
}

impl Held<'_> {
    /// When the first of the held rows will expire, and which are past that.
    pub fn expiry(&self) -> Result<String, Refusal> {
        let (late, kept): (Vec<_>, Vec<_>) = self
            .staying()?
            .into_iter()
            .partition(|held| expires(held, &self.limits, self.time_ms));
        let until = |held: &HeldRow| kept_until(held, &self.limits);
        let first = kept.iter().filter_map(until).min().map(time::shown);
        let shown = format!("{} held {} shows them", command(), shell(self.file));
        if late.is_empty() {
            return Ok(first.map_or(String::new(), |first| {
                format!("Of the held rows the first expires after {first} UTC; {shown}.\n")
            }));
        }
        let others = first.map_or(String::new(), |first| {
            format!(" Of the others the first expires after {first} UTC.")
        });
        let said = format!(
            "Held longer than rows are kept: {}. The next join lets what is so expire, unless --age gives more \
             time.{others}",
            show::few(late.iter().map(number))
        );
        Ok(format!("{}{shown}.\n", paragraph(&said)))
    }

    /// The held rows whose numbers are given to other rows here, and what is logged under them.
    pub fn dropped(&self) -> Result<String, Refusal> {
        let clock = self.store.clock()?;
        let logged = self.store.logged()?;
        let mut text = String::new();
        for HeldRow { row, .. } in self.store.held()? {
            if row.seq <= clock.get(row.actor)? {
                text += &paragraph(&dropped(&row, &logged));
            }
        }
        Ok(text)
    }

    /// The held rows that wait for nothing any more, and how they are logged. A command stands on a line of its own, so
    /// that it can be copied.
    pub fn ready(&self) -> Result<String, Refusal> {
        let clock = self.store.clock()?;
        let staying = self.staying()?;
        let mut ready = Vec::new();
        for held in &staying {
            if causes(&held.row, &clock)?.is_empty() {
                ready.push(number(held));
            }
        }
        if ready.is_empty() {
            return Ok(String::new());
        }
        let said = format!(
            "Held, and waiting for nothing any more: {}. The next batch logs what is so, even one without rows:",
            show::few(ready.into_iter())
        );
        let empty = shell(&self.empty());
        let time = match self.timed {
            true => format!(" --time {}", self.time_ms),
            false => String::new(),
        };
        Ok(format!(
            "{}    printf '\\0' > {empty} && {} join {} {empty} --age {}d{time}\n",
            paragraph(&said),
            command(),
            shell(self.file),
            self.days(&staying),
        ))
    }

    /// A name for a batch without rows, which no file of a user's has.
    fn empty(&self) -> PathBuf {
        let mut name = self.file.as_os_str().to_owned();
        name.push(".empty.batch");
        name.into()
    }

    /// An age by which none of these rows expires within a week.
    fn days(&self, held: &[HeldRow]) -> u64 {
        let waited = held
            .iter()
            .map(|held| self.time_ms.saturating_sub(held.arrived_ms));
        waited.max().unwrap_or(0) / time::DAY + 7
    }

    /// The held rows whose numbers are not passed.
    fn staying(&self) -> Result<Vec<HeldRow>, Refusal> {
        let clock = self.store.clock()?;
        let mut staying = Vec::new();
        for held in self.store.held()? {
            if held.row.seq > clock.get(held.row.actor)? {
                staying.push(held);
            }
        }
        Ok(staying)
    }
}

fn number(held: &HeldRow) -> (ActorId, u64) {
    (held.row.actor, held.row.seq)
}

/// What is said of a held row whose number is given to another one.
fn dropped(row: &Row, logged: &[Row]) -> String {
    let number = (row.actor, row.seq);
    let id = id(row.actor, row.seq);
    let other = logged
        .iter()
        .find(|other| (other.actor, other.seq) == number);
    let other = other.map_or("given".to_owned(), |other| quoted(&other.payload));
    format!(
        "Held row {id} {} is dropped by the next batch: {id} is {other} here now.",
        quoted(&row.payload)
    )
}
