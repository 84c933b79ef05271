//! Stores in files, and what they have.

use std::collections::BTreeMap;
use std::path::{Path, PathBuf};

use cuwelfra::{ActorId, Fate, FileError, HeldRow, Limits, Refusal, Row, Store};
use cuwelfra::{Update, VectorClock, MAX_LOGGED};

use crate::desk::is_name;
use crate::error::Error;
use crate::plain::name;

/// Reads a store's file.
pub fn load(file: &Path) -> Result<Store, Error> {
    is_name(file, WANTED)?;
    Store::load(file).map_err(|error| Error::File(file.to_owned(), error))
}

/// What a store's name is where it is none.
const WANTED: &str = "name of a store; ./- is";

/// A store that is being changed, with its file.
pub struct Change {
    pub store: Store,
    /// Whether there was no file.
    pub new: bool,
    pub file: PathBuf,
    update: Update,
}

impl Change {
    /// Begins to change a store; an empty one where there is no file.
    pub fn begin(file: PathBuf) -> Result<Self, Error> {
        is_name(&file, WANTED)?;
        // Beside a file that is no store no lock is left.
        if file.is_file() {
            load(&file)?;
        }
        let told = |error| Error::File(file.clone(), error);
        let update = Update::begin(&file).map_err(told)?;
        let found = update.load().map_err(told)?;
        let new = found.is_none();
        Ok(Self {
            store: match found {
                Some(store) => store,
                None => Store::with_capacity(MAX_LOGGED)?,
            },
            new,
            file,
            update,
        })
    }

    /// Begins to change the store of a file that is there.
    pub fn of_existing(file: PathBuf) -> Result<Self, Error> {
        // Nothing is made where there is none, no file for a lock either.
        if matches!(file.try_exists(), Ok(false)) {
            return Err(Error::NoStore(file));
        }
        let change = Self::begin(file)?;
        match change.new {
            true => Err(Error::NoStore(change.file)),
            false => Ok(change),
        }
    }

    /// Keeps the file as it is beside it, and gives that one's name.
    pub fn back_up(&self) -> Result<PathBuf, Error> {
        let kept = self.update.back_up();
        kept.map_err(|error| Error::File(self.file.clone(), error))
    }

    /// Writes the file, and says so.
    pub fn save(self) -> Result<String, Error> {
        match settled(self.update.save(&self.store)) {
            Ok(remark) => Ok(remark.unwrap_or("written".to_owned())),
            Err(error) => Err(Error::File(self.file, error)),
        }
    }
}

/// What there is to say of a file that was put in its place: it stands there, also where its folder cannot be synced.
pub fn settled(put: Result<(), FileError>) -> Result<Option<String>, FileError> {
    match put {
        Ok(()) => Ok(None),
        Err(error @ FileError::NotSynced(_)) => Ok(Some(error.to_string())),
        Err(error) => Err(error),
    }
}

/// Writes a store into a file. What is there and is not that store but for times is kept beside it. Gives what there is
/// to say.
pub fn replace(file: &Path, store: &Store) -> Result<String, Error> {
    let told = |error| Error::File(file.to_owned(), error);
    let update = Update::begin(file).map_err(told)?;
    let mut text = String::new();
    let same = match update.load() {
        Ok(None) => true,
        Ok(Some(old)) => are_same(&old, store)?,
        Err(_) => false,
    };
    if !same {
        let kept = update.back_up().map_err(told)?;
        text += &format!(" The file that was there before is {} now.", name(kept));
    }
    if let Some(remark) = settled(update.save(store)).map_err(told)? {
        text += &format!(" As to the file, {remark}.");
    }
    Ok(text)
}

/// Whether two stores have the same rows and the same floor, whenever the rows came.
fn are_same(one: &Store, other: &Store) -> Result<bool, Refusal> {
    let held = |store: &Store| {
        let held = store.held()?.into_iter();
        Ok(held
            .map(|held| (held.row, held.outcome))
            .collect::<Vec<_>>())
    };
    Ok(logged(one)? == logged(other)?
        && held(one)? == held(other)?
        && one.compacted()? == other.compacted()?
        && one.floor()? == other.floor()?)
}

/// A logged row, and what became of it, where that is known.
#[derive(PartialEq, Eq)]
pub struct Logged {
    pub row: Row,
    pub fate: Option<Fate>,
}

/// A held row, and the rows that it waits for: of each author the number that must be logged first.
pub struct Waiting {
    pub held: HeldRow,
    pub causes: Vec<(ActorId, u64)>,
}

/// What a store has.
pub struct View {
    pub log: Vec<Logged>,
    pub held: Vec<Waiting>,
    /// The clock's numbers, by author.
    pub clock: Vec<(ActorId, u64)>,
}

impl View {
    pub fn of(store: &Store) -> Result<Self, Refusal> {
        let clock = store.clock()?;
        let held = store.held()?.into_iter().map(|held| {
            let causes = causes(&held.row, &clock)?;
            Ok(Waiting { held, causes })
        });
        Ok(Self {
            log: logged(store)?,
            held: held.collect::<Result<_, Refusal>>()?,
            clock: clock.entries()?,
        })
    }
}

/// The logged rows with their fates.
pub fn logged(store: &Store) -> Result<Vec<Logged>, Refusal> {
    let rows = store.logged()?.into_iter().zip(store.fates()?);
    Ok(rows.map(|(row, fate)| Logged { row, fate }).collect())
}

/// Until when a held row is kept, the last ms included; `None` for ever.
pub fn kept_until(held: &HeldRow, limits: &Limits) -> Option<u64> {
    held.arrived_ms.checked_add(limits.max_pending_age_ms)
}

/// Whether a call at this time lets a held row expire.
pub fn expires(held: &HeldRow, limits: &Limits, time_ms: u64) -> bool {
    kept_until(held, limits).is_some_and(|until| time_ms > until)
}

/// What a row needs: of each author the number that must be logged first, its own row before it included.
pub fn needs(row: &Row) -> impl Iterator<Item = (ActorId, u64)> + '_ {
    let before = (row.actor, row.seq.saturating_sub(1));
    row.deps.iter().copied().chain([before])
}

/// What a row needs that the clock has not.
pub fn causes(row: &Row, clock: &VectorClock) -> Result<Vec<(ActorId, u64)>, Refusal> {
    let mut causes = BTreeMap::new();
    for (author, number) in needs(row) {
        if number > clock.get(author)? {
            let most = causes.entry(author).or_insert(number);
            *most = number.max(*most);
        }
    }
    Ok(causes.into_iter().collect())
}

#[cfg(test)]
mod tests {
    use super::*;
    use std::io;

    #[test]
    fn a_file_that_stands_is_no_failure() {
        assert!(matches!(settled(Ok(())), Ok(None)));
        let not_synced = FileError::NotSynced(io::Error::other("no"));
        let text = not_synced.to_string();
        assert!(matches!(settled(Err(not_synced)), Ok(Some(said)) if said == text));
        assert!(matches!(
            settled(Err(FileError::Busy)),
            Err(FileError::Busy)
        ));
    }
}
