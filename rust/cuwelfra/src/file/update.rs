//! A change of a store's file.

use std::fs::{self, File};
use std::path::{Path, PathBuf};

use super::error::{while_trying, FileError};
use super::format;
use super::lock::Lock;
use super::paths::{absent, beside, open_folder, regular, sync, target};
use super::temporary::Temporary;
use crate::Store;

/// A change of a store's file. As long as it lasts no other one of that file begins.
///
/// ```
/// use cuwelfra::{Store, Timestamp, ActorId, Update};
///
/// # let folder = std::env::temp_dir().join(format!("cuwelfra-example-{}", std::process::id()));
/// # std::fs::create_dir_all(&folder)?;
/// let path = folder.join("desk.store");
/// let update = Update::begin(&path)?;
/// let mut store = match update.load()? {
///     Some(store) => store,
///     None => Store::with_capacity(1_024)?,
/// };
/// store.set_floor(&Timestamp { wall_time: 1_000, logical_counter: 0, actor_id: ActorId(1) })?;
/// update.save(&store)?;
///
/// assert_eq!(Store::load(&path)?, store);
/// # std::fs::remove_dir_all(&folder)?;
/// # Ok::<(), Box<dyn std::error::Error>>(())
/// ```
#[derive(Debug)]
#[must_use = "an update that is not saved changes nothing"]
pub struct Update {
    // Dropped before the lock, so that it is not the next update's that is removed.
    temporary: Temporary,
    locked: Locked,
}

impl Update {
    /// Begins a change of the file at `path`, which may be there or not. [`FileError::Busy`] as long as there is another
    /// change of it, in this program or in another one that runs. [`FileError::ReadOnly`] where its mode lets nobody write
    /// it.
    ///
    /// A link is followed, also one to a file that is not there. Two files stand beside the file that is changed: its
    /// name with `.lock` behind is kept and stays, with `.cuwelfra-tmp` behind it is made anew.
    pub fn begin(path: impl AsRef<Path>) -> Result<Self, FileError> {
        let locked = Locked::take(target(path.as_ref())?)?;
        let temporary = Temporary::anew(&locked.path)?;
        Ok(Self { temporary, locked })
    }

    /// The store in the file, `None` where there is no file.
    pub fn load(&self) -> Result<Option<Store>, FileError> {
        match regular(&self.locked.path)? {
            Some(_) => Store::load(&self.locked.path).map(Some),
            None => Ok(None),
        }
    }

    /// Puts a copy of the file as it is beside it, and gives the copy's name: the file's with `.bak` behind. What had that
    /// name is kept: it gets the first free one of `.bak2`, `.bak3` and so on. The copy is written as [`Update::save`]
    /// writes: whole or not at all.
    ///
    /// ```
    /// use cuwelfra::{Store, Update};
    ///
    /// # let folder = std::env::temp_dir().join(format!("cuwelfra-backup-{}", std::process::id()));
    /// # std::fs::create_dir_all(&folder)?;
    /// let path = folder.join("desk.store");
    /// let before = Store::with_capacity(16)?;
    /// before.save(&path)?;
    ///
    /// let update = Update::begin(&path)?;
    /// let copy = update.back_up()?;
    /// update.save(&Store::with_capacity(32)?)?;
    /// assert_eq!(Store::load(copy)?, before);
    /// # std::fs::remove_dir_all(&folder)?;
    /// # Ok::<(), Box<dyn std::error::Error>>(())
    /// ```
    pub fn back_up(&self) -> Result<PathBuf, FileError> {
        let bytes = fs::read(&self.locked.path).map_err(while_trying("read the file"))?;
        let copy = beside(&self.locked.path, "bak");
        let mut temporary = Temporary::anew(&copy)?;
        self.locked.fill(&mut temporary, &bytes)?;
        self.locked.keep_older(&copy)?;
        temporary.rename(&copy)?;
        // The folder is synced when the file itself is saved, and that tells whether it can be.
        Ok(copy)
    }

    /// Puts the store in the file's place: the temporary file is written, synced and renamed, then the folder is synced.
    /// It has the old file's mode, and its owner and group where that is allowed.
    ///
    /// Where a step fails the old file is as it was. Only [`FileError::NotSynced`] leaves the new one.
    pub fn save(self, store: &Store) -> Result<(), FileError> {
        let bytes = format::encode(store)?;
        let Self {
            mut temporary,
            locked,
        } = self;
        locked.fill(&mut temporary, &bytes)?;
        temporary.rename(&locked.path)?;
        sync(locked.folder.as_ref())
    }
}

/// A file that only this update changes.
#[derive(Debug)]
struct Locked {
    path: PathBuf,
    folder: Option<File>,
    _lock: Lock,
}

impl Locked {
    fn take(path: PathBuf) -> Result<Self, FileError> {
        if regular(&path)?.is_some_and(|file| file.permissions().readonly()) {
            return Err(FileError::ReadOnly);
        }
        let folder = open_folder(&path)?;
        let _lock = Lock::take(&path)?;
        Ok(Self {
            path,
            folder,
            _lock,
        })
    }

    /// Gives what has the copy's name another one, which is free.
    fn keep_older(&self, copy: &Path) -> Result<(), FileError> {
        if absent(copy).is_ok() {
            return Ok(());
        }
        let mut number: u64 = 2;
        loop {
            let free = beside(&self.path, &format!("bak{number}"));
            match absent(&free) {
                Ok(()) => {
                    let kept = fs::rename(copy, free);
                    return kept.map_err(while_trying("rename the older copy beside it"));
                }
                Err(FileError::Exists) => number += 1,
                Err(error) => return Err(error),
            }
        }
    }

    /// Writes a temporary file with the file's permissions.
    fn fill(&self, temporary: &mut Temporary, bytes: &[u8]) -> Result<(), FileError> {
        if let Some(file) = regular(&self.path)? {
            temporary.permit_as(&file)?;
        }
        temporary.write(bytes)
    }
}

#[cfg(test)]
mod tests {
    use super::super::fixtures::{child, is_child, store, Folder};
    use super::super::temporary::ENDING;
    use super::*;
    use std::fs::Permissions;
    use std::io::{self, BufRead, BufReader};
    use std::os::unix::fs::{chown, symlink, MetadataExt, PermissionsExt};
    use std::process::Command;
    use std::{env, thread};

    fn begins_no_other(path: &Path) {
        let error = Update::begin(path).expect_err("another update");
        assert!(matches!(error, FileError::Busy), "{error}");
    }

    #[test]
    fn one_update_at_a_time() {
        let folder = Folder::new("busy");
        let first = Update::begin(folder.file()).expect("an update");
        begins_no_other(&folder.file());
        // Also where its temporary file was removed by hand.
        fs::remove_file(folder.beside(ENDING)).expect("the temporary file");
        begins_no_other(&folder.file());
        drop(first);
        // A file of a user's is no leftover.
        fs::write(folder.beside("tmp"), "a user's").expect("a file to write");
        let second = Update::begin(folder.file()).expect("the next one");
        begins_no_other(&folder.file());
        second.save(&store(1, &[1])).expect("a file to write");
        assert_eq!(folder.names(), ["a.store", "a.store.lock", "a.store.tmp"]);
        store(1, &[]).save(folder.file()).expect("a later one");
    }

    /// Waits for its turn.
    fn begin(path: &Path) -> Update {
        loop {
            match Update::begin(path) {
                Err(FileError::Busy) => thread::yield_now(),
                begun => return begun.expect("an update"),
            }
        }
    }

    /// Each adds rows to what the others saved, so that a lost change would be seen.
    #[test]
    fn threads_lose_no_change() {
        let folder = Folder::new("threads");
        let add_row = || {
            let update = begin(&folder.file());
            let found = update.load().expect("a sound file");
            let rows = found.map_or(0, |found| found.logged_len().expect("a sound store"));
            let seqs: Vec<u64> = (1..=rows as u64 + 1).collect();
            update.save(&store(100, &seqs)).expect("a file to write");
        };
        thread::scope(|scope| {
            for _ in 0..4 {
                scope.spawn(|| (0..8).for_each(|_| add_row()));
            }
        });
        let store = Store::load(folder.file()).expect("a sound file");
        assert_eq!(store.logged_len(), Ok(32));
    }

    #[test]
    fn a_program_that_is_started_does_not_keep_the_lock() {
        let folder = Folder::new("started");
        thread::scope(|scope| {
            let start = || (0..100).for_each(|_| drop(Command::new("true").status()));
            let started = scope.spawn(start);
            while !started.is_finished() {
                drop(Update::begin(folder.file()).expect("an update"));
            }
        });
    }

    #[test]
    fn a_killed_program_holds_nothing() {
        let folder = Folder::new("killed");
        let mut holder = child("file::update::tests::hold", &folder);
        let mut lines = BufReader::new(holder.stdout.take().expect("its output")).lines();
        let held = lines.any(|line| line.expect("a line").contains("held"));
        assert!(held);
        begins_no_other(&folder.file());
        holder.kill().expect("to be killed");
        holder.wait().expect("its end");
        fs::write(folder.beside(ENDING), "left behind").expect("its temporary file");
        let update = Update::begin(folder.file()).expect("an update");
        assert_eq!(fs::read(folder.beside(ENDING)).expect("a new one"), b"");
        update.save(&store(1, &[1])).expect("a file to write");
        assert_eq!(folder.names(), ["a.store", "a.store.lock"]);
    }

    #[test]
    #[ignore = "a program that another test starts"]
    fn hold() {
        if is_child() {
            let _update = Update::begin("a.store").expect("an update");
            println!("held");
            // Until it is killed, or the other test ends.
            io::stdin().lines().for_each(drop);
        }
    }

    #[test]
    fn a_path_means_the_same_file_to_the_end() {
        let folder = Folder::new("chdir");
        let mut elsewhere = child("file::update::tests::go_elsewhere", &folder);
        assert!(elsewhere.wait().expect("its end").success());
        assert_eq!(folder.names(), ["a.store", "a.store.lock"]);
        Store::load(folder.file()).expect("a sound file");
    }

    #[test]
    #[ignore = "a program that another test starts"]
    fn go_elsewhere() {
        if is_child() {
            let update = Update::begin("a.store").expect("an update");
            env::set_current_dir("/").expect("another folder");
            update.save(&store(1, &[1])).expect("a file to write");
        }
    }

    #[test]
    fn an_update_that_is_dropped_leaves_the_lock_file() {
        let folder = Folder::new("drop");
        let update = Update::begin(folder.file()).expect("an update");
        assert_eq!(folder.names(), ["a.store.cuwelfra-tmp", "a.store.lock"]);
        assert!(update.load().expect("no file").is_none());
        drop(update);
        assert_eq!(folder.names(), ["a.store.lock"]);
    }

    #[test]
    fn a_failed_rename_leaves_what_was_there() {
        let folder = Folder::new("rename");
        let update = Update::begin(folder.file()).expect("an update");
        fs::remove_file(folder.beside(ENDING)).expect("the temporary file");
        let error = update.save(&store(1, &[])).expect_err("nothing to rename");
        assert!(error.to_string().starts_with("cannot rename"), "{error}");
        assert_eq!(folder.names(), ["a.store.lock"]);
    }

    #[test]
    fn a_file_that_is_not_synced_stands_and_is_told() {
        let (old, changed) = (store(1, &[]), store(1, &[1]));
        let unsynced = File::open("/dev/null").expect("what cannot be synced");
        // The other is a folder that may not be read.
        for unsynced in [Some(unsynced), None] {
            let folder = Folder::new("sync");
            old.save(folder.file()).expect("a file to write");
            let mut update = Update::begin(folder.file()).expect("an update");
            update.locked.folder = unsynced;
            // That is told when the file is saved, and keeps nobody from having a copy of it.
            let copy = update.back_up().expect("a copy");
            let error = update.save(&changed).expect_err("a folder not synced");
            assert!(matches!(error, FileError::NotSynced(_)), "{error}");
            assert_eq!(Store::load(folder.file()).expect("the new file"), changed);
            assert_eq!(Store::load(copy).expect("the old one"), old);
            assert_eq!(folder.names(), ["a.store", "a.store.bak", "a.store.lock"]);
        }
    }

    /// The file is damaged, which does not matter here.
    #[test]
    fn a_copy_is_the_file_as_it_is() {
        let folder = Folder::new("backup");
        let copy = folder.beside("bak");
        let mut older: Vec<String> = Vec::new();
        for (bytes, mode) in [("damaged", 0o600), ("again", 0o640), ("and again", 0o600)] {
            fs::write(folder.file(), bytes).expect("a file to write");
            fs::set_permissions(folder.file(), Permissions::from_mode(mode)).expect("a file");
            fs::write(folder.beside("bak.cuwelfra-tmp"), "left behind").expect("a file to write");
            let update = Update::begin(folder.file()).expect("an update");
            let path = update.back_up().expect("a copy");
            assert_eq!(path, fs::canonicalize(&copy).expect("the copy"));
            assert_eq!(fs::read(&copy).expect("the copy"), bytes.as_bytes());
            let told = fs::metadata(&copy).expect("the copy").permissions();
            assert_eq!(told.mode() & 0o777, mode);
            // Those before it stand under other names.
            for (number, bytes) in (2..).zip(&older) {
                let kept = folder.beside(&format!("bak{number}"));
                assert_eq!(fs::read(kept).expect("an older copy"), bytes.as_bytes());
            }
            older.push(bytes.to_owned());
            assert_eq!(folder.names().len(), older.len() + 3);
            update.save(&store(1, &[1])).expect("a file to write");
            assert_eq!(fs::read(&copy).expect("the copy"), bytes.as_bytes());
        }
    }

    #[test]
    fn a_failed_copy_leaves_the_older_one() {
        let folder = Folder::new("no-backup");
        let update = Update::begin(folder.file()).expect("an update");
        let error = update.back_up().expect_err("no file to copy");
        assert!(error.to_string().starts_with("cannot read"), "{error}");
        assert_eq!(folder.names(), ["a.store.cuwelfra-tmp", "a.store.lock"]);

        // There is no place for the new copy.
        fs::write(folder.file(), "as it is").expect("a file to write");
        fs::write(folder.beside("bak"), "older").expect("a file to write");
        fs::create_dir(folder.beside("bak.cuwelfra-tmp")).expect("a folder in its place");
        let error = update.back_up().expect_err("a folder");
        assert!(error.to_string().starts_with("cannot remove"), "{error}");
        assert_eq!(fs::read(folder.beside("bak")).expect("the copy"), b"older");
        assert!(!folder.beside("bak2").exists());
    }

    /// Whatever has the copy's name: a folder, a link to nothing.
    #[test]
    fn what_has_the_copys_name_is_kept() {
        let folder = Folder::new("kept");
        fs::write(folder.file(), "as it is").expect("a file to write");
        fs::create_dir(folder.beside("bak")).expect("a folder in the copy's place");
        symlink("nowhere", folder.beside("bak2")).expect("a link to nothing");
        let update = Update::begin(folder.file()).expect("an update");
        update.back_up().expect("a copy");
        assert_eq!(
            fs::read(folder.beside("bak")).expect("the copy"),
            b"as it is"
        );
        assert!(folder.beside("bak2").is_symlink() && folder.beside("bak3").is_dir());
    }

    /// The superuser may write in such a folder all the same; then there is nothing to see.
    #[test]
    fn a_folder_that_cannot_be_written_keeps_the_old_file() {
        let folder = Folder::new("readonly");
        let old = store(1, &[1]);
        old.save(folder.file()).expect("a file to write");
        let mode = |mode| fs::set_permissions(&folder.0, Permissions::from_mode(mode));
        mode(0o555).expect("a folder");
        if File::create(folder.0.join("probe")).is_err() {
            let error = store(1, &[]).save(folder.file()).expect_err("no room");
            let told = error.to_string();
            assert!(told.starts_with("cannot make a temp"), "{told}");
        }
        mode(0o755).expect("a folder");
        assert_eq!(Store::load(folder.file()).expect("the old file"), old);
    }

    /// A new file could take its place all the same.
    #[test]
    fn a_file_that_nobody_may_write_is_not_replaced() {
        let folder = Folder::new("read-only");
        store(1, &[]).save(folder.file()).expect("a file to write");
        fs::set_permissions(folder.file(), Permissions::from_mode(0o444)).expect("a file");
        let error = Update::begin(folder.file()).expect_err("a read-only file");
        assert!(matches!(error, FileError::ReadOnly), "{error}");
        Store::load(folder.file()).expect("a file to read");
    }

    #[test]
    fn mode_and_owner_stay() {
        let folder = Folder::new("mode");
        store(1, &[]).save(folder.file()).expect("a file to write");
        // Only the superuser may give it away.
        let _ = chown(folder.file(), Some(7), Some(8));
        for mode in [0o600, 0o640] {
            fs::set_permissions(folder.file(), Permissions::from_mode(mode)).expect("a file");
            let rights = || {
                let found = fs::metadata(folder.file()).expect("a file");
                (found.uid(), found.gid(), found.mode(), found.ino())
            };
            let before = rights();
            store(1, &[1]).save(folder.file()).expect("a file to write");
            let after = rights();
            assert_eq!((after.0, after.1, after.2), (before.0, before.1, before.2));
            assert_ne!(after.3, before.3);
        }
    }

    /// A link to a file, and one to a file that is not there yet, in another folder.
    #[test]
    fn a_link_stays_a_link() {
        for dangling in [false, true] {
            let folder = Folder::new(&format!("link-{dangling}"));
            let other = folder.0.join("other");
            fs::create_dir(&other).expect("a folder");
            let (real, link) = (other.join("b.store"), folder.0.join("link"));
            symlink("other/b.store", other.join("../middle")).expect("a link");
            symlink("middle", &link).expect("a link to a link");
            if !dangling {
                store(1, &[]).save(&real).expect("a file to write");
            }
            let by_link = Update::begin(&link).expect("an update");
            begins_no_other(&real);
            drop(by_link);
            let directly = Update::begin(&real).expect("an update");
            begins_no_other(&link);
            drop(directly);
            let changed = store(1, &[1]);
            changed.save(&link).expect("a file to write");
            assert!(link.is_symlink());
            assert!(!real.is_symlink());
            assert_eq!(Store::load(&real).expect("the file"), changed);
            assert_eq!(folder.names(), ["link", "middle", "other"]);
            let beside = Folder::names_in(&other);
            assert_eq!(beside, ["b.store", "b.store.lock"]);
        }
    }
}
