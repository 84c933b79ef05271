//! Files that are not there yet.

use std::path::Path;

use super::error::FileError;
use super::paths::{absent, absolute, open_folder, sync};
use super::temporary::Temporary;

/// Makes a file that is not there yet, of any content: whole or not at all. [`FileError::Exists`] where something has its
/// name.
///
/// A file of another name is written and synced beside it, then that gets this name and the folder is synced. Where a step
/// fails nothing is left. Only [`FileError::NotSynced`] leaves the new file.
///
/// ```
/// use cuwelfra::{write_new, FileError};
///
/// # let folder = std::env::temp_dir().join(format!("cuwelfra-new-{}", std::process::id()));
/// # std::fs::create_dir_all(&folder)?;
/// let path = folder.join("delta.txt");
/// write_new(&path, b"1030 0 1 3 - Kette=chain")?;
/// assert!(matches!(write_new(&path, b""), Err(FileError::Exists)));
/// assert_eq!(std::fs::read(&path)?, b"1030 0 1 3 - Kette=chain");
/// # std::fs::remove_dir_all(&folder)?;
/// # Ok::<(), Box<dyn std::error::Error>>(())
/// ```
pub fn write_new(path: impl AsRef<Path>, bytes: &[u8]) -> Result<(), FileError> {
    let path = absolute(path.as_ref())?;
    absent(&path)?;
    let folder = open_folder(&path)?;
    let mut temporary = Temporary::unique(&path)?;
    temporary.write(bytes)?;
    temporary.rename_to_new(&path)?;
    sync(folder.as_ref())
}

#[cfg(test)]
mod tests {
    use super::super::fixtures::Folder;
    use super::super::temporary::ENDING;
    use super::*;
    use std::os::unix::fs::symlink;
    use std::{fs, process, thread};

    fn is_refused(made: Result<(), FileError>) {
        let error = made.expect_err("something that is there");
        assert!(matches!(error, FileError::Exists), "{error}");
    }

    #[test]
    fn nothing_is_replaced() {
        let folder = Folder::new("exists");
        write_new(folder.file(), b"first").expect("a new file");
        symlink("nowhere", folder.0.join("link")).expect("a link to nothing");
        for path in [&folder.file(), &folder.0, &folder.0.join("link")] {
            is_refused(write_new(path, b"second"));
        }
        assert_eq!(fs::read(folder.file()).expect("the file"), b"first");
        assert_eq!(folder.names(), ["a.store", "link"]);
    }

    /// What comes to be after the first look is not replaced either, with links and without.
    #[test]
    fn nothing_is_replaced_in_the_last_step() {
        let folder = Folder::new("late");
        let temporary = || {
            let mut temporary = Temporary::unique(&folder.file()).expect("a temporary file");
            temporary.write(b"new").expect("bytes to write");
            temporary
        };
        temporary()
            .rename_after_looking(&folder.file())
            .expect("a new file");
        assert_eq!(fs::read(folder.file()).expect("the file"), b"new");
        fs::write(folder.file(), "other").expect("a file to write");
        is_refused(temporary().rename_to_new(&folder.file()));
        is_refused(temporary().rename_after_looking(&folder.file()));
        assert_eq!(fs::read(folder.file()).expect("the file"), b"other");
        let link = folder.0.join("link");
        symlink("nowhere", &link).expect("a link to nothing");
        is_refused(temporary().rename_after_looking(&link));
        assert_eq!(folder.names(), ["a.store", "link"]);
    }

    #[test]
    fn of_several_threads_one_makes_the_file() {
        let folder = Folder::new("race");
        let make = |byte: u8| write_new(folder.file(), &[byte; 9_000]);
        let made = thread::scope(|scope| {
            let threads = [1, 2, 3, 4].map(|byte| scope.spawn(move || make(byte)));
            let made = threads.map(|thread| thread.join().expect("no panic"));
            made.into_iter().filter(Result::is_ok).count()
        });
        assert_eq!(made, 1);
        let bytes = fs::read(folder.file()).expect("the file");
        assert_eq!(bytes, [bytes[0]; 9_000]);
        assert_eq!(folder.names(), ["a.store"]);
    }

    #[test]
    fn a_failed_step_leaves_nothing() {
        let folder = Folder::new("nothing");
        let path = folder.0.join("none/b");
        let error = write_new(path, b"bytes").expect_err("no folder");
        assert!(
            error.to_string().starts_with("cannot open its folder"),
            "{error}"
        );
        // The folder takes names of at most 255 bytes: the file's fits, the temporary one's does not.
        let error = write_new(folder.0.join("a".repeat(255)), b"bytes").expect_err("a long name");
        assert!(error.to_string().starts_with("cannot make"), "{error}");
        assert_eq!(folder.names(), [""; 0]);
    }

    /// Such as a program of the same number left behind.
    #[test]
    fn a_name_that_is_taken_is_passed_over() {
        let folder = Folder::new("taken");
        let taken = format!("{}-0.{ENDING}", process::id());
        fs::write(folder.beside(&taken), "another's").expect("a file to write");
        write_new(folder.file(), b"bytes").expect("a new file");
        assert_eq!(fs::read(folder.file()).expect("the file"), b"bytes");
        assert_eq!(
            fs::read(folder.beside(&taken)).expect("the other"),
            b"another's"
        );
    }
}
