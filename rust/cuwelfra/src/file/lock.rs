//! Who may change a store's file.

use std::fs::{File, Metadata, OpenOptions, TryLockError};
use std::io;
use std::path::Path;

use super::error::{while_trying, FileError};
use super::paths::{beside, regular};

/// The lock of a file, which lasts until this is dropped or the program ends. It is that of another file beside it, which
/// stays: one that is replaced or removed would lock nothing.
#[derive(Debug)]
pub struct Lock(File);

impl Lock {
    pub fn take(path: &Path) -> Result<Self, FileError> {
        let of = regular(path)?;
        let path = beside(path, "lock");
        let file = match regular(&path)? {
            Some(_) => open_lock(&path),
            None => make_lock(&path, of.as_ref()),
        };
        let file = file.map_err(while_trying("open the lock file beside it"))?;
        match file.try_lock() {
            Ok(()) => Ok(Self(file)),
            Err(TryLockError::WouldBlock) => Err(FileError::Busy),
            Err(TryLockError::Error(error)) => Err(while_trying("lock the file beside it")(error)),
        }
    }
}

impl Drop for Lock {
    fn drop(&mut self) {
        // To close the file is not enough: a program that is just being started has it open, too.
        let _ = self.0.unlock();
    }
}

/// Opens it for writing, since some file systems lock nothing else; one that another user made is read.
fn open_lock(path: &Path) -> io::Result<File> {
    match OpenOptions::new().append(true).open(path) {
        Err(error) if error.kind() == io::ErrorKind::PermissionDenied => File::open(path),
        opened => opened,
    }
}

/// Makes it, for all that may write the file. Two may do so at once: then it is one file.
fn make_lock(path: &Path, of: Option<&Metadata>) -> io::Result<File> {
    let file = OpenOptions::new().append(true).create(true).open(path)?;
    if let Some(of) = of {
        file.set_permissions(of.permissions())?;
    }
    Ok(file)
}

#[cfg(test)]
mod tests {
    use super::super::fixtures::{Folder, Pipe};
    use super::*;
    use std::fs::{self, Permissions};
    use std::os::unix::fs::{MetadataExt, PermissionsExt};

    /// Who may write the store may lock it, whatever the maker's habits are.
    #[test]
    fn a_lock_is_for_all_that_may_write_the_file() {
        let folder = Folder::new("umask");
        fs::write(folder.file(), "").expect("a file to write");
        for mode in [0o600, 0o666] {
            fs::set_permissions(folder.file(), Permissions::from_mode(mode)).expect("a file");
            drop(Lock::take(&folder.file()).expect("a lock"));
            let made = fs::metadata(folder.beside("lock")).expect("a lock file");
            assert_eq!(made.mode() & 0o777, mode);
            fs::remove_file(folder.beside("lock")).expect("a lock file");
        }
    }

    /// What has its name and is none is not opened.
    #[test]
    fn a_lock_file_is_a_regular_file() {
        let folder = Folder::new("lock");
        let pipe = folder.beside("lock");
        let _pipe = Pipe::new(&pipe);
        let error = Lock::take(&folder.file()).expect_err("a pipe");
        let told = matches!(&error, FileError::NotRegular(path) if *path == pipe);
        assert!(told, "{error}");
    }
}
