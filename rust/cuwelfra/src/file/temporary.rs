//! The file that is written beside another, and then takes its place.

use std::fs::{self, File, Metadata, OpenOptions};
use std::io::{self, Write};
use std::os::unix::fs::{fchown, MetadataExt, PermissionsExt};
use std::path::{Path, PathBuf};
use std::process;

use super::error::{while_trying, FileError};
use super::paths::{absent, beside};

const MAKE: &str = "make a temporary file beside it";

/// What stands behind the name of a file while it is written. No user has such names.
pub const ENDING: &str = "cuwelfra-tmp";

/// A file that is removed unless it was renamed.
#[derive(Debug)]
pub struct Temporary {
    path: PathBuf,
    file: File,
    renamed: bool,
}

impl Temporary {
    /// Makes the file beside the target. One that is there was left by a program that was stopped: its name is no other
    /// file's.
    pub fn anew(target: &Path) -> Result<Self, FileError> {
        let path = beside(target, ENDING);
        match Self::create(path.clone()) {
            Err(error) if error.kind() == io::ErrorKind::AlreadyExists => {
                fs::remove_file(&path)
                    .map_err(while_trying("remove an old temporary file beside it"))?;
                Self::create(path).map_err(while_trying(MAKE))
            }
            made => made.map_err(while_trying(MAKE)),
        }
    }

    /// Makes a file beside the target, with a name that no other file has.
    pub fn unique(target: &Path) -> Result<Self, FileError> {
        let process = process::id();
        let mut number: u64 = 0;
        loop {
            match Self::create(beside(target, &format!("{process}-{number}.{ENDING}"))) {
                Err(error) if error.kind() == io::ErrorKind::AlreadyExists => number += 1,
                made => return made.map_err(while_trying(MAKE)),
            }
        }
    }

    fn create(path: PathBuf) -> io::Result<Self> {
        let file = OpenOptions::new()
            .write(true)
            .create_new(true)
            .open(&path)?;
        Ok(Self {
            path,
            file,
            renamed: false,
        })
    }

    /// Gives it the mode of another file, and its owner and group where that is allowed. Where the group is another one,
    /// it may do nothing.
    pub fn permit_as(&self, other: &Metadata) -> Result<(), FileError> {
        let mut permissions = other.permissions();
        // Most users may give a file to none but their own groups.
        if fchown(&self.file, Some(other.uid()), Some(other.gid())).is_err()
            && fchown(&self.file, None, Some(other.gid())).is_err()
        {
            permissions.set_mode(permissions.mode() & !0o070);
        }
        self.file
            .set_permissions(permissions)
            .map_err(while_trying("set the temporary file's permissions"))
    }

    /// Writes and syncs it.
    pub fn write(&mut self, bytes: &[u8]) -> Result<(), FileError> {
        self.file
            .write_all(bytes)
            .map_err(while_trying("write the temporary file"))?;
        self.file
            .sync_all()
            .map_err(while_trying("sync the temporary file"))
    }

    /// Puts it in the target's place.
    pub fn rename(mut self, target: &Path) -> Result<(), FileError> {
        fs::rename(&self.path, target).map_err(while_trying("rename the temporary file"))?;
        self.renamed = true;
        Ok(())
    }

    /// Puts it where the target is to be, and replaces nothing.
    pub fn rename_to_new(self, target: &Path) -> Result<(), FileError> {
        match fs::hard_link(&self.path, target) {
            Ok(()) => Ok(()),
            Err(error) if error.kind() == io::ErrorKind::AlreadyExists => Err(FileError::Exists),
            // Not every file system has links.
            Err(_) => self.rename_after_looking(target),
        }
    }

    /// Another program that makes the target just now is not seen.
    pub fn rename_after_looking(self, target: &Path) -> Result<(), FileError> {
        absent(target)?;
        self.rename(target)
    }
}

impl Drop for Temporary {
    fn drop(&mut self) {
        if !self.renamed {
            // One that stays all the same is removed or passed over the next time.
            let _ = fs::remove_file(&self.path);
        }
    }
}
