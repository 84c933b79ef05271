//! Paths of files, and what stands there.

use std::ffi::OsString;
use std::fs::{self, File, Metadata};
use std::io;
use std::path::{self, Path, PathBuf};

use super::error::{while_trying, FileError};

const FOLLOW: &str = "follow the path";
const LOOK: &str = "look at the file";

/// The file that a path names, there or not. It is absolute, so that it stays the same where the program changes its folder,
/// and no link, so that what stands beside it is the same however it is named.
pub fn target(path: &Path) -> Result<PathBuf, FileError> {
    let mut path = absolute(path)?;
    loop {
        match fs::canonicalize(&path) {
            Err(error) if error.kind() == io::ErrorKind::NotFound => {}
            found => return found.map_err(while_trying(FOLLOW)),
        }
        match fs::read_link(&path) {
            // A link to a file that is not there.
            Ok(next) => path = folder(&path).join(next),
            // No link: it is not there, or since just now.
            Err(_) => return Ok(path),
        }
    }
}

/// The path from the root on.
pub fn absolute(path: &Path) -> Result<PathBuf, FileError> {
    path::absolute(path).map_err(while_trying(FOLLOW))
}

/// What the operating system tells of a regular file, `None` where nothing has that name. All else is refused, and is not
/// opened: that might wait without end.
pub fn regular(path: &Path) -> Result<Option<Metadata>, FileError> {
    match fs::metadata(path) {
        Ok(found) if found.is_file() => Ok(Some(found)),
        Ok(_) => Err(FileError::NotRegular(path.to_owned())),
        Err(error) if error.kind() == io::ErrorKind::NotFound => Ok(None),
        Err(error) => Err(while_trying(LOOK)(error)),
    }
}

/// Refuses a path that something has already, be it a link to nothing.
pub fn absent(path: &Path) -> Result<(), FileError> {
    match fs::symlink_metadata(path) {
        Ok(_) => Err(FileError::Exists),
        Err(error) if error.kind() == io::ErrorKind::NotFound => Ok(()),
        Err(error) => Err(while_trying(LOOK)(error)),
    }
}

/// The file's name with a dot and an ending behind it.
pub fn beside(path: &Path, ending: &str) -> PathBuf {
    let mut name = OsString::from(path);
    name.push(".");
    name.push(ending);
    PathBuf::from(name)
}

/// Opens the folder that a file stands in, to be synced; `None` where that is not allowed.
pub fn open_folder(path: &Path) -> Result<Option<File>, FileError> {
    match File::open(folder(path)) {
        Ok(folder) => Ok(Some(folder)),
        Err(error) if error.kind() == io::ErrorKind::PermissionDenied => Ok(None),
        Err(error) => Err(while_trying("open its folder")(error)),
    }
}

/// Makes what was renamed in a folder last.
pub fn sync(folder: Option<&File>) -> Result<(), FileError> {
    let synced = match folder {
        Some(folder) => folder.sync_all(),
        None => Err(io::ErrorKind::PermissionDenied.into()),
    };
    synced.map_err(FileError::NotSynced)
}

fn folder(path: &Path) -> &Path {
    path.parent().unwrap_or(path)
}

#[cfg(test)]
mod tests {
    use super::super::fixtures::{store, Folder, Pipe};
    use super::super::update::Update;
    use super::*;
    use crate::Store;
    use std::os::unix::fs::symlink;

    fn is_refused(path: &Path) {
        let load = Store::load(path).expect_err("no file");
        let begin = Update::begin(path).expect_err("no file");
        for error in [load, begin] {
            assert!(matches!(error, FileError::NotRegular(_)), "{error}");
        }
    }

    #[test]
    fn what_is_no_regular_file_is_refused() {
        let folder = Folder::new("regular");
        let (pipe, link) = (folder.0.join("pipe"), folder.0.join("link"));
        let _pipe = Pipe::new(&pipe);
        symlink(&pipe, &link).expect("a link");
        for path in [&folder.0, &pipe, &link, Path::new("/dev/null")] {
            is_refused(path);
        }
        assert_eq!(folder.names(), ["link", "pipe"]);
    }

    /// A file where a folder should be, and links in a circle.
    #[test]
    fn other_errors_are_passed_on() {
        let folder = Folder::new("errors");
        store(1, &[]).save(folder.file()).expect("a file to write");
        let (one, two) = (folder.0.join("one"), folder.0.join("two"));
        symlink(&two, &one).expect("a link");
        symlink(&one, &two).expect("a link");
        let no_folder = folder.0.join("none/b.store");
        let cases = [
            (folder.file().join("b.store"), io::ErrorKind::NotADirectory),
            (one, io::Error::from_raw_os_error(40).kind()),
            (no_folder, io::ErrorKind::NotFound),
            (PathBuf::new(), io::ErrorKind::InvalidInput),
        ];
        for (path, kind) in cases {
            let error = Update::begin(&path).expect_err("no place for a file");
            let told = matches!(&error, FileError::Io { error, .. } if error.kind() == kind);
            assert!(told, "{}: {error}", path.display());
            let step = match kind {
                io::ErrorKind::NotFound => "cannot open its folder: ",
                _ => "cannot follow the path: ",
            };
            assert!(error.to_string().starts_with(step), "{error}");
        }
        assert_eq!(folder.names(), ["a.store", "a.store.lock", "one", "two"]);
    }

    #[test]
    fn a_file_may_come_and_go_meanwhile() {
        let folder = Folder::new("meanwhile");
        let file = folder.file();
        std::thread::scope(|scope| {
            let change = || {
                for _ in 0..2_000 {
                    fs::write(&file, "").expect("a file to write");
                    fs::remove_file(&file).expect("a file to remove");
                }
            };
            let changed = scope.spawn(change);
            while !changed.is_finished() {
                let target = target(&file).expect("a path");
                assert_eq!(target.file_name(), file.file_name());
            }
        });
    }

    #[test]
    fn a_name_that_is_no_text_stays_as_it_is() {
        use std::os::unix::ffi::OsStrExt;
        let path = Path::new(std::ffi::OsStr::from_bytes(b"/a\xff"));
        let wanted = std::ffi::OsStr::from_bytes(b"/a\xff.lock");
        assert_eq!(beside(path, "lock"), wanted);
    }
}
