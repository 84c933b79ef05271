//! A made-up repository with copies of the scripts, in which nothing is proved or compiled: `rt`, `cargo` and the programs
//! are small scripts that note how they were called.

use std::fs::{self, File, Permissions};
use std::os::unix::fs::{symlink, PermissionsExt};
use std::path::{Path, PathBuf};
use std::process::{Command, Stdio};
use std::sync::{Mutex, MutexGuard, PoisonError};
use std::time::{Duration, UNIX_EPOCH};
use std::{env, io, process};

use crate::files::{read, root};

/// What is copied from the repository.
const COPIES: [&str; 7] = [
    "run",
    "test",
    "bench",
    "fuzz",
    "rust/build.sh",
    "rust/desks/help.txt",
    "rust/Cargo.toml",
];

/// What goes into the program desks and the library, beside what is copied.
const SOURCES: [&str; 10] = [
    "crates/stubs/src/lib.rt",
    "crates/row/src/lib.rt",
    "crates/replicated_log/src/lib.rt",
    "crates/middle/src/lib.rt",
    "crates/cuwelfra/src/lib.rt",
    "rust/desks/src/main.rs",
    "rust/cuwelfra/src/lib.rs",
    "rust/cuwelfra-sys/src/lib.rs",
    "rust/Cargo.lock",
    "include/cuwelfra.h",
];

/// The library needs five of these crates. `io` is none of the repository's, and `middle` was never measured.
const CRATES: &str = "\
# NAME: what it may import.
stubs:
row: stubs # and not peer
replicated_log: stubs row
peer: replicated_log
middle: replicated_log io
cuwelfra staticlib: middle
# programs
replay: cuwelfra io
";

/// The machine's own tools that the scripts use, those of this tree among them. The clock is not among them.
const TOOLS: [&str; 16] = [
    "bash", "cat", "cp", "find", "grep", "mkdir", "mktemp", "mv", "readlink", "rm", "sed", "sleep",
    "stty", "tail", "tee", "touch",
];

/// Proves all at the repository's top, and a crate in its folder, in the seconds that it was measured with: it sets the
/// clock forward by so many.
const RT: &str = r#"#!/bin/sh
echo "rt $*" >>"$CALLS"
case $1 in
ci)
    [ -f crates.txt ] || exit 2
    mkdir -p crates/row/out
    echo "anything" >crates/row/out/row
    echo "rt: ok; handles allowed: none; must-fail edits: 1 refused; every proof and must-fail edit was done in this run"
    echo "3 passed, 0 failed"
    ;;
lib)
    crate=${PWD##*/}
    cd ../.. && [ -f crates.txt ] || exit 2
    case $crate in
    stubs) took=1 ;;
    row) took=50 ;;
    replicated_log) took=79 ;;
    middle) took=28 ;;
    cuwelfra) took=75 ;;
    *) exit 2 ;;
    esac
    [ "$took" = unchanged ] && exit
    echo $(($(date) + took)) >"$CLOCK"
    echo "logic=proved functions=1"
    mkdir -p "crates/$crate/out"
    echo "a library" >"crates/$crate/out/lib$crate.a"
    ;;
*) exit 2 ;;
esac
"#;

/// Tells the seconds on the clock.
const DATE: &str = r#"#!/bin/sh
[ -f "$CLOCK" ] || echo 0 >"$CLOCK"
cat "$CLOCK"
"#;

/// Builds every program where it is asked to, and has two lines of tests.
const CARGO: &str = r#"#!/bin/sh
echo "cargo $1 <$CUWELFRA_LIB_DIR> <$TPT_REPLICATE_SRC> <$CUWELFRA_DOCUMENTS> <$RUSTFLAGS> <$RUSTDOCFLAGS>" >>"$CALLS"
case $1 in
build)
    echo "   Compiling cuwelfra" >&2
    echo "   Compiling all" >&2
    release=$CARGO_TARGET_DIR/$CARGO_BUILD_TARGET/release
    mkdir -p "$release"
    for name in desks bench differential; do
        cp "$PROGRAM" "$release/$name"
    done
    ;;
test)
    echo "test result: ok. 5 passed; 0 failed; 0 ignored"
    echo "test result: ok. 7 passed; 0 failed; 1 ignored"
    ;;
esac
"#;

/// Every program: says where it was started and with what. The last line is that of the comparisons.
const PROGRAM: &str = r#"#!/bin/sh
echo "program in $PWD, started by ${CUWELFRA_COMMAND-none}, columns ${COLUMNS-none}, words:$(printf ' <%s>' "$@")"
echo "differential: 2 suites passed"
"#;

/// How a script ended, and what it wrote.
#[derive(Debug)]
pub struct Ran {
    /// Its status.
    pub status: Option<i32>,
    /// What it wrote to standard output.
    pub out: String,
    /// What it wrote to standard error.
    pub err: String,
}

/// The folder of a tree: the repository in `top`, the tools in `tools`, and `caller`, where the scripts are started. It
/// stands outside the repository, in which `rt ci` refuses links and another list of crates, and is removed at the end.
pub struct Tree(PathBuf);

impl Tree {
    /// A tree with every tool, a library newer than its sources and the program desks newer than both.
    pub fn new(name: &str) -> Self {
        let folder = format!("cuwelfra-scripts-{}-{name}", process::id());
        let tree = Self(env::temp_dir().join(folder));
        match fs::remove_dir_all(&tree.0) {
            Err(error) if error.kind() != io::ErrorKind::NotFound => panic!("{name}: {error}"),
            _ => {}
        }
        for folder in ["caller", "tools", "temporary"] {
            make_folder(&tree.0.join(folder));
        }
        for tool in TOOLS {
            let Some(path) = on_path(tool) else {
                panic!("{tool} is not on this machine's path");
            };
            symlink(path, tree.0.join("tools").join(tool)).expect("a link to a tool");
        }
        for (tool, text) in [
            ("rt", RT),
            ("date", DATE),
            ("cargo", CARGO),
            ("cc", "#!/bin/sh\n"),
        ] {
            tree.tool(tool, text);
        }
        tree.write("../program", PROGRAM);
        for path in COPIES {
            tree.put(path, &read(&root().join(path)), 1);
        }
        for path in SOURCES {
            tree.put(path, "", 1);
        }
        tree.put("crates.txt", CRATES, 1);
        tree.put("target/staticlib/libcuwelfra.a", "a library", 2);
        tree.put("target/rust/release/desks", PROGRAM, 3);
        tree
    }

    fn put(&self, path: &str, text: &str, time: u64) {
        self.write(path, text);
        self.age(path, time);
    }

    /// A path of the repository.
    pub fn path(&self, path: &str) -> PathBuf {
        self.0.join("top").join(path)
    }

    /// Writes a file of the repository, which may be started.
    pub fn write(&self, path: &str, text: &str) {
        let path = self.path(path);
        make_folder(path.parent().expect("a folder"));
        let _alone = alone();
        let written = fs::write(&path, text)
            .and_then(|()| fs::set_permissions(&path, Permissions::from_mode(0o755)));
        written.unwrap_or_else(|error| panic!("{}: {error}", path.display()));
    }

    /// The text of a file of the repository.
    pub fn read(&self, path: &str) -> String {
        read(&self.path(path))
    }

    /// Removes a file of the repository.
    pub fn remove(&self, path: &str) {
        fs::remove_file(self.path(path)).expect("a file to remove");
    }

    /// Gives a file a time: the higher, the newer; all are long past.
    pub fn age(&self, path: &str, time: u64) {
        let _alone = alone();
        let file = File::options().write(true).open(self.path(path));
        let time = UNIX_EPOCH + Duration::from_secs(1_000_000 + time);
        let set = file.and_then(|file| file.set_modified(time));
        set.unwrap_or_else(|error| panic!("{path}: {error}"));
    }

    /// Puts a script in the place of a tool.
    pub fn tool(&self, name: &str, text: &str) {
        self.write(&format!("../tools/{name}"), text);
    }

    /// A command with the tree's tools alone, and no other variables than it needs.
    pub fn command(&self, program: &Path) -> Command {
        let mut command = Command::new(program);
        command
            .current_dir(self.0.join("caller"))
            .env_clear()
            .env("PATH", self.0.join("tools"))
            .env("TMPDIR", self.0.join("temporary"))
            .env("CALLS", self.0.join("calls"))
            .env("CLOCK", self.0.join("clock"))
            .env("PROGRAM", self.0.join("program"))
            .stdin(Stdio::null());
        command
    }

    /// Runs a script with words, which blanks part.
    pub fn run(&self, script: &str, words: &str) -> Ran {
        self.run_with(script, words, &[])
    }

    /// Runs a script with words, which blanks part, and variables.
    pub fn run_with(&self, script: &str, words: &str, variables: &[(&str, &str)]) -> Ran {
        let mut command = self.command(&self.path(script));
        command.args(words.split_whitespace());
        command.envs(variables.iter().copied());
        let ran = ran(command);
        let left = fs::read_dir(self.0.join("temporary")).expect("a folder");
        assert_eq!(left.count(), 0, "a temporary file is left");
        ran
    }

    /// How `rt` and `cargo` were called since this was last asked, a line each.
    pub fn calls(&self) -> Vec<String> {
        let path = self.0.join("calls");
        let text = fs::read_to_string(&path).unwrap_or_default();
        let _alone = alone();
        fs::write(&path, "").expect("a file to write");
        text.lines().map(str::to_string).collect()
    }

    /// The first two words of each call since this was last asked.
    pub fn called(&self) -> Vec<String> {
        let short = |call: String| call.split(' ').take(2).collect::<Vec<_>>().join(" ");
        self.calls().into_iter().map(short).collect()
    }
}

impl Drop for Tree {
    fn drop(&mut self) {
        // What cannot be removed stays.
        let _ = fs::remove_dir_all(&self.0);
    }
}

/// Runs a command to its end.
pub fn ran(mut command: Command) -> Ran {
    let child = {
        let _alone = alone();
        command
            .stdout(Stdio::piped())
            .stderr(Stdio::piped())
            .spawn()
    };
    let ended = child.and_then(|child| child.wait_with_output());
    let ended = ended.unwrap_or_else(|error| panic!("{command:?}: {error}"));
    let text = |bytes| String::from_utf8(bytes).expect("text");
    Ran {
        status: ended.status.code(),
        out: text(ended.stdout),
        err: text(ended.stderr),
    }
}

/// Where a tool of this machine stands.
pub fn on_path(tool: &str) -> Option<PathBuf> {
    let path = env::var_os("PATH").unwrap_or_default();
    let mut places = env::split_paths(&path).map(|folder| folder.join(tool));
    places.find(|place| place.is_file())
}

fn make_folder(folder: &Path) {
    fs::create_dir_all(folder).unwrap_or_else(|error| panic!("{}: {error}", folder.display()));
}

/// Held while a file is written and while a process is started: one started meanwhile would have the file open too, and
/// the system starts no file that is open for writing.
fn alone() -> MutexGuard<'static, ()> {
    static ALONE: Mutex<()> = Mutex::new(());
    ALONE.lock().unwrap_or_else(PoisonError::into_inner)
}
