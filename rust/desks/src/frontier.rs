//! How far all peers have acknowledged.

use std::ffi::OsString;
use std::os::unix::fs::MetadataExt;
use std::path::Path;

use cuwelfra::{VectorClock, MAX_AUTHORS};

use crate::error::Error;
use crate::{store, text};

/// What is said where there is no cutoff.
pub const NO_CUTOFF: &str = "No cutoff: nothing is safe to compact.\n";

/// The least number of each author over all clocks given: pairs in a word, or the store files of peers, which are not the
/// own one.
///
/// The original's `stable_frontier` takes the store's own clock into it as well, which changes no cutoff: no logged row
/// is above that clock.
pub fn frontier(own: &Path, words: &[OsString]) -> Result<VectorClock, Error> {
    let clocks = words.iter().map(|word| clock(own, word));
    let clocks: Vec<VectorClock> = clocks.collect::<Result<_, _>>()?;
    let mut frontier = VectorClock::new();
    // An author that the first clock lacks has 0 there, and 0 is the least number.
    let Some(first) = clocks.first() else {
        return Ok(frontier);
    };
    for (author, number) in first.entries()? {
        let mut least = number;
        for clock in &clocks {
            least = least.min(clock.get(author)?);
        }
        frontier.observe(author, least)?;
    }
    Ok(frontier)
}

fn clock(own: &Path, word: &OsString) -> Result<VectorClock, Error> {
    let pairs = word.to_str().and_then(|word| text::parse_pairs(word).ok());
    let wrong = |wanted| {
        let word = word.clone();
        Err(Error::Word { word, wanted })
    };
    let Some(pairs) = pairs else {
        let peer = Path::new(word);
        if is_same(own, peer) {
            return wrong("peer's store: it is this store");
        }
        if matches!(peer.try_exists(), Ok(false)) {
            return wrong(
                "frontier, which is written 1:3,2:4, and no file; a STAMP stands before --cutoff",
            );
        }
        return Ok(store::load(peer)?.clock()?);
    };
    if !pairs.is_sorted_by(|one, next| one.0 < next.0) {
        return wrong("frontier: its authors do not rise");
    }
    if pairs.len() > MAX_AUTHORS {
        return wrong("frontier: it has more than 32 authors, which no store has");
    }
    let mut clock = VectorClock::new();
    for (author, number) in pairs {
        clock.observe(author, number)?;
    }
    Ok(clock)
}

/// Whether two paths lead to one file, by links of any kind.
fn is_same(one: &Path, other: &Path) -> bool {
    let number = |path: &Path| path.metadata().map(|file| (file.dev(), file.ino())).ok();
    number(one).is_some_and(|one| number(other) == Some(one))
}
