//! The words behind a command's name.

use std::ffi::{OsStr, OsString};
use std::path::PathBuf;

use cuwelfra::{ActorId, Limits, Timestamp};

use crate::calls::Settings;
use crate::error::Error;
use crate::own::Writer;
use crate::{text, time};

/// The words that were given, and those that the command takes, as the help writes them.
pub struct Words {
    name: &'static str,
    wanted: &'static str,
    /// Options and names.
    given: Vec<OsString>,
    /// The words behind `--`: no options, whatever they begin with.
    names: Vec<OsString>,
}

impl Words {
    pub fn new(name: &'static str, wanted: &'static str, mut words: Vec<OsString>) -> Self {
        let names = match words.iter().position(|word| word == "--") {
            Some(at) => words.split_off(at).into_iter().skip(1).collect(),
            None => Vec::new(),
        };
        Self {
            name,
            wanted,
            given: words,
            names,
        }
    }

    /// Takes an option out that has no word behind it, and says whether it was there.
    pub fn flag(&mut self, option: &str) -> bool {
        let before = self.given.len();
        self.given.retain(|word| word != option);
        self.given.len() < before
    }

    /// Takes an option and the word behind it out.
    pub fn option(&mut self, option: &str) -> Result<Option<OsString>, Error> {
        let Some(at) = self.position(option) else {
            return Ok(None);
        };
        if at + 1 == self.given.len() {
            return Err(self.usage());
        }
        self.given.remove(at);
        Ok(Some(self.given.remove(at)))
    }

    /// Takes an option out, and the words behind it up to the next option, of which there is one at least.
    pub fn list(&mut self, option: &str) -> Result<Option<Vec<OsString>>, Error> {
        let Some(at) = self.position(option) else {
            return Ok(None);
        };
        let behind = self.given.split_off(at);
        let mut behind = behind.into_iter().skip(1).peekable();
        let mut list = Vec::new();
        while let Some(word) = behind.next_if(|word| !is_option(word)) {
            list.push(word);
        }
        match behind.peek() {
            Some(_) => self.given.extend(behind),
            None => list.append(&mut self.names),
        }
        match list.is_empty() {
            true => Err(self.usage()),
            false => Ok(Some(list)),
        }
    }

    fn position(&self, option: &str) -> Option<usize> {
        self.given.iter().position(|word| word == option)
    }

    /// Takes an option's number out, where it is given.
    pub fn number(&mut self, option: &str) -> Result<Option<u64>, Error> {
        self.read(option, "whole number below 2^64", whole)
    }

    /// Takes an option's word out and reads it.
    fn read<T>(
        &mut self,
        option: &str,
        wanted: &'static str,
        read: impl FnOnce(&str) -> Option<T>,
    ) -> Result<Option<T>, Error> {
        let Some(word) = self.option(option)? else {
            return Ok(None);
        };
        match word.to_str().and_then(read) {
            Some(value) => Ok(Some(value)),
            None => Err(Error::Word { word, wanted }),
        }
    }

    /// Takes the options out that say when and how batches are offered.
    pub fn settings(&mut self) -> Result<Settings, Error> {
        Ok(Settings {
            time_ms: self.time()?,
            replay: self.flag("--replay"),
            limits: self.age(Limits::new())?.with_max_drift_ms(self.drift()?),
        })
    }

    /// Takes the options out that say who writes rows, and when. Somebody has to be named.
    pub fn writer(&mut self) -> Result<Writer, Error> {
        let author = self.read(
            "--author",
            "author, which is a whole number below 2^64",
            whole,
        )?;
        let author = author.ok_or_else(|| self.no_author())?;
        Ok(Writer {
            author: ActorId(author),
            timed: self.position("--time").is_some(),
            time_ms: self.time()?,
            max_drift_ms: self.drift()?,
        })
    }

    /// What is said where nobody is named: where no word is given either, what all of them should be.
    fn no_author(&self) -> Error {
        let joined = self.given.iter().find_map(|word| self.joined(word));
        match joined {
            Some(error) => error,
            None if self.given.is_empty() => self.usage(),
            None => self.lacking("--author is missing"),
        }
    }

    /// What is said of an option of this command with `=` and its word behind it.
    fn joined(&self, word: &OsStr) -> Option<Error> {
        let (option, value) = word.to_str()?.split_once('=')?;
        let times = match self.wanted.contains("[TIMES]") {
            true => "--time --age --drift",
            false => "",
        };
        let mut options = [self.wanted, times]
            .into_iter()
            .flat_map(|words| words.split(['[', ']', ' ']));
        let known = option.starts_with("--") && options.any(|known| known == option);
        let (option, value) = (option.to_owned(), value.to_owned());
        known.then_some(Error::Joined { option, value })
    }

    /// Takes out how far ahead of the time a stamp may be.
    fn drift(&mut self) -> Result<u64, Error> {
        let span = self.span("--drift")?;
        Ok(span.unwrap_or(Limits::new().max_drift_ms))
    }

    /// Takes the time out that a command goes by: the machine's where none is given.
    pub fn time(&mut self) -> Result<u64, Error> {
        match self.read(
            "--time",
            "time, which is a whole number of ms below 2^64",
            whole,
        )? {
            Some(time_ms) => Ok(time_ms),
            None => time::now(),
        }
    }

    /// Takes the time out that a row may wait.
    pub fn age(&mut self, limits: Limits) -> Result<Limits, Error> {
        Ok(match self.span("--age")? {
            Some(ms) => limits.with_max_pending_age_ms(ms),
            None => limits,
        })
    }

    fn span(&mut self, option: &str) -> Result<Option<u64>, Error> {
        let wanted =
            "span of time: a whole number of ms, or of s, m, h or d with that letter behind it";
        self.read(option, wanted, time::span)
    }

    /// All words, of which none is an option: as many as asked for.
    pub fn exactly<const N: usize>(self) -> Result<[OsString; N], Error> {
        let usage = self.usage();
        self.rest()?.try_into().map_err(|_| usage)
    }

    /// All words, of which none is an option: one and then at least one more; what is said where there is none.
    pub fn one_and_more(self, lacking: &'static str) -> Result<(PathBuf, Vec<OsString>), Error> {
        let (usage, lacking) = (self.usage(), self.lacking(lacking));
        let mut words = self.rest()?.into_iter();
        match words.next() {
            Some(first) if words.len() > 0 => Ok((first.into(), words.collect())),
            Some(_) => Err(lacking),
            None => Err(usage),
        }
    }

    /// All words, of which none is an option: at least one.
    pub fn some(self) -> Result<Vec<OsString>, Error> {
        let usage = self.usage();
        let words = self.rest()?;
        match words.is_empty() {
            true => Err(usage),
            false => Ok(words),
        }
    }

    /// All words, of which none is an option.
    pub fn rest(self) -> Result<Vec<OsString>, Error> {
        match self.given.iter().find(|word| is_option(word)) {
            Some(word) => Err(match self.joined(word) {
                Some(joined) => joined,
                None => Error::UnknownOption(word.clone()),
            }),
            None => Ok([self.given, self.names].concat()),
        }
    }

    pub fn usage(&self) -> Error {
        self.lacking("")
    }

    /// What the words should be, and what is wrong with those that were given.
    pub fn lacking(&self, lacking: &'static str) -> Error {
        Error::Usage {
            name: self.name,
            words: self.wanted,
            lacking,
        }
    }
}

/// A whole number.
fn whole(word: &str) -> Option<u64> {
    text::number("", word).ok()
}

/// Whether a word is an option. A dash alone is none.
fn is_option(word: &OsStr) -> bool {
    word.len() > 1 && word.as_encoded_bytes().starts_with(b"-")
}

/// A stamp in one word.
pub fn stamp(word: OsString) -> Result<Timestamp, Error> {
    let parts: Vec<&str> = word.to_str().unwrap_or("").split('/').collect();
    let stamp = match parts[..] {
        [wall, counter, author] => text::stamp(wall, counter, author).ok(),
        _ => None,
    };
    stamp.ok_or(Error::Word {
        word,
        wanted: "stamp, which is written WALL/COUNTER/AUTHOR",
    })
}
