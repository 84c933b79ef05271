//! Why a text does not read.

use std::{error, fmt};

use crate::plain::plain;

/// Where a text does not read, and why.
#[derive(Clone, Debug, PartialEq, Eq)]
pub struct Unreadable {
    pub line: usize,
    pub fault: Fault,
}

/// What is wrong with a line.
#[derive(Clone, Debug, PartialEq, Eq)]
pub enum Fault {
    NotText,
    OpenQuote,
    Escape(String),
    Words(usize),
    Number {
        what: &'static str,
        bits: usize,
        word: String,
    },
    Dependency(String),
    Answer(String),
    Signature(String),
    Twice(String),
    LateTime,
    /// A text goes on behind its quotes.
    BehindQuote,
    /// A bare payload without a letter or a digit.
    NoLetter,
    /// A bare payload that is what a file has behind one.
    NotPayload,
    /// A signature with no payload before it.
    NoPayload,
}

impl fmt::Display for Unreadable {
    fn fmt(&self, f: &mut fmt::Formatter<'_>) -> fmt::Result {
        write!(f, "line {}", self.line)
    }
}

impl error::Error for Unreadable {
    fn source(&self) -> Option<&(dyn error::Error + 'static)> {
        Some(&self.fault)
    }
}

impl fmt::Display for Fault {
    fn fmt(&self, f: &mut fmt::Formatter<'_>) -> fmt::Result {
        match self {
            Self::NotText => write!(f, "not UTF-8 text"),
            Self::OpenQuote => write!(f, "a double quote is not closed"),
            Self::Escape(part) => write!(
                f,
                "`\\{}` does not begin with \\\", \\\\ or \\x and two hexadecimal digits",
                plain(part)
            ),
            Self::Words(count) => write!(
                f,
                "{count} words; a row has 6 to 9: WALL COUNTER AUTHOR SEQUENCE DEPENDENCIES PAYLOAD \
                 [ANSWER] [unverified] [signature/HEX]"
            ),
            Self::Number { what, bits, word } => {
                let word = plain(word);
                write!(f, "`{word}` is no {what}, which is a whole number below 2^{bits}")
            }
            Self::Dependency(word) => write!(
                f,
                "`{}` is no dependency; write AUTHOR:NUMBER, with commas between, or - for none",
                plain(word)
            ),
            Self::Answer(word) => write!(
                f,
                "`{}` is no answer; there are fits, malformed, unknown/TAG, denied, invalid/NUMBER, \
                 and beside them unverified and signature/HEX",
                plain(word)
            ),
            Self::Signature(digits) => {
                let digits = plain(digits);
                write!(f, "`{digits}` is no signature, which is two hexadecimal digits a byte")
            }
            Self::Twice(word) => write!(f, "`{}` says again what a word before it says", plain(word)),
            Self::LateTime => write!(f, "`time` stands before the rows of a batch"),
            Self::BehindQuote => write!(
                f,
                "text stands behind its closing double quote; inside, a double quote is written \\\""
            ),
            Self::NoLetter => write!(
                f,
                "a payload without letter or digit. Of what has blanks a shell makes one word by quotes: \
                 'Kette = chain'. Where this is meant, it stands in double quotes inside them: '\"=\"'"
            ),
            Self::NotPayload => write!(
                f,
                "no payload, but what a file has behind one. `add` takes no answer and no `unverified`, and signature/HEX \
                 as a word of its own. If it is meant as payload, it stands in double quotes inside the shell's: \
                 '\"denied\"'"
            ),
            Self::NoPayload => write!(f, "a signature stands behind its payload"),
        }
    }
}

impl error::Error for Fault {}
