//! Batches as text that a person can write, one row a line:
//!
//! ```text
//! WALL COUNTER AUTHOR SEQUENCE DEPENDENCIES PAYLOAD [ANSWER] [unverified] [signature/HEX]
//!
//! time 2000
//! 1030 0 1 3  2:2,4:1  "Schlauch = inner tube"           # a comment
//! 1050 0 1 4  -        Kette=chain              denied
//! ---
//! ```
//!
//! - WALL and COUNTER are the stamp, whose author is AUTHOR; where it is another's, COUNTER/AUTHOR names that one.
//! - DEPENDENCIES are `AUTHOR:NUMBER`, authors rising, with commas between and no blanks, or `-` for none.
//! - PAYLOAD is a bare word, or text between double quotes, in which `\"`, `\\` and `\xHH` are a double quote, a
//!   backslash and the byte of two hexadecimal digits.
//! - ANSWER is what policy and state say: `fits` (also where it is left out), `malformed`, `unknown/TAG`, `denied` or
//!   `invalid/NUMBER`. `unverified` marks a row whose signature is bad. Without `signature/HEX` it is empty.
//!
//! A comment goes from `#`, where a word could begin, to the end of the line. A blank line or `---` ends a batch; a
//! line with only a comment does not, and a batch without rows is left out. One of more than 64 rows is cut into several.
//! `time MS` stands before a batch's rows; where the file is replayed, it is the time of its call and of the calls after
//! it in this file.

mod entry;
mod fault;
mod offer;
mod read;
mod words;
mod write;

pub use entry::{entries, Entry};
pub use fault::{Fault, Unreadable};
pub use offer::Offer;
pub use read::{number, parse, parse_pairs, stamp};
pub use write::{answer, answered, id, line, pairs, row, write};
