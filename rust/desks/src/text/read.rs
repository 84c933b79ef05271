//! Text into batches.

use std::str::{self, FromStr};

use cuwelfra::{ActorId, ApplyError, BatchRow, Row, Timestamp, MAX_BATCH};

use super::fault::{Fault, Unreadable};
use super::offer::Offer;
use super::words::{bytes, hex, words};

/// The batches of a text. One of more rows than a batch call takes is cut into several.
pub fn parse(text: &[u8]) -> Result<Vec<Offer>, Unreadable> {
    // Some editors put a mark before the first letter.
    let text = text.strip_prefix(b"\xef\xbb\xbf").unwrap_or(text);
    let mut parser = Parser::default();
    for (i, line) in text.split(|byte| *byte == b'\n').enumerate() {
        let number = i + 1;
        let read = parser.line(number, line);
        read.map_err(|fault| Unreadable {
            line: number,
            fault,
        })?;
    }
    parser.end_batch();
    Ok(parser.offers)
}

/// The batches read so far, and the one that is being read.
#[derive(Default)]
struct Parser {
    offers: Vec<Offer>,
    time_ms: Option<u64>,
    rows: Vec<BatchRow>,
    lines: Vec<usize>,
}

impl Parser {
    fn line(&mut self, number: usize, line: &[u8]) -> Result<(), Fault> {
        let line = str::from_utf8(line).map_err(|_| Fault::NotText)?;
        let words = words(line)?;
        match words[..] {
            [] if line.trim().is_empty() => self.end_batch(),
            [] => {}
            ["---"] => self.end_batch(),
            ["time", _] if !self.rows.is_empty() => return Err(Fault::LateTime),
            ["time", ms] => self.time_ms = Some(self::number("time", ms)?),
            [wall, counter, author, seq, deps, payload, ref said @ ..] if said.len() <= 3 => {
                let (counter, by) = match counter.split_once('/') {
                    Some((counter, by)) => (counter, by),
                    None => (counter, author),
                };
                let said = said.iter().try_fold(Said::default(), Said::and)?;
                let row = Row {
                    timestamp: stamp(wall, counter, by)?,
                    actor: ActorId(self::number("author", author)?),
                    seq: self::number("sequence", seq)?,
                    deps: dependencies(deps)?,
                    payload: bytes(payload)?,
                    signature: said.signature.unwrap_or_default(),
                };
                self.rows.push(BatchRow {
                    row,
                    verified: !said.unverified,
                    outcome: said.outcome.unwrap_or(Ok(())),
                });
                self.lines.push(number);
            }
            _ => return Err(Fault::Words(words.len())),
        }
        Ok(())
    }

    fn end_batch(&mut self) {
        let offer = Offer {
            time_ms: self.time_ms,
            rows: std::mem::take(&mut self.rows),
            lines: std::mem::take(&mut self.lines),
        };
        self.offers.extend(offer.cut(MAX_BATCH));
    }
}

/// A number of decimal digits.
pub fn number<N: FromStr>(what: &'static str, word: &str) -> Result<N, Fault> {
    let digits = word.bytes().all(|byte| byte.is_ascii_digit());
    let number = digits.then(|| word.parse().ok()).flatten();
    number.ok_or_else(|| Fault::Number {
        what,
        bits: 8 * size_of::<N>(),
        word: word.to_owned(),
    })
}

/// A stamp in its three parts.
pub fn stamp(wall: &str, counter: &str, author: &str) -> Result<Timestamp, Fault> {
    Ok(Timestamp {
        wall_time: number("wall time", wall)?,
        logical_counter: number("counter", counter)?,
        actor_id: ActorId(number("author", author)?),
    })
}

fn dependencies(word: &str) -> Result<Vec<(ActorId, u64)>, Fault> {
    parse_pairs(word).map_err(|part| Fault::Dependency(part.to_owned()))
}

/// `AUTHOR:NUMBER` with commas between, or `-` for none; else the part that is none.
pub fn parse_pairs(word: &str) -> Result<Vec<(ActorId, u64)>, &str> {
    if word == "-" {
        return Ok(Vec::new());
    }
    let pair = |pair: &str| {
        let (author, value) = pair.split_once(':')?;
        let author = number("author", author).ok()?;
        Some((ActorId(author), number("number", value).ok()?))
    };
    word.split(',').map(|part| pair(part).ok_or(part)).collect()
}

/// What stands behind the payload.
#[derive(Default)]
struct Said {
    outcome: Option<Result<(), ApplyError>>,
    unverified: bool,
    signature: Option<Vec<u8>>,
}

impl Said {
    /// With one word more, which says something new.
    fn and(mut self, word: &&str) -> Result<Self, Fault> {
        let again = if *word == "unverified" {
            std::mem::replace(&mut self.unverified, true)
        } else if let Some(digits) = word.strip_prefix("signature/") {
            let signature = hex(digits).ok_or_else(|| Fault::Signature(digits.to_owned()))?;
            self.signature.replace(signature).is_some()
        } else {
            self.outcome.replace(outcome(word)?).is_some()
        };
        match again {
            true => Err(Fault::Twice((*word).to_owned())),
            false => Ok(self),
        }
    }
}

/// The answer of policy and state.
fn outcome(word: &str) -> Result<Result<(), ApplyError>, Fault> {
    let (outcome, detail) = match word.split_once('/') {
        Some((outcome, detail)) => (outcome, Some(detail)),
        None => (word, None),
    };
    Ok(match (outcome, detail) {
        ("fits", None) => Ok(()),
        ("malformed", None) => Err(ApplyError::MalformedOp),
        ("unknown", Some(tag)) => Err(ApplyError::UnknownOpTag(number("tag", tag)?)),
        ("denied", None) => Err(ApplyError::Denied),
        ("invalid", Some(text)) => Err(ApplyError::Invalid(number("text number", text)?)),
        _ => return Err(Fault::Answer(word.to_owned())),
    })
}

#[cfg(test)]
mod tests {
    use super::*;

    /// The only row of a text.
    fn one(text: &str) -> BatchRow {
        let offers = parse(text.as_bytes()).expect("a text that reads");
        match &offers[..] {
            [Offer { rows, .. }] if rows.len() == 1 => rows[0].clone(),
            _ => panic!("not one row: {offers:?}"),
        }
    }

    /// How many rows each batch of a text has.
    fn sizes(text: &str) -> Vec<usize> {
        let offers = parse(text.as_bytes()).expect("a text that reads");
        offers.iter().map(|offer| offer.rows.len()).collect()
    }

    /// The line that does not read, and what is said of it.
    fn fault(text: impl AsRef<[u8]>) -> (usize, String) {
        let unreadable = parse(text.as_ref()).expect_err("a text that does not read");
        (unreadable.line, unreadable.fault.to_string())
    }

    #[test]
    fn a_row() {
        let read = one("1030 7 1 3  2:2,4:1  \"Schlauch = inner tube\"  # said twice\n");
        let stamp = Timestamp {
            wall_time: 1030,
            logical_counter: 7,
            actor_id: ActorId(1),
        };
        assert_eq!(read.row.timestamp, stamp);
        assert_eq!((read.row.actor, read.row.seq), (ActorId(1), 3));
        assert_eq!(read.row.deps, [(ActorId(2), 2), (ActorId(4), 1)]);
        assert_eq!(read.row.payload, b"Schlauch = inner tube");
        assert!(read.row.signature.is_empty());
        assert!(read.verified);
        assert_eq!(read.outcome, Ok(()));
    }

    #[test]
    fn payloads() {
        assert_eq!(one("1 0 1 1 - Kette=chain").row.payload, b"Kette=chain");
        assert_eq!(one("1 0 1 1 - C#").row.payload, b"C#");
        assert_eq!(one("1 0 1 1 - \"# 5\"").row.payload, b"# 5");
        assert_eq!(one("1 0 1 1 - \"\"").row.payload, b"");
        assert_eq!(
            one("1 0 1 1 - \"Bügel\"\r\n").row.payload,
            "Bügel".as_bytes()
        );
    }

    #[test]
    fn escapes() {
        let payload = |word: &str| one(&format!("1 0 1 1 - \"{word}\"")).row.payload;
        assert_eq!(payload(r#"a \"b\" c"#), br#"a "b" c"#);
        assert_eq!(payload(r"\\"), br"\");
        assert_eq!(payload(r"\\\\x"), br"\\x");
        assert_eq!(payload(r#"\\\""#), br#"\""#);
        assert_eq!(payload(r"\x00\xfF1"), b"\x00\xff1");
        // A bare word has none.
        assert_eq!(one(r"1 0 1 1 - a\b").row.payload, br"a\b");
    }

    #[test]
    fn stamps_and_signatures() {
        let read = one("1 2/9 1 1 - x unverified signature/00fF denied");
        assert_eq!(read.row.timestamp.actor_id, ActorId(9));
        assert_eq!(read.row.actor, ActorId(1));
        assert_eq!(read.row.signature, [0, 0xff]);
        assert!(!read.verified);
        assert_eq!(read.outcome, Err(ApplyError::Denied));
        assert_eq!(one("1 2 1 1 - x signature/").row.signature, [0; 0]);
        assert_eq!(one("\u{feff}1 2 1 1 - x").row.seq, 1);
    }

    #[test]
    fn answers() {
        let answers = [
            ("", true, Ok(())),
            ("fits", true, Ok(())),
            ("malformed", true, Err(ApplyError::MalformedOp)),
            ("unknown/9", true, Err(ApplyError::UnknownOpTag(9))),
            ("denied", true, Err(ApplyError::Denied)),
            ("invalid/255", true, Err(ApplyError::Invalid(255))),
            ("unverified", false, Ok(())),
        ];
        for (word, verified, outcome) in answers {
            let read = one(&format!("1 0 1 1 - x {word}"));
            assert_eq!((read.verified, read.outcome), (verified, outcome), "{word}");
        }
    }

    #[test]
    fn batches() {
        let row = "1 0 1 1 - x\n";
        assert_eq!(sizes(""), [0; 0]);
        assert_eq!(sizes("\n---\n# nothing\n\n"), [0; 0]);
        assert_eq!(sizes(&format!("{row}{row}\n{row}")), [2, 1]);
        assert_eq!(
            sizes(&format!("\n\n{row} --- # end\n---\n\n{row}\n")),
            [1, 1]
        );
        assert_eq!(sizes(&format!("{row}# a comment ends nothing\n{row}")), [2]);
    }

    #[test]
    fn times() {
        let text = "1 0 1 1 - x\n\ntime 5\n\n1 0 1 2 - x\n\n1 0 1 3 - x\n\ntime 9\n1 0 1 4 - x\n";
        let offers = parse(text.as_bytes()).expect("a text that reads");
        let times: Vec<_> = offers.iter().map(|offer| offer.time_ms).collect();
        assert_eq!(times, [None, Some(5), Some(5), Some(9)]);
    }

    #[test]
    fn largest_numbers() {
        let max = u64::MAX;
        let read = one(&format!("{max} {} {max} {max} {max}:{max} x", u32::MAX));
        assert_eq!(read.row.timestamp.wall_time, max);
        assert_eq!(read.row.timestamp.logical_counter, u32::MAX);
        assert_eq!(read.row.deps, [(ActorId(max), max)]);
    }

    #[test]
    fn faults() {
        let faults = [
            ("\n1 0 1 1 -", 2, "5 words"),
            ("1 0 1 1 - x fits unverified signature/00 8", 1, "10 words"),
            ("\"1\" 0 1 1 - x", 1, "`\"1\"` is no wall time"),
            ("1 +0 1 1 - x", 1, "`+0` is no counter"),
            ("1 0/b 1 1 - x", 1, "`b` is no author"),
            ("1 0 1 1 - \"x\\\"", 1, "a double quote is not closed"),
            ("1 0 1 1 - \"\\n\"", 1, "`\\n` does not begin with"),
            ("1 0 1 1 - \"\\x4\"", 1, "`\\x4` does not begin with"),
            ("1 0 1 1 - \"\\x+4\"", 1, "`\\x+4` does not begin with"),
            ("1 0 1 1 - x 8", 1, "`8` is no answer"),
            ("1 0 1 1 - x fits denied", 1, "`denied` says again"),
            (
                "1 0 1 1 - x unverified unverified",
                1,
                "`unverified` says again",
            ),
            ("1 0 1 1 - x signature/1", 1, "`1` is no signature"),
            ("1 0 1 1 - x signature/1g", 1, "`1g` is no signature"),
            ("1 0 1 1 - x signature/ä1", 1, "`ä1` is no signature"),
            ("time", 1, "1 words"),
            (
                "1 0 1 1 - x\n# ok\none 0 1 1 - x",
                3,
                "`one` is no wall time",
            ),
            (
                "1 4294967296 1 1 - x",
                1,
                "is no counter, which is a whole number below 2^32",
            ),
            ("1 0 -1 1 - x", 1, "`-1` is no author"),
            ("1 0 1 18446744073709551616 - x", 1, "is no sequence"),
            ("1 0 1 1 2 x", 1, "`2` is no dependency"),
            ("1 0 1 1 2:1, x", 1, "`` is no dependency"),
            ("1 0 1 1 2:1,b:1 x", 1, "`b:1` is no dependency"),
            ("1 0 1 1 - \"x", 1, "a double quote is not closed"),
            ("1 0 1 1 - x good", 1, "`good` is no answer"),
            ("1 0 1 1 - x denied/1", 1, "`denied/1` is no answer"),
            ("1 0 1 1 - x unknown", 1, "`unknown` is no answer"),
            ("1 0 1 1 - x unknown/256", 1, "`256` is no tag"),
            ("time soon", 1, "`soon` is no time"),
            ("1 0 1 1 - x\ntime 5", 2, "`time` stands before"),
        ];
        for (text, line, said) in faults {
            let (at, told) = fault(text);
            assert!(
                at == line && told.contains(said),
                "{text}: line {at}: {told}"
            );
        }
        assert_eq!(fault(b"\n1 0 1 1 - \xff"), (2, "not UTF-8 text".to_owned()));
    }

    #[test]
    fn the_rows_of_the_help_read() {
        let help = include_str!("../../help.txt").lines();
        let rows: Vec<&str> = help.filter(|line| line.starts_with("    1")).collect();
        assert_eq!(sizes(&rows.join("\n")), [2]);
    }
}
