//! Payloads as words of a command line.

use std::ffi::OsString;

use super::fault::Fault;
use super::words::{bytes, hex, words};

/// A payload, and the signature of its row.
#[derive(Clone, Debug, PartialEq, Eq)]
pub struct Entry {
    pub payload: Vec<u8>,
    pub signature: Option<Vec<u8>>,
}

/// The payloads of words, each as a file has it; behind one may stand its signature. Else the word that is none.
pub fn entries(words: &[OsString]) -> Result<Vec<Entry>, (&OsString, Fault)> {
    let mut entries: Vec<Entry> = Vec::new();
    for word in words {
        read(&mut entries, word).map_err(|fault| (word, fault))?;
    }
    Ok(entries)
}

fn read(entries: &mut Vec<Entry>, word: &OsString) -> Result<(), Fault> {
    let word = word.to_str().ok_or(Fault::NotText)?;
    let Some(digits) = word.strip_prefix("signature/") else {
        entries.push(Entry {
            payload: payload(word)?,
            signature: None,
        });
        return Ok(());
    };
    let signature = hex(digits).ok_or_else(|| Fault::Signature(digits.to_owned()))?;
    let entry = entries.last_mut().ok_or(Fault::NoPayload)?;
    match entry.signature.replace(signature) {
        None => Ok(()),
        Some(_) => Err(Fault::Twice(word.to_owned())),
    }
}

/// The bytes of a payload. Between quotes it is one text; else it is bare, blanks too, since a shell has made one word of
/// it. What is bare and has neither letter nor digit is hardly meant: a text that the shell took apart, or nothing. Nor is
/// what a file has behind a payload.
fn payload(word: &str) -> Result<Vec<u8>, Fault> {
    match word.starts_with('"') {
        true if words(word)? == [word] => bytes(word),
        true => Err(Fault::BehindQuote),
        false if is_behind(word) => Err(Fault::NotPayload),
        false if word.contains(char::is_alphanumeric) => Ok(word.as_bytes().to_vec()),
        false => Err(Fault::NoLetter),
    }
}

/// Whether a word is an answer or `unverified`, or has a signature in it.
fn is_behind(word: &str) -> bool {
    let answers = ["fits", "malformed", "denied", "unverified"];
    let begin = ["unknown/", "invalid/"];
    let mut parts = word.split_whitespace();
    answers.contains(&word.trim())
        || begin
            .iter()
            .any(|begin| word.trim_start().starts_with(begin))
        || parts.any(|part| part.starts_with("signature/"))
}

#[cfg(test)]
mod tests {
    use super::*;
    use std::os::unix::ffi::OsStringExt;

    fn of(list: &[&str]) -> Result<Vec<Entry>, (String, Fault)> {
        let list: Vec<OsString> = list.iter().map(OsString::from).collect();
        entries(&list).map_err(|(word, fault)| (word.to_string_lossy().into_owned(), fault))
    }

    #[test]
    fn payloads_are_words() {
        let payloads: [(&str, &[u8]); 9] = [
            ("Kette", b"Kette"),
            ("Kette = chain", b"Kette = chain"),
            (" Kette", b" Kette"),
            ("7", b"7"),
            ("\u{978d}", "\u{978d}".as_bytes()),
            ("a\\x41\"b\"", b"a\\x41\"b\""),
            ("\"\"", b""),
            ("\"=\"", b"="),
            ("\"\\x00\\\"\\\\ signature/00\"", b"\x00\"\\ signature/00"),
        ];
        for (word, payload) in payloads {
            let read = of(&[word]).expect("a payload");
            assert_eq!(read.len(), 1, "{word}");
            assert_eq!((&read[0].payload[..], &read[0].signature), (payload, &None));
        }
    }

    #[test]
    fn a_signature_stands_behind_its_payload() {
        let read = of(&["a", "b", "signature/0aFF", "c", "signature/"]).expect("payloads");
        let signatures: Vec<_> = read.into_iter().map(|entry| entry.signature).collect();
        assert_eq!(signatures, [None, Some(vec![10, 255]), Some(Vec::new())]);
    }

    #[test]
    fn faults() {
        let no_letter = ["", "-", "=", " ", "\u{202e}", "\\"];
        for word in no_letter {
            let told = of(&["a", word]);
            assert_eq!(told, Err((word.to_owned(), Fault::NoLetter)));
        }
        let behind = [
            "fits",
            "malformed",
            "denied",
            " denied",
            "unverified",
            "unknown/3",
            "invalid/1",
            "Kette signature/00ff",
            " signature/00",
        ];
        for word in behind {
            assert_eq!(of(&["a", word]), Err((word.to_owned(), Fault::NotPayload)));
            let quoted = format!("\"{word}\"");
            let read = of(&[&quoted]).expect("a payload");
            assert_eq!(read[0].payload, word.as_bytes());
        }
        for word in ["denied access", "Signatur", "a/signature/1", "unknown"] {
            assert!(of(&[word]).is_ok(), "{word}");
        }
        let twice = "signature/01";
        let faults = [
            (&["signature/00"][..], Fault::NoPayload),
            (
                &["a", "signature/00", twice],
                Fault::Twice(twice.to_owned()),
            ),
            (&["a", "signature/1"], Fault::Signature("1".to_owned())),
            (&["\"a"], Fault::OpenQuote),
            (&["\"a\\\""], Fault::OpenQuote),
            (&["\""], Fault::OpenQuote),
            (&["\"Kette\" = \"chain\""], Fault::BehindQuote),
            (&["\"a\" "], Fault::BehindQuote),
            (&["\"a\"b"], Fault::BehindQuote),
            (&["\"a\" # b"], Fault::BehindQuote),
            (&["\"\\n\""], Fault::Escape("n".to_owned())),
        ];
        for (list, fault) in faults {
            let last = list.last().map_or("", |word| word).to_owned();
            assert_eq!(of(list), Err((last, fault)));
        }
        let bytes = OsString::from_vec(vec![b'a', 0xff]);
        let told = entries(std::slice::from_ref(&bytes));
        assert_eq!(told, Err((&bytes, Fault::NotText)));
    }
}
