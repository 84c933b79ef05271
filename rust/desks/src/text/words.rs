//! The words of a line, and the bytes of a payload.

use super::fault::Fault;

/// The words of a line, without its comment. A quoted text is one word and keeps its quotes.
pub fn words(line: &str) -> Result<Vec<&str>, Fault> {
    let mut words = Vec::new();
    let mut rest = line.trim_start();
    while !rest.is_empty() && !rest.starts_with('#') {
        let end = match rest.strip_prefix('"') {
            Some(quoted) => closing_quote(quoted).ok_or(Fault::OpenQuote)? + 2,
            None => rest.find(char::is_whitespace).unwrap_or(rest.len()),
        };
        let (word, after) = rest.split_at(end);
        words.push(word);
        rest = after.trim_start();
    }
    Ok(words)
}

/// Where the text ends whose opening quote was taken.
fn closing_quote(quoted: &str) -> Option<usize> {
    let mut escaped = false;
    quoted.bytes().position(|byte| {
        let closes = byte == b'"' && !escaped;
        escaped = byte == b'\\' && !escaped;
        closes
    })
}

/// The bytes that a bare word or a quoted text stands for.
pub fn bytes(word: &str) -> Result<Vec<u8>, Fault> {
    let quoted = word
        .strip_prefix('"')
        .and_then(|word| word.strip_suffix('"'));
    let Some(quoted) = quoted else {
        return Ok(word.as_bytes().to_vec());
    };
    let mut parts = quoted.split('\\');
    let mut bytes = parts.next().unwrap_or("").as_bytes().to_vec();
    while let Some(part) = parts.next() {
        // Two backslashes are one: between them there is nothing.
        let (byte, rest) = match part {
            "" => (b'\\', parts.next()),
            part => {
                let (byte, rest) = escaped(part).ok_or_else(|| Fault::Escape(part.to_owned()))?;
                (byte, Some(rest))
            }
        };
        bytes.push(byte);
        bytes.extend_from_slice(rest.unwrap_or("").as_bytes());
    }
    Ok(bytes)
}

/// The byte that is written behind a backslash, and what follows it.
fn escaped(part: &str) -> Option<(u8, &str)> {
    if let Some(rest) = part.strip_prefix('"') {
        return Some((b'"', rest));
    }
    let (digits, rest) = part.strip_prefix('x')?.split_at_checked(2)?;
    Some((hex_byte(digits)?, rest))
}

/// The bytes of an even number of hexadecimal digits.
pub fn hex(digits: &str) -> Option<Vec<u8>> {
    let pairs = digits.as_bytes().chunks(2);
    pairs
        .map(|pair| hex_byte(std::str::from_utf8(pair).ok()?))
        .collect()
}

fn hex_byte(digits: &str) -> Option<u8> {
    let two = digits.len() == 2 && digits.bytes().all(|digit| digit.is_ascii_hexdigit());
    two.then(|| u8::from_str_radix(digits, 16).ok())?
}
