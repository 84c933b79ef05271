//! What came from outside, as text that does nothing to a terminal: payloads, words of files, names of files.

use std::env;
use std::ffi::OsStr;
use std::path::Path;

/// Bytes as plain text on one line: a letter that is not printed, and a byte that is no text, goes as \x and two
/// hexadecimal digits for each byte, and so do blanks at either end; a backslash goes as two. So different bytes are
/// different texts.
pub fn plain(bytes: impl AsRef<[u8]>) -> String {
    let text = escaped(bytes.as_ref(), |letter| letter == '\\');
    let inside = text.trim_matches(' ');
    let before = text.len() - text.trim_start_matches(' ').len();
    let behind = text.len() - before - inside.len();
    format!("{}{inside}{}", BLANK.repeat(before), BLANK.repeat(behind))
}

/// A blank as it is shown where it would not be seen.
const BLANK: &str = r"\x20";

/// Bytes between double quotes, as a file of batches has them.
pub fn quoted(bytes: &[u8]) -> String {
    let inside = escaped(bytes, |letter| matches!(letter, '"' | '\\'));
    format!("\"{inside}\"")
}

/// A file's name, or another word of the command line.
pub fn name(word: impl AsRef<OsStr>) -> String {
    plain(word.as_ref().as_encoded_bytes())
}

/// A file's name as a shell takes it, for a command that is suggested.
pub fn shell(file: &Path) -> String {
    let bytes = file.as_os_str().as_encoded_bytes();
    // Behind a dash it would be an option.
    let folder = if bytes.starts_with(b"-") { "./" } else { "" };
    let bare = |byte: &u8| byte.is_ascii_alphanumeric() || b"_-./:,=+@%".contains(byte);
    if !bytes.is_empty() && bytes.iter().all(bare) {
        return format!("{folder}{}", file.display());
    }
    match file.to_str().filter(|text| !text.chars().any(unprinted)) {
        Some(text) => format!("{folder}'{}'", text.replace('\'', r"'\''")),
        None => {
            let inside = escaped(bytes, |letter| matches!(letter, '\'' | '\\'));
            format!("{folder}$'{inside}'")
        }
    }
}

/// What the commands are started by, as a shell takes it: `./run` says it.
pub fn command() -> String {
    let name = env::var_os("CUWELFRA_COMMAND");
    name.map_or("./run".to_owned(), |name| shell(Path::new(&name)))
}

/// A text of this program in which commands begin as this one did.
pub fn with_command(text: &str) -> String {
    text.replace("./run", &command())
}

/// Text with a backslash before the letters that `marked` has, and without what is not printed.
fn escaped(bytes: &[u8], marked: impl Fn(char) -> bool) -> String {
    let mut text = String::new();
    for chunk in bytes.utf8_chunks() {
        for letter in chunk.valid().chars() {
            match letter {
                _ if marked(letter) => text.extend(['\\', letter]),
                _ if unprinted(letter) => {
                    push_hex(&mut text, letter.encode_utf8(&mut [0; 4]).as_bytes());
                }
                _ => text.push(letter),
            }
        }
        push_hex(&mut text, chunk.invalid());
    }
    text
}

fn push_hex(text: &mut String, bytes: &[u8]) {
    text.extend(bytes.iter().map(|byte| format!("\\x{byte:02x}")));
}

/// What ends a line, turns the direction of what follows, is not seen at all, or looks like a blank: control characters,
/// what Unicode calls format characters, separators, variation selectors, fillers, letters for private use, and blanks other
/// than the blank.
fn unprinted(letter: char) -> bool {
    letter.is_control()
        || letter.is_whitespace() && letter != ' '
        || matches!(letter,
            '\u{ad}' | '\u{34f}' | '\u{600}'..='\u{605}' | '\u{61c}' | '\u{6dd}' | '\u{70f}'
            | '\u{890}'..='\u{891}' | '\u{8e2}' | '\u{115f}'..='\u{1160}' | '\u{17b4}'..='\u{17b5}'
            | '\u{180b}'..='\u{180f}' | '\u{200b}'..='\u{200f}' | '\u{202a}'..='\u{202e}'
            | '\u{2060}'..='\u{206f}' | '\u{2800}' | '\u{3164}' | '\u{fe00}'..='\u{fe0f}' | '\u{feff}'
            | '\u{ffa0}' | '\u{fff9}'..='\u{fffb}' | '\u{110bd}' | '\u{110cd}' | '\u{13430}'..='\u{1343f}'
            | '\u{1bca0}'..='\u{1bca3}' | '\u{1d173}'..='\u{1d17a}' | '\u{e000}'..='\u{f8ff}' | '\u{e0000}'..='\u{10ffff}')
}

#[cfg(test)]
mod tests {
    use super::*;
    use std::os::unix::ffi::OsStrExt;

    #[test]
    fn payloads_are_one_line_and_hide_nothing() {
        assert_eq!(quoted("Bügel = \"bow\"".as_bytes()), r#""Bügel = \"bow\"""#);
        assert_eq!(quoted(b"a\\b\nc\xff"), r#""a\\b\x0ac\xff""#);
        assert_eq!(plain("Bügel = \"bow\""), "Bügel = \"bow\"");
        assert_eq!(
            plain("\u{202e}x\u{200b}\u{1b}[2J"),
            r"\xe2\x80\xaex\xe2\x80\x8b\x1b[2J"
        );
    }

    /// Bytes, the text that stands for one, and letters that are not seen.
    #[test]
    fn different_bytes_are_different_texts() {
        let texts = [
            &b"a"[..],
            b" a",
            b"a ",
            b"a  ",
            b"\\x20a",
            "a\u{a0}".as_bytes(),
            "a\u{fe0f}".as_bytes(),
            "a\u{3164}".as_bytes(),
            "a\u{e0100}".as_bytes(),
            "a\u{34f}".as_bytes(),
            b"\xff",
            b"\xfe",
            br"\xff",
            br"\\xff",
            "\u{fffd}".as_bytes(),
        ];
        for (i, one) in texts.iter().enumerate() {
            for other in &texts[..i] {
                assert_ne!(plain(one), plain(other));
                assert!(!plain(one).ends_with(char::is_whitespace));
            }
        }
    }

    #[test]
    fn no_control_character_is_left() {
        for letter in (0..0x11_0000).filter_map(char::from_u32) {
            let text = plain(letter.to_string());
            let seen = !text.chars().any(char::is_control);
            let changed = unprinted(letter) || matches!(letter, '\\' | ' ');
            assert!(seen && (text == letter.to_string()) != changed);
        }
    }

    /// A shell gives each word back.
    #[test]
    fn a_shell_takes_a_word_for_what_it_is() {
        let words: [&[u8]; 9] = [
            b"desk.store",
            b"my store",
            b"it's",
            b"",
            "Bügel".as_bytes(),
            b"a\nb",
            b"\xff'\\",
            b"$(x) `y` \"z\"",
            b"*",
        ];
        for word in words {
            let word = OsStr::from_bytes(word);
            let line = format!("printf %s {}", shell(word.as_ref()));
            let told = std::process::Command::new("bash")
                .args(["-c", &line])
                .output();
            assert_eq!(told.expect("a shell").stdout, word.as_bytes(), "{line}");
        }
        let words = [
            ("desk.store", "desk.store"),
            ("my store", "'my store'"),
            ("-x", "./-x"),
            ("-x y", "./'-x y'"),
        ];
        for (word, shown) in words {
            assert_eq!(shell(word.as_ref()), shown);
        }
    }
}
