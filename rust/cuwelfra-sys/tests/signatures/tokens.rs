//! A source's text as tokens: words, strings and single signs. Comments and white space are left out.

/// A token and the line on which it stands, from 1.
#[derive(Clone, Debug)]
pub struct Token {
    pub text: String,
    pub line: usize,
}

/// The tokens of Rattle, Rust or C.
pub fn tokens(source: &str) -> Vec<Token> {
    let mut rest = source;
    let mut line = 1;
    let mut found = Vec::new();
    while let Some(first) = rest.chars().next() {
        let length = match first {
            '/' if rest.starts_with("//") => rest.find('\n').unwrap_or(rest.len()),
            '/' if rest.starts_with("/*") => rest.find("*/").map_or(rest.len(), |end| end + 2),
            '"' => string_length(rest),
            '\'' => character_length(rest),
            c if is_word(c) => rest.find(|c| !is_word(c)).unwrap_or(rest.len()),
            c => c.len_utf8(),
        };
        let (text, behind) = rest.split_at(length);
        let is_comment = text.starts_with("//") || text.starts_with("/*");
        if !is_comment && !first.is_whitespace() {
            let text = text.to_string();
            found.push(Token { text, line });
        }
        line += text.matches('\n').count();
        rest = behind;
    }
    found
}

fn is_word(c: char) -> bool {
    c.is_alphanumeric() || c == '_'
}

/// The length of the string that starts here, quotes included.
fn string_length(source: &str) -> usize {
    let mut escaped = false;
    for (at, c) in source.char_indices().skip(1) {
        match c {
            _ if escaped => escaped = false,
            '\\' => escaped = true,
            '"' => return at + 1,
            _ => {}
        }
    }
    source.len()
}

/// The length of the character that starts here, quotes included, or of the quote alone where it starts a lifetime.
fn character_length(source: &str) -> usize {
    let body = if source[1..].starts_with('\\') { 2 } else { 1 };
    let mut behind = source.char_indices().skip(1 + body);
    match behind.next() {
        Some((at, '\'')) => at + 1,
        _ => 1,
    }
}

/// A place in a list of tokens.
pub struct Cursor<'a> {
    tokens: &'a [Token],
    at: usize,
}

impl<'a> Cursor<'a> {
    pub fn new(tokens: &'a [Token]) -> Self {
        Cursor { tokens, at: 0 }
    }

    pub fn is_done(&self) -> bool {
        self.at == self.tokens.len()
    }

    /// Whether these tokens come next.
    pub fn sees(&self, texts: &[&str]) -> bool {
        let next = &self.tokens[self.at..];
        texts.len() <= next.len()
            && texts
                .iter()
                .zip(next)
                .all(|(text, token)| token.text == *text)
    }

    /// Passes these tokens where they come next.
    pub fn eat(&mut self, texts: &[&str]) -> bool {
        let seen = self.sees(texts);
        if seen {
            self.at += texts.len();
        }
        seen
    }

    /// Passes these tokens, which must come next.
    pub fn expect(&mut self, texts: &[&str]) -> Result<(), String> {
        if self.eat(texts) {
            return Ok(());
        }
        Err(format!(
            "line {}: expected `{}`",
            self.line(),
            texts.join(" ")
        ))
    }

    /// Passes one token.
    pub fn next(&mut self) -> Result<&'a str, String> {
        let token = self.tokens.get(self.at);
        self.at += 1;
        token
            .map(|token| token.text.as_str())
            .ok_or_else(|| "it ends too early".to_string())
    }

    /// Passes the tokens up to the first of these, and hands them over. That one comes next.
    pub fn until(&mut self, ends: &[&str]) -> Result<Vec<&'a str>, String> {
        let mut passed = Vec::new();
        while !ends.iter().any(|end| self.sees(&[end])) {
            passed.push(self.next()?);
        }
        Ok(passed)
    }

    /// The line of the next token, or of the last.
    pub fn line(&self) -> usize {
        let token = self.tokens.get(self.at).or(self.tokens.last());
        token.map_or(1, |token| token.line)
    }
}
