//! Quotations in the comments of definitions. Quotation marks stand around verbatim text alone, with its source before
//! them: `01: "…"`, `02: "…"` and `document 01, "…"` the documents, `rs: "…"` the original's source, `LAYOUT: "…"`
//! docs/LAYOUT.md, `paper: "…"` a paper. A quotation with no source has that of the one before it in the same comment.
//! ` .. ` inside stands for what is left out; backticks and `**` do not count. Code quotes the lines of a paper likewise.

/// Where a quotation says it is from.
#[derive(Clone, Copy, Debug, PartialEq, Eq)]
pub enum Source {
    /// Document 01 or 02.
    Document(u8),
    /// The original's source.
    Original,
    /// docs/LAYOUT.md.
    Layout,
    /// A paper, which is not at hand: nothing is compared.
    Paper,
}

/// A quotation with its source, if it has one.
#[derive(Debug, PartialEq, Eq)]
pub struct Quotation {
    /// Where it says it is from.
    pub source: Option<Source>,
    /// What stands between the marks.
    pub text: String,
}

/// The texts that quotations are looked for in.
#[derive(Default)]
pub struct Sources {
    /// Document 01.
    pub first: String,
    /// Document 02.
    pub second: String,
    /// The original's files; where there are none, nothing is compared with them.
    pub original: String,
    /// docs/LAYOUT.md.
    pub layout: String,
}

impl Sources {
    fn text(&self, source: Source) -> Option<&str> {
        match source {
            Source::Document(1) => Some(&self.first),
            Source::Document(_) => Some(&self.second),
            Source::Original => (!self.original.is_empty()).then_some(&self.original),
            Source::Layout => Some(&self.layout),
            Source::Paper => None,
        }
    }

    /// Whether a quotation is verbatim in its source, part by part.
    pub fn has(&self, source: Source, quoted: &str) -> bool {
        let Some(text) = self.text(source) else {
            return true;
        };
        let text = plain(text);
        plain(quoted)
            .split(" .. ")
            .all(|part| text.contains(part.trim()))
    }
}

/// The text with single blanks and without the marks of emphasis and code.
fn plain(text: &str) -> String {
    let bare = text.replace(['`'], "").replace("**", "");
    bare.split_whitespace().collect::<Vec<_>>().join(" ")
}

/// The original's comments and code as one text: the marks at the start of a comment's lines are left out.
pub fn without_marks(source: &str) -> String {
    let lines = source.lines().map(|line| {
        let line = line.trim_start();
        line.trim_start_matches(['/', '!'])
    });
    lines.collect::<Vec<_>>().join(" ")
}

/// The comments of a file: lines one below the other that begin with `--` make one comment.
pub fn comments(text: &str) -> Vec<String> {
    let mut found: Vec<String> = Vec::new();
    let mut open = false;
    for line in text.lines() {
        match line.trim_start().strip_prefix("--") {
            Some(rest) if open => {
                let last = found.last_mut().expect("an open comment");
                last.push(' ');
                last.push_str(rest.trim());
            }
            Some(rest) => {
                found.push(rest.trim().to_string());
                open = true;
            }
            None => open = false,
        }
    }
    found
}

/// The comments of code: what stands behind `//`, also at the end of a line.
pub fn code_comments(text: &str) -> Vec<String> {
    let behind = text.lines().filter_map(|line| line.split_once("//"));
    behind.map(|(_, rest)| rest.trim().to_string()).collect()
}

/// What comments quote of a paper, one after the other.
pub fn paper_lines(comments: &[String]) -> String {
    let quoted = comments.iter().flat_map(|comment| quotations(comment));
    let lines = quoted.filter(|quotation| quotation.source == Some(Source::Paper));
    lines.map(|line| line.text).collect::<Vec<_>>().join(" ")
}

/// The quotations of a comment, in their order.
pub fn quotations(comment: &str) -> Vec<Quotation> {
    let parts: Vec<&str> = comment.split('"').collect();
    let mut found = Vec::new();
    let mut last = None;
    for pair in parts.chunks(2) {
        let [before, quoted] = pair else { break };
        last = source_before(before).or(last);
        found.push(Quotation {
            source: last,
            text: (*quoted).to_string(),
        });
    }
    found
}

/// The source that the text before a quotation ends with.
fn source_before(before: &str) -> Option<Source> {
    let endings = [
        ("01: ", Source::Document(1)),
        ("02: ", Source::Document(2)),
        ("ocument 01, ", Source::Document(1)),
        ("ocument 02, ", Source::Document(2)),
        ("rs: ", Source::Original),
        ("LAYOUT: ", Source::Layout),
        ("paper: ", Source::Paper),
    ];
    endings.into_iter().find_map(|(ending, source)| {
        let front = before.strip_suffix(ending)?;
        // `src/log.rs: "` names a file, and no source.
        let apart = !front.ends_with(|c: char| c.is_alphanumeric() || c == '.')
            || ending.starts_with("ocument");
        apart.then_some(source)
    })
}

/// What is wrong with the quotations of a file, a line each.
pub fn faults(text: &str, sources: &Sources) -> Vec<String> {
    let mut found = Vec::new();
    for comment in comments(text) {
        if comment.matches('"').count() % 2 == 1 {
            found.push(format!("a quotation mark too many: {comment}"));
            continue;
        }
        for quotation in quotations(&comment) {
            match quotation.source {
                None => found.push(format!("no source: \"{}\"", quotation.text)),
                Some(source) if !sources.has(source, &quotation.text) => {
                    found.push(format!("not in {source:?}: \"{}\"", quotation.text));
                }
                Some(_) => {}
            }
        }
    }
    found
}
