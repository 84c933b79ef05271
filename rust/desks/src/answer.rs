//! What a command answers.

/// What a command prints, and whether all went well, by which its status goes.
pub struct Answer {
    pub text: String,
    pub well: bool,
}

impl Answer {
    /// All went well.
    pub fn well(text: String) -> Self {
        Self { text, well: true }
    }
}
