//! The lines of the paper's figure that steps of hybrid clocks go by, read from their inputs, and how often each is met.

use crate::support::{note, Check, Outcome};

/// A stamp that was sent, or one that was taken in.
#[derive(Debug)]
pub struct Step {
    /// The clock's wall before.
    pub own: u64,
    /// The wall of the stamp that was taken in, `None` where one was sent.
    pub remote: Option<u64>,
    pub physical: u64,
    /// The number of the refusal, or 0.
    pub refused: u64,
}

/// What a step goes by: in sending the physical time beside the own wall; in receiving which walls the new one, the
/// greatest of the three, is equal to, unless the stamp is too far ahead.
#[derive(Clone, Copy, PartialEq, Eq)]
enum By {
    Earlier,
    AtWall,
    Later,
    Both,
    Own,
    Remote,
    Physical,
    Drift,
}

impl Step {
    fn by(&self) -> By {
        match self.remote {
            None if self.physical < self.own => By::Earlier,
            None if self.physical == self.own => By::AtWall,
            None => By::Later,
            Some(_) if self.refused == 20 => By::Drift,
            Some(remote) => {
                let wall = self.own.max(remote).max(self.physical);
                match (wall == self.own, wall == remote) {
                    (true, true) => By::Both,
                    (true, false) => By::Own,
                    (false, true) => By::Remote,
                    (false, false) => By::Physical,
                }
            }
        }
    }
}

/// A line: what a step goes by, and its refusal or 0.
type Line = (&'static str, By, u64);

const LINES: [Line; 13] = [
    ("sent at an earlier time", By::Earlier, 0),
    ("sent at the wall", By::AtWall, 0),
    ("sent at a later time", By::Later, 0),
    ("19 in sending at an earlier time", By::Earlier, 19),
    ("19 in sending at the wall", By::AtWall, 19),
    ("received at the own and remote wall", By::Both, 0),
    ("received at the own wall", By::Own, 0),
    ("received at the remote wall", By::Remote, 0),
    ("received at the physical time", By::Physical, 0),
    ("19 in receiving at the own and remote wall", By::Both, 19),
    ("19 in receiving at the own wall", By::Own, 19),
    ("19 in receiving at the remote wall", By::Remote, 19),
    ("20 in receiving", By::Drift, 20),
];

/// How often each line was met.
#[derive(Default)]
pub struct Lines([u64; LINES.len()]);

impl Lines {
    /// Counts a step. Requires that there is a line for it: 19 where the wall is new has none.
    pub fn note(&mut self, step: &Step) -> Check {
        let found = (step.by(), step.refused);
        match LINES.iter().position(|line| (line.1, line.2) == found) {
            Some(line) => {
                self.0[line] += 1;
                Ok(())
            }
            None => Err(format!("  no line of the figure: {step:?}")),
        }
    }

    /// Prints the counts. Requires that each line was met.
    pub fn finish(&self, suite: &str) -> Outcome {
        let counted = || LINES.iter().map(|line| line.0).zip(self.0);
        let listed: Vec<String> = counted().map(|(line, n)| format!("{line} {n}")).collect();
        note(&format!("{suite}: {}", listed.join(", ")));
        match counted().find(|(_, n)| *n == 0) {
            Some((line, _)) => Err(format!("  {suite}: no step {line}")),
            None => Ok(self.0.iter().sum()),
        }
    }
}

#[cfg(test)]
mod tests {
    use super::{Lines, Step};

    const SENT: Step = Step {
        own: 10,
        remote: None,
        physical: 11,
        refused: 0,
    };

    #[test]
    fn an_overflow_at_a_later_time_is_found() {
        let mut lines = Lines::default();
        assert_eq!(lines.note(&SENT), Ok(()));
        let refused = 19;
        assert!(lines.note(&Step { refused, ..SENT }).is_err());
        let remote = Some(9);
        let received = Step { remote, ..SENT };
        assert_eq!(lines.note(&received), Ok(()));
        assert!(lines
            .note(&Step {
                refused,
                ..received
            })
            .is_err());
    }

    #[test]
    fn a_line_that_was_not_met_is_found() {
        let mut lines = Lines::default();
        assert_eq!(lines.note(&SENT), Ok(()));
        assert!(lines.finish("some").is_err());
    }
}
