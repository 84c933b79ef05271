//! The refusals: document 01's, and document 02's from 26 on.

mod table;

use std::error::Error;
use std::fmt;

use cuwelfra_sys::Told;

pub use table::{Explained, Refusal};
use table::{EXPLAINED, MISFIT, UNKNOWN};

impl Refusal {
    /// How many refusals there are.
    pub const COUNT: usize = EXPLAINED.len();

    /// `Ok` for number 0, else the refusal that an exported call told.
    pub fn check(told: Told) -> Result<(), Refusal> {
        match told.number {
            0 => Ok(()),
            _ => Err(Self::from_told(told)),
        }
    }

    /// Its number.
    pub fn number(self) -> u64 {
        self.told().number
    }

    /// Its word.
    pub fn word(self) -> &'static str {
        self.explained().word
    }

    /// What it means.
    pub fn meaning(self) -> &'static str {
        self.explained().meaning
    }

    /// What the caller can do.
    pub fn advice(self) -> &'static str {
        self.explained().advice
    }

    /// What the refusal of this number means, whatever its values.
    ///
    /// ```
    /// use cuwelfra::Refusal;
    ///
    /// assert_eq!(Refusal::explain(17).map(|full| full.word), Some("log full"));
    /// assert_eq!(Refusal::explain(0), None);
    /// ```
    pub fn explain(number: u64) -> Option<&'static Explained> {
        EXPLAINED.iter().find(|known| known.number == number)
    }

    /// All of them, by number.
    ///
    /// ```
    /// use cuwelfra::Refusal;
    ///
    /// for explained in Refusal::all() {
    ///     println!("{} {}: {}", explained.number, explained.word, explained.meaning);
    /// }
    /// assert_eq!(Refusal::all().len(), Refusal::COUNT);
    /// ```
    pub fn all() -> &'static [Explained] {
        EXPLAINED
    }

    fn explained(self) -> &'static Explained {
        match self {
            Self::UnknownAnswer(_) => &UNKNOWN,
            Self::MisfitAnswer => &MISFIT,
            _ => Self::explain(self.number()).unwrap_or(&UNKNOWN),
        }
    }
}

impl fmt::Display for Refusal {
    fn fmt(&self, f: &mut fmt::Formatter<'_>) -> fmt::Result {
        let (told, known) = (self.told(), self.explained());
        write!(f, "refusal {}, {}", told.number, known.word)?;
        let values = known.values.iter().zip([told.first, told.second]);
        for (mark, (name, value)) in [": ", ", "].into_iter().zip(values) {
            write!(f, "{mark}{name} {value}")?;
        }
        Ok(())
    }
}

impl Error for Refusal {}

#[cfg(test)]
mod tests {
    use super::*;
    use crate::ActorId;

    #[test]
    fn every_entry_reads_as_it_tells() {
        for (number, explained) in (1..).zip(Refusal::all()) {
            assert_eq!(explained.number, number, "the table is by number");
            let carried = explained.values.len();
            let told = Told {
                number,
                first: if carried > 0 { 7 } else { 0 },
                second: if carried > 1 { 8 } else { 0 },
            };
            let refusal = Refusal::from_told(told);
            assert_ne!(refusal, Refusal::UnknownAnswer(told));
            assert_eq!(refusal.told(), told);
            assert_eq!(refusal.explained(), explained);
            for text in [explained.meaning, explained.advice] {
                assert!(text.ends_with('.') && !text.contains("  "), "{text}");
            }
        }
    }

    /// The documents' list, not the table's.
    #[test]
    fn every_number_is_there() {
        let words: Vec<&str> = Refusal::all().iter().map(|known| known.word).collect();
        assert_eq!(
            words,
            [
                "unsound store",
                "short area",
                "unreadable",
                "over capacity",
                "zero sequence",
                "foreign stamp",
                "spent counter",
                "payload too large",
                "too many causes",
                "own future",
                "ahead of time",
                "bad signature",
                "conflict",
                "held overflow",
                "held bytes",
                "author overflow",
                "log full",
                "authors full",
                "counter overflow",
                "remote ahead",
                "unasked pong",
                "truncated",
                "overflow",
                "too large",
                "trailing",
                "operation too large",
                "sequence exhausted",
                "other causes",
                "invalid tag",
                "overlong",
            ]
        );
        let values = |number| Refusal::explain(number).map(|known| known.values.len());
        for number in 1..=30 {
            let carried = match number {
                5..=13 | 16 | 20 => 2,
                14 | 15 | 29 => 1,
                _ => 0,
            };
            assert_eq!(values(number), Some(carried), "{number}");
        }
        assert_eq!(values(31), None);
    }

    #[test]
    fn what_the_documents_do_not_have_is_handed_on() {
        let told = Told {
            number: 31,
            first: 1,
            second: 2,
        };
        let refusal = Refusal::UnknownAnswer(told);
        assert_eq!(Refusal::check(told), Err(refusal));
        assert_eq!(refusal.told(), told);
        let text = "refusal 31, unknown answer: first value 1, second value 2";
        assert_eq!(refusal.to_string(), text);
        assert_eq!(Refusal::check(Told::default()), Ok(()));
    }

    #[test]
    fn no_refusal_tells_success() {
        let nothing = Refusal::UnknownAnswer(Told::default());
        for refusal in [Refusal::MisfitAnswer, nothing] {
            assert_eq!(refusal.number(), u64::MAX);
            assert_eq!(Refusal::check(refusal.told()), Err(Refusal::MisfitAnswer));
        }
        let text = "refusal 18446744073709551615, misfit answer";
        assert_eq!(Refusal::MisfitAnswer.to_string(), text);
        assert_eq!(Refusal::MisfitAnswer.word(), "misfit answer");
        assert_eq!(Refusal::explain(Refusal::MISFIT), None);
    }

    #[test]
    fn values_are_named() {
        let texts = [
            (Refusal::LogFull, "refusal 17, log full"),
            (Refusal::Overlong, "refusal 30, overlong"),
            (
                Refusal::HeldOverflow { limit: 3 },
                "refusal 14, held overflow: limit 3",
            ),
            (
                Refusal::AuthorOverflow {
                    limit: 3,
                    actor: ActorId(9),
                },
                "refusal 16, author overflow: limit 3, author 9",
            ),
            (
                Refusal::InvalidTag { tag: 5 },
                "refusal 29, invalid tag: tag 5",
            ),
            (
                Refusal::RemoteAhead {
                    remote_wall: 5,
                    local_wall: 4,
                },
                "refusal 20, remote ahead: remote wall 5, physical time 4",
            ),
        ];
        for (refusal, text) in texts {
            assert_eq!(refusal.to_string(), text);
        }
    }
}
