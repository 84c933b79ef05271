//! How often readings of messages were accepted, by tag, and refused, by field and number, and what they met; overlong numbers
//! by tag and field.

use crate::model::messages::{numbered, Answer, Fault, Field, Met};
use crate::support::{note, Check, Refusing};

/// The fields and their names, in the order of the enum.
const FIELDS: [(Field, &str); 23] = [
    (Field::ClockArea, "clock area"),
    (Field::Sender, "sender"),
    (Field::BodyLength, "body length"),
    (Field::BodySignature, "body signature"),
    (Field::FrameEnd, "frame end"),
    (Field::Tag, "tag"),
    (Field::EntryCount, "entry count"),
    (Field::EntryAuthor, "entry author"),
    (Field::EntryNumber, "entry number"),
    (Field::Nonce, "nonce"),
    (Field::RowCount, "row count"),
    (Field::Wall, "wall"),
    (Field::Counter, "counter"),
    (Field::StampAuthor, "stamp author"),
    (Field::Author, "author"),
    (Field::Sequence, "sequence"),
    (Field::CauseCount, "cause count"),
    (Field::CauseAuthor, "cause author"),
    (Field::CauseNumber, "cause number"),
    (Field::Payload, "payload"),
    (Field::Signature, "signature"),
    (Field::BodyEnd, "body end"),
    (Field::RowsArea, "rows area"),
];
/// Refusals end before it.
const NUMBERS: usize = 31;

const TAGS: [&str; 5] = ["Hello", "Delta", "Ack", "Ping", "Pong"];

/// What counts and lengths that are 24 met: the limit alone, the bytes left alone, and a capacity that they are above too.
const TOO_LARGE: [&str; 3] = [
    "above the limit with bytes enough",
    "above the bytes left alone",
    "above the capacity too",
];

/// What was met in messages that were read, in clocks and in dependencies.
const MET: [&str; 6] = [
    "authors that fall in a clock",
    "authors that repeat in a clock",
    "zero entries in a clock",
    "authors that fall in dependencies",
    "authors that repeat in dependencies",
    "zero entries in dependencies",
];

#[derive(Default)]
pub struct Readings {
    accepted: [u64; 5],
    refused: [[u64; NUMBERS]; FIELDS.len()],
    too_large: [[u64; 3]; FIELDS.len()],
    overlong: [[u64; FIELDS.len()]; TAGS.len()],
    met: [u64; 6],
    fullest: usize,
    emptiest: u64,
}

impl Readings {
    /// Counts an answer. `tag` and `number` are those of the message.
    pub fn note<T: Refusing>(&mut self, answer: &Answer<T>, tag: u64, number: u64) {
        match &answer.fault {
            Some(fault) => self.refusal(fault),
            None => self.acceptance(&answer.met, tag, number),
        }
    }

    fn refusal(&mut self, fault: &Fault) {
        let field = fault.field as usize;
        self.refused[field][fault.told.number as usize] += 1;
        if let (Some(tag), true) = (fault.tag, fault.is_overlong()) {
            self.overlong[usize::from(tag)][field] += 1;
        }
        let (Some(size), Some((limit, capacity))) = (fault.size, fault.field.limits()) else {
            return;
        };
        if fault.told.number == 24 {
            let kinds = [
                size.value <= size.left as u64,
                size.value <= limit,
                capacity < limit && size.value > capacity,
            ];
            for (count, met) in self.too_large[field].iter_mut().zip(kinds) {
                *count += u64::from(met);
            }
        }
    }

    fn acceptance(&mut self, met: &Met, tag: u64, number: u64) {
        self.accepted[tag as usize] += 1;
        let at = if tag == 1 { 3 } else { 0 };
        let kinds = [met.fell, met.repeated, met.zero];
        for (count, met) in self.met[at..].iter_mut().zip(kinds) {
            *count += u64::from(met);
        }
        if tag == 1 {
            self.fullest = self.fullest.max(number as usize);
            self.emptiest += u64::from(number == 0);
        }
    }

    /// All readings.
    pub fn cases(&self) -> u64 {
        let refused: u64 = self.refused.iter().flatten().sum();
        refused + self.accepted.iter().sum::<u64>()
    }

    /// Prints the counts. Requires that every message was read, every number of these fields met, and all else that
    /// bodies can have.
    pub fn finish(&self, suite: &str, fields: &[Field]) -> Check {
        let mut lacking = Vec::new();
        let read = self.read(&mut lacking);
        let met: Vec<String> = MET
            .iter()
            .zip(self.met)
            .map(|(what, count)| counted(what, count, &mut lacking))
            .collect();
        note(&format!(
            "{suite}: read {}; with {}; Deltas of no row {}, of {} rows at most",
            read,
            met.join(", "),
            self.emptiest,
            self.fullest
        ));
        if self.emptiest == 0 || self.fullest < 64 {
            lacking.push("a Delta of no row or of 64".into());
        }
        let refused = self.refused(fields, &mut lacking);
        note(&format!("{suite}: refused at {refused}"));
        let overlong = self.overlong(&mut lacking);
        note(&format!(
            "{suite}: overlong numbers in bodies, 30: {overlong}"
        ));
        let bodies: Vec<Field> = fields
            .iter()
            .copied()
            .filter(|field| field.numbers().contains(&4))
            .collect();
        for (i, what) in TOO_LARGE.iter().enumerate() {
            for field in &bodies {
                if self.too_large[*field as usize][i] == 0 {
                    lacking.push(format!("24 {what} at the {}", name(*field)));
                }
            }
        }
        let too_large: Vec<String> = TOO_LARGE
            .iter()
            .enumerate()
            .map(|(i, what)| {
                let count: u64 = bodies.iter().map(|f| self.too_large[*f as usize][i]).sum();
                format!("{what} {count}")
            })
            .collect();
        note(&format!(
            "{suite}: counts and lengths of bodies that are 24: {}",
            too_large.join(", ")
        ));
        met_all(suite, &lacking)
    }

    /// Prints how often messages were read, these fields refused and numbers overlong. Requires each of them.
    pub fn finish_areas(&self, suite: &str, fields: &[Field]) -> Check {
        let mut lacking = Vec::new();
        let read = self.read(&mut lacking);
        let refused = self.refused(fields, &mut lacking);
        let overlong = self.overlong(&mut lacking);
        note(&format!(
            "{suite}: read {read}; refused at {refused}; overlong numbers in bodies, 30: {overlong}"
        ));
        met_all(suite, &lacking)
    }

    /// How often each message was read.
    fn read(&self, lacking: &mut Vec<String>) -> String {
        let read: Vec<String> = TAGS
            .iter()
            .zip(self.accepted)
            .map(|(tag, count)| counted(tag, count, lacking))
            .collect();
        read.join(", ")
    }

    /// How often a number of each message was overlong.
    fn overlong(&self, lacking: &mut Vec<String>) -> String {
        let mut overlong = Vec::new();
        for (tag, counts) in self.overlong.iter().enumerate() {
            let (message, fields) = (TAGS[tag], numbered(tag).iter());
            let without = fields.filter(|field| counts[**field as usize] == 0);
            lacking.extend(without.map(|field| format!("30 at the {} of {message}", name(*field))));
            overlong.push(format!("{message} {}", counts.iter().sum::<u64>()));
        }
        overlong.join(", ")
    }

    /// How often these fields were refused, by number.
    fn refused(&self, fields: &[Field], lacking: &mut Vec<String>) -> String {
        let refused: Vec<String> = fields
            .iter()
            .map(|field| self.refused_at(*field, lacking))
            .collect();
        refused.join("; ")
    }

    fn refused_at(&self, field: Field, lacking: &mut Vec<String>) -> String {
        let counts = &self.refused[field as usize];
        let numbers: Vec<String> = field
            .numbers()
            .iter()
            .map(|number| {
                let count = counts[*number as usize];
                if count == 0 {
                    lacking.push(format!("{number} at the {}", name(field)));
                }
                format!("{number}: {count}")
            })
            .collect();
        format!("{} {}", name(field), numbers.join(", "))
    }
}

fn counted(what: &str, count: u64, lacking: &mut Vec<String>) -> String {
    if count == 0 {
        lacking.push(what.to_owned());
    }
    format!("{what} {count}")
}

fn met_all(suite: &str, lacking: &[String]) -> Check {
    match lacking.is_empty() {
        true => Ok(()),
        false => Err(format!("  {suite}: never met: {}", lacking.join(", "))),
    }
}

fn name(field: Field) -> &'static str {
    FIELDS[field as usize].1
}

#[cfg(test)]
mod tests {
    use super::*;

    #[test]
    fn a_field_that_was_never_overlong_is_named() {
        let mut readings = Readings::default();
        for (tag, counts) in readings.overlong.iter_mut().enumerate() {
            numbered(tag)
                .iter()
                .for_each(|field| counts[*field as usize] = 1);
        }
        let mut lacking = Vec::new();
        let told = readings.overlong(&mut lacking);
        assert_eq!(told, "Hello 3, Delta 11, Ack 3, Ping 1, Pong 1");
        assert!(lacking.is_empty());
        readings.overlong[1][Field::Counter as usize] = 0;
        readings.overlong(&mut lacking);
        assert_eq!(lacking, ["30 at the counter of Delta"]);
    }

    #[test]
    fn names_stand_in_the_order_of_the_fields() {
        for (i, (field, _)) in FIELDS.iter().enumerate() {
            assert_eq!(*field as usize, i);
        }
    }
}
