//! Batches into text.

use cuwelfra::{ActorId, ApplyError, BatchRow, Outcome, Row};

use super::offer::Offer;
use crate::plain::quoted;
use crate::table::or_dash;

/// The text of batches, which reads as them: every row, and every time that is not the one before it. A batch without
/// rows is left out.
pub fn write(offers: &[Offer]) -> String {
    let mut time_ms = None;
    let offers = offers.iter().filter(|offer| !offer.rows.is_empty());
    let batches = offers.map(|offer| {
        let rows: Vec<String> = offer.rows.iter().map(line).collect();
        let time = offer.time_ms.filter(|_| offer.time_ms != time_ms);
        time_ms = offer.time_ms;
        let time = time.map_or(String::new(), |time| format!("time {time}\n"));
        format!("{time}{}\n", rows.join("\n"))
    });
    batches.collect::<Vec<_>>().join("---\n")
}

/// A row with what comes with it in its batch.
pub fn line(row: &BatchRow) -> String {
    let line = answered(&row.row, Some(row.outcome));
    match row.verified {
        true => line,
        false => line + "  unverified",
    }
}

/// A row with the answer of policy and state, which is left out where the row fits or nothing is known.
pub fn answered(row: &Row, outcome: Option<Outcome>) -> String {
    let line = self::row(row);
    match outcome {
        Some(Err(error)) => format!("{line}  {}", answer(error)),
        _ => line,
    }
}

/// A row without what comes with it in its batch.
pub fn row(row: &Row) -> String {
    let stamp = row.timestamp;
    let by = match stamp.actor_id == row.actor {
        true => String::new(),
        false => format!("/{}", stamp.actor_id.0),
    };
    let mut line = format!(
        "{} {}{by} {} {}  {}  {}",
        stamp.wall_time,
        stamp.logical_counter,
        row.actor.0,
        row.seq,
        pairs(&row.deps),
        quoted(&row.payload)
    );
    if !row.signature.is_empty() {
        line += "  signature/";
        line.extend(row.signature.iter().map(|byte| format!("{byte:02x}")));
    }
    line
}

/// A row's author and sequence.
pub fn id(author: ActorId, seq: u64) -> String {
    format!("{}:{seq}", author.0)
}

/// Authors and their numbers in one word.
pub fn pairs(pairs: &[(ActorId, u64)]) -> String {
    let pairs: Vec<String> = pairs
        .iter()
        .map(|(author, number)| id(*author, *number))
        .collect();
    or_dash(pairs.join(","))
}

/// The answer of policy and state, as it is written behind a payload.
pub fn answer(error: ApplyError) -> String {
    match error {
        ApplyError::MalformedOp => "malformed".to_owned(),
        ApplyError::UnknownOpTag(tag) => format!("unknown/{tag}"),
        ApplyError::Denied => "denied".to_owned(),
        ApplyError::Invalid(text) => format!("invalid/{text}"),
        // A later version's, for which there is no word yet.
        error => error.to_string(),
    }
}

#[cfg(test)]
mod tests {
    use super::*;
    use crate::desk::unpack;
    use crate::refused::pack;
    use crate::text::parse;
    use cuwelfra::{ActorId, Timestamp, MAX_BATCH};

    /// Numbers that look random, the same in every run.
    struct Numbers(u64);

    impl Numbers {
        fn next(&mut self) -> u64 {
            self.0 ^= self.0 << 13;
            self.0 ^= self.0 >> 7;
            self.0 ^= self.0 << 17;
            self.0
        }

        fn below(&mut self, bound: u64) -> u64 {
            self.next() % bound
        }

        /// Of any size, small ones too.
        fn any(&mut self) -> u64 {
            let shift = self.below(65);
            self.next().checked_shr(shift as u32).unwrap_or(0)
        }

        fn bytes(&mut self, max: u64) -> Vec<u8> {
            let telling = b"\"\\#x \t\n\r\x00\x7f\xc3\xa4\xe2\x80\xae-";
            let byte = |numbers: &mut Self| match numbers.below(2) {
                0 => numbers.next() as u8,
                _ => telling[numbers.below(telling.len() as u64) as usize],
            };
            (0..self.below(max + 1)).map(|_| byte(self)).collect()
        }

        fn row(&mut self) -> BatchRow {
            let actor = ActorId(self.any());
            let deps = (0..self.below(17)).map(|_| (ActorId(self.any()), self.any()));
            let mut deps: Vec<(ActorId, u64)> = deps.collect();
            deps.sort();
            deps.dedup_by_key(|pair| pair.0);
            let stamped_by = [actor, ActorId(self.any())][self.below(2) as usize];
            let row = Row {
                timestamp: Timestamp::new(self.any(), self.any() as u32, stamped_by),
                actor,
                seq: self.any(),
                deps,
                payload: self.bytes(256),
                signature: self.bytes(64),
            };
            let detail = self.next() as u8;
            let outcomes = [
                Ok(()),
                Err(ApplyError::MalformedOp),
                Err(ApplyError::UnknownOpTag(detail)),
                Err(ApplyError::Denied),
                Err(ApplyError::Invalid(detail)),
            ];
            BatchRow {
                row,
                verified: self.below(2) == 0,
                outcome: outcomes[self.below(5) as usize],
            }
        }
    }

    fn said(offers: &[Offer]) -> Vec<(Option<u64>, &[BatchRow])> {
        offers.iter().map(Offer::said).collect()
    }

    /// Rows to bytes, to rows, to text, to rows.
    #[test]
    fn what_is_written_reads_as_it_was() {
        let mut numbers = Numbers(0x9e37_79b9_7f4a_7c15);
        for _ in 0..300 {
            let rows = 1 + numbers.below(MAX_BATCH as u64);
            let rows: Vec<BatchRow> = (0..rows).map(|_| numbers.row()).collect();
            let offer = Offer::of(rows);
            let batch = pack(&offer).expect("rows that fit");
            assert_eq!(unpack(batch.bytes()).expect("a batch that reads"), offer);
            let text = write(std::slice::from_ref(&offer));
            assert_eq!(text.lines().count(), offer.rows.len());
            let read = parse(text.as_bytes()).expect("a text that reads");
            assert_eq!(said(&read), [offer.said()]);
        }
    }

    /// Whatever a changed byte makes of the examples: it reads or is refused, and what reads is written and read again.
    #[test]
    fn what_reads_is_written() {
        let desks: [&[u8]; 2] = [
            include_bytes!("../../../../examples/desk-a.txt"),
            include_bytes!("../../../../examples/desk-b.txt"),
        ];
        let mut read = 0;
        for (desk, byte) in desks
            .iter()
            .flat_map(|desk| b"\"\\# \n:/x9\xff".map(|byte| (desk, byte)))
        {
            for at in 0..desk.len() {
                let mut text = desk.to_vec();
                text[at] = byte;
                let Ok(offers) = parse(&text) else { continue };
                let again = parse(write(&offers).as_bytes()).expect("a text that reads");
                assert_eq!(said(&again), said(&offers), "{at}, {byte}");
                read += 1;
            }
        }
        assert!(read > 5_000, "{read} texts read");
    }

    #[test]
    fn times_and_batches_are_written() {
        let text =
            "1 0 1 1  -  \"x\"\n---\ntime 5\n2 0 1 2  -  \"x\"\n---\n3 0 1 3  1:2,2:0  \"x\"\n\
                    ---\ntime 4\n4 0 1 4  -  \"\"  denied\n5 0 1 5  -  \"y\"\n";
        let offers = parse(text.as_bytes()).expect("a text that reads");
        assert_eq!(write(&offers), text);
        assert_eq!(write(&[]), "");
        assert_eq!(write(&[Offer::of(Vec::new())]), "");
    }
}
