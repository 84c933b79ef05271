//! Rows, batches, messages and envelopes in pieces, so that one number alone can be written otherwise.

use crate::leb128::{self, longer, put};
use crate::model::messages::{self, Field, Message};
use crate::port::batches::BatchRow;
use crate::port::rows::Row;
use crate::support::Check;

pub enum Piece {
    Number(Field, u64),
    Bytes(Vec<u8>),
}

/// What is signed of a row.
pub fn unsigned(row: &Row) -> Vec<Piece> {
    let (wall, counter, stamper) = row.stamp;
    let mut pieces = vec![
        Piece::Number(Field::Wall, wall),
        Piece::Number(Field::Counter, counter.into()),
        Piece::Number(Field::StampAuthor, stamper),
        Piece::Number(Field::Author, row.author),
        Piece::Number(Field::Sequence, row.seq),
    ];
    let fields = [Field::CauseCount, Field::CauseAuthor, Field::CauseNumber];
    pieces.extend(pairs(fields, &row.deps));
    pieces.extend(part(Field::Payload, &row.payload));
    pieces
}

/// A row of a batch, with its signature and its closing bytes.
pub fn batch_row(lent: &BatchRow) -> Vec<Piece> {
    let mut pieces = signed(&lent.row);
    let closing = [lent.verdict, lent.outcome, lent.detail];
    pieces.push(Piece::Bytes(closing.map(|number| number as u8).to_vec()));
    pieces
}

pub fn batch(rows: &[BatchRow]) -> Vec<Piece> {
    let mut pieces = vec![Piece::Number(Field::RowCount, rows.len() as u64)];
    pieces.extend(rows.iter().flat_map(batch_row));
    pieces
}

pub fn message(message: &Message) -> Vec<Piece> {
    let (tag, _) = messages::numbers(message);
    let mut pieces = vec![Piece::Bytes(vec![tag as u8])];
    match message {
        Message::Hello(entries) | Message::Ack(entries) => {
            let fields = [Field::EntryCount, Field::EntryAuthor, Field::EntryNumber];
            pieces.extend(pairs(fields, entries));
        }
        Message::Delta(rows) => {
            pieces.push(Piece::Number(Field::RowCount, rows.len() as u64));
            pieces.extend(rows.iter().flat_map(signed));
        }
        Message::Ping(nonce) | Message::Pong(nonce) => {
            pieces.push(Piece::Number(Field::Nonce, *nonce));
        }
    }
    pieces
}

pub fn envelope(sender: u64, body: &[u8], sig: &[u8]) -> Vec<Piece> {
    let mut pieces = vec![Piece::Number(Field::Sender, sender)];
    pieces.extend(part(Field::BodyLength, body));
    pieces.extend(part(Field::BodySignature, sig));
    pieces
}

fn signed(row: &Row) -> Vec<Piece> {
    let mut pieces = unsigned(row);
    pieces.extend(part(Field::Signature, &row.signature));
    pieces
}

fn pairs([count, author, number]: [Field; 3], pairs: &[(u64, u64)]) -> Vec<Piece> {
    let mut pieces = vec![Piece::Number(count, pairs.len() as u64)];
    for pair in pairs {
        pieces.push(Piece::Number(author, pair.0));
        pieces.push(Piece::Number(number, pair.1));
    }
    pieces
}

fn part(field: Field, bytes: &[u8]) -> [Piece; 2] {
    [
        Piece::Number(field, bytes.len() as u64),
        Piece::Bytes(bytes.to_vec()),
    ]
}

/// The bytes of all pieces.
pub fn whole(pieces: &[Piece]) -> Vec<u8> {
    with(pieces, pieces.len(), &[])
}

/// The same, where the piece at a place is written so.
pub fn with(pieces: &[Piece], at: usize, written: &[u8]) -> Vec<u8> {
    let mut bytes = Vec::new();
    for (i, piece) in pieces.iter().enumerate() {
        match piece {
            _ if i == at => bytes.extend(written),
            Piece::Number(_, number) => put(&mut bytes, *number),
            Piece::Bytes(part) => bytes.extend(part),
        }
    }
    bytes
}

/// Each number with its place.
pub fn numbers(pieces: &[Piece]) -> impl Iterator<Item = (usize, Field, u64)> + '_ {
    let numbers = pieces.iter().enumerate();
    numbers.filter_map(|(at, piece)| match piece {
        Piece::Number(field, number) => Some((at, *field, *number)),
        Piece::Bytes(_) => None,
    })
}

/// Hands on the bytes with each number alone in one to ten bytes more than it needs, its field, and what refuses it: 30, or
/// 23 where it has more than ten bytes.
pub fn each_longer(pieces: &[Piece], mut each: impl FnMut(&[u8], Field, u64) -> Check) -> Check {
    for (at, field, number) in numbers(pieces) {
        for more in 1..=10 {
            let written = longer(number, more);
            let refusal = match written.len() {
                ..=10 => leb128::OVERLONG,
                _ => 23,
            };
            each(&with(pieces, at, &written), field, refusal)?;
        }
    }
    Ok(())
}

#[cfg(test)]
mod tests {
    use super::*;
    use crate::port::batches;

    #[test]
    fn pieces_make_what_the_writers_make() {
        let row = Row {
            stamp: (300, 2, 1),
            author: 1,
            seq: 128,
            deps: vec![(1, 127), (200, 0)],
            payload: vec![7; 130],
            signature: vec![9; 3],
        };
        assert_eq!(whole(&unsigned(&row)), batches::unsigned(&row));
        let rows = [BatchRow::new(row.clone()), BatchRow::new(row.clone())];
        assert_eq!(whole(&batch(&rows)), batches::batch(&rows));
        let all = [
            Message::Hello(vec![(1, 0), (2, 300)]),
            Message::Delta(vec![row.clone(), row]),
            Message::Ack(vec![]),
            Message::Ping(127),
            Message::Pong(128),
        ];
        for one in all {
            assert_eq!(whole(&message(&one)), messages::bytes(&one));
        }
        assert_eq!(whole(&envelope(7, &[1, 2], &[3])), [7, 2, 1, 2, 1, 3]);
    }

    #[test]
    fn each_number_is_longer_once() -> Check {
        let mut met = Vec::new();
        each_longer(
            &message(&Message::Hello(vec![(1, 300)])),
            |body, field, refusal| {
                met.push((body.to_vec(), field, refusal));
                Ok(())
            },
        )?;
        assert_eq!(met.len(), 30);
        assert_eq!(
            met[0],
            (vec![0, 0x81, 0, 1, 0xac, 2], Field::EntryCount, 30)
        );
        let [nine, ten] = [&met[28], &met[29]];
        assert_eq!((nine.0.len(), nine.1, nine.2), (14, Field::EntryNumber, 23));
        assert_eq!((ten.0.len(), ten.2), (15, 23));
        assert_eq!((met[27].0.len(), met[27].2), (13, 30));
        Ok(())
    }
}
