//! The rows that wait in the original's merger, which keeps them to itself: read from its `Debug` text.

use oracle::merge::Merger;

use crate::port::batches::outcome_of;
use crate::port::rows::{Held, Row};

/// Held rows in the merger's order, with the outcome of their author and payload.
pub fn held(merger: &Merger) -> Vec<Held> {
    if merger.pending_len() == 0 {
        return Vec::new();
    }
    let text = format!("{merger:?}");
    let rows = text.split("Held { ").skip(1);
    rows.map(|text| read(&mut Rest(text))).collect()
}

/// What is left of the text.
struct Rest<'a>(&'a str);

impl<'a> Rest<'a> {
    /// Moves past a mark, and gives what stood before it.
    fn past(&mut self, mark: &str) -> &'a str {
        let (before, after) = self.0.split_once(mark).expect("a field of the text");
        self.0 = after;
        before
    }

    /// The number behind a mark.
    fn number(&mut self, mark: &str) -> u64 {
        self.past(mark);
        let digits = self.0.bytes().take_while(u8::is_ascii_digit).count();
        let (number, rest) = self.0.split_at(digits);
        self.0 = rest;
        number.parse().expect("a number of the text")
    }

    /// The bytes in brackets behind a mark.
    fn bytes(&mut self, mark: &str) -> Vec<u8> {
        self.past(mark);
        let inside = self.past("]");
        let bytes = inside.split(", ").filter(|byte| !byte.is_empty());
        bytes.map(|byte| byte.parse().expect("a byte")).collect()
    }
}

fn read(text: &mut Rest) -> Held {
    let wall = text.number("wall_time: ");
    let counter = text.number("logical_counter: ") as u32;
    let stamp = (wall, counter, text.number("actor_id: ActorId("));
    let author = text.number("actor: ActorId(");
    let seq = text.number("seq: ");
    text.past("peers: {");
    let mut pairs = Rest(text.past("}"));
    let mut deps = Vec::new();
    while !pairs.0.is_empty() {
        deps.push((pairs.number("ActorId("), pairs.number("): ")));
    }
    let payload = text.bytes("bytes: [");
    let signature = text.bytes("signature: [");
    let arrival = text.number("arrived_ms: ");
    let (outcome, detail) = outcome_of(author, &payload);
    Held {
        row: Row {
            stamp,
            author,
            seq,
            deps,
            payload,
            signature,
        },
        arrival,
        outcome,
        detail,
    }
}
