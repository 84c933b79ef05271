//! What a delta takes when it is sent: a message in its envelope for each chunk.

use cuwelfra::{ActorId, ChunkSize, Delta, Refusal, MAX_BATCH};

use crate::answer::Answer;
use crate::show;
use crate::table::{counted, paragraph};

/// The envelopes of the messages: who sends them, and how many bytes each signature has.
pub struct Frames {
    sender: ActorId,
    sig_len: usize,
}

impl Frames {
    /// From sender 0 and with 64 bytes, where nothing else is said.
    pub fn new(sender: Option<u64>, sig_len: Option<u64>) -> Self {
        let sig_len = sig_len.unwrap_or(64);
        Self {
            sender: ActorId(sender.unwrap_or(0)),
            sig_len: usize::try_from(sig_len).unwrap_or(usize::MAX),
        }
    }

    /// Rows and bytes of each chunk and of all; all is well where each chunk is a message.
    pub fn told(&self, delta: &Delta, max_rows: u64, max_bytes: u64) -> Result<Answer, Refusal> {
        let sizes = delta.sizes(max_rows, max_bytes, self.sender, self.sig_len)?;
        if sizes.is_empty() {
            return Ok(Answer::well(
                "Nothing is sent: 0 chunks, 0 bytes.\n".to_owned(),
            ));
        }
        let large = large(&sizes);
        let text = format!("\n{}\n{}", show::sizes(&sizes), self.named());
        Ok(Answer {
            well: large.is_empty(),
            text: text + &large,
        })
    }

    /// What is counted.
    fn named(&self) -> String {
        let (sender, signature) = (self.sender.0, counted(self.sig_len, "byte"));
        paragraph(&format!(
            "The bytes are those of each Delta message in its envelope, from sender {sender} and with a signature of \
             {signature}. Name others with --sender N and --signature N; a sender's number takes 1 to 10 bytes."
        ))
    }
}

/// Names the chunks that have more rows than a message.
fn large(sizes: &[ChunkSize]) -> String {
    let chunks = (1..).zip(sizes);
    let large = chunks.filter(|(_, size)| size.rows > MAX_BATCH);
    let numbers: Vec<String> = large.map(|(i, _): (u64, _)| i.to_string()).collect();
    let have = match &numbers[..] {
        [] => return String::new(),
        [one] => format!("Chunk {one} has"),
        all => format!("Chunks {} have", all.join(", ")),
    };
    let text = format!(
        "{have} more than {MAX_BATCH} rows, which no message takes: writing one is refused with 4. --rows {MAX_BATCH} or \
         less avoids it."
    );
    format!("\n{}", paragraph(&text))
}
