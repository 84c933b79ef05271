//! The table of refusals. A new refusal is one entry: its number, its variant with the values that it carries and how each
//! is called, its word, what it means and what its caller can do.

use cuwelfra_sys::Told;

use crate::ActorId;

/// A refusal in words.
#[derive(Clone, Copy, Debug, PartialEq, Eq)]
#[non_exhaustive]
pub struct Explained {
    /// Its number, document 01's or, from 26 on, document 02's.
    pub number: u64,
    /// Its word.
    pub word: &'static str,
    /// The names of the values that it carries.
    pub values: &'static [&'static str],
    /// What it means.
    pub meaning: &'static str,
    /// What the caller can do.
    pub advice: &'static str,
}

/// Makes the enum, what tells and reads its numbers, and the explanations.
macro_rules! refusals {
    ($(
        $number:literal => $variant:ident $({
            $first:ident: $first_type:ty = $first_name:literal
            $(, $second:ident: $second_type:ty = $second_name:literal)?
        })?, $word:literal {
            meaning: $meaning:literal,
            advice: $advice:literal,
        }
    )+) => {
        /// Why a call was refused: one variant for each of the documents' numbers, and two for a library that this crate
        /// was not made for.
        ///
        /// A refused call changes nothing. [`Refusal::meaning`] and [`Refusal::advice`] say what it means and what to
        /// do.
        ///
        /// ```
        /// use cuwelfra::{ActorId, Refusal, VectorClock};
        ///
        /// let refusal = Refusal::Conflict { actor: ActorId(1), seq: 4 };
        /// assert_eq!(refusal.number(), 13);
        /// assert_eq!(refusal.to_string(), "refusal 13, conflict: author 1, sequence 4");
        ///
        /// // It is an error like any other, and may go through `?`.
        /// fn next(clock: &mut VectorClock) -> Result<u64, Box<dyn std::error::Error>> {
        ///     Ok(clock.increment(ActorId(1))?)
        /// }
        /// let mut clock = VectorClock::new();
        /// clock.observe(ActorId(1), u64::MAX)?;
        /// let told = next(&mut clock).map_err(|error| error.to_string());
        /// assert_eq!(told, Err("refusal 19, counter overflow".to_owned()));
        /// # Ok::<(), Refusal>(())
        /// ```
        #[derive(Clone, Copy, Debug, PartialEq, Eq, Hash)]
        #[non_exhaustive]
        pub enum Refusal {
            $(
                #[doc = concat!($number, ", ", $word, ". ", $meaning)]
                $variant $({
                    #[doc = concat!("The ", $first_name, ".")]
                    $first: $first_type,
                    $(
                        #[doc = concat!("The ", $second_name, ".")]
                        $second: $second_type,
                    )?
                })?,
            )+
            /// A number that the table has not, with what was told: the linked library is not the one that this crate
            /// was made for.
            UnknownAnswer(Told),
            /// An answer whose values do not fit what was lent, which is that too. Its number is [`Refusal::MISFIT`].
            MisfitAnswer,
        }

        impl Refusal {
            /// The number of [`Refusal::MisfitAnswer`]. No refusal of the documents has it, now or later.
            pub const MISFIT: u64 = u64::MAX;

            /// The refusal that an exported call told.
            pub(super) fn from_told(told: Told) -> Self {
                match told.number {
                    $(
                        $number => Self::$variant $({
                            $first: <$first_type>::from(told.first),
                            $($second: <$second_type>::from(told.second),)?
                        })?,
                    )+
                    Self::MISFIT => Self::MisfitAnswer,
                    _ => Self::UnknownAnswer(told),
                }
            }

            /// Number and values, as an exported call tells them. Values that a refusal does not carry are 0; its
            /// number never is.
            pub fn told(self) -> Told {
                match self {
                    $(
                        Self::$variant $({ $first $(, $second)? })? => {
                            told($number, &[$(u64::from($first) $(, u64::from($second))?)?])
                        }
                    )+
                    // 0 would say that nothing was refused.
                    Self::MisfitAnswer | Self::UnknownAnswer(Told { number: 0, .. }) => {
                        told(Self::MISFIT, &[])
                    }
                    Self::UnknownAnswer(told) => told,
                }
            }
        }

        /// All of them, in the order of the table.
        pub(super) const EXPLAINED: &[Explained] = &[$(
            Explained {
                number: $number,
                word: $word,
                values: &[$($first_name $(, $second_name)?)?],
                meaning: $meaning,
                advice: $advice,
            },
        )+];
    };
}

fn told(number: u64, values: &[u64]) -> Told {
    let value = |i| values.get(i).copied().unwrap_or(0);
    Told {
        number,
        first: value(0),
        second: value(1),
    }
}

/// What the library's answers mean that this crate does not know.
pub(super) const UNKNOWN: Explained = Explained {
    number: 0,
    word: "unknown answer",
    values: &["first value", "second value"],
    meaning: "The linked library gives an answer that this crate does not know: it is not the library that this \
              crate was made for.",
    advice: SAME_COMMIT,
};

pub(super) const MISFIT: Explained = Explained {
    number: Refusal::MISFIT,
    word: "misfit answer",
    values: &[],
    meaning: "The linked library gives an answer that does not fit what was lent: it is not the library that this \
              crate was made for.",
    advice: SAME_COMMIT,
};

const SAME_COMMIT: &str = "Link the static library and build this crate from the same commit.";

refusals! {
    1 => UnsoundStore, "unsound store" {
        meaning: "A lent area breaks a rule of its layout; in a store, a row that does not read, log stamps that \
                  fall, a clock or watermark that does not go with the rows, held rows out of order, an unused slot \
                  that is not zero. A clock, a peer or a slot lent alone can break its rules too.",
        advice: "Something other than these calls wrote the area, or it was not loaded whole: load the last good \
                 copy. A store can also be made anew from its logged rows (`Store::rebuild`).",
    }
    2 => ShortArea, "short area" {
        meaning: "A lent area is below its size: log 704 bytes, held rows 45,056, head 2,120, clock 520, slot and \
                  peer 704. Or an output or the scratch has no room for what the call would write.",
        advice: "Lend an area of the size in docs/LAYOUT.md, or a larger output; more than the size is allowed.",
    }
    3 => Unreadable, "unreadable" {
        meaning: "A batch, or the bytes of a row to seal, do not read: they are cut short, a varint is above 64 bits or in \
                  more bytes than it needs, a stamp's counter is above 32 bits, a row's dependencies are not by strictly \
                  rising author, a closing byte (verdict, outcome, detail) is none that there is, or bytes are left over.",
        advice: "Fetch the batch again; where it comes the same, its writer has another layout. No row of it was \
                 merged. Seal the bytes that preparing gave, unchanged.",
    }
    4 => OverCapacity, "over capacity" {
        meaning: "A size or a setting is above its capacity. Sizes: 64 rows in a batch or a message, 32 entries in a \
                  message's clock, 16 dependencies, 256 bytes of payload, 64 of signature, 1,024 rows in a log, 1,024 \
                  bytes of signature in the envelopes of `sizes`. Settings: `max_pending` 64, `max_deps` 16, \
                  `max_payload` 256.",
        advice: "Split the batch or the message, leave the row out, lower the setting, or sign with at most 64 bytes, an \
                 envelope with at most 1,024.",
    }
    5 => ZeroSequence { actor: ActorId = "author", seq: u64 = "sequence" }, "zero sequence" {
        meaning: "A row of the batch, or the row to seal, has sequence 0. An author's rows are numbered from 1.",
        advice: "Offer the batch without this row; its author has to number it and sign it again. A row of your own \
                 is numbered in preparing.",
    }
    6 => ForeignStamp { actor: ActorId = "author", seq: u64 = "sequence" }, "foreign stamp" {
        meaning: "A row of the batch, or the row to seal, bears a stamp that another author issued.",
        advice: "Offer the batch without this row; its author has to stamp it with its own clock and sign it again. \
                 Prepare a row of your own with its author's hybrid clock.",
    }
    7 => SpentCounter { actor: ActorId = "author", seq: u64 = "sequence" }, "spent counter" {
        meaning: "A row of the batch has a stamp whose counter is 4,294,967,295, the last one, so that no stamp of \
                  its wall time could follow.",
        advice: "Offer the batch without this row; its author has to stamp it at a later time and sign it again.",
    }
    8 => PayloadTooLarge { actor: ActorId = "author", seq: u64 = "sequence" }, "payload too large" {
        meaning: "A row of the batch has more payload bytes than the setting `max_payload` allows.",
        advice: "Raise `max_payload`, to at most 256, or offer the batch without this row.",
    }
    9 => TooManyCauses { actor: ActorId = "author", seq: u64 = "sequence" }, "too many causes" {
        meaning: "A row of the batch has more dependencies than the setting `max_deps` allows.",
        advice: "Raise `max_deps`, to at most 16, or offer the batch without this row.",
    }
    10 => OwnFuture { actor: ActorId = "author", seq: u64 = "sequence" }, "own future" {
        meaning: "A row of the batch depends on itself or on a later row of its own author, so that it could never \
                  be logged.",
        advice: "Offer the batch without this row; its author has to write and sign it again.",
    }
    11 => AheadOfTime { actor: ActorId = "author", seq: u64 = "sequence" }, "ahead of time" {
        meaning: "A row of the batch has a wall time above the time of the call plus the setting `max_drift_ms`.",
        advice: "Look whether the time of the call is right. Offer the row later, or raise `max_drift_ms`.",
    }
    12 => BadSignature { actor: ActorId = "author", seq: u64 = "sequence" }, "bad signature" {
        meaning: "A row of the batch came with verdict 0: the verifier did not accept its signature.",
        advice: "Offer the batch without this row, and fetch the row from another peer. Do not set the verdict to 1.",
    }
    13 => Conflict { actor: ActorId = "author", seq: u64 = "sequence" }, "conflict" {
        meaning: "A row of the batch has the author and sequence of a held row, or of an earlier row of the batch, \
                  and another stamp, other dependencies, another payload or another signature.",
        advice: "Its author has given one number to two rows. Settle which of them counts and offer the batch \
                 without the other; where that one is held, it leaves only by being logged or by expiring.",
    }
    14 => HeldOverflow { limit: u64 = "limit" }, "held overflow" {
        meaning: "More rows would wait after the batch than the setting `max_pending`, the limit that is told, \
                  allows.",
        advice: "Offer first the rows that the held ones wait for, offer fewer rows, or raise `max_pending`, to at \
                 most 64.",
    }
    15 => HeldBytes { limit: u64 = "limit" }, "held bytes" {
        meaning: "The rows that would wait after the batch have more payload bytes than the setting \
                  `max_pending_bytes`, the limit that is told, allows.",
        advice: "Offer first the rows that the held ones wait for, offer fewer rows, or raise `max_pending_bytes`.",
    }
    16 => AuthorOverflow { limit: u64 = "limit", actor: ActorId = "author" }, "author overflow" {
        meaning: "More rows of one author would wait after the batch than the setting `max_pending_per_actor`, the \
                  limit that is told, allows. Of several such authors the lowest is named.",
        advice: "Offer first the rows that this author's rows wait for, offer fewer rows, or raise \
                 `max_pending_per_actor`.",
    }
    17 => LogFull, "log full" {
        meaning: "The log area has no slot left for the rows that would be logged.",
        advice: "Compact the log (`cutoff`, then `compact`), or lengthen its area with zeros, to at most 1,024 slots \
                 of 704 bytes.",
    }
    18 => AuthorsFull, "authors full" {
        meaning: "A clock or the watermarks would have to name more than 32 authors.",
        advice: "A clock keeps the authors that it has. Take no rows of further authors into this store.",
    }
    19 => CounterOverflow, "counter overflow" {
        meaning: "A clock's number cannot grow: a hybrid clock has used the last counter of its wall time, \
                  4,294,967,295, or an author's number in a vector clock is 2^64 - 1.",
        advice: "With a hybrid clock, try again once the physical time is past its wall time. An author's number \
                 that is at its end stays there.",
    }
    20 => RemoteAhead { remote_wall: u64 = "remote wall", local_wall: u64 = "physical time" }, "remote ahead" {
        meaning: "A remote stamp's wall time is further ahead of the physical time than the hybrid clock's drift \
                  allows.",
        advice: "Compare the two machines' times. Take the stamp in later, or widen the drift.",
    }
    21 => UnaskedPong, "unasked pong" {
        meaning: "A pong answers no ping that is still kept: eight that wait and eight that were answered.",
        advice: "Drop the pong. It is very late, or the peer was never asked.",
    }
    22 => Truncated, "truncated" {
        meaning: "The bytes end before what is to be read.",
        advice: "Read again when more bytes have come, or fetch the frame again.",
    }
    23 => VarintOverflow, "overflow" {
        meaning: "A varint has more than ten bytes or 64 bits, or more than 32 bits where a counter is read.",
        advice: "Drop the frame: more bytes cannot make it readable.",
    }
    24 => TooLarge, "too large" {
        meaning: "A length or a count is above its limit, or above the bytes that are left. In an envelope the body \
                  has at most 16,777,216 bytes and the signature 1,024; in a message a clock has at most 4,096 entries, \
                  a Delta 4,096 rows, and a row 4,096 dependencies, 1,048,576 bytes of payload and 1,024 of signature.",
        advice: "Look whether the frame came whole; where it did, drop it.",
    }
    25 => TrailingBytes, "trailing" {
        meaning: "Bytes are left over behind what was read.",
        advice: "Look where the frame was cut: it is longer than what it holds. Drop it, or cut it right.",
    }
    26 => OperationTooLarge, "operation too large" {
        meaning: "A row of your own cannot be prepared: its payload has more than 256 bytes, or the log's clock, which \
                  becomes its dependencies, names more than 16 authors.",
        advice: "Shorten the payload. A clock keeps its authors: with a 17th this store takes no more rows of its own, \
                 and still those of batches.",
    }
    27 => SequenceExhausted, "sequence exhausted" {
        meaning: "A row of your own has no next sequence: its author's number in the log's clock, or the number last \
                  issued, is 2^64 - 1.",
        advice: "Look whether the number last issued is right. Where it is, this author can write no more.",
    }
    28 => OtherCauses, "other causes" {
        meaning: "The dependencies of the row to seal are not the log's clock: something was logged since it was \
                  prepared, or it is logged already.",
        advice: "Look the row up by author and number first: where it is logged with your payload, it is done. Else \
                 prepare it again, sign the new bytes and seal these. What was signed before must not go out: its \
                 number comes again with other dependencies.",
    }
    29 => InvalidTag { tag: u64 = "tag" }, "invalid tag" {
        meaning: "A message's first byte is the tag of none that is read here: 0 Hello, 1 Delta, 2 Ack, 3 Ping, 4 Pong. \
                  5 and 6 are a snapshot's.",
        advice: "A snapshot's message is the server's to read: decode the envelope alone. Drop any other: its sender has \
                 another layout.",
    }
    30 => Overlong, "overlong" {
        meaning: "A varint is in more bytes than it needs: it has two or more, and the last is zero. A number has one \
                  spelling, the shortest. In a batch, and in the bytes of a row to seal, this is 3.",
        advice: "Drop the frame: more bytes cannot make it readable. Its sender has to write each number in its shortest \
                 form, as every call here does.",
    }
}
