//! What a refusal means to the person at the command, and what to do about it. The library's words are for programs.

use cuwelfra::Refusal;

/// A refusal in words. `./run` stands for what the commands are started by.
#[derive(Clone, Copy)]
pub struct Advice {
    pub meaning: &'static str,
    pub advice: &'static str,
}

/// For each refusal that a command can meet, from number 1 on without a gap.
const ADVICE: [Advice; 20] = [
    Advice {
        meaning: "The store breaks its rules.",
        advice: "Something other than these commands wrote it. Take an earlier copy of its file, and join the desks' \
                 files again.",
    },
    Advice {
        meaning: "The program has lent the library too little room.",
        advice: "No file causes this: it is a fault of the program. Please report it, with the command and its files.",
    },
    Advice {
        meaning: "The batch does not read.",
        advice: "In a text file, mend the lines that are named. A .batch file was cut short, is no batch, or comes from \
                 another program: have it sent again.",
    },
    Advice {
        meaning: "Something is larger than a batch can take: 64 rows, and in a row 16 dependencies, 256 bytes of payload \
                 and 64 of signature; or the signature of a message has more than 1,024 bytes.",
        advice: "In a text file, shorten what is named, or take the row out and join the file again. With `./run add`, \
                 shorten what is named. With `./run delta --sizes`, name a --signature of at most 1,024 bytes. A .batch \
                 file is no batch, or comes from another program: have it sent again.",
    },
    Advice {
        meaning: "A row has sequence 0. An author's rows are numbered from 1.",
        advice: "Take the row out of the file and join the file again. Its author has to number it and sign it anew.",
    },
    Advice {
        meaning: "A row bears another author's stamp.",
        advice: "Take the row out of the file and join the file again. Its author has to stamp it with its own clock \
                 and sign it anew.",
    },
    Advice {
        meaning: "A row's stamp has the last counter that there is, 4,294,967,295.",
        advice: "Take the row out of the file and join the file again. Its author has to stamp it at a later time and \
                 sign it anew. `./run add` makes no such row: add again when the machine's time is past that of the store's \
                 latest stamp.",
    },
    Advice {
        meaning: "A row has more payload than is allowed.",
        advice: "Take the row out of the file and join the file again, or have its author shorten it.",
    },
    Advice {
        meaning: "A row has more dependencies than are allowed.",
        advice: "Take the row out of the file and join the file again, or have its author name fewer.",
    },
    Advice {
        meaning: "A row depends on itself or on a later row of its own author, so that it could never be logged.",
        advice: "Take the row out of the file and join the file again. Its author has to write it anew, without that \
                 dependency.",
    },
    Advice {
        meaning: "A row's time is further ahead of the time of this command than --drift allows.",
        advice: "Compare the clocks of this machine and of the row's desk. Join the file again when the row's time has \
                 come, or let rows be further ahead with --drift.",
    },
    Advice {
        meaning: "A row is marked as unverified: its signature is bad.",
        advice: "Do not trust this row. Take it out of the file, join the file again, and ask its author, or another \
                 desk, to send the row anew.",
    },
    Advice {
        meaning: "A row has the author and sequence of a held row, or of an earlier row of the batch, and another stamp, \
                 other dependencies, another payload or another signature.",
        advice: "Its author has given one number to two rows. Ask which of them counts, take the other out of its file \
                 and join the file again. A held one leaves the store only when it is logged or when it expires: \
                 `./run held` says when.",
    },
    Advice {
        meaning: "More rows would wait for others than a store holds, which is 64.",
        advice: "Join first the files that have what the held rows wait for: `./run held` names it.",
    },
    Advice {
        meaning: "The rows that would wait have more payload than a store holds.",
        advice: "Join first the files that have what the held rows wait for: `./run held` names it.",
    },
    Advice {
        meaning: "More rows of one author would wait for others than a store holds.",
        advice: "Join first the files that have what this author's held rows wait for: `./run held` names it.",
    },
    Advice {
        meaning: "The store has no room for the rows that would be logged.",
        advice: "Remove rows that every peer has, with `./run compact`, and join the file again, or add again.",
    },
    Advice {
        meaning: "The store would have rows of more than 32 authors, and it has room for 32 in its life.",
        advice: "Join or add the rows of further authors at another store.",
    },
    Advice {
        meaning: "There is no stamp above one that the store has or a file brings: its time is not past yet, and the \
                 counters of that time are used up. The last is 4,294,967,295.",
        advice: "Add again when the machine's time is past that of the stamp. `./run join` merges the rows as always. A \
                 sound clock does not come near that counter: ask the author of the stamp about it.",
    },
    Advice {
        meaning: "A stamp that the store has is further ahead of the time of this command than --drift allows. A new row \
                 has to be stamped above it.",
        advice: "Compare the clocks of this machine and of the desk that the stamp is from. Add again when its time has \
                 come. With a larger --drift, and with --force where that is more than a minute, the new row is stamped as \
                 far ahead, and other stores refuse it with 11 until then. `./run join` goes on without the stamp.",
    },
];

/// For the refusals that only `./run add` can meet, from number 26 on without a gap.
const OF_ADDING: [Advice; 3] = [
    // Where it is met, only the half of it that applies is given.
    Advice {
        meaning: "A row cannot be added: its payload has more than 256 bytes, or the store has rows of more than 16 \
                 authors, on all of which a new row would depend.",
        advice: "Shorten the payload, or make several rows of it. Once it has rows of a 17th author, a store takes in \
                 files as before and no row by `./run add`: add at another store, under an author whose rows are added \
                 nowhere else.",
    },
    Advice {
        meaning: "A row cannot be added: its author's last row has the last number that there is, 2^64 - 1.",
        advice: "Add it under another author.",
    },
    Advice {
        meaning: "A row was prepared, and before it was logged something else was.",
        advice: "`./run add` does both while no other program can change the store, so that nothing you wrote causes this: \
                 it is a fault of the program. Please report it, with the command and its store.",
    },
];

/// 26, where the payload is at fault.
pub const LARGE_PAYLOAD: Advice = Advice {
    meaning: "A row cannot be added: its payload has more than 256 bytes.",
    advice: "Shorten the payload, or make several rows of it.",
};

/// 26, where the store is at fault.
pub const MANY_AUTHORS: Advice = Advice {
    meaning: "A row cannot be added: it would depend on rows of more than 16 authors.",
    advice: "Once it has rows of a 17th author, a store takes in files as before and no row by `./run add`: add at another \
             store, under an author whose rows are added nowhere else.",
};

/// 20, where the floor is at fault.
pub const AHEAD_FLOOR: Advice = Advice {
    meaning: "The floor is further ahead of the time of this command than --drift allows. A new row has to be stamped \
              above it.",
    advice: "The floor was set with `./run floor` and never falls. Add again at the time that is named.",
};

/// The words for a refusal.
pub fn advice(refusal: Refusal) -> Advice {
    by_number(refusal.number()).unwrap_or(Advice {
        meaning: refusal.meaning(),
        advice: refusal.advice(),
    })
}

/// The words for the refusal of a number, `None` where no command meets it.
pub fn by_number(number: u64) -> Option<Advice> {
    let (list, first) = match number {
        ..26 => (&ADVICE[..], 1),
        _ => (&OF_ADDING[..], 26),
    };
    let from_0 = usize::try_from(number.checked_sub(first)?).ok()?;
    list.get(from_0).copied()
}

#[cfg(test)]
mod tests {
    use super::*;

    /// What a program would have to do, and what the user does not have.
    #[test]
    fn advice_is_for_a_person() {
        let parts = [LARGE_PAYLOAD, MANY_AUTHORS, AHEAD_FLOOR];
        for words in ADVICE.iter().chain(&OF_ADDING).chain(&parts) {
            for text in [words.meaning, words.advice] {
                for word in ["document", "max_", "`Store", "area", "verdict", "docs/"] {
                    assert!(!text.contains(word), "{text}");
                }
                assert!(text.ends_with('.') && !text.contains("  "), "{text}");
            }
        }
        assert_eq!(advice(Refusal::LogFull).advice, ADVICE[16].advice);
        let pong = Refusal::UnaskedPong;
        assert_eq!(advice(pong).advice, pong.advice());
        let too_large = Refusal::OperationTooLarge;
        assert_eq!(advice(too_large).advice, OF_ADDING[0].advice);
        let known = (0..100).filter(|number| by_number(*number).is_some());
        assert!(known.eq((1..=20).chain(26..=28)));
    }

    #[test]
    fn no_explanation_names_a_document_that_is_not_here() {
        let unknown = [
            Refusal::MisfitAnswer,
            Refusal::UnknownAnswer(Default::default()),
        ];
        let all = Refusal::all()
            .iter()
            .map(|known| (known.meaning, known.advice));
        let texts = all.chain(unknown.map(|known| (known.meaning(), known.advice())));
        for text in texts.flat_map(|(meaning, advice)| [meaning, advice]) {
            assert!(!text.to_lowercase().contains("document"), "{text}");
        }
    }
}
