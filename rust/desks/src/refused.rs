//! Batches that are refused.

use std::{error, fmt};

use cuwelfra::{ActorId, Batch, HeldRow, Refusal, Row, MAX_DEPS, MAX_PAYLOAD, MAX_SIGNATURE};

use crate::text::{self, pairs, Offer};

/// Why a batch is refused, and what of it is at fault, one text for each.
#[derive(Clone, Debug)]
pub struct Refused {
    pub refusal: Refusal,
    pub faults: Vec<String>,
}

impl Refused {
    /// A call refused the batch: the rows that have the author and the sequence that the refusal names, and what is
    /// held under them where they conflict.
    pub fn by_call(refusal: Refusal, offer: &Offer, held: &[HeldRow]) -> Self {
        let told = refusal.told();
        let named = |row: &Row| {
            (5..=13).contains(&told.number)
                && (row.actor, row.seq) == (ActorId(told.first), told.second)
        };
        let rows = offer.rows.iter().enumerate();
        let offered = rows
            .filter(|(_, row)| named(&row.row))
            .map(|(i, row)| format!("{}: {}", offer.place(i), text::line(row)));
        let held = held
            .iter()
            .filter(|held| told.number == 13 && named(&held.row))
            .map(|held| format!("held: {}", text::row(&held.row)));
        Self {
            refusal,
            faults: offered.chain(held).collect(),
        }
    }
}

impl fmt::Display for Refused {
    fn fmt(&self, f: &mut fmt::Formatter<'_>) -> fmt::Result {
        write!(f, "{}", self.refusal)?;
        self.faults
            .iter()
            .try_for_each(|fault| write!(f, "; {fault}"))
    }
}

impl error::Error for Refused {}

/// The rows as a batch.
pub fn pack(offer: &Offer) -> Result<Batch, Refused> {
    let mut batch = Batch::new();
    for row in &offer.rows {
        batch
            .push(&row.row, row.verified, row.outcome)
            .map_err(|refusal| unfit(refusal, offer))?;
    }
    Ok(batch)
}

/// What of the rows does not fit a batch.
fn unfit(refusal: Refusal, offer: &Offer) -> Refused {
    let rows = offer.rows.iter().enumerate();
    let faults = rows.flat_map(|(i, row)| {
        let misfits = misfits(&row.row).into_iter();
        misfits.map(move |misfit| format!("{}: {misfit}", offer.place(i)))
    });
    Refused {
        refusal,
        faults: faults.collect(),
    }
}

/// What is said of something that has more than it may.
pub fn above(what: &str, size: usize, unit: &str, most: usize) -> Option<String> {
    (size > most).then(|| format!("{what} {size} {unit}, at most {most}"))
}

fn misfits(row: &Row) -> Vec<String> {
    let Row {
        deps,
        payload,
        signature,
        ..
    } = row;
    let rise = deps.is_sorted_by(|one, next| one.0 < next.0);
    let turned = (!rise).then(|| {
        let deps = pairs(deps);
        format!("the authors of the dependencies {deps} do not rise")
    });
    let misfits = [
        above("the row has", deps.len(), "dependencies", MAX_DEPS),
        turned,
        above("the payload has", payload.len(), "bytes", MAX_PAYLOAD),
        above("the signature has", signature.len(), "bytes", MAX_SIGNATURE),
    ];
    misfits.into_iter().flatten().collect()
}
