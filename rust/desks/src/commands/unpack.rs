//! `unpack FILE...`: batches' bytes as text.

use std::path::Path;

use crate::answer::Answer;
use crate::desk::{named, once, read, unpack};
use crate::error::Error;
use crate::plain;
use crate::text::{self, Offer};
use crate::words::Words;

pub fn run(words: Words) -> Result<Answer, Error> {
    let files = words.some()?;
    once(&files)?;
    let offers = files.iter().map(Path::new).map(|file| {
        let offer = unpack(&read(file)?);
        offer.map_err(|refused| Error::Batch(plain::name(named(file)), refused))
    });
    let offers: Vec<Offer> = offers.collect::<Result<_, _>>()?;
    Ok(Answer::well(text::write(&offers)))
}
