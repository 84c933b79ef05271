//! `pack FILE OUT`: batches of a text as bytes.

use std::fs;
use std::path::{Path, PathBuf};

use crate::answer::Answer;
use crate::desk::{make_folder, named, write_new, Desk, PACKED};
use crate::error::Error;
use crate::plain;
use crate::table::counted;
use crate::words::Words;

pub fn run(words: Words) -> Result<Answer, Error> {
    let [file, out] = words.exactly()?;
    let (file, out) = (PathBuf::from(file), PathBuf::from(out));
    let desk = Desk::read(&file)?;
    let mut batches = Vec::new();
    for (i, offered) in desk.offered.iter().enumerate() {
        match &offered.bytes {
            Ok(bytes) => batches.push((counted(offered.offer.rows.len(), "row"), bytes)),
            Err(refused) => return Err(Error::Batch(desk.batch(i), refused.clone())),
        }
    }
    let targets = targets(&file, out, batches.len())?;
    let mut batches = batches.into_iter();
    let mut text = all_or_none(&targets, |target| {
        let (rows, bytes) = batches.next().ok_or(Error::NoRow(file.clone()))?;
        let remark = write_new(target, bytes)?;
        let name = plain::name(target);
        Ok(format!("{name}: {rows}, {} bytes\n{remark}", bytes.len()))
    })?;
    if desk.is_timed() {
        text += &format!(
            "{}: batch bytes have no `time` lines; those of the text are left out.\n",
            desk.name
        );
    }
    Ok(Answer::well(text))
}

/// Writes one file after the other; where one cannot be written, those before it are removed.
fn all_or_none(
    targets: &[PathBuf],
    mut write: impl FnMut(&Path) -> Result<String, Error>,
) -> Result<String, Error> {
    let mut text = String::new();
    for (i, target) in targets.iter().enumerate() {
        match write(target) {
            Ok(said) => text += &said,
            Err(error) => {
                let made = targets.iter().take(i);
                made.for_each(|made| drop(fs::remove_file(made)));
                return Err(error);
            }
        }
    }
    Ok(text)
}

/// Where each batch goes: a single one into the file `out`, else each into a file of its own in the folder `out`.
fn targets(file: &Path, out: PathBuf, batches: usize) -> Result<Vec<PathBuf>, Error> {
    if batches == 0 {
        return Err(Error::NoRow(file.to_owned()));
    }
    if batches == 1 && !out.is_dir() {
        return Ok(vec![out]);
    }
    make_folder(&out)?;
    let file = named(file);
    let stem = file.file_stem().unwrap_or(file.as_os_str());
    let digits = batches.to_string().len().max(2);
    let target = |i| {
        let mut name = stem.to_owned();
        name.push(format!("-{i:0digits$}.{PACKED}"));
        out.join(name)
    };
    Ok((1..=batches).map(target).collect())
}

#[cfg(test)]
mod tests {
    use super::*;

    #[test]
    fn where_one_cannot_be_written_none_is_left() {
        let folder = std::env::temp_dir();
        let name = |i| folder.join(format!("cuwelfra-pack-{}-{i}", std::process::id()));
        let targets = [name(1), name(2), name(3)];
        let told = all_or_none(&targets, |target| match target == targets[2] {
            true => Err(Error::NoCommand),
            false => write_new(target, b"bytes"),
        });
        assert!(matches!(told, Err(Error::NoCommand)));
        assert!(targets.iter().all(|target| !target.exists()));
    }
}
