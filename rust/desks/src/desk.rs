//! Files of batches, and other files.

use std::ffi::{OsStr, OsString};
use std::fs;
use std::io::{self, Read};
use std::path::{Path, PathBuf};
use std::str;

use cuwelfra::Batch;

use crate::error::Error;
use crate::plain;
use crate::refused::{pack, Refused};
use crate::store::settled;
use crate::text::{self, Offer};

/// The name behind the dot of a file that has one batch's bytes.
pub const PACKED: &str = "batch";

/// The word that stands for standard input.
const STANDARD_INPUT: &str = "-";

/// A desk's batches.
pub struct Desk {
    /// The file's name without its folders.
    pub name: String,
    pub offered: Vec<Offered>,
}

/// A batch of a desk: its rows, and its bytes, or why it has none.
pub struct Offered {
    pub offer: Offer,
    pub bytes: Result<Vec<u8>, Refused>,
}

impl Desk {
    /// Reads a file of batches: text, or a batch's bytes where its name ends in `.batch`.
    pub fn read(file: &Path) -> Result<Self, Error> {
        let bytes = read(file)?;
        let offered = if file.extension() == Some(OsStr::new(PACKED)) {
            vec![packed(bytes)]
        } else {
            let offers = text::parse(&bytes);
            let offers = offers.map_err(|fault| Error::Text(named(file), fault))?;
            offers.into_iter().map(unpacked).collect()
        };
        Ok(Self {
            name: name(file),
            offered,
        })
    }

    /// Reads one file after the other.
    pub fn read_all(files: Vec<OsString>) -> Result<Vec<Self>, Error> {
        once(&files)?;
        let files: Vec<&Path> = files.iter().map(Path::new).collect();
        let mut desks: Vec<Self> = files
            .iter()
            .map(|file| Self::read(file))
            .collect::<Result<_, _>>()?;
        // Where two have one name, their folders tell them apart.
        let names: Vec<String> = files.iter().map(|file| name(file)).collect();
        for (desk, file) in desks.iter_mut().zip(files) {
            if names.iter().filter(|name| **name == desk.name).count() > 1 {
                desk.name = plain::name(file);
            }
        }
        Ok(desks)
    }

    /// Whether a batch says its time.
    pub fn is_timed(&self) -> bool {
        let mut offered = self.offered.iter();
        offered.any(|offered| offered.offer.time_ms.is_some())
    }

    /// What a batch is called, from 0.
    pub fn batch(&self, i: usize) -> String {
        format!("{} {}", self.name, i + 1)
    }
}

/// The batch of these bytes.
fn packed(bytes: Vec<u8>) -> Offered {
    match unpack(&bytes) {
        Ok(offer) => Offered {
            offer,
            bytes: Ok(bytes),
        },
        Err(refused) => Offered {
            offer: Offer::of(Vec::new()),
            bytes: Err(refused),
        },
    }
}

/// The batch of these rows.
fn unpacked(offer: Offer) -> Offered {
    let bytes = pack(&offer).map(Batch::into_bytes);
    Offered { offer, bytes }
}

/// The rows of a batch's bytes.
pub fn unpack(bytes: &[u8]) -> Result<Offer, Refused> {
    let rows = Batch::read(bytes).map_err(|refusal| Refused {
        refusal,
        faults: vec![match str::from_utf8(bytes) {
            Ok("") => "the file is empty".to_owned(),
            Ok(text) if !text.contains('\0') => {
                "the file looks like text, not like a batch's bytes".to_owned()
            }
            _ => format!(
                "the {} bytes of the file do not read as a batch",
                bytes.len()
            ),
        }],
    });
    rows.map(Offer::of)
}

/// Refuses to read standard input twice.
pub fn once(files: &[OsString]) -> Result<(), Error> {
    let input = files.iter().filter(|file| *file == STANDARD_INPUT);
    match input.count() > 1 {
        true => Err(Error::InputTwice),
        false => Ok(()),
    }
}

/// Refuses the word for standard input as the name of something else.
pub fn is_name(file: &Path, wanted: &'static str) -> Result<(), Error> {
    match file == Path::new(STANDARD_INPUT) {
        true => Err(Error::Word {
            word: file.into(),
            wanted,
        }),
        false => Ok(()),
    }
}

/// What a file of batches is called.
pub fn named(file: &Path) -> PathBuf {
    match file == Path::new(STANDARD_INPUT) {
        true => "standard input".into(),
        false => file.to_owned(),
    }
}

/// A file's name without its folders.
pub fn name(file: &Path) -> String {
    let file = named(file);
    plain::name(file.file_name().unwrap_or(file.as_os_str()))
}

/// The bytes of a file, or of standard input.
pub fn read(file: &Path) -> Result<Vec<u8>, Error> {
    let bytes = match file == Path::new(STANDARD_INPUT) {
        true => {
            let mut bytes = Vec::new();
            io::stdin().read_to_end(&mut bytes).map(|_| bytes)
        }
        false => fs::read(file),
    };
    bytes.map_err(|error| Error::Read(named(file), error))
}

/// Makes a file that is not there yet, whole or not at all, and gives what there is to say about it.
pub fn write_new(file: &Path, bytes: &[u8]) -> Result<String, Error> {
    is_name(file, "name of a file to write; ./- is")?;
    match settled(cuwelfra::write_new(file, bytes)) {
        Ok(remark) => Ok(remark.map_or(String::new(), |remark| {
            format!("{}: {remark}\n", plain::name(file))
        })),
        Err(error) => Err(Error::File(file.to_owned(), error)),
    }
}

/// Makes a folder where it is not there yet.
pub fn make_folder(folder: &Path) -> Result<(), Error> {
    fs::create_dir_all(folder).map_err(|error| Error::Write(folder.to_owned(), error))
}
