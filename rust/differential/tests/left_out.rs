//! Every public item of the ported files has a counterpart in the proved crates, or docs/DIFFERENCES.md lists it among
//! the parts that are left out. Nothing is listed there that the files have not.

#![cfg(oracle_present)]
#![forbid(unsafe_code)]

use std::collections::BTreeSet;
use std::fs;
use std::path::{Path, PathBuf};

use oracle::open::PORTED;

/// The crates with the counterparts of each file.
const CRATES: [(&str, &[&str]); 10] = [
    ("src/stubs/mod.rs", &["stubs"]),
    ("src/error.rs", &["error"]),
    ("src/codec.rs", &["codec", "row", "message"]),
    ("src/clock.rs", &["clock"]),
    ("src/log.rs", &["replicated_log", "row"]),
    ("src/gc.rs", &["gc"]),
    ("src/sync.rs", &["sync", "codec", "message"]),
    ("src/peer.rs", &["peer"]),
    ("src/merge.rs", &["merge", "batch", "replicated_log"]),
    ("src/engine.rs", &["engine", "merge"]),
];

/// Counterparts of another name: a refusal for an error, a call over an area or a position for a type.
const RENAMED: [(&str, &str); 23] = [
    ("ClockError::RemoteTooFarAhead", "Refusal::RemoteAhead"),
    ("MergeError::BadTimestamp", "Refusal::AheadOfTime"),
    // The first of six, 5 to 10.
    ("MergeError::Malformed", "Refusal::ZeroSequence"),
    ("MergeError::PendingOverflow", "Refusal::HeldOverflow"),
    (
        "MergeError::PendingActorOverflow",
        "Refusal::AuthorOverflow",
    ),
    ("MergeError::PendingBytesExceeded", "Refusal::HeldBytes"),
    ("Writer", "put_varint"),
    ("Writer::u8", "put_u8"),
    ("Writer::varint", "put_varint"),
    ("Writer::bytes", "put_bytes"),
    ("Reader::signed_op", "read_op"),
    ("StampedOperation::signing_bytes", "unsigned_op"),
    ("ReplicatedLog", "check_store"),
    ("Merger", "apply_delta"),
    ("Envelope::encode", "encode_envelope"),
    ("Envelope::decode", "decode_envelope"),
    ("BinaryCodec", "decode_message"),
    ("Message", "Kind"),
    ("Message::Hello", "Kind::Hello"),
    ("Message::Delta", "Kind::Delta"),
    ("Message::Ack", "Kind::Ack"),
    ("Message::Ping", "Kind::Ping"),
    ("Message::Pong", "Kind::Pong"),
];
/// Methods of the original's `Replica` that are ported, though the page lists their type, and the calls that stand for them.
const METHODS: [(&str, &[&str]); 3] = [
    ("local_op", &["prepare", "seal"]),
    ("apply_delta", &["apply_delta"]),
    ("import_ops", &["apply_delta"]),
];
/// Errors whose counterpart is `Refusal`.
const ERRORS: [&str; 4] = ["CodecError", "ClockError", "MergeError", "EngineError"];

#[test]
fn nothing_is_left_out_in_silence() {
    let page = fs::read_to_string(root().join("docs/DIFFERENCES.md")).expect("the page");
    for ((file, text), (named, crates)) in PORTED.iter().zip(CRATES) {
        assert_eq!(*file, named, "the same files in the same order");
        let items = items(text);
        assert!(!items.is_empty(), "{file} has public items");
        let listed = listed(&page, file);
        let code: BTreeSet<String> = crates.iter().flat_map(|name| code(name)).collect();
        for item in &items {
            let left_out = names(item).iter().any(|name| listed.contains(*name));
            let known = left_out || has(&code, item);
            assert!(known, "{file}: {item} is neither ported nor listed");
        }
        for name in &listed {
            let known = items
                .iter()
                .any(|item| names(item).contains(&name.as_str()));
            assert!(known, "{file} has no {name}, which the page lists");
        }
    }
}

/// The page says which methods of `Replica` are not left out, and the proved crates have their calls.
#[test]
fn ported_methods_have_their_calls() {
    let page = fs::read_to_string(root().join("docs/DIFFERENCES.md")).expect("the page");
    let mut files = PORTED.iter().zip(CRATES);
    let engine = files.find(|((file, _), _)| *file == "src/engine.rs");
    let ((file, text), (_, crates)) = engine.expect("the engine");
    let row = row(&page, file);
    let (excepted, _) = row.split_once("of `Replica`").expect("what is excepted");
    let code: BTreeSet<String> = crates.iter().flat_map(|name| code(name)).collect();
    for (method, calls) in METHODS {
        assert!(text.contains(&format!(" fn {method}(")), "{file}: {method}");
        assert!(excepted.contains(method), "the page excepts {method}");
        for call in calls {
            assert!(code.contains(*call), "{method}: {call} is not there");
        }
    }
}

fn root() -> PathBuf {
    Path::new(env!("CARGO_MANIFEST_DIR")).join("../..")
}

/// The public items of a file, in its own layout: `Type`, `Type::method`, `Enum::Variant`, `Trait for Type`.
fn items(text: &str) -> BTreeSet<String> {
    let mut items = BTreeSet::new();
    let (mut owner, mut variants) = (String::new(), false);
    for line in text.lines() {
        if let Some(header) = line.strip_prefix("impl") {
            let header = header.trim_end_matches(" {");
            // Behind the parameters, where there are any.
            let header = match header.strip_prefix('<') {
                Some(rest) => rest.split_once("> ").expect("a type").1,
                None => header.trim_start(),
            };
            if let Some((of, name)) = header.split_once(" for ") {
                items.insert(format!("{} for {}", ident(of), ident(name)));
            } else {
                owner = ident(header).to_owned();
            }
            variants = false;
        } else if let Some((kind, name)) = declared(line) {
            items.insert(name.to_owned());
            (owner, variants) = (name.to_owned(), kind == "enum");
        } else if let Some(inner) = line.strip_prefix("    ") {
            let variant = variants && inner.starts_with(char::is_uppercase);
            let name = match declared(inner) {
                Some((_, name)) => name,
                None if variant => ident(inner),
                None => continue,
            };
            items.insert(format!("{owner}::{name}"));
        }
    }
    items
}

/// The kind and the name of a public item.
fn declared(line: &str) -> Option<(&str, &str)> {
    let rest = line
        .strip_prefix("pub ")
        .or(line.strip_prefix("pub(crate) "))?;
    let (kind, name) = rest.split_once(' ')?;
    let kinds = ["fn", "struct", "enum", "trait", "const", "type"];
    kinds.contains(&kind).then(|| (kind, ident(name)))
}

fn ident(text: &str) -> &str {
    let end = text.find(|c: char| !c.is_alphanumeric() && c != '_');
    &text[..end.unwrap_or(text.len())]
}

/// The names by which the page may list an item: its own, its type's, or one side's of an `impl`.
fn names(item: &str) -> Vec<&str> {
    let sides = item.split(" for ");
    let types = item.split_once("::").map(|(owner, _)| owner);
    sides.chain(types).chain([item]).collect()
}

/// What the page lists of a file among the parts that are left out: all that is written as code.
fn listed(page: &str, file: &str) -> BTreeSet<String> {
    let words = row(page, file).split('`').skip(1).step_by(2);
    words.map(str::to_owned).collect()
}

/// The page's row about a file among the parts that are left out, empty where it has none.
fn row<'a>(page: &'a str, file: &str) -> &'a str {
    let part = page
        .split("\n## ")
        .find(|part| part.starts_with("Parts of ported files"));
    let mut rows = part.expect("that part of the page").lines();
    let row = rows.find(|row| row.starts_with(&format!("| {file} |")));
    row.unwrap_or_default()
}

/// The public items of a proved crate's program, whose layout is the same.
fn code(name: &str) -> BTreeSet<String> {
    let folder = root().join("crates").join(name).join("src");
    let files = fs::read_dir(&folder).expect("the crate's program");
    let texts = files.map(|file| fs::read_to_string(file.expect("a file").path()));
    let texts: Vec<String> = texts.collect::<Result<_, _>>().expect("a text");
    texts.iter().flat_map(|text| items(text)).collect()
}

/// Whether the crates have the item: by its name or its new one, a method as a function too.
fn has(code: &BTreeSet<String>, item: &str) -> bool {
    let (owner, own) = item.split_once("::").unwrap_or((item, item));
    let renamed = RENAMED.iter().find(|(from, _)| *from == item);
    let name = match renamed {
        Some((_, to)) => (*to).to_owned(),
        None if ERRORS.contains(&item) => "Refusal".to_owned(),
        None if ERRORS.contains(&owner) => format!("Refusal::{own}"),
        None => item.to_owned(),
    };
    code.contains(&name) || code.contains(own)
}
