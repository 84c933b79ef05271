//! The exported functions of the crate cuwelfra, and the structs that they answer.

use crate::forms::{named, spellings, Declaration, Item, Source};
use crate::rust::{all_tokens, answer, joined, list, structs};
use crate::tokens::{Cursor, Token};

/// Parameters that have another name in Rattle, where `peer` is a crate and `now` belongs to contracts.
const PARAMETERS: [(&str, &str); 2] = [("area", "peer"), ("ms", "now")];

/// Structs that have another name in Rattle.
const STRUCTS: [(&str, &str); 8] = [
    ("NumberTold", "NumberRead"),
    ("PartTold", "PartRead"),
    ("WrittenTold", "Written"),
    ("EnvelopeTold", "EnvelopeRead"),
    ("HybridTold", "Hybrid"),
    ("IssuedTold", "IssuedStamp"),
    ("UpdatedTold", "UpdatedClock"),
    ("ClockTold", "ClockNumber"),
];

/// The exports: files of the crate, and files of the crates that it names, which count only where an answer needs them.
pub fn exports(files: &[String], named_crates: &[String]) -> Result<Source, String> {
    let own = all_tokens(files);
    let mut source = Source {
        label: "the Rattle source",
        functions: functions(&own)?,
        structs: structs(&own)?,
    };
    let others = structs(&all_tokens(named_crates))?;
    while let Some(needed) = needed(&source, &others) {
        source.structs.push(needed);
    }
    rename(&mut source);
    Ok(source)
}

/// A struct of another crate that is named and not there yet.
fn needed(source: &Source, others: &[Declaration]) -> Option<Declaration> {
    let all = source.functions.iter().chain(&source.structs);
    let absent = all
        .flat_map(spellings)
        .filter(|name| named(&source.structs, name).is_none());
    absent
        .filter_map(|name| named(others, name))
        .next()
        .cloned()
}

fn functions(source: &[Token]) -> Result<Vec<Declaration>, String> {
    let mut found = Vec::new();
    let mut cursor = Cursor::new(source);
    while !cursor.is_done() {
        if cursor.eat(&["#", "[", "unsafe", "(", "no_mangle", ")", "]"]) {
            cursor.expect(&["pub", "extern", "\"C\"", "fn"])?;
            found.push(function(&mut cursor)?);
        } else if cursor.eat(&["extern", "\"C\"", "fn"]) {
            return Err(format!(
                "{} is extern without #[unsafe(no_mangle)]",
                cursor.next()?
            ));
        } else {
            cursor.next()?;
        }
    }
    Ok(found)
}

/// `NAME<'a>(name: type, ..) -> type`, up to the contract or the body.
fn function(cursor: &mut Cursor) -> Result<Declaration, String> {
    let name = cursor.next()?.to_string();
    cursor.until(&["("])?;
    cursor.expect(&["("])?;
    let mut items = Vec::new();
    for (parameter, spelling) in list(cursor, ")")? {
        items.extend(passed(renamed(parameter, &PARAMETERS), &spelling));
    }
    let answer = Some(answer(cursor, &["requires", "ensures", "{"])?);
    Ok(Declaration {
        name,
        items,
        answer,
    })
}

/// A parameter as it goes over: a slice as a pointer and a length.
fn passed(name: &str, spelling: &[&str]) -> Vec<Item> {
    let pointer = match without_lifetime(spelling)[..] {
        ["&", "[", element, "]"] => format!("*const {element}"),
        ["&", "mut", "[", element, "]"] => format!("*mut {element}"),
        _ => return vec![(name.to_string(), joined(spelling))],
    };
    let length = (format!("{name}_len"), "usize".to_string());
    vec![(name.to_string(), pointer), length]
}

fn without_lifetime<'a>(spelling: &[&'a str]) -> Vec<&'a str> {
    match spelling {
        [reference, "'", _, rest @ ..] => [&[*reference], rest].concat(),
        _ => spelling.to_vec(),
    }
}

fn renamed<'a>(name: &'a str, table: &[(&str, &'a str)]) -> &'a str {
    let entry = table.iter().find(|(rattle, _)| *rattle == name);
    entry.map_or(name, |(_, common)| common)
}

/// Gives the structs their common names.
fn rename(source: &mut Source) {
    for one in &mut source.structs {
        one.name = renamed(&one.name, &STRUCTS).to_string();
    }
    for one in source.functions.iter_mut().chain(&mut source.structs) {
        let items = one.items.iter_mut().map(|(_, spelling)| spelling);
        for spelling in items.chain(&mut one.answer) {
            *spelling = renamed(spelling, &STRUCTS).to_string();
        }
    }
}
