//! The declarations of the crate cuwelfra-sys.

use crate::forms::{Declaration, Source};
use crate::rust::{all_tokens, answer, joined, list, structs};
use crate::tokens::{Cursor, Token};

pub fn declarations(files: &[String]) -> Result<Source, String> {
    let tokens = all_tokens(files);
    Ok(Source {
        label: "the crate cuwelfra-sys",
        functions: functions(&tokens)?,
        structs: structs(&tokens)?,
    })
}

fn functions(source: &[Token]) -> Result<Vec<Declaration>, String> {
    let mut found = Vec::new();
    let mut cursor = Cursor::new(source);
    while !cursor.is_done() {
        if !cursor.eat(&["extern", "\"C\"", "{"]) {
            cursor.next()?;
            continue;
        }
        while !cursor.eat(&["}"]) {
            found.push(function(&mut cursor)?);
        }
    }
    Ok(found)
}

/// `pub fn NAME(name: type, ..) -> type;`
fn function(cursor: &mut Cursor) -> Result<Declaration, String> {
    cursor.expect(&["pub", "fn"])?;
    let name = cursor.next()?.to_string();
    cursor.expect(&["("])?;
    let mut items = Vec::new();
    for (parameter, spelling) in list(cursor, ")")? {
        items.push((parameter.to_string(), joined(&spelling)));
    }
    let answer = Some(answer(cursor, &[";"])?);
    cursor.expect(&[";"])?;
    Ok(Declaration {
        name,
        items,
        answer,
    })
}
