//! What Rattle and Rust share: structs, and lists of names with types.

use crate::forms::Declaration;
use crate::tokens::{tokens, Cursor, Token};

/// A name and the tokens of its type.
pub type Typed<'a> = (&'a str, Vec<&'a str>);

/// The `#[repr(C)]` structs.
pub fn structs(source: &[Token]) -> Result<Vec<Declaration>, String> {
    let mut found = Vec::new();
    let mut cursor = Cursor::new(source);
    while !cursor.is_done() {
        if cursor.eat(&["#", "[", "repr", "(", "C", ")", "]"]) {
            found.push(structure(&mut cursor)?);
        } else {
            cursor.next()?;
        }
    }
    Ok(found)
}

/// `pub struct NAME { pub field: type, .. }`, with other attributes before it.
fn structure(cursor: &mut Cursor) -> Result<Declaration, String> {
    while cursor.eat(&["#", "["]) {
        cursor.until(&["]"])?;
        cursor.expect(&["]"])?;
    }
    cursor.expect(&["pub", "struct"])?;
    let name = cursor.next()?.to_string();
    cursor.expect(&["{"])?;
    let mut items = Vec::new();
    for (field, spelling) in list(cursor, "}")? {
        items.push((field.to_string(), joined(&spelling)));
    }
    Ok(Declaration {
        name,
        items,
        answer: None,
    })
}

/// `name: type, ..` up to the closing sign, which is passed too.
pub fn list<'a>(cursor: &mut Cursor<'a>, closing: &str) -> Result<Vec<Typed<'a>>, String> {
    let mut items = Vec::new();
    while !cursor.eat(&[closing]) {
        cursor.eat(&["pub"]);
        let name = cursor.next()?;
        cursor.expect(&[":"])?;
        items.push((name, cursor.until(&[",", closing])?));
        cursor.eat(&[","]);
    }
    Ok(items)
}

/// A type as Rust spells it, without the path before its name.
pub fn joined(spelling: &[&str]) -> String {
    match spelling {
        ["*", mutability, pointee @ ..] => format!("*{mutability} {}", joined(pointee)),
        [.., ":", ":", name] => name.to_string(),
        _ => spelling.concat(),
    }
}

/// The type behind `->`, up to one of the ends; `()` where there is none.
pub fn answer(cursor: &mut Cursor, ends: &[&str]) -> Result<String, String> {
    if !cursor.eat(&["-", ">"]) {
        return Ok("()".to_string());
    }
    Ok(joined(&cursor.until(ends)?))
}

/// The tokens of all these files, one file behind the other.
pub fn all_tokens<'a>(texts: impl IntoIterator<Item = &'a String>) -> Vec<Token> {
    texts.into_iter().flat_map(|text| tokens(text)).collect()
}
