//! The declarations of the C header.

use crate::forms::{Declaration, Item, Source};
use crate::tokens::{tokens, Cursor, Token};

/// Types of C and how Rust spells them.
const TYPES: [(&str, &str); 10] = [
    ("uint8_t", "u8"),
    ("uint16_t", "u16"),
    ("uint32_t", "u32"),
    ("uint64_t", "u64"),
    ("size_t", "usize"),
    ("int8_t", "i8"),
    ("int16_t", "i16"),
    ("int32_t", "i32"),
    ("int64_t", "i64"),
    ("void", "()"),
];

pub fn declarations(header: &str) -> Result<Source, String> {
    let tokens = without_directives(&tokens(header))?;
    let mut cursor = Cursor::new(&tokens);
    let mut functions = Vec::new();
    let mut structs = Vec::new();
    while !cursor.is_done() {
        if cursor.eat(&["typedef", "struct", "{"]) {
            structs.push(structure(&mut cursor)?);
        } else if cursor.eat(&["enum", "{"]) {
            cursor.until(&["}"])?;
            cursor.expect(&["}", ";"])?;
        } else if cursor.eat(&["static", "inline"]) {
            cursor.until(&["{"])?;
            pass_body(&mut cursor)?;
        } else {
            functions.push(function(&mut cursor)?);
        }
    }
    Ok(Source {
        label: "the header",
        functions,
        structs,
    })
}

/// The names that enums without macros give to numbers.
pub fn named_numbers(header: &str) -> Result<Vec<String>, String> {
    let tokens = without_directives(&tokens(header))?;
    let given = tokens.windows(2).filter(|next| next[1].text == "=");
    let names = given.map(|next| next[0].text.clone());
    Ok(names.filter(|name| name.starts_with("CUWELFRA_")).collect())
}

/// Passes a function's body, from its opening brace to its closing one.
fn pass_body(cursor: &mut Cursor) -> Result<(), String> {
    let mut open = 0;
    loop {
        match cursor.next()? {
            "{" => open += 1,
            "}" if open == 1 => return Ok(()),
            "}" => open -= 1,
            _ => {}
        }
    }
}

/// What a C compiler reads: without the directives, which go on behind a backslash, and without what is for C++ alone.
fn without_directives(tokens: &[Token]) -> Result<Vec<Token>, String> {
    let mut kept = Vec::new();
    let mut is_for_c = true;
    let mut goes_on = false;
    for line in tokens.chunk_by(|a, b| a.line == b.line) {
        let texts: Vec<&str> = line.iter().map(|token| token.text.as_str()).collect();
        let is_behind = goes_on;
        goes_on = (is_behind || texts[0] == "#") && texts.last() == Some(&"\\");
        match texts[..] {
            _ if is_behind => {}
            ["#", "ifdef", "__cplusplus"] => is_for_c = false,
            ["#", "endif"] => is_for_c = true,
            ["#", "ifndef", "CUWELFRA_H"] | ["#", "include", ..] => {}
            ["#", "define", name, ..] if name.starts_with("CUWELFRA_") => {}
            ["#", ..] => {
                return Err(format!(
                    "line {}: a directive that is not known here",
                    line[0].line
                ))
            }
            _ if is_for_c => kept.extend_from_slice(line),
            _ => {}
        }
    }
    Ok(kept)
}

/// `type field; .. } NAME;`
fn structure(cursor: &mut Cursor) -> Result<Declaration, String> {
    let mut items = Vec::new();
    while !cursor.eat(&["}"]) {
        items.push(item(&cursor.until(&[";"])?)?);
        cursor.expect(&[";"])?;
    }
    let name = spelling(&[cursor.next()?])?;
    cursor.expect(&[";"])?;
    Ok(Declaration {
        name,
        items,
        answer: None,
    })
}

/// `type NAME(type name, ..);`
fn function(cursor: &mut Cursor) -> Result<Declaration, String> {
    let (name, answer) = item(&cursor.until(&["("])?)?;
    cursor.expect(&["("])?;
    let parameters = cursor.until(&[")"])?;
    cursor.expect(&[")", ";"])?;
    let mut items = Vec::new();
    if parameters != ["void"] {
        for parameter in parameters.split(|token| *token == ",") {
            items.push(item(parameter)?);
        }
    }
    let answer = Some(answer);
    Ok(Declaration {
        name,
        items,
        answer,
    })
}

/// A type and the name behind it, and behind that how many there are of an array.
fn item(tokens: &[&str]) -> Result<Item, String> {
    match tokens {
        [kind @ .., name, "[", count, "]"] => {
            Ok((name.to_string(), format!("[{};{count}]", spelling(kind)?)))
        }
        [kind @ .., name] => Ok((name.to_string(), spelling(kind)?)),
        [] => Err("a declaration without a name".to_string()),
    }
}

/// A C type as Rust spells it.
fn spelling(kind: &[&str]) -> Result<String, String> {
    match kind {
        ["const", pointee, "*"] => Ok(format!("*const {}", spelling(&[pointee])?)),
        [pointee, "*"] => Ok(format!("*mut {}", spelling(&[pointee])?)),
        [name] => match TYPES.iter().find(|(c, _)| c == name) {
            Some((_, rust)) => Ok(rust.to_string()),
            None => struct_name(name),
        },
        _ => Err(format!(
            "`{}` is no type that is known here",
            kind.join(" ")
        )),
    }
}

/// `cuwelfra_number_read` as `NumberRead`.
fn struct_name(name: &str) -> Result<String, String> {
    let Some(words) = name.strip_prefix("cuwelfra_") else {
        return Err(format!("`{name}` is no type that is known here"));
    };
    Ok(words.split('_').map(capitalised).collect())
}

fn capitalised(word: &str) -> String {
    let (first, rest) = word.split_at(word.len().min(1));
    first.to_uppercase() + rest
}
