//! The one form to which the three sources are brought, and the comparison. Types are spelt as in Rust; a slice is a
//! pointer and a length.

/// A name and its type.
pub type Item = (String, String);

/// A function with its parameters, or a struct with its fields.
#[derive(Clone, Debug)]
pub struct Declaration {
    pub name: String,
    pub items: Vec<Item>,
    /// What a function answers; `None` for a struct.
    pub answer: Option<String>,
}

/// What one source declares.
#[derive(Clone, Debug)]
pub struct Source {
    /// The source as a reader calls it.
    pub label: &'static str,
    pub functions: Vec<Declaration>,
    pub structs: Vec<Declaration>,
}

/// Every difference between two sources, in words.
pub fn differences(a: &Source, b: &Source) -> Vec<String> {
    let mut found = Vec::new();
    for source in [a, b] {
        found.extend(repeated(source));
        found.extend(undeclared(source));
    }
    for (of_a, of_b) in [(&a.functions, &b.functions), (&a.structs, &b.structs)] {
        for one in of_a {
            match named(of_b, &one.name) {
                Some(other) => found.extend(between(a.label, one, b.label, other)),
                None => found.push(missing(one, a.label, b.label)),
            }
        }
        let absent = of_b
            .iter()
            .filter(|other| named(of_a, &other.name).is_none());
        found.extend(absent.map(|other| missing(other, b.label, a.label)));
    }
    found
}

pub fn named<'a>(declarations: &'a [Declaration], name: &str) -> Option<&'a Declaration> {
    declarations
        .iter()
        .find(|declaration| declaration.name == name)
}

fn missing(one: &Declaration, present: &str, absent: &str) -> String {
    format!("{} is in {present} and not in {absent}", one.name)
}

/// The differences between two declarations of one name.
fn between(label_a: &str, a: &Declaration, label_b: &str, b: &Declaration) -> Vec<String> {
    let mut found = Vec::new();
    let kind = if a.answer.is_some() {
        "parameter"
    } else {
        "field"
    };
    let name = &a.name;
    if a.items.len() != b.items.len() {
        let (of_a, of_b) = (a.items.len(), b.items.len());
        found.push(format!(
            "{name} has {of_a} {kind}s in {label_a} and {of_b} in {label_b}"
        ));
    }
    for (i, (of_a, of_b)) in a.items.iter().zip(&b.items).enumerate() {
        if of_a != of_b {
            let (of_a, of_b) = (spelt(of_a), spelt(of_b));
            let place = i + 1;
            found.push(format!(
                "{name}: {kind} {place} is `{of_a}` in {label_a} and `{of_b}` in {label_b}"
            ));
        }
    }
    if let (Some(of_a), Some(of_b)) = (&a.answer, &b.answer) {
        if of_a != of_b {
            found.push(format!(
                "{name} answers `{of_a}` in {label_a} and `{of_b}` in {label_b}"
            ));
        }
    }
    found
}

fn spelt((name, spelling): &Item) -> String {
    format!("{name}: {spelling}")
}

/// Names that a source declares twice.
fn repeated(source: &Source) -> Vec<String> {
    let mut found = Vec::new();
    for declarations in [&source.functions, &source.structs] {
        for (i, one) in declarations.iter().enumerate() {
            if named(&declarations[..i], &one.name).is_some() {
                found.push(format!("{} declares {} twice", source.label, one.name));
            }
        }
    }
    found
}

const NUMBERS: [&str; 9] = [
    "u8", "u16", "u32", "u64", "usize", "i8", "i16", "i32", "i64",
];
const POINTERS: [&str; 2] = ["*const u8", "*mut u8"];

/// Types that are neither a number or an array of one, nor a pointer to bytes, nor a struct that the source declares.
fn undeclared(source: &Source) -> Vec<String> {
    let mut found = Vec::new();
    for one in source.functions.iter().chain(&source.structs) {
        for spelling in spellings(one) {
            let is_plain = NUMBERS.contains(&element(spelling)) || POINTERS.contains(&spelling);
            if !is_plain && named(&source.structs, spelling).is_none() {
                let (label, name) = (source.label, &one.name);
                found.push(format!(
                    "{label}: {name} has the type `{spelling}`, which is no C struct there"
                ));
            }
        }
    }
    found
}

/// What an array is of, and any other type itself.
fn element(spelling: &str) -> &str {
    let array = spelling
        .strip_prefix('[')
        .and_then(|rest| rest.split_once(';'));
    array.map_or(spelling, |(element, _)| element)
}

/// The types that a declaration names.
pub fn spellings(one: &Declaration) -> impl Iterator<Item = &str> {
    let items = one.items.iter().map(|(_, spelling)| spelling.as_str());
    items.chain(one.answer.as_deref())
}
