//! Definitions of `specs/`, what they name, and which of them a reader must believe: those that a public contract or the
//! statement of a theorem leads to.

use std::collections::{BTreeMap, BTreeSet};
use std::path::Path;

use crate::files::{below, read, root};

/// A module of `specs/`: its crate, and its path below `specs`, as `Inside/Moves`.
pub type Module = (String, String);
/// A definition: its module and its name.
pub type Place = (Module, String);

/// What is read of one file.
#[derive(Default)]
pub struct Text {
    /// The modules that names are brought in from.
    imports: BTreeMap<String, Module>,
    /// The words of each definition.
    definitions: BTreeMap<String, BTreeSet<String>>,
    /// The data type of each constructor.
    constructors: BTreeMap<String, String>,
}

/// The modules of `specs/` by their names.
pub struct Definitions {
    modules: BTreeMap<Module, Text>,
}

impl Definitions {
    /// Those of all crates.
    pub fn read() -> Self {
        let texts = crate::files::specs().into_iter().map(|path| {
            let text = read(&path);
            (module_of(&path), text)
        });
        Definitions::of(texts.filter(|((_, place), _)| place != "Lib" && place != "Inside"))
    }

    /// Those of some modules, by their texts.
    pub fn of(texts: impl Iterator<Item = (Module, String)>) -> Self {
        let modules = texts.map(|(module, text)| (module, parse(&text))).collect();
        Definitions { modules }
    }

    /// Where a name that stands in a text is defined.
    fn resolve(&self, text: &Text, own: Option<&Module>, name: &str) -> Option<Place> {
        let module = match own {
            Some(own) if self.defines(own, name).is_some() => own,
            _ => text.imports.get(name)?,
        };
        let defined = self.defines(module, name)?;
        Some((module.clone(), defined))
    }

    /// The definition of a module that a name belongs to: its own, or its data type's.
    fn defines(&self, module: &Module, name: &str) -> Option<String> {
        let text = self.modules.get(module)?;
        if text.definitions.contains_key(name) {
            return Some(name.to_string());
        }
        text.constructors.get(name).cloned()
    }

    /// All that some definitions lead to, themselves too.
    pub fn reached(&self, roots: BTreeSet<Place>) -> BTreeSet<Place> {
        let mut seen = BTreeSet::new();
        let mut open: Vec<Place> = roots.into_iter().collect();
        while let Some(place) = open.pop() {
            if !seen.insert(place.clone()) {
                continue;
            }
            let (module, name) = &place;
            let text = &self.modules[module];
            for word in &text.definitions[name] {
                open.extend(self.resolve(text, Some(module), word));
            }
        }
        seen
    }

    /// Every definition there is.
    pub fn all(&self) -> impl Iterator<Item = Place> + '_ {
        self.modules.iter().flat_map(|(module, text)| {
            let names = text.definitions.keys();
            names.map(move |name| (module.clone(), name.clone()))
        })
    }

    /// What the contracts of public functions name. Functions in a module `raw` are no calls.
    pub fn in_contracts(&self) -> BTreeSet<Place> {
        let mut found = BTreeSet::new();
        for path in below(&root().join("crates"), ".rt") {
            if is_public(&path) {
                let source = read(&path);
                let text = parse(&source.replace("ghost use ", "use ").replace("};", "}"));
                for word in contract_words(&source) {
                    found.extend(self.resolve(&text, None, &word));
                }
            }
        }
        found
    }

    /// The statements that are proved: `pub name : Statement` in `proofs/`.
    pub fn stated(&self) -> BTreeSet<Place> {
        let mut found = BTreeSet::new();
        for path in below(&root().join("crates"), ".antt") {
            let name = path.to_string_lossy().into_owned();
            let of_function = name.ends_with("/Answers.antt") || name.ends_with("/Invariants.antt");
            if name.contains("/proofs/") && !of_function {
                let source = read(&path);
                let text = parse(&source);
                for line in source.lines().filter_map(|line| line.strip_prefix("pub ")) {
                    if let Some((_, statement)) = line.split_once(" : ") {
                        found.extend(self.resolve(&text, None, statement));
                    }
                }
            }
        }
        found
    }
}

/// The crate and the path below `specs` of a file.
fn module_of(path: &Path) -> Module {
    let name = path.with_extension("").to_string_lossy().into_owned();
    let (front, place) = name.rsplit_once("/specs/").expect("a file of specs");
    let crate_name = front.rsplit('/').next().expect("a crate");
    (crate_name.to_string(), place.to_string())
}

/// Whether a file of `src/` has calls: the crate's root, or a module that it makes public, but for `raw`.
fn is_public(path: &Path) -> bool {
    let name = path
        .file_stem()
        .expect("a name")
        .to_string_lossy()
        .into_owned();
    let root = path.with_file_name("lib.rt");
    if !root.is_file() || name == "raw" {
        return false;
    }
    name == "lib" || read(&root).contains(&format!("pub mod {name};"))
}

/// The words of the clauses of `pub fn`.
fn contract_words(source: &str) -> BTreeSet<String> {
    let mut found = BTreeSet::new();
    let mut inside = false;
    for line in source.lines() {
        let line = line.trim_start();
        if line.starts_with("pub fn ") || line.starts_with("pub extern ") {
            inside = true;
        }
        if line == "{" {
            inside = false;
        }
        if inside {
            found.extend(words(clause(line)));
        }
    }
    found
}

/// What stands between the braces of a line with a clause, and nothing of another line.
fn clause(line: &str) -> &str {
    let is_clause = line.starts_with("requires ") || line.starts_with("ensures ");
    let inner = line
        .split_once("{ ")
        .and_then(|(_, rest)| rest.strip_suffix(" }"));
    inner.filter(|_| is_clause).unwrap_or("")
}

/// The words of a text. An operator `◌⊑◌` is known by `⊑` too.
fn words(text: &str) -> impl Iterator<Item = String> + '_ {
    text.split(|c: char| c.is_whitespace() || "(){}[];,.\"«»λ".contains(c))
        .filter(|word| !word.is_empty())
        .flat_map(|word| [word.to_string(), format!("◌{word}◌")])
}

/// Reads a file of antt.
fn parse(source: &str) -> Text {
    let mut text = Text::default();
    let mut current = String::new();
    let mut data = false;
    let code = source
        .lines()
        .map(|line| line.split("--").next().unwrap_or(line));
    let mut joined = String::new();
    for line in code {
        joined.push_str(line);
        // a `use` line may go on over several
        let open = joined.starts_with("use ") && joined.contains('{') && !joined.contains('}');
        if open {
            continue;
        }
        let line = std::mem::take(&mut joined);
        if line.starts_with("use ") {
            import(&mut text, &line);
            continue;
        }
        if line.starts_with(|c: char| !c.is_whitespace()) && !line.starts_with("unfolding") {
            let mut rest = line.as_str();
            for mark in ["unfoldable ", "abbrev ", "pub "] {
                rest = rest.strip_prefix(mark).unwrap_or(rest);
            }
            let is_data = rest.starts_with("data ");
            rest = rest.strip_prefix("data ").unwrap_or(rest);
            rest = rest.strip_prefix("record ").unwrap_or(rest);
            let name = rest.split_whitespace().next().unwrap_or("");
            if name.starts_with("infix") {
                continue;
            }
            if name != current {
                current = name.to_string();
                data = is_data;
            }
        }
        if current.is_empty() {
            continue;
        }
        if data && line.starts_with("  ") && !line.starts_with("   ") {
            if let Some((name, _)) = line.trim().split_once(" : ") {
                text.constructors.insert(name.to_string(), current.clone());
            }
        }
        text.definitions
            .entry(current.clone())
            .or_default()
            .extend(words(&line));
    }
    text
}

/// A line `use Rattle.NAME.specs.Path.{names}`, of another crate or of its own.
fn import(text: &mut Text, line: &str) {
    let Some(rest) = line.strip_prefix("use Rattle.") else {
        return;
    };
    let Some((path, names)) = rest.split_once(".{") else {
        return;
    };
    let Some((crate_name, place)) = path.split_once(".specs.") else {
        return;
    };
    let module = (crate_name.to_string(), place.replace('.', "/"));
    for name in names.trim_end_matches('}').split(',') {
        text.imports.insert(name.trim().to_string(), module.clone());
    }
}
