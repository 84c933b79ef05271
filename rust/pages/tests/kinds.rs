//! Three kinds of text, told apart by where they stand: what a public contract or the statement of a theorem leads to
//! stands in `specs/`, and nothing else does; what only private functions promise stands in `specs/Inside`.

use pages::definitions::{Definitions, Place};

fn listed(places: &[&Place]) -> String {
    let lines = places
        .iter()
        .map(|((crate_name, path), name)| format!("crates/{crate_name}/specs/{path}.antt: {name}"));
    lines.collect::<Vec<_>>().join("\n")
}

fn place(path: &str, name: &str) -> Place {
    (("a".to_string(), path.to_string()), name.to_string())
}

#[test]
fn what_a_definition_names_is_reached() {
    let first = "-- One.\nuse Rattle.a.specs.Inside.Two.{two, Shape, round}\n\nunfoldable pub one : ℕ\none = two\n\npub record Idle : Type 0 where\n  pub field : ℕ\n";
    let second = "abbrev pub two : ℕ\ntwo = half round -- idle\n\nabbrev half : ℕ\nhalf = 1\n\npub data Shape : Type 0 where\n  round : Shape\n\nabbrev pub idle : ℕ\nidle = 0\n";
    let texts = [("One", first), ("Inside/Two", second)];
    let definitions = Definitions::of(
        texts
            .into_iter()
            .map(|(path, text)| (("a".to_string(), path.to_string()), text.to_string())),
    );
    let reached = definitions.reached([place("One", "one")].into());
    let expected = [
        place("Inside/Two", "Shape"),
        place("Inside/Two", "half"),
        place("Inside/Two", "two"),
        place("One", "one"),
    ];
    assert_eq!(reached.into_iter().collect::<Vec<_>>(), expected);
    assert_eq!(definitions.all().count(), 6);
}

#[test]
fn each_definition_stands_where_its_kind_does() {
    let definitions = Definitions::read();
    let mut roots = definitions.in_contracts();
    let contracts = roots.len();
    let stated = definitions.stated();
    assert!(
        contracts >= 100,
        "only {contracts} definitions in contracts"
    );
    assert!(stated.len() >= 10, "only {} statements", stated.len());
    roots.extend(stated);
    let believed = definitions.reached(roots);
    let all: Vec<Place> = definitions.all().collect();
    let inside = |place: &Place| place.0 .1.starts_with("Inside/");
    let wrong: Vec<&Place> = believed.iter().filter(|place| inside(place)).collect();
    assert!(
        wrong.is_empty(),
        "inside, but a reader must believe them:\n{}",
        listed(&wrong)
    );
    let idle: Vec<&Place> = all
        .iter()
        .filter(|place| !inside(place) && !believed.contains(place))
        .collect();
    assert!(
        idle.is_empty(),
        "no public contract and no statement leads to them:\n{}",
        listed(&idle)
    );
}
