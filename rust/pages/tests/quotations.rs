//! Quotations in the comments of `specs/` and `proofs/` are verbatim.

use pages::files::{below, definitions_and_proofs, documents, original, read, root, short};
use pages::quotations::{comments, faults, quotations, without_marks, Source, Sources};

fn sample() -> Sources {
    Sources {
        first: "Rows go in `order`. A **row** is\na thing; and more.".to_string(),
        original: without_marks("/// Raises the floor.\n/// It never lowers it."),
        ..Sources::default()
    }
}

#[test]
fn verbatim_text_passes() {
    let text = "-- 01: \"Rows go in order.\"; \"A row is a thing .. and more.\"\nf : A\n-- rs: \"the floor. It never lowers it\"\n";
    assert_eq!(faults(text, &sample()), Vec::<String>::new());
}

#[test]
fn other_words_are_found() {
    assert_eq!(
        faults("-- 01: \"Rows go in an order.\"", &sample()).len(),
        1
    );
    assert_eq!(faults("-- rs: \"Rows go in order.\"", &sample()).len(), 1);
}

#[test]
fn marks_without_a_source_are_found() {
    assert_eq!(faults("-- says \"Rows go in order.\"", &sample()).len(), 1);
    assert_eq!(faults("-- 01: \"Rows go in order.", &sample()).len(), 1);
    assert_eq!(
        faults("-- src/log.rs: \"Raises the floor.\"", &sample()).len(),
        1
    );
}

#[test]
fn a_comment_goes_over_lines() {
    let found = comments("-- 01: \"A row\n-- is a thing\"\n\n-- next\n");
    assert_eq!(found, ["01: \"A row is a thing\"", "next"]);
    assert_eq!(quotations(&found[0])[0].source, Some(Source::Document(1)));
}

#[test]
fn definitions_and_proofs_quote_verbatim() {
    let Some(documents) = documents() else {
        println!("skipped: the documents are absent");
        return;
    };
    let files = if original().is_dir() {
        below(&original(), ".rs")
    } else {
        Vec::new()
    };
    let sources = Sources {
        first: read(&documents.join("01-scope.md")),
        second: read(&documents.join("02-change-requests.md")),
        original: files
            .iter()
            .map(|path| without_marks(&read(path)))
            .collect(),
        layout: read(&root().join("docs/LAYOUT.md")),
    };
    let mut wrong = Vec::new();
    let mut count = 0;
    for path in definitions_and_proofs() {
        let text = read(&path);
        count += comments(&text)
            .iter()
            .map(|comment| quotations(comment).len())
            .sum::<usize>();
        wrong.extend(
            faults(&text, &sources)
                .into_iter()
                .map(|fault| format!("{}: {fault}", short(&path))),
        );
    }
    assert!(wrong.is_empty(), "{}", wrong.join("\n"));
    assert!(count >= 100, "only {count} quotations were found");
}
