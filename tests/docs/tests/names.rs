//! What the documents name exists: files, definitions, laws, functions, tests and must-fail edits.
use docs::{crates, exists, quoted, read, Names};

/// A name or a path, and no piece of code: one word, of letters, digits and the signs that join them. What a build makes is there after it alone.
fn is_reference(text: &str) -> bool {
    let sign = |c: char| c.is_alphanumeric() || "_-:/.′".contains(c);
    let built = text.starts_with("target/");
    text.chars().all(sign) && text.chars().any(char::is_alphabetic) && !built
}

/// What a document names that does not exist.
fn missing<'a>(names: &Names, text: &'a str) -> Vec<&'a str> {
    let known = |t: &str| exists(t) || names.has(t);
    quoted(text)
        .into_iter()
        .filter(|t| is_reference(t) && !known(t))
        .collect()
}

#[test]
fn what_is_named_exists() {
    let names = Names::of_sources();
    for document in [
        "docs/TRACE.md",
        "docs/EVIDENCE.md",
        "docs/ARCHITECTURE.md",
        "tests/README.md",
        "README.md",
    ] {
        let text = read(document);
        assert!(quoted(&text).len() > 50, "{document} names next to nothing");
        let none: [&str; 0] = [];
        assert_eq!(missing(&names, &text), none, "{document}");
    }
}

#[test]
fn what_does_not_exist_is_found() {
    let names = Names::of_sources();
    let text = "`hub/specs/Hub.antt` `hub/specs/Hob.antt` `Record::run` `Record::stir` `a < b`\n```\n`nowhere`\n```\n`always_13` `always_31`";
    let wrong = ["hub/specs/Hob.antt", "Record::stir", "always_31"];
    assert_eq!(missing(&names, text), wrong);
}

#[test]
fn every_crate_is_drawn_and_described() {
    let text = read("docs/ARCHITECTURE.md");
    for name in crates() {
        assert!(
            text.contains(&format!("\n| `{name}` |")),
            "{name} has no row"
        );
        let boxed = |edge| text.contains(&format!("{edge} {name} "));
        assert!(["│", "║", "┤"].into_iter().any(boxed), "{name} has no box");
    }
}
