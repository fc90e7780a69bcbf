//! Each must-fail edit finds the text that it changes, once, and says what it makes wrong: also those that `./test --long` alone tries.
use docs::{crates, read, root};
use std::fs;

/// The edits of a folder of a crate, by their paths from the top.
fn edits(folder: &str) -> Vec<String> {
    let Ok(entries) = fs::read_dir(root().join(folder)) else {
        return Vec::new();
    };
    entries
        .map(|entry| format!("{folder}/{}", entry.unwrap().file_name().to_string_lossy()))
        .collect()
}

/// How often each text that an edit changes stands in its file.
fn occurrences(name: &str, edit: &str) -> Vec<usize> {
    let mut text = String::new();
    let mut counts = Vec::new();
    for line in read(edit).lines() {
        if let Some(file) = line.strip_prefix("file: ") {
            text = read(&format!("crates/{name}/{file}"));
        } else if let Some(old) = line.strip_prefix("old: ") {
            counts.push(text.matches(old).count());
        }
    }
    counts
}

#[test]
fn every_edit_applies() {
    let mut tried = 0;
    for name in crates() {
        for folder in ["must-fail", "must-fail-long"] {
            for edit in edits(&format!("crates/{name}/{folder}")) {
                let counts = occurrences(&name, &edit);
                assert!(
                    !counts.is_empty() && counts.iter().all(|n| *n == 1),
                    "{edit}: {counts:?}"
                );
                assert!(
                    read(&edit).starts_with("# "),
                    "{edit} does not say what it makes wrong"
                );
                tried += 1;
            }
        }
    }
    assert!(tried > 100, "there are but {tried} edits");
}
