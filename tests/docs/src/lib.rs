//! Reads the documents, and what they may name: the files of the repository, and the words in them.
use std::collections::BTreeSet;
use std::fs;
use std::path::{Path, PathBuf};

/// The repository's top folder.
pub fn root() -> PathBuf {
    Path::new(env!("CARGO_MANIFEST_DIR")).join("../..")
}

pub fn read(path: &str) -> String {
    fs::read_to_string(root().join(path)).unwrap_or_else(|e| panic!("{path}: {e}"))
}

/// What stands between backticks in a text, but for blocks of several lines.
pub fn quoted(text: &str) -> Vec<&str> {
    let spans = |line| str::split(line, '`').skip(1).step_by(2);
    let mut inside = false;
    text.lines()
        .filter(|line| {
            inside ^= line.starts_with("```");
            !inside && !line.starts_with("```")
        })
        .flat_map(spans)
        .collect()
}

/// The crates that `crates.txt` lists.
pub fn crates() -> Vec<String> {
    read("crates.txt")
        .lines()
        .filter(|line| !line.starts_with('#'))
        .filter_map(|line| line.split_once(':'))
        .filter_map(|(name, _)| name.split_whitespace().next())
        .map(str::to_owned)
        .collect()
}

/// The lines of a crate's code that are not comments.
pub fn code(name: &str) -> Vec<String> {
    let mut lines = Vec::new();
    let mut folders = vec![root().join("crates").join(name).join("src")];
    while let Some(folder) = folders.pop() {
        for entry in fs::read_dir(folder).unwrap() {
            let path = entry.unwrap().path();
            if path.is_dir() {
                folders.push(path);
            } else {
                let text = fs::read_to_string(path).unwrap();
                let code = text.lines().filter(|line| !is_comment(line));
                lines.extend(code.map(str::to_owned));
            }
        }
    }
    lines
}

fn is_part_of_a_word(c: char) -> bool {
    c.is_alphanumeric() || "_-′".contains(c)
}

/// A line that is nothing but a comment, whose words name nothing.
fn is_comment(line: &str) -> bool {
    let text = line.trim_start();
    ["--", "//", "#", "/*", "* "]
        .iter()
        .any(|mark| text.starts_with(mark))
}

/// All words of the sources, and the names of their files without an ending.
#[derive(Default)]
pub struct Names(BTreeSet<String>);

impl Names {
    /// Those of the code, the definitions, the proofs, the tests and the examples, without these tests of documents.
    pub fn of_sources() -> Names {
        let mut names = Names::default();
        for folder in ["crates", "tests", "include", "examples"] {
            names.add(&root().join(folder));
        }
        names
    }

    fn add(&mut self, path: &Path) {
        self.0.extend(
            path.file_stem()
                .map(|stem| stem.to_string_lossy().into_owned()),
        );
        // rt's own folder, out, holds what it has built.
        if path.ends_with("tests/docs") || path.ends_with("out") {
            return;
        }
        if path.is_dir() {
            for entry in fs::read_dir(path).unwrap() {
                self.add(&entry.unwrap().path());
            }
        } else if let Ok(text) = fs::read_to_string(path) {
            let code = text.lines().filter(|line| !is_comment(line));
            let words = code.flat_map(|line| line.split(|c| !is_part_of_a_word(c)));
            self.0.extend(words.map(str::to_owned));
        }
    }

    /// Whether a name as a document writes it, such as `Record::run`, is one of them in each of its parts.
    pub fn has(&self, name: &str) -> bool {
        name.split("::").all(|part| self.0.contains(part))
    }
}

/// Whether a path as a document writes it exists: from the top, below `crates/` or `tests/`, or in one of the crates.
pub fn exists(path: &str) -> bool {
    let below = |folder: PathBuf| folder.join(path).exists();
    below(root())
        || below(root().join("crates"))
        || below(root().join("tests"))
        || crates()
            .iter()
            .any(|name| below(root().join("crates").join(name)))
}
