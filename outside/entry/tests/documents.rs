//! The documents name only what is there: each file is in the repository, and
//! each definition in docs/MODEL.md is a definition.

use entry::top;
use std::collections::HashSet;
use std::fs;
use std::path::{Path, PathBuf};

/// The files below a folder that end so.
fn below(folder: &Path, end: &str) -> Vec<PathBuf> {
    let mut found = Vec::new();
    for entry in fs::read_dir(folder).expect("a folder") {
        let path = entry.expect("an entry").path();
        if path.is_dir() && !path.ends_with("target") {
            found.extend(below(&path, end));
        } else if path.to_string_lossy().ends_with(end) {
            found.push(path);
        }
    }
    found
}

/// The words that a text has between backticks, outside its blocks of code.
fn named(text: &str) -> Vec<String> {
    let mut in_block = false;
    let mut lines = Vec::new();
    for line in text.lines() {
        if line.starts_with("```") {
            in_block = !in_block;
        } else if !in_block && !line.starts_with("    ") {
            lines.push(line);
        }
    }
    let text = lines.join(" ");
    let parts = text.split('`').skip(1).step_by(2);
    parts.map(str::to_string).collect()
}

fn read(path: &Path) -> String {
    fs::read_to_string(path).unwrap_or_else(|error| panic!("{}: {error}", path.display()))
}

/// Whether a word is the path of a file or folder, and of none that is built
/// or stands for many.
fn is_path(word: &str) -> bool {
    let ends = [
        ".md", ".rs", ".rt", ".antt", ".txt", ".sh", ".py", ".h", ".c", ".toml",
    ];
    let built = ["target/", "./", "NAME."];
    (word.contains('/') || ends.iter().any(|end| word.ends_with(end)))
        && !word.contains(|letter: char| " *<>{}[]$=".contains(letter))
        && !built.iter().any(|start| word.starts_with(start))
        && !word.starts_with('/')
}

#[test]
fn every_file_that_is_named_is_there() {
    let top = top();
    let mut documents = below(&top.join("docs"), ".md");
    documents.retain(|path| !path.starts_with(top.join("docs/landings")));
    documents.extend(
        ["README.md", "examples/README.md", "outside/README.md"].map(|name| top.join(name)),
    );
    let specs: Vec<PathBuf> = below(&top.join("crates"), ".antt");
    let mut count = 0;
    let mut missing = Vec::new();
    for document in documents {
        let own = document.parent().expect("a folder");
        for word in named(&read(&document)).iter().filter(|word| is_path(word)) {
            // A file of the definitions may be named by its last part alone.
            let found = top.join(word).exists()
                || own.join(word).exists()
                || specs.iter().any(|spec| spec.ends_with(word));
            if !found {
                missing.push(format!("{}: {word}", document.display()));
            }
            count += 1;
        }
    }
    assert!(missing.is_empty(), "{missing:#?}");
    assert!(count > 40, "{count} paths");
}

/// The names that the definitions and theorems of all crates have.
fn definitions() -> HashSet<String> {
    let mut names = HashSet::new();
    for file in below(&top().join("crates"), ".antt") {
        for line in read(&file).lines() {
            let words: Vec<&str> = line.split_whitespace().collect();
            let starts = words
                .iter()
                .take_while(|word| ["pub", "unfoldable", "abbrev", "record", "data"].contains(word))
                .count();
            if starts > 0 && !line.starts_with(' ') {
                names.extend(words.get(starts).map(ToString::to_string));
            }
        }
    }
    names
}

#[test]
fn every_definition_in_the_model_is_one() {
    let definitions = definitions();
    let mut count = 0;
    for word in named(&read(&top().join("docs/MODEL.md"))) {
        if !is_path(&word) {
            assert!(definitions.contains(&word), "no definition {word}");
            count += 1;
        }
    }
    assert!(count > 40, "{count} names");
}
