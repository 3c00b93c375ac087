//! Checks of the repository's own files, and the writer of the cards.
//!
//! * [`edits`]: the must-fail edits fit their files and name what they break.
//! * [`crates`]: each crate in crates.txt has a sentence above it.
//! * [`cards`]: the cards of documents 01 and 02, and what they say of each.
//! * [`form`]: a card as the test program reads it, and its line.

pub mod cards;
pub mod crates;
pub mod edits;
pub mod form;

use std::fs;
use std::io;
use std::path::{Path, PathBuf};

/// A file's text, or the words that say why there is none.
pub fn read(top: &Path, file: &str) -> Result<String, String> {
    fs::read_to_string(top.join(file)).map_err(|error| match error.kind() {
        io::ErrorKind::NotFound => format!("there is no file {file}"),
        _ => format!("{file}: {error}"),
    })
}

/// The names in a folder that end so, in order; none if there is no such folder.
pub fn names(top: &Path, folder: &str, end: &str) -> Result<Vec<String>, String> {
    let folder: PathBuf = top.join(folder);
    if !folder.is_dir() {
        return Ok(Vec::new());
    }
    let shown = |error: io::Error| format!("{}: {error}", folder.display());
    let mut names = Vec::new();
    for entry in fs::read_dir(&folder).map_err(shown)? {
        let name = entry.map_err(shown)?.file_name();
        let name = name
            .into_string()
            .map_err(|name| format!("a file named {name:?}"))?;
        if name.ends_with(end) {
            names.push(name);
        }
    }
    names.sort();
    Ok(names)
}
