//! The must-fail edits, before the prover tries them: each text to replace stands exactly once in
//! its file, and every public function is named by two edits of its crate or more.
//!
//! The first line of an edit is `# `, the public functions whose results it changes or the
//! definitions that it changes, `: `, and what it does wrong. A `file:` line holds for the `old:`
//! and `new:` pairs after it.

use crate::{names, read};
use std::collections::hash_map::{Entry, HashMap};
use std::path::Path;

/// What is amiss with the edits of all crates, a line each.
pub fn amiss(top: &Path) -> Result<Vec<String>, String> {
    let mut found = Vec::new();
    for name in names(top, "crates", "")? {
        of_crate(top, &format!("crates/{name}"), &mut found)?;
    }
    Ok(found)
}

fn of_crate(top: &Path, folder: &str, found: &mut Vec<String>) -> Result<(), String> {
    let mut named = Vec::new();
    for name in names(top, &format!("{folder}/must-fail"), ".edit")? {
        let path = format!("{folder}/must-fail/{name}");
        let text = read(top, &path)?;
        match named_in(&text) {
            Some(names) => named.extend(names),
            None => found.push(format!("{path}: its first line is not '# names: what'")),
        }
        let amiss = fit(top, folder, &text).into_iter();
        found.extend(amiss.map(|what| format!("{path}: {what}")));
    }
    for name in names(top, &format!("{folder}/src"), ".rt")? {
        let source = format!("{folder}/src/{name}");
        for function in public_functions(&read(top, &source)?) {
            let count = named.iter().filter(|name| *name == function).count();
            if count < 2 {
                found.push(format!("{source}: {function} has {count} must-fail edits"));
            }
        }
    }
    Ok(())
}

/// The names on the first line; None if it has another form.
fn named_in(edit: &str) -> Option<Vec<String>> {
    let (names, what) = edit.lines().next()?.strip_prefix("# ")?.split_once(": ")?;
    let is_name = |name: &str| {
        let part = |letter: char| letter.is_alphanumeric() || "_-′".contains(letter);
        !name.is_empty() && name.chars().all(part)
    };
    let names: Vec<String> = names.split(", ").map(str::to_string).collect();
    (!what.trim().is_empty() && names.iter().all(|name| is_name(name))).then_some(names)
}

/// Applies an edit to its crate's files, and hands back what does not fit.
fn fit(top: &Path, folder: &str, edit: &str) -> Vec<String> {
    let mut amiss = Vec::new();
    let mut texts: HashMap<String, String> = HashMap::new();
    let (mut file, mut old) = (None, None);
    let mut pairs = 0;
    for line in edit.lines() {
        if let Some(name) = line.strip_prefix("file: ") {
            let path = format!("{folder}/{name}");
            if let Entry::Vacant(text) = texts.entry(path.clone()) {
                match read(top, &path) {
                    Ok(read) => {
                        text.insert(read);
                    }
                    Err(why) => amiss.push(why),
                }
            }
            file = Some(path);
        } else if let Some(text) = line.strip_prefix("old: ") {
            old = Some(text);
        } else if let Some(new) = line.strip_prefix("new:") {
            pairs += 1;
            let (Some(file), Some(old)) = (&file, old.take()) else {
                amiss.push(format!("'{line}' has no 'file:' or no 'old:' before it"));
                continue;
            };
            // A file that is not there was told of above.
            let Some(text) = texts.get_mut(file) else {
                continue;
            };
            let count = text.matches(old).count();
            if count != 1 {
                amiss.push(format!("the text '{old}' stands {count} times"));
            }
            *text = text.replace(old, new.strip_prefix(' ').unwrap_or(new));
        }
    }
    if pairs == 0 {
        amiss.push("it has no 'old:' and 'new:' pair".to_string());
    }
    amiss
}

/// The names of a source's public functions and methods.
fn public_functions(source: &str) -> Vec<&str> {
    source
        .lines()
        .map(str::trim_start)
        .filter_map(public_function)
        .collect()
}

fn public_function(line: &str) -> Option<&str> {
    let rest = line.strip_prefix("pub ")?;
    let rest = rest.strip_prefix("extern \"C\" ").unwrap_or(rest);
    let rest = rest.strip_prefix("fn ")?;
    let end = rest.find(|letter: char| letter != '_' && !letter.is_alphanumeric());
    Some(&rest[..end.unwrap_or(rest.len())])
}
