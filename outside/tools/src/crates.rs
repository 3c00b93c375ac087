//! crates.txt: each crate has a comment directly above it that is a sentence or more.

/// What is amiss in the text of crates.txt, a line each.
pub fn amiss(text: &str) -> Vec<String> {
    let mut found = Vec::new();
    let mut comment = "";
    for line in text.lines() {
        if line.starts_with('#') {
            comment = line;
            continue;
        }
        if let Some((name, _)) = line.split_once(':') {
            if !comment.ends_with('.') {
                found.push(format!("crates.txt: {name} has no sentence above it"));
            }
        }
        comment = "";
    }
    found
}
