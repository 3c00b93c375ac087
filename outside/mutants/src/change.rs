//! The changes of one token that can be made to a file of definitions.

/// One token of a file, and what stands in its place.
#[derive(Clone, Debug, PartialEq, Eq)]
pub struct Change {
    /// The line, from 1.
    pub line: usize,
    /// Where the token starts in the line, in bytes.
    pub column: usize,
    pub old: String,
    pub new: String,
}

/// Tokens that stand for each other: each is replaced by those behind it in its row and, from the last on,
/// by those before it.
const EXCHANGES: &[&[&str]] = &[
    &["&&", "||"],
    &["true", "false"],
    &["eqb", "leb", "ltb"],
    &["+", "-"],
    &["/", "%"],
    &["take", "drop"],
    &["≤", "<"],
    &[".vpid", ".pcid"],
    &[".span", ".page"],
    &[".low", ".high"],
    &[".physical", ".linear"],
    &[".vpids", ".ept"],
    &[".pcid", ".cpl"],
    &[".ep4ta", ".frame"],
    &[".answer", ".dropped"],
    &[".front", ".back"],
    &[".before", ".after"],
    &["Outside", "Root"],
    &["On", "Off"],
    &["linear", "combined"],
    &["guest_physical", "combined"],
    &["current_vpid", "current_ept"],
    &["WrongVpid", "WrongPcid"],
    &["NotCovering", "SparedAsGlobal"],
    &["a", "b"],
];

/// Every change that can be made to the text, in its order.
pub fn changes(text: &str) -> Vec<Change> {
    let mut found = Vec::new();
    let mut in_definition = false;
    for (number, line) in text.lines().enumerate() {
        let indented = line.starts_with(' ');
        if line.trim_start().starts_with("--") || line.trim().is_empty() {
            continue;
        }
        if !indented {
            in_definition = !["use ", "pub mod", "unfolding"]
                .iter()
                .any(|w| line.starts_with(w));
        }
        if !in_definition {
            continue;
        }
        let from = body(line, indented);
        for (column, token) in tokens(line) {
            if column < from {
                continue;
            }
            for new in replacements(token) {
                found.push(Change {
                    line: number + 1,
                    column,
                    old: token.to_string(),
                    new,
                });
            }
        }
    }
    found
}

/// The text with one token changed.
pub fn changed(text: &str, change: &Change) -> String {
    let mut out = String::new();
    for (number, line) in text.split_inclusive('\n').enumerate() {
        if number + 1 == change.line {
            let end = change.column + change.old.len();
            out.push_str(&line[..change.column]);
            out.push_str(&change.new);
            out.push_str(&line[end..]);
        } else {
            out.push_str(line);
        }
    }
    out
}

/// Where the part of a line starts that says something: behind `=` of a clause, behind `:` of a field, at
/// the front of a line that goes on. A signature says nothing that a change could turn round.
fn body(line: &str, indented: bool) -> usize {
    if let Some(at) = line.find(" = ") {
        return at + 3;
    }
    if line.ends_with(" =") {
        return line.len();
    }
    if indented {
        return match line.find(" : ") {
            Some(at) => at + 3,
            None => 0,
        };
    }
    line.len()
}

/// The words of a line with their places: names, fields with the dot before them, numbers, and signs.
fn tokens(line: &str) -> Vec<(usize, &str)> {
    let mut found = Vec::new();
    let mut start = None;
    for (at, c) in line.char_indices() {
        let splits = c.is_whitespace() || "(){};,.".contains(c);
        if let Some(from) = start.filter(|_| splits) {
            found.push((from, &line[from..at]));
            start = None;
        }
        if !splits || c == '.' {
            start = start.or(Some(at));
        }
    }
    if let Some(from) = start {
        found.push((from, &line[from..]));
    }
    found
}

fn replacements(token: &str) -> Vec<String> {
    if let Some(number) = number(token) {
        let mut news = vec![(number + 1).to_string()];
        if number > 0 {
            news.push((number - 1).to_string());
        }
        return news;
    }
    if token == "not" {
        return vec![String::new()];
    }
    let mut news = Vec::new();
    for row in EXCHANGES {
        if row.contains(&token) {
            news.extend(row.iter().filter(|t| **t != token).map(|t| t.to_string()));
        }
    }
    news
}

fn number(token: &str) -> Option<u64> {
    match token.strip_prefix("0x") {
        Some(hex) => u64::from_str_radix(hex, 16).ok(),
        None => token.parse().ok(),
    }
}

#[cfg(test)]
mod tests {
    use super::*;

    const TEXT: &str =
        "use lib.Dec.{eqb}\n-- a 5\nunfoldable pub f : ℕ → Bool\nf x =\n    eqb x.vpid 5 && true\n";

    #[test]
    fn tokens_of_a_body_alone_change() {
        let all = changes(TEXT);
        let olds: Vec<&str> = all.iter().map(|c| c.old.as_str()).collect();
        assert_eq!(olds, ["eqb", "eqb", ".vpid", "5", "5", "&&", "true"]);
        assert!(all.iter().all(|c| c.line == 5));
    }

    #[test]
    fn a_change_moves_one_token() {
        let all = changes(TEXT);
        let number = all.iter().find(|c| c.new == "6").unwrap();
        assert_eq!(changed(TEXT, number), TEXT.replace("vpid 5", "vpid 6"));
    }

    #[test]
    fn a_signature_stays() {
        assert!(changes("abbrev pub f : ℕ → ℕ\n").is_empty());
        assert_eq!(changes("  pub within : a ≤ 5\n").len(), 0);
        assert_eq!(
            changes("pub record R : Type 0 where\n  pub within : x ≤ 5\n").len(),
            3
        );
    }
}
