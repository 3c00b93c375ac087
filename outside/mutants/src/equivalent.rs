//! The changes that leave the meaning of a definition as it was, each with the reason.

use crate::Try;
use std::io;

/// A line for each: the file, the line in which the token stands, the token, what stands in its place, and
/// the reason, parted by ` | `.
const LISTED: &str = include_str!("../equivalent.txt");

struct Equivalent {
    file: &'static str,
    line: &'static str,
    old: &'static str,
    new: &'static str,
    reason: &'static str,
}

pub struct Equivalents(Vec<Equivalent>);

impl Equivalents {
    /// The listed ones. Each has to be a change that can be made, so that none outlives its definition.
    pub fn read(all: &[Try]) -> io::Result<Equivalents> {
        let listed = parsed(LISTED)?;
        match listed.iter().find(|e| !all.iter().any(|t| e.is(t))) {
            None => Ok(Equivalents(listed)),
            Some(e) => Err(amiss(&format!("{}: {}: no such change", e.file, e.line))),
        }
    }

    /// Why the change leaves the meaning as it was, if it is listed.
    pub fn reason(&self, tried: &Try) -> Option<&'static str> {
        self.0.iter().find(|e| e.is(tried)).map(|e| e.reason)
    }
}

impl Equivalent {
    fn is(&self, tried: &Try) -> bool {
        tried.definitions.name == self.file
            && tried.line == self.line
            && tried.change.old == self.old
            && tried.change.new == self.new
    }
}

fn amiss(what: &str) -> io::Error {
    io::Error::other(format!("equivalent.txt: {what}"))
}

fn parsed(text: &'static str) -> io::Result<Vec<Equivalent>> {
    let lines = text.lines().filter(|line| !line.starts_with('#'));
    let rows = lines.map(|row| match row.split(" | ").collect::<Vec<_>>()[..] {
        [file, line, old, new, reason] => Ok(Equivalent {
            file,
            line,
            old,
            new: if new == "nothing" { "" } else { new },
            reason,
        }),
        _ => Err(amiss(&format!("five parts are needed: {row}"))),
    });
    rows.collect()
}

#[cfg(test)]
mod tests {
    use super::*;

    #[test]
    fn the_list_is_well_formed() {
        let rows = parsed(LISTED).expect("a list");
        assert!(rows.iter().all(|row| !row.reason.is_empty()));
        assert!(parsed("a | b | c").is_err());
    }
}
