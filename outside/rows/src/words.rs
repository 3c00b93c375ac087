//! The words that the program takes.

use std::ffi::{OsStr, OsString};

pub const USAGE: &str = "\
usage: rows export [--linear-width 57] [FILE] > ROWS
           a stored table as fixed rows, 32 bytes for each record
       rows import [--linear-width 57] [FILE] > TABLE
           fixed rows as a table
The linear width is 48 if not given. Where FILE is - or not given, standard input
is read; -- goes before a FILE that starts with -.";

/// What is to be done.
#[derive(Clone, Copy)]
pub enum Way {
    Export,
    Import,
}

impl Way {
    /// The command of `./skuldrefn`.
    pub fn command(self) -> &'static str {
        match self {
            Way::Export => "rows",
            Way::Import => "table",
        }
    }
}

/// What the words ask for.
pub struct Words<'a> {
    pub way: Way,
    pub linear_width: u64,
    /// None for standard input.
    pub file: Option<&'a OsStr>,
}

impl Words<'_> {
    pub fn of(words: &[OsString]) -> Result<Words<'_>, String> {
        let Some((first, rest)) = words.split_first() else {
            return Err("export or import is missing".to_string());
        };
        let way = match first.to_str() {
            Some("export") => Way::Export,
            Some("import") => Way::Import,
            _ => return Err(format!("export or import goes before {first:?}")),
        };
        let (linear_width, rest) = match rest {
            [option, rest @ ..] if option == "--linear-width" => match rest.split_first() {
                Some((word, rest)) if word == "48" => (48, rest),
                Some((word, rest)) if word == "57" => (57, rest),
                _ => return Err("--linear-width takes 48 or 57".to_string()),
            },
            _ => (48, rest),
        };
        Ok(Words {
            way,
            linear_width,
            file: file(rest)?,
        })
    }
}

/// The file that the last words name; None for standard input.
fn file(words: &[OsString]) -> Result<Option<&OsStr>, String> {
    let dashes = words.first().is_some_and(|word| word == "--");
    match &words[usize::from(dashes)..] {
        [] => Ok(None),
        [word] if word == "-" => Ok(None),
        [word] if dashes || !word.as_encoded_bytes().starts_with(b"-") => Ok(Some(word)),
        [word] => Err(format!("no option {word:?}")),
        [_, word, ..] => Err(format!("{word:?} is one word too many")),
    }
}
