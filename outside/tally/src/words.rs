//! The words that the program takes.

use std::ffi::{OsStr, OsString};

pub const USAGE: &str = "\
usage: tally [--linear-width 57] [--every N] [FILE]
The totals of a binary event log: how many mappings are in force after it, by
kind and span and by PCID, and how many events were refused. With --every they
are printed as CSV after every N events and after the last, by kind and span
alone, each with its event's answer. The linear width is 48 if not given. Where
FILE is - or not given, standard input is read; -- goes before a FILE that
starts with -.";

/// What the words ask for.
pub struct Words<'a> {
    pub linear_width: u64,
    pub every: Option<u64>,
    /// None for standard input.
    pub file: Option<&'a OsStr>,
}

impl Words<'_> {
    /// The options come in any order, each once, and then the file.
    pub fn of(words: &[OsString]) -> Result<Words<'_>, String> {
        let (mut linear_width, mut every) = (None, None);
        let mut rest = words;
        while let [option, after @ ..] = rest {
            let value = after.first().and_then(|word| word.to_str());
            let value = value.and_then(|word| word.parse().ok());
            let (place, fits, takes) = match option.to_str() {
                Some("--linear-width") => {
                    let fits = matches!(value, Some(48 | 57));
                    (&mut linear_width, fits, "48 or 57")
                }
                Some("--every") => (&mut every, value > Some(0), "a number from 1 on"),
                _ => break,
            };
            if !fits || place.is_some() {
                return Err(format!("{} takes {takes}, once", option.display()));
            }
            *place = value;
            rest = &after[1..];
        }
        Ok(Words {
            linear_width: linear_width.unwrap_or(48),
            every,
            file: file(rest)?,
        })
    }
}

/// The file that the last words name; None for standard input.
fn file(words: &[OsString]) -> Result<Option<&OsStr>, String> {
    let dashes = words.first().is_some_and(|word| word == "--");
    match &words[usize::from(dashes)..] {
        [] => Ok(None),
        [word] if word == "-" => Ok(None),
        [word] if dashes || !word.as_encoded_bytes().starts_with(b"-") => Ok(Some(word)),
        [word] => Err(format!("no option {word:?}")),
        [_, word, ..] if word == "--every" || word == "--linear-width" => {
            Err("options go before the file".to_string())
        }
        [_, word, ..] => Err(format!("{word:?} is one word too many")),
    }
}
