//! The words that the program takes.

use std::ffi::{OsStr, OsString};

pub const USAGE: &str = "\
usage: stream [--linear-width 57] [FILE]
Replays a binary event log of any length as it arrives: one line for each event,
as soon as its last byte is there, with its number, its answer, how many mappings
it dropped, and how many bytes of mappings are in force after it. It ends at the
end of the input, at an unknown kind, or at a cut record. The first mapping that is
refused for room (answer 12) is told on standard error. The linear width is 48
if not given. Where FILE is - or not given, standard input is read; -- goes before
a FILE that starts with -.";

/// What the words ask for.
pub struct Words<'a> {
    pub linear_width: u64,
    /// None for standard input.
    pub file: Option<&'a OsStr>,
}

impl Words<'_> {
    /// The option comes once, and then the file.
    pub fn of(words: &[OsString]) -> Result<Words<'_>, String> {
        let (linear_width, rest) = match words {
            [option, rest @ ..] if option == "--linear-width" => {
                let value = rest.first().and_then(|word| word.to_str());
                match value.and_then(|word| word.parse().ok()) {
                    Some(width @ (48 | 57)) => (width, &rest[1..]),
                    _ => return Err("--linear-width takes 48 or 57".to_string()),
                }
            }
            _ => (48, words),
        };
        Ok(Words {
            linear_width,
            file: file(rest)?,
        })
    }
}

/// The file that the last words name; None for standard input.
fn file(words: &[OsString]) -> Result<Option<&OsStr>, String> {
    let dashes = words.first().is_some_and(|word| word == "--");
    match &words[usize::from(dashes)..] {
        [] => Ok(None),
        [word] if word == "-" => Ok(None),
        [word] if dashes || !word.as_encoded_bytes().starts_with(b"-") => Ok(Some(word)),
        [word, ..] if !dashes && word.as_encoded_bytes().starts_with(b"-") && word != "-" => {
            Err(format!("no option {word:?}"))
        }
        [_, word, ..] if word == "--linear-width" => Err("options go before the file".to_string()),
        [.., word] => Err(format!("{word:?} is one word too many")),
    }
}
