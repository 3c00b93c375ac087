//! The words that the program takes.

use std::ffi::{OsStr, OsString};

pub const USAGE: &str = "\
usage: judge [--linear-width 57] [FILE]
       judge [--linear-width 57] --make [LOG] > TRACE
Judges another simulator's trace: for each event its bytes, the length of the
table that it claims to have after it (4 bytes, little-endian), and the table.
It starts from a reset and an empty table. A line for each event: its number,
then one of
  lawful accepted KEPT of LEFT records     so many of those that may be there
  lawful refused ANSWER RULE unchanged     the event is refused, the table stays
  found unmatched BYTE RECORD              a record that cannot be there
  found malformed BYTE WHY                 no table
  found changed BYTE refused ANSWER RULE   the event is refused, the table another
and, where the trace was not read to its end, a last line
  cut PART HAVE of WHOLE at byte BYTE
  unknown kind KIND at byte BYTE
Exit status 1 if an event was not lawful; else 2 if the trace was not read to
its end; else 0. --make writes the trace that the library itself has for a log.
Where FILE is - or not given, standard input is read; -- goes before a FILE that
starts with -.";

/// What the words ask for.
pub struct Words<'a> {
    pub linear_width: u64,
    pub make: bool,
    /// None for standard input.
    pub file: Option<&'a OsStr>,
}

impl Words<'_> {
    /// The options come in any order, each once, and then the file.
    pub fn of(words: &[OsString]) -> Result<Words<'_>, String> {
        let (mut linear_width, mut make) = (None, false);
        let mut rest = words;
        while let [option, after @ ..] = rest {
            rest = match option.to_str() {
                Some("--linear-width") => {
                    let value = after.first().and_then(|word| word.to_str());
                    let value = value.and_then(|word| word.parse().ok());
                    if !matches!(value, Some(48 | 57)) || linear_width.is_some() {
                        return Err("--linear-width takes 48 or 57, once".to_string());
                    }
                    linear_width = value;
                    &after[1..]
                }
                Some("--make") if make => return Err("--make is given twice".to_string()),
                Some("--make") => {
                    make = true;
                    after
                }
                _ => break,
            };
        }
        Ok(Words {
            linear_width: linear_width.unwrap_or(48),
            make,
            file: file(rest)?,
        })
    }
}

/// The file that the last words name; None for standard input.
fn file(words: &[OsString]) -> Result<Option<&OsStr>, String> {
    let dashes = words.first().is_some_and(|word| word == "--");
    match &words[usize::from(dashes)..] {
        [] => Ok(None),
        [word] if word == "-" => Ok(None),
        [word] if dashes || !word.as_encoded_bytes().starts_with(b"-") => Ok(Some(word)),
        [word] => Err(format!("no option {word:?}")),
        [_, word, ..] if word == "--make" || word == "--linear-width" => {
            Err("options go before the file".to_string())
        }
        [_, word, ..] => Err(format!("{word:?} is one word too many")),
    }
}
