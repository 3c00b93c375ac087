//! A text to its log.

use crate::forms::{Field, Form, Rule};
use common::put;
use std::fmt;

/// A text does not say its linear width, so an address is fine that is canonical
/// at either: all that are so at 48 bits are so at 57.
const LINEAR_WIDTH: u64 = 57;

/// What some editors write before a text in UTF-8.
const BYTE_ORDER_MARK: &[u8] = b"\xEF\xBB\xBF";

/// Why a text is no log.
#[derive(Clone, Debug, PartialEq, Eq)]
pub struct Error {
    /// The line, from 1.
    pub line: usize,
    pub reason: String,
}

impl fmt::Display for Error {
    fn fmt(&self, f: &mut fmt::Formatter) -> fmt::Result {
        write!(f, "line {}: {}", self.line, self.reason)
    }
}

/// The log that a text describes.
pub fn assemble(text: &[u8]) -> Result<Vec<u8>, Error> {
    let text = text.strip_prefix(BYTE_ORDER_MARK).unwrap_or(text);
    let mut log = Vec::new();
    for (before, line) in text.split(|byte| *byte == b'\n').enumerate() {
        let event = assemble_line(line).map_err(|reason| Error {
            line: before + 1,
            reason,
        })?;
        log.extend_from_slice(&event);
    }
    Ok(log)
}

/// The bytes of one line; none if it has only a comment.
fn assemble_line(line: &[u8]) -> Result<Vec<u8>, String> {
    let line = line.split(|byte| *byte == b'#').next().unwrap_or(line);
    let line = std::str::from_utf8(line).map_err(|_| "not UTF-8 text".to_string())?;
    let mut words = line.split_ascii_whitespace();
    let Some(name) = words.next() else {
        return Ok(Vec::new());
    };
    if name == "raw" {
        return raw_bytes(words);
    }
    let form = Form::of_name(name).ok_or_else(|| format!("unknown event {}", quoted(name)))?;
    assemble_event(form, words).map_err(|reason| format!("{name}: {reason}"))
}

fn raw_bytes<'a>(words: impl Iterator<Item = &'a str>) -> Result<Vec<u8>, String> {
    let mut bytes = Vec::new();
    for word in words {
        if !word.len().is_multiple_of(2) {
            return Err(format!("raw: {} has an odd number of digits", quoted(word)));
        }
        for pair in word.as_bytes().chunks(2) {
            let byte = match (digit(pair[0]), digit(pair[1])) {
                (Some(high), Some(low)) => high << 4 | low,
                _ => {
                    let word = quoted(word);
                    return Err(format!("raw: {word} is not pairs of hexadecimal digits"));
                }
            };
            bytes.push(byte);
        }
    }
    if bytes.is_empty() {
        return Err("raw: there are no bytes".to_string());
    }
    Ok(bytes)
}

/// A word as an error shows it: no control characters, and not too long.
fn quoted(word: &str) -> String {
    const MOST: usize = 40;
    let start: String = word.chars().take(MOST).collect();
    let more = if start.len() < word.len() { ".." } else { "" };
    format!("'{}{more}'", start.escape_debug())
}

fn digit(letter: u8) -> Option<u8> {
    char::from(letter).to_digit(16).map(|digit| digit as u8)
}

fn assemble_event<'a>(
    form: &Form,
    words: impl Iterator<Item = &'a str>,
) -> Result<Vec<u8>, String> {
    let given = given_fields(form, words)?;
    let mut event = vec![form.kind];
    let mut before = 0;
    for field in form.fields {
        let word = given.iter().find(|(own, _)| own.name == field.name);
        let number = match word {
            None if field.rule == Rule::Zero => 0,
            None => return Err(format!("field '{}' is missing", field.name)),
            Some((_, value)) if *value == "off" && field.optional => {
                event.push(0);
                0
            }
            Some((_, value)) => {
                let word = quoted(&format!("{}={value}", field.name));
                let shown = |reason| format!("{word}: {reason}");
                let number = parse(value).map_err(shown)?;
                field
                    .check(LINEAR_WIDTH, number, before)
                    .map_err(|reason| {
                        shown(format!("{reason} (raw can write what is out of range)"))
                    })?;
                if field.optional {
                    event.push(1);
                }
                number
            }
        };
        put(&mut event, number, field.bytes);
        before = number;
    }
    Ok(event)
}

/// The words as fields of the form with their values, each at most once.
fn given_fields<'a>(
    form: &Form,
    words: impl Iterator<Item = &'a str>,
) -> Result<Vec<(&'static Field, &'a str)>, String> {
    let mut given: Vec<(&'static Field, &str)> = Vec::new();
    for word in words {
        let (name, value) = word
            .split_once('=')
            .ok_or_else(|| format!("{} is not name=value", quoted(word)))?;
        let field = form
            .written()
            .find(|field| field.name == name)
            .ok_or_else(|| format!("unknown field {}", quoted(name)))?;
        if given.iter().any(|(own, _)| own.name == name) {
            return Err(format!("field '{name}' is given twice"));
        }
        given.push((field, value));
    }
    Ok(given)
}

/// A value: 0x and hexadecimal digits, at most 64 bits.
fn parse(value: &str) -> Result<u64, String> {
    let digits = value
        .strip_prefix("0x")
        .filter(|digits| !digits.is_empty() && digits.bytes().all(|byte| digit(byte).is_some()))
        .ok_or("a value is hexadecimal with 0x, as 0x1f")?;
    u64::from_str_radix(digits, 16).map_err(|_| "more than 64 bits".to_string())
}
