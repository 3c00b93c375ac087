//! A log to its text.

use crate::forms::{Form, Rule};
use common::{hex, number, LINEAR_WIDTHS, LOG_LIMIT};
use std::fmt::{Display, Write};

/// The bytes on one `raw` line, where a log is raw to its end.
const RAW_LINE: usize = 32;

/// The text of a log of a linear width, 48 or 57; any bytes have one. Kinds of
/// the other width are unknown.
pub fn disassemble(linear_width: u64, log: &[u8]) -> String {
    let mut text = format!("# {} bytes\n", log.len());
    if log.len() > LOG_LIMIT {
        text.push_str("# longer than the replay program reads: it prints only `too long`\n");
    }
    let mut at = 0;
    let mut number = 1;
    while let Some(kind) = log.get(at) {
        let place = format!("event {number} at byte {at}");
        let form = Form::of_kind(linear_width, *kind);
        let event = form.and_then(|form| log.get(at..at + form.length()));
        let (Some(form), Some(event)) = (form, event) else {
            write_rest(&mut text, linear_width, &log[at..], &place);
            break;
        };
        match disassemble_event(linear_width, form, event) {
            Ok(line) => write_line(&mut text, &line, &place),
            Err(reason) => {
                let comment = format!("{place}: {}, but {reason}", form.name);
                write_line(&mut text, &raw(event), &comment);
            }
        }
        at += event.len();
        number += 1;
    }
    text
}

/// Why no whole, valid event of a linear width starts at the front of some
/// bytes, in the names of the text form; None where one does, or where there is
/// no byte.
pub fn fault(linear_width: u64, bytes: &[u8]) -> Option<String> {
    let kind = *bytes.first()?;
    let Some(form) = Form::of_kind(linear_width, kind) else {
        return Some(unknown(kind));
    };
    let Some(event) = bytes.get(..form.length()) else {
        let (length, name) = (form.length(), form.name);
        return Some(format!("{name} cut to {} of {length} bytes", bytes.len()));
    };
    let reason = disassemble_event(linear_width, form, event).err()?;
    Some(format!("{}, but {reason}", form.name))
}

/// That a run ended at an event that is cut or of an unknown kind, with its number, the
/// byte at which it starts, and why.
pub fn ended(linear_width: u64, number: impl Display, byte: impl Display, event: &[u8]) -> String {
    let why = fault(linear_width, event).unwrap_or_default();
    format!("the run ended at event {number}, byte {byte}: {why}")
}

/// The line of one whole, valid event of a linear width; None of other bytes.
pub fn line(linear_width: u64, event: &[u8]) -> Option<String> {
    let form = Form::of_kind(linear_width, *event.first()?)?;
    if event.len() != form.length() {
        return None;
    }
    disassemble_event(linear_width, form, event).ok()
}

/// A kind that is unknown at a linear width: of the other, or of neither.
fn unknown(kind: u8) -> String {
    let of = |width| Form::of_kind(width, kind).is_some();
    match LINEAR_WIDTHS.into_iter().find(|width| of(*width)) {
        Some(width) => format!("unknown kind {kind:#x}, one of {width}-bit linear addresses"),
        None => format!("unknown kind {kind:#x}"),
    }
}

/// What is left from an unknown kind or a cut record on.
fn write_rest(text: &mut String, linear_width: u64, rest: &[u8], place: &str) {
    let reason = fault(linear_width, rest).unwrap_or_default();
    let mut comment = format!("{place}: {reason}, a replay ends here");
    for part in rest.chunks(RAW_LINE) {
        write_line(text, &raw(part), &comment);
        comment.clear();
    }
}

fn write_line(text: &mut String, line: &str, comment: &str) {
    text.push_str(line);
    if !comment.is_empty() {
        text.push_str("  # ");
        text.push_str(comment);
    }
    text.push('\n');
}

fn raw(bytes: &[u8]) -> String {
    format!("raw {}", hex(bytes))
}

/// The line of a whole event, or why the names cannot say it.
fn disassemble_event(linear_width: u64, form: &Form, event: &[u8]) -> Result<String, String> {
    let mut line = form.name.to_string();
    let mut rest = &event[1..];
    let mut before = 0;
    for field in form.fields {
        let flag = if field.optional {
            take(&mut rest, 1)
        } else {
            1
        };
        let number = take(&mut rest, field.bytes);
        match flag {
            0 if number != 0 => return Err(format!("{} is off and not zero", field.name)),
            0 => {
                let _ = write!(line, " {}=off", field.name);
            }
            1 => {
                field.check(linear_width, number, before)?;
                if field.rule != Rule::Zero {
                    let _ = write!(line, " {}={number:#x}", field.name);
                }
            }
            flag => {
                let name = field.name;
                return Err(format!(
                    "the flag of {name} is {flag:#x} and must be at most 0x1"
                ));
            }
        }
        before = number;
    }
    Ok(line)
}

/// The next field of a whole event.
fn take(rest: &mut &[u8], bytes: usize) -> u64 {
    let (field, after) = rest.split_at(bytes);
    *rest = after;
    number(field)
}
