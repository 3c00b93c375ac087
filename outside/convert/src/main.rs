//! `convert assemble [FILE]` and `convert disassemble [--linear-width 57] [FILE]`, to
//! standard output.
//!
//! On an error nothing is written to standard output, and the reason goes to
//! standard error. Exit status 1 for a bad text, a file that cannot be read
//! and an output that cannot be written; 2 for wrong words.

use common::{LINEAR_WIDTHS, LOG_LIMIT, PROGRAM_LINEAR_WIDTH};
use std::ffi::{OsStr, OsString};
use std::fs;
use std::io::{self, Read, Write};
use std::process::ExitCode;

const USAGE: &str = "\
usage: convert assemble [FILE] > LOG
           the text of a log to its bytes
       convert disassemble [--linear-width 57] [FILE] > TEXT
           the bytes of a log to its text; the linear width is 48 if not given
Where FILE is - or not given, standard input is read; -- goes before a FILE
that starts with -.

A text has one event a line, with every field of the event; values are
hexadecimal with 0x; # starts a comment. The events:

";

/// What a failed run says, and its exit status.
struct Failure(u8, String);

fn failed(reason: String) -> Failure {
    Failure(1, reason)
}

fn main() -> ExitCode {
    match run() {
        Ok(()) => ExitCode::SUCCESS,
        Err(Failure(status, reason)) => {
            // If standard error is gone too there is nobody left to tell.
            let _ = writeln!(io::stderr(), "{reason}");
            ExitCode::from(status)
        }
    }
}

fn run() -> Result<(), Failure> {
    let words: Vec<OsString> = std::env::args_os().skip(1).collect();
    let Some((command, rest)) = words.split_first() else {
        return Err(wrong("no command is given"));
    };
    match command.to_str() {
        Some("assemble") => assemble(file(rest)?),
        Some("disassemble") => {
            let (linear_width, rest) = linear_width(rest)?;
            let log = input(file(rest)?).map_err(failed)?;
            output(convert::disassemble(linear_width, &log).as_bytes()).map_err(failed)
        }
        Some("help" | "--help" | "-h") if rest.is_empty() => {
            output(usage().as_bytes()).map_err(failed)
        }
        _ => Err(wrong(&format!("no command {command:?}"))),
    }
}

fn wrong(why: &str) -> Failure {
    Failure(2, format!("convert: {why}\n{}", usage()))
}

fn usage() -> String {
    format!("{USAGE}{}", convert::forms::names())
}

/// The linear width that the first words name, 48 if they name none, and the
/// words behind them.
fn linear_width(words: &[OsString]) -> Result<(u64, &[OsString]), Failure> {
    let [option, rest @ ..] = words else {
        return Ok((PROGRAM_LINEAR_WIDTH, words));
    };
    if option != "--linear-width" {
        return Ok((PROGRAM_LINEAR_WIDTH, words));
    }
    let Some((word, rest)) = rest.split_first() else {
        return Err(wrong("--linear-width takes 48 or 57"));
    };
    let width = LINEAR_WIDTHS
        .into_iter()
        .find(|width| *word == *width.to_string());
    match width {
        Some(width) => Ok((width, rest)),
        None => Err(wrong(&format!(
            "--linear-width takes 48 or 57, not {word:?}"
        ))),
    }
}

/// The file that the words name; None for standard input.
fn file(words: &[OsString]) -> Result<Option<&OsStr>, Failure> {
    let dashes = words.first().is_some_and(|word| word == "--");
    match &words[usize::from(dashes)..] {
        [] => Ok(None),
        [word] if word == "-" => Ok(None),
        [word] if dashes || !word.as_encoded_bytes().starts_with(b"-") => Ok(Some(word)),
        [word] => Err(wrong(&format!("no option {word:?}"))),
        [_, word, ..] => Err(wrong(&format!("{word:?} is one word too many"))),
    }
}

fn assemble(file: Option<&OsStr>) -> Result<(), Failure> {
    let text = input(file).map_err(failed)?;
    let log = convert::assemble(&text).map_err(|error| match file {
        None => failed(error.to_string()),
        Some(file) => failed(format!("{}: {error}", file.display())),
    })?;
    output(&log).map_err(failed)?;
    if log.len() > LOG_LIMIT {
        let _ = writeln!(
            io::stderr(),
            "note: the log has {} bytes; the replay program reads at most {}",
            log.len(),
            LOG_LIMIT
        );
    }
    Ok(())
}

fn input(file: Option<&OsStr>) -> Result<Vec<u8>, String> {
    match file {
        Some(file) => fs::read(file).map_err(|error| format!("{}: {error}", file.display())),
        None => {
            let mut bytes = Vec::new();
            match io::stdin().lock().read_to_end(&mut bytes) {
                Ok(_) => Ok(bytes),
                Err(error) => Err(format!("cannot read standard input: {error}")),
            }
        }
    }
}

fn output(bytes: &[u8]) -> Result<(), String> {
    let mut stdout = io::stdout().lock();
    stdout
        .write_all(bytes)
        .and_then(|()| stdout.flush())
        .map_err(|error| format!("cannot write standard output: {error}"))
}
