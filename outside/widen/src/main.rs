//! `widen [FILE]`: a stored table of 48-bit linear addresses, from a file or
//! standard input, as one of 57 bits on standard output.
//!
//! The proved library judges and converts. On a refusal nothing is written to
//! standard output, and the reason goes to standard error. Exit status 1 for a
//! refusal, an input that cannot be read and an output that cannot be written;
//! 2 for wrong words.

use skuldrefn::TABLE_LIMIT;
use std::env;
use std::ffi::{OsStr, OsString};
use std::fs::File;
use std::io::{self, Read, Write};
use std::process::ExitCode;

const USAGE: &str = "\
usage: widen [FILE] > TABLE
A stored table of 48-bit linear addresses as one of 57. Where FILE is - or not
given, standard input is read; -- goes before a FILE that starts with -.";

/// What a failed run says, and its exit status.
struct Failure(u8, String);

fn main() -> ExitCode {
    match run() {
        Ok(()) => ExitCode::SUCCESS,
        Err(Failure(status, reason)) => {
            // If standard error is gone too there is nobody left to tell.
            let _ = writeln!(io::stderr(), "widen: {reason}");
            ExitCode::from(status)
        }
    }
}

fn run() -> Result<(), Failure> {
    let words: Vec<OsString> = env::args_os().skip(1).collect();
    if let [word] = &words[..] {
        if ["help", "-h", "--help"].iter().any(|help| word == help) {
            return output(format!("{USAGE}\n").as_bytes());
        }
    }
    let table = input(file(&words)?)?;
    let mut new = vec![0; TABLE_LIMIT];
    let widened = skuldrefn::widen(&table, &mut new);
    if widened.answer != 0 {
        return Err(Failure(1, reason(widened.answer, &table)));
    }
    output(&new[..widened.length])
}

fn wrong(why: &str) -> Failure {
    Failure(2, format!("{why}\n{USAGE}"))
}

/// The file that the words name; None for standard input.
fn file(words: &[OsString]) -> Result<Option<&OsStr>, Failure> {
    let dashes = words.first().is_some_and(|word| word == "--");
    match &words[usize::from(dashes)..] {
        [] => Ok(None),
        [word] if word == "-" => Ok(None),
        [word] if dashes || !word.as_encoded_bytes().starts_with(b"-") => Ok(Some(word)),
        [word] => Err(wrong(&format!("no option {word:?}"))),
        [_, word, ..] => Err(wrong(&format!("{word:?} is one word too many"))),
    }
}

/// The table, or of a longer one the first byte too many: no more is needed to
/// refuse it.
fn input(file: Option<&OsStr>) -> Result<Vec<u8>, Failure> {
    let mut table = Vec::new();
    let most = TABLE_LIMIT as u64 + 1;
    let (read, name) = match file {
        Some(file) => (
            File::open(file).and_then(|file| file.take(most).read_to_end(&mut table)),
            file.display().to_string(),
        ),
        None => (
            io::stdin().lock().take(most).read_to_end(&mut table),
            "standard input".to_string(),
        ),
    };
    match read {
        Ok(_) => Ok(table),
        Err(error) => Err(Failure(1, format!("{name} cannot be read: {error}"))),
    }
}

fn output(bytes: &[u8]) -> Result<(), Failure> {
    let mut stdout = io::stdout().lock();
    let written = stdout.write_all(bytes).and_then(|()| stdout.flush());
    written.map_err(|error| Failure(1, format!("standard output cannot be written: {error}")))
}

/// Why a table is refused.
fn reason(answer: u64, table: &[u8]) -> String {
    match answer {
        2 => "the table is longer than 47,104 bytes".to_string(),
        3 => bad_record(table),
        12 => "at 57 bits the table would be longer than 47,104 bytes".to_string(),
        _ => format!("the library gives answer {answer}"),
    }
}

/// Which record of a refused table is the first that is not valid, and why. A table
/// is whole, valid records exactly if each is valid when they are taken one after the
/// other by the length that their kind says. So the library is asked to convert each
/// record alone.
fn bad_record(table: &[u8]) -> String {
    match convert::bad_record(48, table, is_valid) {
        Some(bad) => format!(
            "record {} at byte {} is no valid record of 48-bit linear addresses: {}",
            bad.number, bad.byte, bad.why
        ),
        None => "the table is not whole, valid records of 48-bit linear addresses".to_string(),
    }
}

/// Whether bytes are one valid record; there is room for it at 57 bits.
fn is_valid(record: &[u8]) -> bool {
    let mut new = vec![0; record.len() + 1];
    skuldrefn::widen(record, &mut new).answer == 0
}
