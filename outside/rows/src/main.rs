//! `rows export [--linear-width 57] [FILE]` and `rows import [--linear-width 57]
//! [FILE]`: a stored table as fixed rows, and rows as a table, from a file or
//! standard input to standard output.
//!
//! The proved library judges and converts. On a refusal nothing is written to
//! standard output, and the reason goes to standard error, after the name of
//! `./skuldrefn`'s command: `rows` or `table`. Exit status 1 for a refusal, an input
//! that cannot be read and an output that cannot be written; 2 for wrong words.

mod reason;
mod words;

use skuldrefn::{export_rows, import_rows, FIXED_ROW, TABLE_LIMIT};
use std::env;
use std::ffi::{OsStr, OsString};
use std::fs::File;
use std::io::{self, Read, Write};
use std::process::ExitCode;
use words::{Way, Words, USAGE};

/// The bytes of the rows of the fullest table: the shortest record has 16 bytes.
const ROWS_LIMIT: usize = TABLE_LIMIT / 16 * FIXED_ROW;

/// What a failed run says, and its exit status.
struct Failure(u8, String);

fn failed(why: String) -> Failure {
    Failure(1, why)
}

fn main() -> ExitCode {
    match run() {
        Ok(()) => ExitCode::SUCCESS,
        Err(Failure(status, reason)) => {
            // If standard error is gone too there is nobody left to tell.
            let _ = writeln!(io::stderr(), "{reason}");
            ExitCode::from(status)
        }
    }
}

fn run() -> Result<(), Failure> {
    let words: Vec<OsString> = env::args_os().skip(1).collect();
    if let [word] = &words[..] {
        if ["help", "-h", "--help"].iter().any(|help| word == help) {
            return output(format!("{USAGE}\n").as_bytes()).map_err(failed);
        }
    }
    let words = Words::of(&words).map_err(|why| Failure(2, format!("rows: {why}\n{USAGE}")))?;
    let done = match words.way {
        Way::Export => export(&words),
        Way::Import => import(&words),
    };
    done.map_err(|why| failed(format!("{}: {why}", words.way.command())))
}

/// The table's rows. Of a table that is too long the first byte too many is enough.
fn export(words: &Words) -> Result<(), String> {
    let width = words.linear_width;
    let table = input(words.file, TABLE_LIMIT + 1)?;
    let mut rows = vec![0; ROWS_LIMIT];
    let exported = export_rows(width, &table, &mut rows);
    match exported.answer {
        0 => output(&rows[..exported.length]),
        answer => Err(reason::of_table(answer, width, &table)),
    }
}

/// The rows' table. Of more rows than any table has records the first row too many is
/// enough: no more is needed to refuse them.
fn import(words: &Words) -> Result<(), String> {
    let width = words.linear_width;
    let rows = input(words.file, ROWS_LIMIT + FIXED_ROW)?;
    let mut table = vec![0; TABLE_LIMIT];
    let imported = import_rows(width, &rows, &mut table);
    match imported.answer {
        0 => output(&table[..imported.length]),
        answer => Err(reason::of_rows(answer, imported.row, width, &rows)),
    }
}

/// The input, or of a longer one so many bytes.
fn input(file: Option<&OsStr>, most: usize) -> Result<Vec<u8>, String> {
    let mut bytes = Vec::new();
    let most = most as u64;
    let (read, name) = match file {
        Some(file) => (
            File::open(file).and_then(|file| file.take(most).read_to_end(&mut bytes)),
            file.display().to_string(),
        ),
        None => (
            io::stdin().lock().take(most).read_to_end(&mut bytes),
            "standard input".to_string(),
        ),
    };
    match read {
        Ok(_) => Ok(bytes),
        Err(error) => Err(format!("{name} cannot be read: {error}")),
    }
}

fn output(bytes: &[u8]) -> Result<(), String> {
    let mut stdout = io::stdout().lock();
    let written = stdout.write_all(bytes).and_then(|()| stdout.flush());
    written.map_err(|error| format!("standard output cannot be written: {error}"))
}
