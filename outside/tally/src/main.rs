//! `tally [--linear-width 57] [--every N] [FILE]`: the totals of a binary event
//! log, from a file or standard input.
//!
//! The proved library steps and counts. The totals go to standard output, and
//! what is amiss to standard error. Exit status 1 for a log that is too long or
//! ends at a cut record or an unknown kind, an input that cannot be read and an
//! output that cannot be written; 2 for wrong words.

mod run;
mod text;
mod words;

use run::Run;
use skuldrefn::{event_length, events, LOG_LIMIT};
use std::collections::BTreeMap;
use std::env;
use std::ffi::{OsStr, OsString};
use std::fs::File;
use std::io::{self, Read, Write};
use std::process::ExitCode;
use words::{Words, USAGE};

/// What a failed run says, and its exit status.
struct Failure(u8, String);

fn main() -> ExitCode {
    match tally() {
        Ok(()) => ExitCode::SUCCESS,
        Err(Failure(status, reason)) => {
            // If standard error is gone too there is nobody left to tell.
            let _ = writeln!(io::stderr(), "tally: {reason}");
            ExitCode::from(status)
        }
    }
}

fn tally() -> Result<(), Failure> {
    let words: Vec<OsString> = env::args_os().skip(1).collect();
    if let [word] = &words[..] {
        if ["help", "-h", "--help"].iter().any(|help| word == help) {
            return output(&format!("{USAGE}\n"));
        }
    }
    let words = Words::of(&words).map_err(|why| Failure(2, format!("{why}\n{USAGE}")))?;
    let log = input(words.file)?;
    if log.len() > LOG_LIMIT {
        let why = "the log is longer than 65,536 bytes";
        return Err(Failure(1, why.to_string()));
    }
    let events: Vec<&[u8]> = events(words.linear_width, &log).collect();
    output(&totals(&words, &events)?)?;
    match stop(words.linear_width, &events) {
        Some(why) => Err(Failure(1, why)),
        None => Ok(()),
    }
}

/// The text of the totals, after the last event or as it was asked for.
fn totals(words: &Words, events: &[&[u8]]) -> Result<String, Failure> {
    let mut run = Run::new(words.linear_width);
    let mut refused = BTreeMap::new();
    let mut text = match words.every {
        Some(_) => text::header(),
        None => String::new(),
    };
    for (number, event) in (1..).zip(events) {
        let step = run.take(event);
        let answer = step.answer;
        // A run from a reset that carries its own tally has none of these.
        if matches!(answer, 1..=3 | 13) {
            let why = format!("event {number}: the library gives answer {answer}");
            return Err(Failure(1, why));
        }
        if answer != 0 {
            *refused.entry(answer).or_insert(0) += 1;
        }
        let is_due = |every| number % every == 0 || number == events.len() as u64;
        if words.every.is_some_and(is_due) {
            text += &text::line(number, &step, &run.tally, run.length);
        }
    }
    if words.every.is_none() {
        text += &text::totals(&run.tally, run.length);
        text += &text::events(events.len(), &refused);
    }
    Ok(text)
}

/// Where and why the run ended before the end of the log; None where it did
/// not. The last event then has all bytes that were left.
fn stop(linear_width: u64, events: &[&[u8]]) -> Option<String> {
    let (last, others) = events.split_last()?;
    if event_length(linear_width, last) == last.len() {
        return None;
    }
    let number = events.len();
    let byte: usize = others.iter().map(|event| event.len()).sum();
    Some(convert::ended(linear_width, number, byte, last))
}

/// The log, or of a longer one the first byte too many: no more is needed to
/// refuse it.
fn input(file: Option<&OsStr>) -> Result<Vec<u8>, Failure> {
    let mut log = Vec::new();
    let most = LOG_LIMIT as u64 + 1;
    let (read, name) = match file {
        Some(file) => (
            File::open(file).and_then(|file| file.take(most).read_to_end(&mut log)),
            file.display().to_string(),
        ),
        None => (
            io::stdin().lock().take(most).read_to_end(&mut log),
            "standard input".to_string(),
        ),
    };
    match read {
        Ok(_) => Ok(log),
        Err(error) => Err(Failure(1, format!("{name} cannot be read: {error}"))),
    }
}

fn output(text: &str) -> Result<(), Failure> {
    let mut stdout = io::stdout().lock();
    let written = stdout.write_all(text.as_bytes());
    let written = written.and_then(|()| stdout.flush());
    written.map_err(|error| Failure(1, format!("standard output cannot be written: {error}")))
}
