//! `judge [--linear-width 57] [--make] [FILE]`: another simulator's trace, from a
//! file or standard input, judged event by event.
//!
//! The proved library steps and judges. A line for each event goes to standard
//! output as soon as it is judged, and why a trace was not read to its end to
//! standard error too. Exit status 1 if an event was not lawful or the output
//! cannot be written; else 2 if the trace was not read to its end, and for wrong
//! words. `--make` writes the trace of a log instead, with the library's own
//! tables.

mod run;
mod trace;
mod verdict;
mod words;

use run::Run;
use std::env;
use std::ffi::{OsStr, OsString};
use std::fs::File;
use std::io::{self, BufReader, BufWriter, Read, Write};
use std::process::ExitCode;
use trace::{Stop, Trace};
use words::{Words, USAGE};

/// What a failed run says, and its exit status.
struct Failure(u8, String);

fn main() -> ExitCode {
    match run() {
        Ok(()) => ExitCode::SUCCESS,
        Err(Failure(status, reason)) => {
            tell(&reason);
            ExitCode::from(status)
        }
    }
}

/// A line on standard error; if that is gone there is nobody left to tell.
fn tell(reason: &str) {
    let _ = writeln!(io::stderr(), "judge: {reason}");
}

fn run() -> Result<(), Failure> {
    let words: Vec<OsString> = env::args_os().skip(1).collect();
    if let [word] = &words[..] {
        if ["help", "-h", "--help"].iter().any(|help| word == help) {
            return writeln!(io::stdout(), "{USAGE}").map_err(unwritten);
        }
    }
    let words = Words::of(&words).map_err(|why| Failure(2, format!("{why}\n{USAGE}")))?;
    let (input, name) = input(words.file)?;
    let mut trace = Trace::new(words.linear_width, input);
    if words.make {
        make(&mut trace, &name)
    } else {
        judge(&mut trace, &name)
    }
}

fn unwritten(error: io::Error) -> Failure {
    Failure(1, format!("standard output cannot be written: {error}"))
}

/// The input, and what to call it.
fn input(file: Option<&OsStr>) -> Result<(Box<dyn Read>, String), Failure> {
    let Some(file) = file else {
        return Ok((Box::new(io::stdin().lock()), "standard input".to_string()));
    };
    let name = file.display().to_string();
    match File::open(file) {
        Ok(file) => Ok((Box::new(BufReader::new(file)), name)),
        Err(error) => Err(Failure(2, format!("{name} cannot be read: {error}"))),
    }
}

/// Judges a whole trace, a line for each event.
fn judge(trace: &mut Trace, name: &str) -> Result<(), Failure> {
    let mut run = Run::new(trace.linear_width);
    let (mut number, mut found) = (0_u64, 0_u64);
    let stop = loop {
        let (event, claim) = match trace.event().and_then(|event| Ok((event, trace.claim()?))) {
            Ok(both) => both,
            Err(stop) => break stop,
        };
        number += 1;
        let verdict = run.judge(&event, claim);
        found += u64::from(!verdict.is_lawful());
        writeln!(io::stdout(), "{number} {verdict}").map_err(unwritten)?;
    };
    let not_read = match &stop {
        Stop::End if number == 0 => Some("the trace has no events".to_owned()),
        Stop::End => None,
        Stop::Failed(error) => Some(format!("{name} cannot be read: {error}")),
        stop => {
            let (next, byte) = (number + 1, trace.at);
            writeln!(io::stdout(), "{next} {stop} at byte {byte}").map_err(unwritten)?;
            Some(format!(
                "the trace was not read to its end: event {next}, {stop} at byte {byte}"
            ))
        }
    };
    if found > 0 {
        if let Some(why) = not_read {
            tell(&why);
        }
        let of = if found == 1 { "was" } else { "were" };
        return Err(Failure(
            1,
            format!("{found} of {number} events {of} not lawful"),
        ));
    }
    match not_read {
        Some(why) => Err(Failure(2, why)),
        None => Ok(()),
    }
}

/// Writes the trace of a log: after each event the table that the library leaves.
fn make(log: &mut Trace, name: &str) -> Result<(), Failure> {
    let mut run = Run::new(log.linear_width);
    let mut output = BufWriter::new(io::stdout().lock());
    let mut number = 0_u64;
    let stop = loop {
        let event = match log.event() {
            Ok(event) => event,
            Err(stop) => break stop,
        };
        number += 1;
        let table = run.step(&event);
        let length = (table.len() as u32).to_le_bytes();
        for part in [&event[..], &length, table] {
            output.write_all(part).map_err(unwritten)?;
        }
    };
    output.flush().map_err(unwritten)?;
    match stop {
        Stop::End => Ok(()),
        Stop::Failed(error) => Err(Failure(2, format!("{name} cannot be read: {error}"))),
        stop => Err(Failure(
            2,
            format!(
                "the log was not read to its end: event {}, {stop} at byte {}",
                number + 1,
                log.at
            ),
        )),
    }
}
