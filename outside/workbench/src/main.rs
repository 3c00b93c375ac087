//! `workbench COMMAND LOG ..`: what a tester asks of a log. The program behind
//! `./skuldrefn show`, `explain`, `lookup`, `leaks`, `compare`, `audit`, `view` and
//! `replay --words`.
//!
//! The proved library steps, looks up, explains and counts; this program asks, and
//! puts the answers in words. Exit status 0; 1 for a finding, a log that is cut or
//! has an unknown kind among them; 2 for wrong words, and for what cannot be read,
//! done or written.

mod audit;
mod compare;
mod explain;
mod finder;
mod invalidations;
mod json;
mod leaks;
mod log;
mod lookup;
mod names;
mod renters;
mod replay;
mod room;
mod run;
mod show;
mod view;
mod words;

use std::env;
use std::ffi::OsString;
use std::io::{self, Write};
use std::process::ExitCode;
use words::{Command, Words, COMMANDS};

/// Why something could not be done.
#[derive(Debug)]
pub struct Failure(String);

impl Failure {
    pub fn new(reason: impl Into<String>) -> Failure {
        Failure(reason.into())
    }
}

impl From<io::Error> for Failure {
    /// Only writing hands on its errors as they are.
    fn from(error: io::Error) -> Failure {
        Failure(format!("standard output cannot be written: {error}"))
    }
}

/// Whether something was found.
pub type Found = Result<bool, Failure>;

fn main() -> ExitCode {
    let words: Vec<OsString> = env::args_os().skip(1).collect();
    let Some((command, words)) = words.split_first() else {
        tell("workbench", "no command is given");
        return ExitCode::from(2);
    };
    let Some(command) = COMMANDS.iter().find(|own| command == own.name) else {
        tell("workbench", &format!("no command {command:?}"));
        return ExitCode::from(2);
    };
    match run(command, words) {
        Ok(found) => ExitCode::from(u8::from(found)),
        Err(Failure(reason)) => {
            tell(command.name, &reason);
            ExitCode::from(2)
        }
    }
}

/// A line on standard error; if that is gone there is nobody left to tell.
pub fn tell(name: &str, reason: &str) {
    let _ = writeln!(io::stderr(), "{name}: {reason}");
}

fn run(command: &Command, words: &[OsString]) -> Found {
    if words.iter().any(|word| word == "-h" || word == "--help") {
        print(command.help)?;
        return Ok(false);
    }
    let words = Words::of(command, words).map_err(|why| {
        let usage = command.help.lines().next().unwrap_or_default();
        Failure::new(format!("{why}\n{usage}"))
    })?;
    match command.name {
        "show" => show::show(&words),
        "explain" => explain::explain(&words),
        "lookup" => lookup::lookup(&words),
        "leaks" => leaks::leaks(&words),
        "replay" => replay::replay(&words),
        "compare" => compare::compare(&words),
        "audit" => audit::audit(&words),
        _ => view::view(&words),
    }
}

/// Writes a whole text to standard output.
pub fn print(text: &str) -> Result<(), Failure> {
    write(text.as_bytes())
}

/// Writes bytes to standard output.
pub fn write(bytes: &[u8]) -> Result<(), Failure> {
    let mut stdout = io::stdout().lock();
    stdout.write_all(bytes)?;
    stdout.flush()?;
    Ok(())
}
