//! `fuzz [COUNT] [SEED]`: compares the library with the model.

use differential::{parse, work, Failure, Reached};
use std::env;
use std::fmt::Arguments;
use std::io::{self, Read, Write};
use std::process::ExitCode;
use std::time::{Duration, Instant, SystemTime, UNIX_EPOCH};

/// Rounds without an argument: a minute or so.
const DEFAULT_COUNT: u64 = 1_200;

const USAGE: &str = "\
usage: fuzz [COUNT] [SEED]
       fuzz --case FILE
COUNT rounds of comparisons, each of some thousand calls, from a seed (else
from the clock). The seed is printed first. A case in which the library and
the model differ is printed, and `fuzz --case` compares it again ('-' reads
standard input). Exit status 1 if they differ or the output cannot be written,
2 if the arguments are wrong.";

fn main() -> ExitCode {
    let words: Vec<String> = env::args().skip(1).collect();
    let words: Vec<&str> = words.iter().map(String::as_str).collect();
    let ended = match words[..] {
        ["--help" | "-h" | "help"] => print(format_args!("{USAGE}")).map(|()| ExitCode::SUCCESS),
        ["--case", file] => again(file),
        [] => fuzz(DEFAULT_COUNT, clock()),
        [count] => match number(count) {
            Some(count) => fuzz(count, clock()),
            None => Ok(wrong(&format!("'{count}' is no count"))),
        },
        [count, seed] => match (number(count), number(seed)) {
            (Some(count), Some(seed)) => fuzz(count, seed),
            (None, _) => Ok(wrong(&format!("'{count}' is no count"))),
            (_, None) => Ok(wrong(&format!("'{seed}' is no seed"))),
        },
        _ => Ok(wrong("too many words")),
    };
    ended.unwrap_or_else(|error| {
        tell(format_args!(
            "fuzz: standard output cannot be written: {error}"
        ));
        ExitCode::FAILURE
    })
}

/// A line on standard output.
fn print(line: Arguments) -> io::Result<()> {
    writeln!(io::stdout(), "{line}")
}

/// A line on standard error; if that is gone there is nobody left to tell.
fn tell(line: Arguments) {
    let _ = writeln!(io::stderr(), "{line}");
}

/// A decimal number, or a hexadecimal one with 0x.
fn number(word: &str) -> Option<u64> {
    match word.strip_prefix("0x") {
        Some(digits) => u64::from_str_radix(digits, 16).ok(),
        None => word.parse().ok(),
    }
}

fn wrong(why: &str) -> ExitCode {
    tell(format_args!("fuzz: {why}\n{USAGE}"));
    ExitCode::from(2)
}

fn clock() -> u64 {
    let since = SystemTime::now().duration_since(UNIX_EPOCH);
    since.map_or(1, |time| time.as_micros() as u64)
}

fn fuzz(count: u64, seed: u64) -> io::Result<ExitCode> {
    print(format_args!("seed {seed}"))?;
    let mut reached = Reached::default();
    let mut progress = Progress::new(count);
    for number in 0..count {
        if let Err(failure) = work::round(seed, number, &mut reached) {
            tell(format_args!(
                "round {number} of seed {seed}: making the case smaller"
            ));
            report(&failure.shrink())?;
            print(format_args!("seed {seed}, round {number}"))?;
            return Ok(ExitCode::FAILURE);
        }
        progress.show(number + 1, &reached);
    }
    print(format_args!("{reached}"))?;
    print(format_args!("{count} rounds, no difference"))?;
    Ok(ExitCode::SUCCESS)
}

fn report(failure: &Failure) -> io::Result<()> {
    print(format_args!(
        "{}\n\nDIFFERENT: {}",
        failure.case, failure.why
    ))?;
    print(format_args!(
        "Put the lines from 'case' on into a file; `fuzz --case FILE` compares it again."
    ))
}

/// Compares one case that was printed.
fn again(file: &str) -> io::Result<ExitCode> {
    let read = if file == "-" {
        let mut text = String::new();
        io::stdin().read_to_string(&mut text).map(|_| text)
    } else {
        std::fs::read_to_string(file)
    };
    let text = match read {
        Ok(text) => text,
        Err(error) => return Ok(wrong(&format!("{file}: {error}"))),
    };
    let case = match parse(&text) {
        Ok(case) => case,
        Err(why) => return Ok(wrong(&format!("{file}: {why}"))),
    };
    match case.compare(&mut Reached::default()) {
        Ok(()) => {
            print(format_args!("no difference"))?;
            Ok(ExitCode::SUCCESS)
        }
        Err(failure) => {
            print(format_args!("DIFFERENT: {}", failure.why))?;
            Ok(ExitCode::FAILURE)
        }
    }
}

/// A line a second on standard error.
struct Progress {
    count: u64,
    start: Instant,
    shown: Instant,
}

impl Progress {
    fn new(count: u64) -> Progress {
        let now = Instant::now();
        Progress {
            count,
            start: now,
            shown: now,
        }
    }

    fn show(&mut self, done: u64, reached: &Reached) {
        if self.shown.elapsed() < Duration::from_secs(1) {
            return;
        }
        self.shown = Instant::now();
        let seconds = self.start.elapsed().as_secs_f64();
        let calls = reached.calls();
        let rate = calls as f64 / seconds;
        let left = (self.count - done) as f64 * seconds / done as f64;
        tell(format_args!(
            "{done} of {} rounds, {calls} answers, {rate:.0} a second, {left:.0} s left",
            self.count
        ));
    }
}
