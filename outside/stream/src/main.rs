//! `stream [--linear-width 57] [FILE]`: a binary event log of any length, from a
//! file or standard input, replayed as it arrives.
//!
//! The proved library reads and steps. The line of an event goes to standard output
//! as soon as its last byte is there, and what is amiss to standard error. Exit
//! status 1 for a log that ends at a cut record or an unknown kind, an input that
//! fails midway and an output that cannot be written; 2 for wrong words and a file
//! that cannot be read. The first creation that is refused for room is told too, and
//! leaves the status as it is.

mod run;
mod words;

use run::{Line, Run};
use std::env;
use std::ffi::{OsStr, OsString};
use std::fs::File;
use std::io::{self, BufWriter, ErrorKind, Read, Write};
use std::process::ExitCode;
use words::{Words, USAGE};

/// How many bytes are asked for at once. A read hands over those that are there.
const AT_ONCE: usize = 1 << 16;

/// What a failed run says, and its exit status.
struct Failure(u8, String);

fn main() -> ExitCode {
    match stream() {
        Ok(()) => ExitCode::SUCCESS,
        Err(Failure(status, reason)) => {
            tell(&reason);
            ExitCode::from(status)
        }
    }
}

/// A line on standard error; if that is gone there is nobody left to tell.
fn tell(reason: &str) {
    let _ = writeln!(io::stderr(), "stream: {reason}");
}

fn stream() -> Result<(), Failure> {
    let words: Vec<OsString> = env::args_os().skip(1).collect();
    if let [word] = &words[..] {
        if ["help", "-h", "--help"].iter().any(|help| word == help) {
            return writeln!(io::stdout(), "{USAGE}").map_err(unwritten);
        }
    }
    let words = Words::of(&words).map_err(|why| Failure(2, format!("{why}\n{USAGE}")))?;
    let (mut input, name) = input(words.file)?;
    let mut output = BufWriter::with_capacity(AT_ONCE, io::stdout().lock());
    let mut run = Run::new(words.linear_width);
    let mut bytes = vec![0; AT_ONCE];
    loop {
        let count = match input.read(&mut bytes) {
            Ok(count) => count,
            Err(error) if error.kind() == ErrorKind::Interrupted => continue,
            Err(error) => return Err(Failure(1, format!("{name} cannot be read: {error}"))),
        };
        let ended = if count == 0 {
            run.finish(&mut output)
        } else {
            run.feed(&bytes[..count], &mut output)
        };
        // Nothing waits for bytes that may be long in coming, nor for the end.
        let ended = ended.and_then(|ended| output.flush().map(|()| ended));
        if let Some(why) = run.no_room() {
            tell(&why);
        }
        match ended.map_err(unwritten)? {
            Some(why) => return Err(Failure(1, why)),
            None if count == 0 => return Ok(()),
            None => {}
        }
    }
}

fn unwritten(error: io::Error) -> Failure {
    Failure(1, format!("standard output cannot be written: {error}"))
}

/// The input, and what to call it.
fn input(file: Option<&OsStr>) -> Result<(Box<dyn Read>, String), Failure> {
    let Some(file) = file else {
        return Ok((Box::new(io::stdin().lock()), "standard input".to_string()));
    };
    let name = file.display().to_string();
    let opened = File::open(file).and_then(|file| Ok((file.metadata()?.is_dir(), file)));
    match opened {
        Ok((false, file)) => Ok((Box::new(file), name)),
        Ok((true, _)) => Err(Failure(2, format!("{name} cannot be read: it is a folder"))),
        Err(error) => Err(Failure(2, format!("{name} cannot be read: {error}"))),
    }
}

/// A line of the replay.
fn print(line: &Line, output: &mut impl Write) -> io::Result<()> {
    let Line {
        number,
        answer,
        dropped,
        length,
    } = line;
    writeln!(output, "{number} {answer} {dropped} {length}")
}
