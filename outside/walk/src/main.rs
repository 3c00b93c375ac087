//! `walk IMAGE root=.. eptp=.. vpid=.. address=..`: what the processor may cache of
//! a linear address, worked out from the page tables in an image of memory.
//!
//! The proved library walks; the image is mapped, so that only the pages with the
//! entries are read. Exit status 0 for a translation, 1 for a ground and for an
//! output that cannot be written, 2 for wrong words and an image that cannot be
//! mapped.

mod map;
mod text;
mod words;

use skuldrefn::{walk, Ending};
use std::env;
use std::ffi::OsString;
use std::io::{self, Write};
use std::process::ExitCode;
use words::{Words, USAGE};

/// What a failed run says, and its exit status.
struct Failure(u8, String);

fn main() -> ExitCode {
    match run() {
        Ok(status) => status,
        Err(Failure(status, reason)) => {
            // If standard error is gone too there is nobody left to tell.
            let _ = writeln!(io::stderr(), "walk: {reason}");
            ExitCode::from(status)
        }
    }
}

fn run() -> Result<ExitCode, Failure> {
    let words: Vec<OsString> = env::args_os().skip(1).collect();
    if let [word] = &words[..] {
        if ["help", "-h", "--help"].iter().any(|help| word == help) {
            output(&format!("{USAGE}\n"))?;
            return Ok(ExitCode::SUCCESS);
        }
    }
    let words = Words::of(&words).map_err(|why| Failure(2, format!("{why}\n{USAGE}")))?;
    let image = map::map(words.image).map_err(|why| {
        let name = words.image.display();
        Failure(2, format!("{name} {why}"))
    })?;
    let (context, root, eptp) = (&words.context, words.root, words.eptp);
    let walk = walk(context, image, root, eptp, words.vpid, words.address);
    output(&text::text(context, words.address, &walk))?;
    Ok(match walk.ending {
        Ending::Translated(_) => ExitCode::SUCCESS,
        _ => ExitCode::from(1),
    })
}

fn output(text: &str) -> Result<(), Failure> {
    let mut stdout = io::stdout().lock();
    let written = stdout.write_all(text.as_bytes());
    let written = written.and_then(|()| stdout.flush());
    written.map_err(|error| Failure(1, format!("standard output cannot be written: {error}")))
}
