//! `tools COMMAND TOP`: checks of the repository whose top folder is TOP.
//!
//! What is amiss is printed, a line each, and the exit status is then 1; it is 2 for wrong
//! arguments.

use std::fs;
use std::path::Path;
use std::process::ExitCode;
use tools::{crates, edits, form, read};

const USAGE: &str = "\
usage: tools edits TOP         the must-fail edits fit, and each public function is named by two
       tools crates TOP        each crate in crates.txt has a sentence above it
       tools cards TOP         crates/cards/stdin and stdout are what write-cards writes
       tools write-cards TOP   writes both";

const STDIN: &str = "crates/cards/stdin";
const STDOUT: &str = "crates/cards/stdout";

fn main() -> ExitCode {
    let words: Vec<String> = std::env::args().skip(1).collect();
    let words: Vec<&str> = words.iter().map(String::as_str).collect();
    let (found, fine) = match words[..] {
        ["edits", top] => (edits::amiss(Path::new(top)), "the must-fail edits fit"),
        ["crates", top] => (
            read(Path::new(top), "crates.txt").map(|text| crates::amiss(&text)),
            "each crate has its sentence",
        ),
        ["cards", top] => (stale_cards(Path::new(top)), "the cards are as written"),
        ["write-cards", top] => (write_cards(Path::new(top)), "the cards are written"),
        _ => {
            eprintln!("{USAGE}");
            return ExitCode::from(2);
        }
    };
    let found = found.unwrap_or_else(|why| vec![why]);
    if found.is_empty() {
        println!("{fine}");
        return ExitCode::SUCCESS;
    }
    println!("{}", found.join("\n"));
    ExitCode::FAILURE
}

/// The files of the cards that are not what `write-cards` writes.
fn stale_cards(top: &Path) -> Result<Vec<String>, String> {
    let due = form::files();
    let mut found = Vec::new();
    for (file, due) in [(STDIN, &due.stdin[..]), (STDOUT, due.stdout.as_bytes())] {
        let got = fs::read(top.join(file)).map_err(|error| format!("{file}: {error}"))?;
        if got != due {
            found.push(format!("{file}: not what `tools write-cards` writes"));
        }
    }
    Ok(found)
}

fn write_cards(top: &Path) -> Result<Vec<String>, String> {
    let due = form::files();
    for (file, due) in [(STDIN, &due.stdin[..]), (STDOUT, due.stdout.as_bytes())] {
        fs::write(top.join(file), due).map_err(|error| format!("{file}: {error}"))?;
    }
    Ok(Vec::new())
}
