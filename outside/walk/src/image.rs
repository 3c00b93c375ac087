//! `image [FILE] > IMAGE`: an image of memory from its description.
//!
//! A description has a line for each entry, its physical address and its eight bytes
//! as a number, and one line `length` with the length of the image. Numbers are
//! hexadecimal with 0x; `#` starts a comment. All other bytes are 0.

use std::env;
use std::fs;
use std::io::{self, Read, Write};
use std::process::ExitCode;

/// No image is longer, so that a slip of the pen does not fill the disk.
const MOST: usize = 1 << 24;

fn main() -> ExitCode {
    let words: Vec<String> = env::args().skip(1).collect();
    match words.first().map(String::as_str) {
        Some("-h" | "--help") => {
            println!("usage: image [FILE] > IMAGE");
            return ExitCode::SUCCESS;
        }
        _ if words.len() > 1 => return failed("it takes one file"),
        _ => {}
    }
    let mut text = String::new();
    let read = match words.first() {
        Some(file) => fs::read_to_string(file).map(|own| text = own),
        None => io::stdin().read_to_string(&mut text).map(|_| ()),
    };
    if let Err(error) = read {
        return failed(&format!("the description cannot be read: {error}"));
    }
    let written = image(&text).and_then(|image| {
        let mut stdout = io::stdout().lock();
        let written = stdout.write_all(&image).and_then(|()| stdout.flush());
        written.map_err(|error| format!("standard output cannot be written: {error}"))
    });
    match written {
        Ok(()) => ExitCode::SUCCESS,
        Err(why) => failed(&why),
    }
}

fn failed(why: &str) -> ExitCode {
    let _ = writeln!(io::stderr(), "image: {why}");
    ExitCode::from(1)
}

/// The image of a description.
fn image(text: &str) -> Result<Vec<u8>, String> {
    let mut length = None;
    let mut entries = Vec::new();
    for (number, line) in (1..).zip(text.lines()) {
        let line = line.split('#').next().unwrap_or_default();
        let words: Vec<&str> = line.split_whitespace().collect();
        let wrong = || format!("line {number} is neither `length NUMBER` nor `ADDRESS ENTRY`");
        let hexadecimal = |word: &str| {
            let digits = word.strip_prefix("0x").ok_or_else(wrong)?;
            u64::from_str_radix(digits, 16).map_err(|_| wrong())
        };
        match words[..] {
            [] => {}
            ["length", word] if length.is_none() => length = Some(hexadecimal(word)? as usize),
            ["length", _] => return Err(format!("line {number} is a second length")),
            [at, entry] => entries.push((number, hexadecimal(at)? as usize, hexadecimal(entry)?)),
            _ => return Err(wrong()),
        }
    }
    let length = length.ok_or("there is no line `length NUMBER`")?;
    if length > MOST {
        return Err(format!("{length:#x} bytes are too many"));
    }
    let mut image = vec![0; length];
    for (number, at, entry) in entries {
        let place = image.get_mut(at..).and_then(|rest| rest.get_mut(..8));
        let place = place.ok_or_else(|| format!("the entry of line {number} ends outside"))?;
        if place.iter().any(|byte| *byte != 0) {
            return Err(format!("the entry of line {number} is there already"));
        }
        place.copy_from_slice(&entry.to_le_bytes());
    }
    Ok(image)
}
