//! The program, run as its user runs it.
#![allow(dead_code)]

use std::fs;
use std::io::Write;
use std::path::{Path, PathBuf};
use std::process::{Command, Output, Stdio};
use std::sync::atomic::{AtomicUsize, Ordering};

/// How a run ended, and what it wrote.
#[derive(Debug)]
pub struct Run {
    pub status: i32,
    pub out: String,
    pub said: String,
}

impl Run {
    fn of(output: Output) -> Run {
        Run {
            status: output.status.code().expect("a status"),
            out: String::from_utf8(output.stdout).expect("text"),
            said: String::from_utf8(output.stderr).expect("text"),
        }
    }
}

/// The program in the top folder of the repository.
pub fn command(words: &[&str]) -> Command {
    let mut command = Command::new(env!("CARGO_BIN_EXE_workbench"));
    command.args(words).current_dir(top());
    command.stdin(Stdio::null());
    command
}

pub fn top() -> PathBuf {
    Path::new(env!("CARGO_MANIFEST_DIR")).join("../..")
}

/// Runs the program.
pub fn run(words: &[&str]) -> Run {
    Run::of(command(words).output().expect("the program starts"))
}

/// Runs the program with these bytes as its standard input.
pub fn fed(words: &[&str], input: &[u8]) -> Run {
    Run::of(fed_output(words, input))
}

/// The same where what it writes is no text.
pub fn fed_output(words: &[&str], input: &[u8]) -> Output {
    let mut child = command(words)
        .stdin(Stdio::piped())
        .stdout(Stdio::piped())
        .stderr(Stdio::piped())
        .spawn()
        .expect("the program starts");
    let mut stdin = child.stdin.take().expect("a pipe");
    let input = input.to_vec();
    // The child may end before it has read all; that shows in its status.
    let writer = std::thread::spawn(move || {
        let _ = stdin.write_all(&input);
    });
    let output = child.wait_with_output().expect("the program ends");
    writer.join().expect("a writer");
    output
}

/// The log of a text.
pub fn assembled(text: &str) -> Vec<u8> {
    convert::assemble(text.as_bytes()).expect("a log")
}

/// A folder of its own for a test, removed in the end.
pub struct Folder(PathBuf);

impl Folder {
    pub fn new() -> Folder {
        static COUNT: AtomicUsize = AtomicUsize::new(0);
        let number = COUNT.fetch_add(1, Ordering::Relaxed);
        let id = std::process::id();
        let folder = std::env::temp_dir().join(format!("skuldrefn-workbench-{id}-{number}"));
        fs::create_dir_all(&folder).expect("a folder");
        Folder(folder)
    }

    /// The name of a file in it.
    pub fn name(&self, name: &str) -> String {
        self.0.join(name).to_str().expect("a name").to_string()
    }

    /// Writes a file, and hands back its name.
    pub fn write(&self, name: &str, bytes: &[u8]) -> String {
        fs::write(self.0.join(name), bytes).expect("a file");
        self.name(name)
    }
}

impl Drop for Folder {
    fn drop(&mut self) {
        let _ = fs::remove_dir_all(&self.0);
    }
}

/// What is behind one JSON value; None where there is none at the front.
pub fn behind_json(text: &str) -> Option<&str> {
    let mut rest = text;
    match text.bytes().next()? {
        b'{' => members(&text[1..], '}', |rest| {
            behind_json(behind_string(rest)?.strip_prefix(':')?)
        }),
        b'[' => members(&text[1..], ']', behind_json),
        b'"' => behind_string(text),
        b'0'..=b'9' => {
            let end = text.find(|letter: char| !letter.is_ascii_digit() && letter != '.');
            Some(&text[end.unwrap_or(text.len())..])
        }
        _ => {
            for word in ["true", "false", "null"] {
                rest = rest.strip_prefix(word).unwrap_or(rest);
            }
            (rest.len() < text.len()).then_some(rest)
        }
    }
}

/// Members parted by commas, up to an end; line ends may stand between them.
fn members(text: &str, end: char, one: impl Fn(&str) -> Option<&str>) -> Option<&str> {
    let mut rest = text.trim_start_matches('\n');
    if let Some(after) = rest.strip_prefix(end) {
        return Some(after);
    }
    loop {
        rest = one(rest)?.trim_start_matches('\n');
        if let Some(after) = rest.strip_prefix(end) {
            return Some(after);
        }
        rest = rest.strip_prefix(',')?.trim_start_matches('\n');
    }
}

fn behind_string(text: &str) -> Option<&str> {
    let mut letters = text.strip_prefix('"')?.chars();
    loop {
        match letters.next()? {
            '"' => return Some(letters.as_str()),
            '\\' => match letters.next()? {
                '"' | '\\' => {}
                'u' => {
                    for _ in 0..4 {
                        letters.next()?.to_digit(16)?;
                    }
                }
                _ => return None,
            },
            '\0'..='\x1F' => return None,
            _ => {}
        }
    }
}

/// Each line is one JSON value.
pub fn is_json_lines(text: &str) -> bool {
    !text.is_empty() && text.lines().all(|line| behind_json(line) == Some(""))
}
