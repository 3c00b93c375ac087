//! What the replay program prints on one log, and what it should.

use common::{hex, LOG_LIMIT};
use model::LinearWidth;
use std::io::Write;
use std::process::{Command, Stdio};
use std::thread;

/// What the program prints on a log that is fed to it in pieces. It must say
/// something on standard error exactly if the log is not replayed to its end.
pub fn printed(replay: &str, log: &[u8], piece: usize) -> Result<Vec<u8>, String> {
    let mut child = Command::new(replay)
        .stdin(Stdio::piped())
        .stdout(Stdio::piped())
        .stderr(Stdio::piped())
        .spawn()
        .map_err(|e| format!("{replay}: {e}"))?;
    let mut input = child.stdin.take().ok_or("no standard input")?;
    let bytes = log.to_vec();
    let writer = thread::spawn(move || {
        for part in bytes.chunks(piece.max(1)) {
            if input.write_all(part).is_err() || input.flush().is_err() {
                return;
            }
        }
    });
    let out = child.wait_with_output().map_err(|e| e.to_string())?;
    writer.join().map_err(|_| "the writer failed".to_string())?;
    if !out.status.success() {
        return Err(format!("the program ended with {}", out.status));
    }
    if out.stderr.is_empty() != is_whole(log) {
        let said = String::from_utf8_lossy(&out.stderr);
        return Err(format!("the program said {said:?}; the log: {}", hex(log)));
    }
    Ok(out.stdout)
}

/// Whether a log is replayed to its end: not too long, and whole events of
/// known kinds.
fn is_whole(log: &[u8]) -> bool {
    let mut rest = log;
    while let Some(event) = model::replay::first_event(LinearWidth::Bits48, rest) {
        rest = &rest[event.len()..];
    }
    rest.is_empty() && log.len() <= LOG_LIMIT
}

/// Compares what the program prints with what is expected.
pub fn compare(
    replay: &str,
    name: &str,
    log: &[u8],
    piece: usize,
    expected: &[u8],
) -> Result<(), String> {
    let got = printed(replay, log, piece)?;
    if got == expected {
        return Ok(());
    }
    let (got, expected) = (
        String::from_utf8_lossy(&got),
        String::from_utf8_lossy(expected),
    );
    let line = got
        .lines()
        .zip(expected.lines())
        .take_while(|(a, b)| a == b)
        .count();
    Err(format!(
        "{name}: line {} is {:?}, expected {:?}; the log: {}",
        line + 1,
        got.lines().nth(line),
        expected.lines().nth(line),
        hex(log)
    ))
}

/// The same with what the independent model prints.
pub fn modelled(replay: &str, name: &str, log: &[u8], piece: usize) -> Result<(), String> {
    let expected = model::print(model::replay(log).as_deref());
    compare(replay, name, log, piece, expected.as_bytes())
}
