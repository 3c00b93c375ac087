//! Logs as they are handed in: a file or standard input, binary or the text form,
//! of any length.

use crate::Failure;
use skuldrefn::{event_length, events};
use std::ffi::OsStr;
use std::fs::File;
use std::io::{self, Read};

/// What some editors write before a text in UTF-8.
const BYTE_ORDER_MARK: &[u8] = b"\xEF\xBB\xBF";

/// A log, and what to call it.
pub struct Log {
    pub name: String,
    pub linear_width: u64,
    pub bytes: Vec<u8>,
}

/// One event of a log.
#[derive(Clone, Copy)]
pub struct Event<'a> {
    /// From 1.
    pub number: usize,
    /// Where it starts in the log.
    pub byte: usize,
    pub bytes: &'a [u8],
    /// Whether its kind is known and none of its bytes missing. Another one has
    /// all bytes that are left, and a run ends there.
    pub whole: bool,
}

impl Event<'_> {
    /// The kind byte.
    pub fn kind(&self) -> u8 {
        self.bytes[0]
    }

    pub fn is_entry(&self) -> bool {
        self.kind() == 20
    }
}

impl Log {
    /// Reads a log; `-` is standard input.
    pub fn read(file: &OsStr, linear_width: u64) -> Result<Log, Failure> {
        let (bytes, name) = input(file)?;
        Log::of(name, bytes, linear_width)
    }

    /// The log in some bytes, binary or as text.
    pub fn of(name: String, bytes: Vec<u8>, linear_width: u64) -> Result<Log, Failure> {
        let bytes = if is_text(linear_width, &bytes) {
            let why = |error| Failure::new(format!("{name}: read as text: {error}"));
            convert::assemble(&bytes).map_err(why)?
        } else {
            bytes
        };
        Ok(Log {
            name,
            linear_width,
            bytes,
        })
    }

    /// The events, in order.
    pub fn events(&self) -> impl Iterator<Item = Event<'_>> {
        let (mut number, mut next) = (0, 0);
        events(self.linear_width, &self.bytes).map(move |bytes| {
            let byte = next;
            number += 1;
            next += bytes.len();
            Event {
                number,
                byte,
                bytes,
                whole: event_length(self.linear_width, bytes) == bytes.len(),
            }
        })
    }

    /// Why what was found is not all: the log has no events, or a run ends before its
    /// end; None where it is all.
    pub fn amiss(&self, last: Option<Event>) -> Option<String> {
        match last {
            None => Some(format!("{}: it has no events", self.name)),
            last => self.stop(last),
        }
    }

    /// Where and why a run of the log ends before its end; None where it does not.
    pub fn stop(&self, last: Option<Event>) -> Option<String> {
        let event = last.filter(|event| !event.whole)?;
        let why = convert::fault(self.linear_width, event.bytes).unwrap_or_default();
        Some(format!(
            "{}: the run ends at event {}, byte {}: {why}",
            self.name, event.number, event.byte
        ))
    }
}

/// The bytes of a file, and what to call it.
pub fn input(file: &OsStr) -> Result<(Vec<u8>, String), Failure> {
    let mut bytes = Vec::new();
    let (read, name) = if file == "-" {
        let read = io::stdin().lock().read_to_end(&mut bytes);
        (read, "standard input".to_string())
    } else {
        let read = File::open(file).and_then(|mut file| file.read_to_end(&mut bytes));
        (read, file.display().to_string())
    };
    match read {
        Ok(_) => Ok((bytes, name)),
        Err(error) => Err(Failure::new(format!("{name} cannot be read: {error}"))),
    }
}

/// Whether bytes are the text form: the first that is no blank is a printable
/// character, which is the kind of no event. At linear width 57 a tab and a line
/// end are kinds too; a record of these kinds has a span, 1 to 4, at its byte 5,
/// and no text has such a byte there.
fn is_text(linear_width: u64, bytes: &[u8]) -> bool {
    if bytes.starts_with(BYTE_ORDER_MARK) {
        return true;
    }
    let is_record = matches!(bytes, [9 | 10, _, _, _, _, 1..=4, ..]);
    if linear_width == 57 && is_record {
        return false;
    }
    let first = bytes.iter().find(|byte| !byte.is_ascii_whitespace());
    first.is_some_and(u8::is_ascii_graphic)
}

#[cfg(test)]
mod tests {
    use super::is_text;

    #[test]
    fn text_and_binary() {
        for (width, bytes, due) in [
            (48, &b""[..], false),
            (48, b"vmxon\n", true),
            (48, b"# a comment", true),
            (48, b"\n\t vmxon\n", true),
            (57, b"\n\t vmxon\n", true),
            (48, b"\xEF\xBB\xBF\n", true),
            // Not a name; but a text's error says more than an unknown kind.
            (48, b"Vmxon", true),
            (48, &[22], false),
            (48, &[25, 25], false),
            (48, &[0xFF], false),
            // Kind 9 with VPID 2323h, PCID 23h, span 1: a comment as text.
            (57, &[9, 0x23, 0x23, 0x23, 0, 1, 0, 2], false),
            (48, &[9, 0x23, 0x23, 0x23, 0, 1, 0, 2], true),
            (57, &[10, 0x61, 0x61, 0x61, 9, 4, 0, 2], false),
        ] {
            assert_eq!(is_text(width, bytes), due, "{bytes:?}");
        }
    }
}
