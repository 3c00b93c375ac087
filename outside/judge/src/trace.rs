//! A trace as a stream: for each event its bytes, the length of the claimed table
//! in 4 bytes, little-endian, and the table.

use skuldrefn::{event_length, TABLE_LIMIT};
use std::fmt;
use std::io::{self, Read};

/// A claimed table. Of one that is longer than a table may be only the first byte
/// too many is kept: no more is needed to refuse it.
pub struct Claim {
    pub bytes: Vec<u8>,
    /// The length that the trace says.
    pub length: usize,
}

/// Why there is no next event.
pub enum Stop {
    /// The trace has ended behind an event's table.
    End,
    /// It has ended within a part of an event, after so many of its bytes.
    Cut(&'static str, u64, u64),
    /// A kind that is unknown at the linear width, so that nothing behind it can
    /// be found.
    Unknown(u8),
    Failed(io::Error),
}

impl fmt::Display for Stop {
    fn fmt(&self, f: &mut fmt::Formatter) -> fmt::Result {
        match self {
            Stop::End => write!(f, "end"),
            Stop::Cut(part, have, whole) => write!(f, "cut {part} {have} of {whole}"),
            Stop::Unknown(kind) => write!(f, "unknown kind {kind:#x}"),
            Stop::Failed(error) => write!(f, "failed {error}"),
        }
    }
}

/// A trace, or a log, that is read once from its start.
pub struct Trace {
    pub linear_width: u64,
    input: Box<dyn Read>,
    /// How many bytes were read; of an unknown kind, where it stands.
    pub at: u64,
}

impl Trace {
    pub fn new(linear_width: u64, input: Box<dyn Read>) -> Trace {
        Trace {
            linear_width,
            input,
            at: 0,
        }
    }

    /// The bytes of the next event.
    pub fn event(&mut self) -> Result<Vec<u8>, Stop> {
        let mut event = Vec::new();
        self.read(&mut event, 1)?;
        let Some(kind) = event.first() else {
            return Err(Stop::End);
        };
        let whole = event_length(self.linear_width, &event) as u64;
        if whole == 0 {
            self.at -= 1;
            return Err(Stop::Unknown(*kind));
        }
        let have = 1 + self.read(&mut event, whole - 1)?;
        if have < whole {
            return Err(Stop::Cut("event", have, whole));
        }
        Ok(event)
    }

    /// The claimed table behind an event.
    pub fn claim(&mut self) -> Result<Claim, Stop> {
        let mut length = Vec::new();
        let have = self.read(&mut length, 4)?;
        let Ok(length) = length.try_into() else {
            return Err(Stop::Cut("length", have, 4));
        };
        let whole = u64::from(u32::from_le_bytes(length));
        let kept = whole.min(TABLE_LIMIT as u64 + 1);
        let mut bytes = Vec::new();
        let mut have = self.read(&mut bytes, kept)?;
        if have == kept {
            let mut rest = self.input.by_ref().take(whole - kept);
            let passed = io::copy(&mut rest, &mut io::sink()).map_err(Stop::Failed)?;
            self.at += passed;
            have += passed;
        }
        if have < whole {
            return Err(Stop::Cut("table", have, whole));
        }
        Ok(Claim {
            bytes,
            length: whole as usize,
        })
    }

    /// Reads so many bytes, or as many as are left; how many.
    fn read(&mut self, bytes: &mut Vec<u8>, count: u64) -> Result<u64, Stop> {
        let mut part = self.input.by_ref().take(count);
        let read = part.read_to_end(bytes).map_err(Stop::Failed)? as u64;
        self.at += read;
        Ok(read)
    }
}
