//! A run from the replay program's start, fed as its log arrives.

use crate::print;
pub use skuldrefn::Line;
use skuldrefn::{Context, Reader, Tally, PROGRAM_CAPABILITY, PROGRAM_WIDTH, TABLE_LIMIT};
use std::io::{self, Write};

/// The answer to a creation where there is no room.
const NO_ROOM: u64 = 12;

/// What is in force.
pub struct Run {
    reader: Reader,
    context: Context,
    tally: Tally,
    /// The first has the table in force at its front.
    tables: [Vec<u8>; 2],
    /// The length of that table.
    length: usize,
    /// The bytes that were taken of the event that is not finished, and how many bytes
    /// of the log are before it.
    event: Vec<u8>,
    start: u64,
    /// Whether a creation was refused for room, and what is to be said of the first.
    is_full: bool,
    no_room: Option<String>,
}

impl Run {
    /// After a reset, with an empty table.
    pub fn new(linear_width: u64) -> Run {
        Run {
            reader: Reader::new(),
            context: Context::after_reset(PROGRAM_CAPABILITY, PROGRAM_WIDTH, linear_width),
            tally: Tally::new(),
            tables: [vec![0; TABLE_LIMIT], vec![0; TABLE_LIMIT]],
            length: 0,
            event: Vec::new(),
            start: 0,
            is_full: false,
            no_room: None,
        }
    }

    /// The next bytes of the log: the line of each event that they finish. Why the
    /// run has ended there; None where it goes on.
    pub fn feed(&mut self, bytes: &[u8], output: &mut impl Write) -> io::Result<Option<String>> {
        let mut rest = bytes;
        while !rest.is_empty() {
            let [old, new] = &mut self.tables;
            let old = &old[..self.length];
            let context = &self.context;
            let taken = self.reader.take(context, &mut self.tally, old, rest, new);
            let (own, after) = rest.split_at(taken.taken);
            self.event.extend_from_slice(own);
            rest = after;
            let Some(step) = taken.step else {
                continue;
            };
            self.context = step.context;
            if step.answer == 0 {
                self.length = step.length;
                self.tables.swap(0, 1);
            }
            print(&self.line(step.answer, step.dropped), output)?;
            // A run from a reset that carries its own tally has none of these.
            if matches!(step.answer, 1..=3 | 13) {
                let (number, answer) = (self.reader.line, step.answer);
                let why = format!("event {number}: the library gives answer {answer}");
                return Ok(Some(why));
            }
            if self.reader.ignoring != 0 {
                return Ok(Some(self.ended()));
            }
            if step.answer == NO_ROOM && !self.is_full {
                self.is_full = true;
                let (number, byte) = (self.reader.line, self.start);
                self.no_room = Some(format!(
                    "event {number}, at byte {byte}: no room for this mapping; from here on \
                     mappings may be missing"
                ));
            }
            self.start += self.event.len() as u64;
            self.event.clear();
        }
        Ok(None)
    }

    /// The end of the log: the line of a cut record, and why the run ended with it.
    pub fn finish(&mut self, output: &mut impl Write) -> io::Result<Option<String>> {
        let table = &self.tables[0][..self.length];
        let Some(answer) = self.reader.finish(&self.context, table) else {
            return Ok(None);
        };
        print(&self.line(answer, 0), output)?;
        Ok(Some(self.ended()))
    }

    /// What is to be said, once, of the first creation that was refused for room.
    pub fn no_room(&mut self) -> Option<String> {
        self.no_room.take()
    }

    fn line(&self, answer: u64, dropped: usize) -> Line {
        Line {
            number: self.reader.line,
            answer,
            dropped,
            length: self.length,
        }
    }

    /// Where the run has ended, and why.
    fn ended(&self) -> String {
        let width = self.context.linear_width;
        convert::ended(width, self.reader.line, self.start, &self.event)
    }
}
