//! The library's fixed rows, out and in, against the model's.

use crate::buffer::Buffer;
use crate::case::{parts, smaller_tables};
use crate::difference::{all_same, difference};
use crate::reached::Reached;
use crate::text::{buffer, bytes, numbers};
use common::FIXED_ROW;
use model::Converted;
use std::fmt;

/// Which of the two calls.
#[derive(Clone, Copy, Debug, PartialEq, Eq)]
pub enum Way {
    Export,
    Import,
}

type Call = fn(u64, &[u8], &mut [u8]) -> Converted;

impl Way {
    /// The call's name, and those of what it reads and writes.
    pub fn names(self) -> [&'static str; 3] {
        match self {
            Way::Export => ["export", "table", "rows"],
            Way::Import => ["import", "rows", "table"],
        }
    }

    fn of_model(self) -> Call {
        match self {
            Way::Export => model::export,
            Way::Import => model::import,
        }
    }

    fn of_library(self) -> Call {
        match self {
            Way::Export => bridge::export,
            Way::Import => bridge::import,
        }
    }

    fn back(self) -> Way {
        match self {
            Way::Export => Way::Import,
            Way::Import => Way::Export,
        }
    }
}

/// The inputs of one call.
#[derive(Clone, Debug, PartialEq, Eq)]
pub struct RowsCase {
    pub way: Way,
    pub linear_width: u64,
    /// The table of an export, the rows of an import.
    pub input: Vec<u8>,
    pub output: Buffer,
}

impl RowsCase {
    pub fn check(&self, reached: &mut Reached) -> Result<(), String> {
        let mut ours = self.output.lend();
        let mut theirs = self.output.lend();
        // The library gets a copy, so that a write to it shows.
        let input = self.input.clone();
        let due = self.way.of_model()(self.linear_width, &self.input, theirs.part_mut());
        let got = self.way.of_library()(self.linear_width, &input, ours.part_mut());
        all_same(differences(&got, &due))?;
        let [_, read, written] = self.way.names();
        ours.same(&theirs, written)?;
        if input != self.input {
            return Err(format!("the {read} was written to"));
        }
        if due.answer == 0 {
            self.there_and_back(&ours.part()[..got.length])?;
        }
        reached
            .at(self.linear_width)
            .converted(self.way, &due, self.output.length);
        Ok(())
    }

    /// What was written, given to the other call, is what was read. There is just the
    /// room for it.
    fn there_and_back(&self, written: &[u8]) -> Result<(), String> {
        let lent = Buffer {
            length: self.input.len(),
            fill: self.output.fill,
        };
        let (mut ours, mut due) = (lent.lend(), lent.lend());
        due.part_mut().copy_from_slice(&self.input);
        let got = self.way.back().of_library()(self.linear_width, written, ours.part_mut());
        let expected = Converted {
            answer: 0,
            row: 0,
            length: self.input.len(),
        };
        all_same(differences(&got, &expected))
            .and_then(|()| ours.same(&due, "buffer"))
            .map_err(|why| format!("on the way back: {why}"))
    }

    /// Cases with some records or rows taken out. Rows stay together with what is left
    /// of a last one that is cut.
    pub fn smaller(&self) -> Vec<RowsCase> {
        let inputs = match self.way {
            Way::Export => smaller_tables(self.linear_width, &self.input),
            Way::Import => {
                let rows: Vec<&[u8]> = self.input.chunks(FIXED_ROW).collect();
                let without = |part: std::ops::Range<usize>| {
                    [&rows[..part.start], &rows[part.end..]].concat().concat()
                };
                parts(rows.len()).into_iter().map(without).collect()
            }
        };
        let mut cases = Vec::new();
        for input in inputs {
            let gone = self.input.len() - input.len();
            let mut lengths = vec![self.output.length, self.output.length.saturating_sub(gone)];
            // A record of 16 bytes or more is a row of 32.
            lengths.push(self.output.length.saturating_sub(2 * gone));
            lengths.dedup();
            for length in lengths {
                cases.push(RowsCase {
                    input: input.clone(),
                    output: Buffer {
                        length,
                        ..self.output
                    },
                    ..*self
                });
            }
        }
        cases
    }
}

fn differences(got: &Converted, due: &Converted) -> Vec<String> {
    let differences = [
        difference("answer", got.answer, due.answer),
        difference("row", got.row, due.row),
        difference("length", got.length as u64, due.length as u64),
    ];
    differences.into_iter().flatten().collect()
}

impl fmt::Display for RowsCase {
    fn fmt(&self, f: &mut fmt::Formatter) -> fmt::Result {
        let [name, read, written] = self.way.names();
        writeln!(f, "case {name}")?;
        writeln!(f, "{}", numbers("width", &[self.linear_width]))?;
        writeln!(f, "{}", bytes(read, &self.input))?;
        write!(f, "{}", buffer(written, &self.output))
    }
}
