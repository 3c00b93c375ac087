//! The library's converter of 48-bit tables against the model's.

use crate::buffer::Buffer;
use crate::case::smaller_tables;
use crate::difference::{all_same, difference};
use crate::reached::Reached;
use crate::text::{buffer, bytes};
use std::fmt;

/// The inputs of one conversion.
#[derive(Clone, Debug, PartialEq, Eq)]
pub struct WidenCase {
    pub table: Vec<u8>,
    pub new: Buffer,
}

impl WidenCase {
    pub fn check(&self, reached: &mut Reached) -> Result<(), String> {
        let mut ours = self.new.lend();
        let mut theirs = self.new.lend();
        // The library gets a copy, so that a write to it shows.
        let table = self.table.clone();
        let due = model::widen(&self.table, theirs.part_mut());
        let got = bridge::widen(&table, ours.part_mut());
        let differences = [
            difference("answer", got.answer, due.answer),
            difference("length", got.length as u64, due.length as u64),
        ];
        all_same(differences.into_iter().flatten().collect())?;
        ours.same(&theirs, "new buffer")?;
        if table != self.table {
            return Err("the table was written to".to_string());
        }
        reached.widened[due.answer as usize] += 1;
        Ok(())
    }

    pub fn smaller(&self) -> Vec<WidenCase> {
        let mut cases = Vec::new();
        for table in smaller_tables(48, &self.table) {
            let gone = self.table.len() - table.len();
            for length in [self.new.length, self.new.length.saturating_sub(gone)] {
                let new = Buffer { length, ..self.new };
                let table = table.clone();
                cases.push(WidenCase { table, new });
            }
        }
        cases
    }
}

impl fmt::Display for WidenCase {
    fn fmt(&self, f: &mut fmt::Formatter) -> fmt::Result {
        writeln!(f, "case widen")?;
        writeln!(f, "{}", bytes("table", &self.table))?;
        write!(f, "{}", buffer("new", &self.new))
    }
}
