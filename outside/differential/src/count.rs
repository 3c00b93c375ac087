//! A fresh count of the library against the model's.

use crate::buffer::Buffer;
use crate::case::smaller_tables;
use crate::difference::{all_same, difference, kinds_differences};
use crate::expected;
use crate::reached::Reached;
use crate::text::{buffer, bytes, numbers};
use model::{Kinds, Tally};
use std::fmt;

/// The inputs of one fresh count.
#[derive(Clone, Debug, PartialEq, Eq)]
pub struct CountCase {
    pub linear_width: u64,
    pub table: Vec<u8>,
    /// The list of PCIDs' counts before the call.
    pub pcids: Buffer,
}

impl CountCase {
    pub fn check(&self, reached: &mut Reached) -> Result<(), String> {
        let mut ours = self.pcids.lend_counts();
        let untouched = ours.part_mut().to_vec();
        // The library gets a copy, so that a write to it shows.
        let table = self.table.clone();
        let due = expected::count(self.linear_width, &self.table, self.pcids.length);
        let (answer, kinds) = bridge::count_lent(self.linear_width, &table, ours.part_mut());
        let (due_answer, due) = match due {
            Ok(tally) => (0, tally),
            Err(answer) => {
                let kinds = Kinds::default();
                let pcids = untouched;
                (answer, Tally { kinds, pcids })
            }
        };
        let mut differences = kinds_differences(&kinds, &due.kinds);
        differences.extend(difference("answer", answer, due_answer));
        all_same(differences)?;
        ours.same(&due.pcids)?;
        if table != self.table {
            return Err("the table was written to".to_string());
        }
        reached.at(self.linear_width).counts[due_answer as usize] += 1;
        Ok(())
    }

    pub fn smaller(&self) -> Vec<CountCase> {
        let with = |table| CountCase {
            table,
            ..self.clone()
        };
        let tables = smaller_tables(self.linear_width, &self.table);
        tables.into_iter().map(with).collect()
    }
}

impl fmt::Display for CountCase {
    fn fmt(&self, f: &mut fmt::Formatter) -> fmt::Result {
        writeln!(f, "case count")?;
        writeln!(f, "{}", numbers("width", &[self.linear_width]))?;
        writeln!(f, "{}", bytes("table", &self.table))?;
        write!(f, "{}", buffer("pcids", &self.pcids))
    }
}
