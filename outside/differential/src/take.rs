//! Calls of a reader: one fragment, the end of the log and a reset of the reader,
//! by the library against the model's.

use crate::buffer::{Buffer, LentCounts};
use crate::case::smaller_tables;
use crate::difference::{all_same, difference, kinds_differences};
use crate::expected;
use crate::reached::Reached;
use crate::step::same_step;
use crate::text::{buffer, bytes, context, reader, tally};
use bridge::{Finished, FlatContext, Taken};
use generate::SparseTally;
use model::stream::Reader;
use std::fmt;

/// The inputs of a call with a fragment. The finish call and the reset get of these
/// what they take.
#[derive(Clone, Debug, PartialEq, Eq)]
pub struct TakeCase {
    pub reader: Reader,
    pub context: FlatContext,
    pub tally: SparseTally,
    pub table: Vec<u8>,
    pub fragment: Vec<u8>,
    pub new: Buffer,
}

impl TakeCase {
    pub fn check(&self, reached: &mut Reached) -> Result<(), String> {
        // The library gets copies, so that a write to them shows.
        let (table, fragment) = (self.table.clone(), self.fragment.clone());
        let (mut ours, mut theirs) = (self.new.lend(), self.new.lend());
        let mut due_tally = self.tally.tally();
        let mut pcids = LentCounts::new(&due_tally.pcids);
        let due = expected::take(
            &self.reader,
            &self.context,
            &mut due_tally,
            &self.table,
            &self.fragment,
            theirs.part_mut(),
        );
        let got = bridge::take_lent(
            &self.reader,
            &self.context,
            &self.tally.kinds,
            pcids.part_mut(),
            &table,
            &fragment,
            ours.part_mut(),
        );
        same_taken(&got, &due)?;
        pcids.same(&due_tally.pcids)?;
        ours.same(&theirs, "new buffer")?;
        let due_end = expected::finish(&self.reader, &self.context, &self.table);
        let end = bridge::finish(&self.reader, &self.context, &table);
        same_finished(&end, &due_end)?;
        let reset = bridge::reset_reader(&self.reader);
        all_same(reader_differences(&reset, &self.reader.reset()))
            .map_err(|why| format!("the reset: {why}"))?;
        if table != self.table || fragment != self.fragment {
            return Err("the table or the fragment was written to".to_string());
        }
        let ignored = expected::ignores(&self.reader, &self.context);
        let unknown = expected::is_unknown(&self.reader, &self.context, &self.fragment);
        let counts = &mut reached.at(self.context.linear_width).streams;
        counts.take(&self.reader, unknown, &got, ignored);
        counts.finish(&end, ignored);
        Ok(())
    }

    pub fn smaller(&self) -> Vec<TakeCase> {
        let mut cases = Vec::new();
        for table in smaller_tables(self.context.linear_width, &self.table) {
            cases.push(TakeCase {
                tally: SparseTally::of(&table),
                table,
                ..self.clone()
            });
        }
        for part in crate::case::parts(self.fragment.len()) {
            let mut fragment = self.fragment.clone();
            fragment.drain(part);
            cases.push(TakeCase {
                fragment,
                ..self.clone()
            });
        }
        cases
    }
}

/// Compares what two calls with a fragment report.
pub fn same_taken(got: &Taken, due: &Taken) -> Result<(), String> {
    let mut differences = reader_differences(&got.reader, &due.reader);
    differences.extend(difference("taken", got.taken as u64, due.taken as u64));
    differences.extend(difference("finished", got.finished, due.finished));
    differences.extend(kinds_differences(&got.kinds, &due.kinds));
    differences.extend(same_step(&got.step, &due.step).err());
    all_same(differences)
}

/// Compares what two finish calls report.
pub fn same_finished(got: &Finished, due: &Finished) -> Result<(), String> {
    let mut differences = reader_differences(&got.reader, &due.reader);
    differences.extend(difference("finished", got.finished, due.finished));
    differences.extend(difference("answer", got.answer, due.answer));
    all_same(differences).map_err(|why| format!("the finish call: {why}"))
}

/// What differs in two readers.
pub fn reader_differences(got: &Reader, due: &Reader) -> Vec<String> {
    let numbers = [
        difference("the line", got.line, due.line),
        difference("ignoring", got.ignoring, due.ignoring),
        difference("the length held", got.length, due.length),
    ];
    let mut differences: Vec<String> = numbers.into_iter().flatten().collect();
    if got.held != due.held {
        let [got, due] = [got, due].map(|reader| common::hex(&reader.held));
        differences.push(format!("{got} is held and should be {due}"));
    }
    differences
}

impl fmt::Display for TakeCase {
    fn fmt(&self, f: &mut fmt::Formatter) -> fmt::Result {
        writeln!(f, "case take")?;
        writeln!(f, "{}", reader(&self.reader))?;
        writeln!(f, "{}", context(&self.context))?;
        writeln!(f, "{}", tally(&self.tally))?;
        writeln!(f, "{}", bytes("table", &self.table))?;
        writeln!(f, "{}", bytes("fragment", &self.fragment))?;
        write!(f, "{}", buffer("new", &self.new))
    }
}
