//! One step of the library against the model's, without a tally and counted.

use crate::buffer::{Buffer, Lent, LentCounts};
use crate::case::smaller_tables;
use crate::difference::{all_same, context_differences, difference, kinds_differences};
use crate::expected;
use crate::reached::Reached;
use crate::text::{buffer, bytes, context, tally};
use bridge::{FlatContext, FlatStep};
use generate::SparseTally;
use std::fmt;

/// The inputs of one step.
#[derive(Clone, Debug, PartialEq, Eq)]
pub struct StepCase {
    pub context: FlatContext,
    /// Looked at by the counted step alone.
    pub tally: SparseTally,
    pub table: Vec<u8>,
    pub event: Vec<u8>,
    pub new: Buffer,
}

impl StepCase {
    pub fn check(&self, reached: &mut Reached) -> Result<(), String> {
        let new = self.new.lend();
        let (plain, plain_new) = self
            .check_plain(&new)
            .map_err(|why| format!("the plain step: {why}"))?;
        let (counted, counted_new) = self
            .check_counted(&new)
            .map_err(|why| format!("the counted step: {why}"))?;
        // With a tally that matches the two are the same.
        if counted.answer != 13 {
            let unlike = |why| format!("the counted step beside the plain one: {why}");
            same_step(&counted, &plain).map_err(unlike)?;
            counted_new.same(&plain_new, "new buffer").map_err(unlike)?;
        }
        let counts = reached.at(self.context.linear_width);
        counts.steps[plain.answer as usize] += 1;
        counts.rules[plain.rule as usize] += 1;
        counts.counted[counted.answer as usize] += 1;
        if counted.answer == 13 {
            counts.instead[plain.answer as usize] += 1;
        }
        if plain.answer == 0 {
            counts.accept(&self.event, plain.dropped);
        }
        Ok(())
    }

    /// The step without a tally: what the library gave, which is what is due.
    fn check_plain(&self, new: &Lent) -> Result<(FlatStep, Lent), String> {
        let (mut ours, mut theirs) = (new.clone(), new.clone());
        // The library gets copies, so that a write to them shows.
        let (table, event) = (self.table.clone(), self.event.clone());
        let due = expected::plain_step(&self.context, &self.table, &self.event, theirs.part_mut());
        let got = bridge::plain_step_flat(&self.context, &table, &event, ours.part_mut());
        same_step(&got, &due)?;
        ours.same(&theirs, "new buffer")?;
        self.unwritten(&table, &event)?;
        Ok((got, ours))
    }

    /// The counted step, likewise.
    fn check_counted(&self, new: &Lent) -> Result<(FlatStep, Lent), String> {
        let (mut ours, mut theirs) = (new.clone(), new.clone());
        let (table, event) = (self.table.clone(), self.event.clone());
        let mut tally = self.tally.tally();
        let mut pcids = LentCounts::new(&tally.pcids);
        let due = expected::step(
            &self.context,
            &mut tally,
            &self.table,
            &self.event,
            theirs.part_mut(),
        );
        let (got, kinds) = bridge::counted_step_lent(
            &self.context,
            &self.tally.kinds,
            pcids.part_mut(),
            &table,
            &event,
            ours.part_mut(),
        );
        same_step(&got, &due)?;
        all_same(kinds_differences(&kinds, &tally.kinds))?;
        pcids.same(&tally.pcids)?;
        ours.same(&theirs, "new buffer")?;
        self.unwritten(&table, &event)?;
        Ok((got, ours))
    }

    fn unwritten(&self, table: &[u8], event: &[u8]) -> Result<(), String> {
        if table != self.table || event != self.event {
            return Err("the table or the event was written to".to_string());
        }
        Ok(())
    }

    pub fn smaller(&self) -> Vec<StepCase> {
        let mut cases = Vec::new();
        let right = SparseTally::of(&self.table);
        for table in smaller_tables(self.context.linear_width, &self.table) {
            let gone = self.table.len() - table.len();
            let tally = as_wrong(&self.tally, &right, &SparseTally::of(&table));
            for length in [self.new.length, self.new.length.saturating_sub(gone)] {
                cases.push(StepCase {
                    tally: tally.clone(),
                    table: table.clone(),
                    new: Buffer { length, ..self.new },
                    ..self.clone()
                });
            }
        }
        if self.tally != right {
            cases.push(StepCase {
                tally: right,
                ..self.clone()
            });
        }
        cases
    }
}

/// A tally that is wrong beside a new right one as this one is beside the old:
/// each count is as much too large or too small.
fn as_wrong(tally: &SparseTally, old: &SparseTally, new: &SparseTally) -> SparseTally {
    let shifted = |count: u16, old: u16, new: u16| count.wrapping_sub(old).wrapping_add(new);
    let mut wrong = tally.clone();
    for (row, cells) in wrong.kinds.iter_mut().enumerate() {
        for (span, cell) in cells.iter_mut().enumerate() {
            *cell = shifted(*cell, old.kinds[row][span], new.kinds[row][span]);
        }
    }
    for pcid in old.pcids.keys().chain(new.pcids.keys()) {
        if *pcid < tally.length {
            let count = shifted(tally.at(*pcid), old.at(*pcid), new.at(*pcid));
            wrong.set(*pcid, count);
        }
    }
    wrong
}

impl fmt::Display for StepCase {
    fn fmt(&self, f: &mut fmt::Formatter) -> fmt::Result {
        writeln!(f, "case step")?;
        writeln!(f, "{}", context(&self.context))?;
        writeln!(f, "{}", tally(&self.tally))?;
        writeln!(f, "{}", bytes("table", &self.table))?;
        writeln!(f, "{}", bytes("event", &self.event))?;
        write!(f, "{}", buffer("new", &self.new))
    }
}

/// Compares what two steps report.
pub fn same_step(got: &FlatStep, due: &FlatStep) -> Result<(), String> {
    let numbers = [
        difference("answer", got.answer, due.answer),
        difference("rule", got.rule, due.rule),
        difference("length", got.length as u64, due.length as u64),
        difference("dropped", got.dropped as u64, due.dropped as u64),
    ];
    let mut differences: Vec<String> = numbers.into_iter().flatten().collect();
    differences.extend(context_differences(&got.context, &due.context));
    all_same(differences)
}
