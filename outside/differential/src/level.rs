//! One step of two levels, and lookups in both, by the library against the model's.

use crate::buffer::{Buffer, LentCounts};
use crate::case::smaller_tables;
use crate::difference::{all_same, context_differences, difference, kinds_differences};
use crate::expected;
use crate::reached::Reached;
use crate::text::{buffer, bytes, context, numbers, tally};
use bridge::{FlatContext, LentLevel, LevelStep};
use generate::SparseTally;
use std::fmt;

/// One level of a step.
#[derive(Clone, Debug, PartialEq, Eq)]
pub struct LevelInput {
    pub tally: SparseTally,
    pub table: Vec<u8>,
    pub new: Buffer,
}

/// The inputs of one step of both levels.
#[derive(Clone, Debug, PartialEq, Eq)]
pub struct LevelCase {
    pub context: FlatContext,
    pub event: Vec<u8>,
    pub levels: [LevelInput; 2],
}

impl LevelCase {
    pub fn check(&self, reached: &mut Reached) -> Result<(), String> {
        // The library gets copies, so that a write to them shows.
        let lent = self.clone();
        let lend = || [0, 1].map(|nth: usize| self.levels[nth].new.lend());
        let (mut ours, mut theirs) = (lend(), lend());
        let mut tallies = [0, 1].map(|nth: usize| self.levels[nth].tally.tally());
        let mut pcids = [0, 1].map(|nth: usize| LentCounts::new(&tallies[nth].pcids));
        let due = {
            let [new, second] = &mut theirs;
            let [own, other] = &mut tallies;
            expected::step_levels(
                &self.context,
                &self.event,
                (own, &self.levels[0].table, new.part_mut()),
                (other, &self.levels[1].table, second.part_mut()),
            )
        };
        let got = {
            let [new, second] = &mut ours;
            let [own, other] = &mut pcids;
            let level = |nth: usize, pcids, new| LentLevel {
                kinds: lent.levels[nth].tally.kinds,
                pcids,
                table: &lent.levels[nth].table,
                new,
            };
            bridge::step_levels_lent(
                &lent.context,
                &lent.event,
                level(0, own.part_mut(), new.part_mut()),
                level(1, other.part_mut(), second.part_mut()),
            )
        };
        same_level_step(&got, &due)?;
        for (nth, name) in NAMES.into_iter().enumerate() {
            let at = |why| format!("{name}: {why}");
            pcids[nth].same(&tallies[nth].pcids).map_err(at)?;
            ours[nth].same(&theirs[nth], "new buffer").map_err(at)?;
        }
        if lent != *self {
            return Err("a table or the event was written to".to_string());
        }
        let alone = [0, 1].map(|nth: usize| {
            let level = &self.levels[nth];
            let mut new = level.new.lend();
            let mut own = level.tally.tally();
            let (table, new) = (&level.table, new.part_mut());
            expected::step(&self.context, &mut own, table, &self.event, new).answer
        });
        let counts = &mut reached.at(self.context.linear_width).levels;
        counts.pairs[alone[0] as usize][alone[1] as usize] += 1;
        counts.rules[due.rule as usize] += 1;
        let [one, other] = due.levels.map(|level| level.dropped);
        counts.dropped_apart += u64::from(one != other);
        Ok(())
    }

    pub fn smaller(&self) -> Vec<LevelCase> {
        let mut cases = Vec::new();
        for nth in 0..2 {
            for table in smaller_tables(self.context.linear_width, &self.levels[nth].table) {
                let mut case = self.clone();
                case.levels[nth].tally = SparseTally::of(&table);
                case.levels[nth].table = table;
                cases.push(case);
            }
        }
        cases
    }
}

pub const NAMES: [&str; 2] = ["the first level", "the second level"];

/// Compares what two steps of both levels report.
pub fn same_level_step(got: &LevelStep, due: &LevelStep) -> Result<(), String> {
    let mut differences = context_differences(&got.context, &due.context);
    differences.extend(difference("answer", got.answer, due.answer));
    differences.extend(difference("rule", got.rule, due.rule));
    for (nth, name) in NAMES.into_iter().enumerate() {
        let (got, due) = (&got.levels[nth], &due.levels[nth]);
        let numbers = [
            difference("length", got.length as u64, due.length as u64),
            difference("dropped", got.dropped as u64, due.dropped as u64),
        ];
        let own = numbers.into_iter().flatten();
        let own = own.chain(kinds_differences(&got.kinds, &due.kinds));
        differences.extend(own.map(|why| format!("{name}: {why}")));
    }
    all_same(differences)
}

impl fmt::Display for LevelCase {
    fn fmt(&self, f: &mut fmt::Formatter) -> fmt::Result {
        writeln!(f, "case level")?;
        writeln!(f, "{}", context(&self.context))?;
        write!(f, "{}", bytes("event", &self.event))?;
        for level in &self.levels {
            write!(f, "\n{}", tally(&level.tally))?;
            write!(f, "\n{}", bytes("table", &level.table))?;
            write!(f, "\n{}", buffer("new", &level.new))?;
        }
        Ok(())
    }
}

/// The inputs of a lookup in both levels.
#[derive(Clone, Debug, PartialEq, Eq)]
pub struct LevelLookupCase {
    pub context: FlatContext,
    pub tables: [Vec<u8>; 2],
    pub address: u64,
}

impl LevelLookupCase {
    pub fn check(&self, reached: &mut Reached) -> Result<(), String> {
        let lent = self.clone();
        let [first, second] = &self.tables;
        let due = expected::lookup_levels(&self.context, first, second, self.address);
        let [first, second] = &lent.tables;
        let got = bridge::lookup_levels(&lent.context, first, second, lent.address);
        if got != due {
            return Err(format!("found {got:?} and should be {due:?}"));
        }
        if lent != *self {
            return Err("a table was written to".to_string());
        }
        let answers = [first, second].map(|table| {
            let address = model::Address::Linear(self.address);
            expected::usable(&self.context, table, address).0
        });
        let counts = &mut reached.at(self.context.linear_width).levels;
        counts.lookups[answers[0] as usize][answers[1] as usize] += 1;
        counts.found[due.level as usize] += u64::from(due.answer == 0);
        counts.behind += u64::from(due.start > 0);
        Ok(())
    }

    pub fn smaller(&self) -> Vec<LevelLookupCase> {
        let mut cases = Vec::new();
        for nth in 0..2 {
            for table in smaller_tables(self.context.linear_width, &self.tables[nth]) {
                let mut case = self.clone();
                case.tables[nth] = table;
                cases.push(case);
            }
        }
        cases
    }
}

impl fmt::Display for LevelLookupCase {
    fn fmt(&self, f: &mut fmt::Formatter) -> fmt::Result {
        writeln!(f, "case level-lookup")?;
        writeln!(f, "{}", context(&self.context))?;
        writeln!(f, "{}", bytes("table", &self.tables[0]))?;
        writeln!(f, "{}", bytes("table", &self.tables[1]))?;
        write!(f, "{}", numbers("linear", &[self.address]))
    }
}
