//! Whole logs: the library's replay against the model's.

use crate::buffer::Buffer;
use crate::case::parts;
use crate::difference::{all_same, context_differences, difference};
use crate::expected;
use crate::reached::Reached;
use crate::text::{buffer, bytes, numbers};
use bridge::{lines, FlatReplayed};
use common::{LOG_LIMIT, ROW, TABLE_LIMIT};
use model::{Context, LinearWidth};
use std::fmt;

/// The inputs of a replay.
#[derive(Clone, Debug, PartialEq, Eq)]
pub struct ReplayCase {
    pub capability: u64,
    pub width: u64,
    pub linear_width: u64,
    pub log: Vec<u8>,
    pub first: Buffer,
    pub second: Buffer,
    pub rows: Buffer,
}

impl ReplayCase {
    pub fn check(&self, reached: &mut Reached) -> Result<(), String> {
        let lend = || [self.first.lend(), self.second.lend(), self.rows.lend()];
        let (mut ours, mut theirs) = (lend(), lend());
        let log = self.log.clone();
        let [a, b, rows] = &mut theirs;
        let due = expected::replay(
            self.capability,
            self.width,
            self.linear_width,
            &self.log,
            a.part_mut(),
            b.part_mut(),
            rows.part_mut(),
        );
        let [a, b, rows] = &mut ours;
        let got = bridge::replay_flat(
            self.capability,
            self.width,
            self.linear_width,
            &log,
            a.part_mut(),
            b.part_mut(),
            rows.part_mut(),
        );
        // The rows first: they say which event went wrong.
        ours[2].same(&theirs[2], "rows")?;
        same_end(&got, &due)?;
        ours[0].same(&theirs[0], "first buffer")?;
        ours[1].same(&theirs[1], "second buffer")?;
        if log != self.log {
            return Err("the log was written to".to_string());
        }
        let rows = lines(&ours[2].part()[..ROW * due.count]);
        if self.is_the_programs() {
            // With too few rows the program's first lines.
            let all = model::replay(&log).unwrap_or_default();
            let room = all.len().min(self.rows.length / ROW);
            if all[..room] != rows {
                return Err("the rows are not the model's lines".to_string());
            }
        }
        for row in &rows {
            reached.at(self.linear_width).rows[row.answer as usize] += 1;
        }
        reached.replays += 1;
        Ok(())
    }

    /// What the replay program would do with this log.
    fn is_the_programs(&self) -> bool {
        let start = Context::after_reset(self.capability, self.width, self.linear_width);
        start == Context::program()
            && self.log.len() <= LOG_LIMIT
            && self.first.length >= TABLE_LIMIT
            && self.second.length >= TABLE_LIMIT
    }

    pub fn smaller(&self) -> Vec<ReplayCase> {
        let starts = starts(self.linear_width, &self.log);
        let without = |part: std::ops::Range<usize>| {
            let mut log = self.log.clone();
            log.drain(starts[part.start]..starts[part.end]);
            ReplayCase {
                log,
                ..self.clone()
            }
        };
        parts(starts.len() - 1).into_iter().map(without).collect()
    }
}

/// Compares what two replays report.
fn same_end(got: &FlatReplayed, due: &FlatReplayed) -> Result<(), String> {
    let mut differences = context_differences(&got.context, &due.context);
    differences.extend(difference("length", got.length as u64, due.length as u64));
    differences.extend(difference("first", got.first, due.first));
    differences.extend(difference("count", got.count as u64, due.count as u64));
    all_same(differences)
}

/// Where the events of a log start at a linear width, and its end. From an
/// unknown kind or a cut record on all is one event.
pub fn starts(linear_width: u64, log: &[u8]) -> Vec<usize> {
    let width = LinearWidth::of(linear_width);
    let mut starts = vec![0];
    let mut at = 0;
    while at < log.len() {
        let event = model::replay::first_event(width, &log[at..]);
        at += event.map_or(log.len() - at, <[u8]>::len);
        starts.push(at);
    }
    starts
}

impl fmt::Display for ReplayCase {
    fn fmt(&self, f: &mut fmt::Formatter) -> fmt::Result {
        writeln!(f, "case replay")?;
        let start = [self.capability, self.width, self.linear_width];
        writeln!(f, "{}", numbers("start", &start))?;
        writeln!(f, "{}", bytes("log", &self.log))?;
        writeln!(f, "{}", buffer("first", &self.first))?;
        writeln!(f, "{}", buffer("second", &self.second))?;
        write!(f, "{}", buffer("rows", &self.rows))
    }
}
