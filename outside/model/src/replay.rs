//! The replay program: a whole log from a reset.

use crate::address::LinearWidth;
use crate::context::Context;
use crate::event;
use crate::step::step;
use crate::{LOG_LIMIT, TABLE_LIMIT};
use std::fmt;

/// One line of the program's output.
#[derive(Clone, Copy, Debug, PartialEq, Eq)]
pub struct Line {
    /// The event's number, from 1.
    pub number: u64,
    pub answer: u64,
    pub dropped: usize,
    /// The length of the table in force after the event.
    pub length: usize,
}

impl fmt::Display for Line {
    fn fmt(&self, f: &mut fmt::Formatter) -> fmt::Result {
        write!(
            f,
            "{} {} {} {}",
            self.number, self.answer, self.dropped, self.length
        )
    }
}

/// The first event of a log at a width, by its kind's length. None for an
/// unknown kind, which those of the other width are, or a cut record, where a
/// run ends.
pub fn first_event(width: LinearWidth, log: &[u8]) -> Option<&[u8]> {
    log.get(..event::length(width, *log.first()?)?)
}

/// The lines that the program prints for a log; None if it is too long.
pub fn replay(log: &[u8]) -> Option<Vec<Line>> {
    (log.len() <= LOG_LIMIT).then(|| lines(&Context::program(), log))
}

/// The lines of a log of any length, from any context and an empty table.
pub fn lines(start: &Context, log: &[u8]) -> Vec<Line> {
    let mut context = *start;
    let mut table = Vec::new();
    let mut lines = Vec::new();
    let mut rest = log;
    while !rest.is_empty() {
        // Of an unknown kind or a cut record the step gets all that is left,
        // and answers 4.
        let known = first_event(context.linear(), rest);
        let event = known.unwrap_or(rest);
        let mut new = vec![0; TABLE_LIMIT];
        let step = step(&context, &table, event, &mut new);
        if step.answer == 0 {
            context = step.context;
            new.truncate(step.length);
            table = new;
        }
        lines.push(Line {
            number: lines.len() as u64 + 1,
            answer: step.answer,
            dropped: step.dropped,
            length: table.len(),
        });
        if known.is_none() || step.answer == 2 || step.answer == 3 {
            break;
        }
        rest = &rest[event.len()..];
    }
    lines
}

/// The program's output, as bytes would stand on standard output.
pub fn print(lines: Option<&[Line]>) -> String {
    match lines {
        None => "too long\n".to_string(),
        Some(lines) => lines.iter().map(|line| format!("{line}\n")).collect(),
    }
}
