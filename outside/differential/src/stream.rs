//! Whole logs in fragments, through two buffers and with a tally: the library's
//! reader against the model's, and against the library's replay of the whole log.

use crate::buffer::{same_counts, Buffer, Lent};
use crate::case::parts;
use crate::difference::{all_same, context_differences};
use crate::expected;
use crate::reached::Reached;
use crate::take::{reader_differences, same_finished, same_taken};
use crate::text::{buffer, bytes, numbers};
use bridge::{Finished, FlatContext, FlatStep, Taken};
use common::ROW;
use model::stream::Reader;
use model::{Context, Line, Tally};
use std::fmt;

/// The inputs of a log in fragments.
#[derive(Clone, Debug, PartialEq, Eq)]
pub struct StreamCase {
    pub capability: u64,
    pub width: u64,
    pub linear_width: u64,
    /// The reader's line at the start.
    pub line: u64,
    pub first: Buffer,
    pub second: Buffer,
    pub calls: Vec<Call>,
}

/// What is done with the reader.
#[derive(Clone, Debug, PartialEq, Eq)]
pub enum Call {
    /// Handed in again until all of it is taken.
    Fragment(Vec<u8>),
    Finish,
    Reset,
}

type Taker = fn(&Reader, &FlatContext, &mut Tally, &[u8], &[u8], &mut [u8]) -> Taken;
type Finisher = fn(&Reader, &FlatContext, &[u8]) -> Finished;

/// One run: its reader, its context, and the table in force, in one of two buffers,
/// with its tally; and what it has reported.
struct Side {
    reader: Reader,
    context: FlatContext,
    tally: Tally,
    buffers: [Lent; 2],
    now: usize,
    length: usize,
    lines: Vec<Line>,
}

impl Side {
    fn new(case: &StreamCase) -> Side {
        Side {
            reader: Reader {
                line: case.line,
                ..Reader::new()
            },
            context: bridge::flat(&case.start()),
            tally: Tally::empty(),
            buffers: [case.first.lend(), case.second.lend()],
            now: 0,
            length: 0,
            lines: Vec::new(),
        }
    }

    fn table(&self) -> &[u8] {
        &self.buffers[self.now].part()[..self.length]
    }

    fn take(&mut self, fragment: &[u8], take: Taker) -> Taken {
        let [a, b] = &mut self.buffers;
        let (old, new) = if self.now == 0 { (a, b) } else { (b, a) };
        let taken = take(
            &self.reader,
            &self.context,
            &mut self.tally,
            &old.part()[..self.length],
            fragment,
            new.part_mut(),
        );
        self.reader = taken.reader;
        if taken.finished == 1 {
            self.accept(&taken.step);
            self.line(taken.step.answer, taken.step.dropped);
        }
        taken
    }

    fn accept(&mut self, step: &FlatStep) {
        self.context = step.context;
        if step.answer == 0 {
            self.now = 1 - self.now;
            self.length = step.length;
        }
    }

    fn line(&mut self, answer: u64, dropped: usize) {
        self.lines.push(Line {
            number: self.reader.line,
            answer,
            dropped,
            length: self.length,
        });
    }

    fn finish(&mut self, finish: Finisher) -> Finished {
        let finished = finish(&self.reader, &self.context, self.table());
        self.reader = finished.reader;
        if finished.finished == 1 {
            self.line(finished.answer, 0);
        }
        finished
    }
}

impl StreamCase {
    fn start(&self) -> Context {
        Context::after_reset(self.capability, self.width, self.linear_width)
    }

    pub fn check(&self, reached: &mut Reached) -> Result<(), String> {
        let (mut ours, mut theirs) = (Side::new(self), Side::new(self));
        for (number, call) in self.calls.iter().enumerate() {
            let at = |why: String| format!("at call {}: {why}", number + 1);
            match call {
                Call::Fragment(fragment) => {
                    self.take(&mut ours, &mut theirs, fragment, reached)
                        .map_err(at)?;
                }
                Call::Finish => {
                    let ignored = expected::ignores(&theirs.reader, &theirs.context);
                    let due = theirs.finish(expected::finish);
                    let got = ours.finish(bridge::finish);
                    same_finished(&got, &due).map_err(at)?;
                    reached.at(self.linear_width).streams.finish(&got, ignored);
                }
                Call::Reset => {
                    theirs.reader = theirs.reader.reset();
                    ours.reader = bridge::reset_reader(&ours.reader);
                    all_same(reader_differences(&ours.reader, &theirs.reader)).map_err(at)?;
                }
            }
            for (nth, name) in [(0, "first buffer"), (1, "second buffer")] {
                ours.buffers[nth]
                    .same(&theirs.buffers[nth], name)
                    .map_err(at)?;
            }
            same_counts(&ours.tally.pcids, &theirs.tally.pcids).map_err(at)?;
        }
        if let Some(log) = self.log() {
            self.as_the_whole_log(&log, &ours)?;
        }
        reached.streams += 1;
        Ok(())
    }

    /// A fragment, call by call until all of it is taken; once at least.
    fn take(
        &self,
        ours: &mut Side,
        theirs: &mut Side,
        fragment: &[u8],
        reached: &mut Reached,
    ) -> Result<(), String> {
        let mut rest = fragment;
        loop {
            let before = theirs.reader;
            let ignored = expected::ignores(&before, &theirs.context);
            let unknown = expected::is_unknown(&before, &theirs.context, rest);
            let due = theirs.take(rest, expected::take);
            let got = ours.take(rest, library);
            same_taken(&got, &due)?;
            let counts = &mut reached.at(self.linear_width).streams;
            counts.take(&before, unknown, &got, ignored);
            rest = &rest[due.taken..];
            if rest.is_empty() {
                return Ok(());
            }
            if due.taken == 0 {
                return Err("the model takes nothing".to_string());
            }
        }
    }

    /// The log, if its fragments and one finish call are all, from line 0.
    fn log(&self) -> Option<Vec<u8>> {
        let (Call::Finish, fragments) = self.calls.split_last()? else {
            return None;
        };
        let mut log = Vec::new();
        for call in fragments {
            let Call::Fragment(fragment) = call else {
                return None;
            };
            log.extend_from_slice(fragment);
        }
        (self.line == 0).then_some(log)
    }

    /// Answers, counts, table and context are those of the whole log, begun alike
    /// and with buffers as long.
    fn as_the_whole_log(&self, log: &[u8], ours: &Side) -> Result<(), String> {
        let (mut first, mut second) = (self.first.lend(), self.second.lend());
        let mut rows = vec![0; ROW * log.len()];
        let end = bridge::replay_flat(
            self.capability,
            self.width,
            self.linear_width,
            log,
            first.part_mut(),
            second.part_mut(),
            &mut rows,
        );
        let lines = bridge::lines(&rows[..ROW * end.count]);
        if lines != ours.lines {
            let same = |(own, whole): &(&Line, &Line)| own == whole;
            let count = ours.lines.iter().zip(&lines).take_while(same).count();
            let [own, whole] = [&ours.lines, &lines].map(|lines| lines.get(count));
            return Err(format!("line {own:?}, and of the whole log {whole:?}"));
        }
        all_same(context_differences(&ours.context, &end.context))?;
        let table = if end.first == 1 { first } else { second };
        if table.part()[..end.length] != *ours.table() {
            return Err("the table is not that of the whole log".to_string());
        }
        Ok(())
    }

    pub fn smaller(&self) -> Vec<StreamCase> {
        let without = |part: std::ops::Range<usize>| {
            let mut calls = self.calls.clone();
            calls.drain(part);
            StreamCase {
                calls,
                ..self.clone()
            }
        };
        parts(self.calls.len()).into_iter().map(without).collect()
    }
}

/// The library's call on the model's tally.
fn library(
    reader: &Reader,
    context: &FlatContext,
    tally: &mut Tally,
    table: &[u8],
    fragment: &[u8],
    new: &mut [u8],
) -> Taken {
    let Tally { kinds, pcids } = tally;
    let taken = bridge::take_lent(reader, context, kinds, pcids, table, fragment, new);
    *kinds = taken.kinds;
    taken
}

impl fmt::Display for StreamCase {
    fn fmt(&self, f: &mut fmt::Formatter) -> fmt::Result {
        writeln!(f, "case stream")?;
        let start = [self.capability, self.width, self.linear_width];
        writeln!(f, "{}", numbers("start", &start))?;
        writeln!(f, "{}", numbers("line", &[self.line]))?;
        writeln!(f, "{}", buffer("first", &self.first))?;
        writeln!(f, "{}", buffer("second", &self.second))?;
        for call in &self.calls {
            match call {
                Call::Fragment(fragment) => writeln!(f, "{}", bytes("fragment", fragment))?,
                Call::Finish => writeln!(f, "finish")?,
                Call::Reset => writeln!(f, "reset")?,
            }
        }
        write!(f, "end")
    }
}
