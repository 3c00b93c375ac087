//! Replays of whole logs.

use crate::logs::Log;
use crate::measure::{time, Buffers, Calls, Item, Shared};
use crate::rows::{Row, What};
use bridge::FlatReplayed;
use common::{PROGRAM_CAPABILITY, PROGRAM_LINEAR_WIDTH, PROGRAM_WIDTH, ROW};
use model::{tuned, Context, Line};
use std::hint::black_box;
use std::mem::swap;
use std::rc::Rc;

/// The replay of a log. Its plain copy is that of each event's old table.
pub fn item(log: Log, buffers: &Buffers, others: &Buffers) -> Result<Item, String> {
    let due = expected(&log.bytes, buffers, others);
    agree(&log, &due, buffers, others)?;
    let (lengths, events) = (due.old_lengths(), due.lines.len());
    let bytes = Rc::new(log.bytes);
    let [a, c, e] = buffers.0.clone();
    let [b, d, f] = others.0.clone();
    Ok(Item {
        row: Row {
            what: What::Replay,
            family: log.name.to_string(),
            table: String::new(),
            records: 0,
            bytes: bytes.len(),
            events,
            times: [f64::INFINITY; 3],
        },
        calls: [
            library(bytes.clone(), a, b, events),
            tuned_model(bytes, c, d, events),
            plain_copy(lengths, e, f),
        ],
    })
}

/// What the tuned model reports and leaves of a log.
struct Expected {
    lines: Vec<Line>,
    table: Vec<u8>,
}

impl Expected {
    /// The length of each event's old table.
    fn old_lengths(&self) -> Vec<usize> {
        let mut lengths = vec![0];
        lengths.extend(self.lines.iter().map(|line| line.length));
        lengths.pop();
        lengths
    }

    fn rows(&self) -> Vec<u8> {
        let mut rows = vec![0; ROW * self.lines.len()];
        for line in &self.lines {
            write_row(&mut rows, *line);
        }
        rows
    }
}

/// The table in force changes its buffer at each accepted event.
fn expected(log: &[u8], buffers: &Buffers, others: &Buffers) -> Expected {
    let mut first = buffers.0[1].borrow_mut();
    let mut second = others.0[1].borrow_mut();
    let mut lines = Vec::new();
    let start = Context::program();
    tuned::replay(&start, log, &mut first, &mut second, |line| {
        lines.push(line);
    });
    let accepted = lines.iter().filter(|line| line.answer == 0).count();
    let table = if accepted % 2 == 0 { &first } else { &second };
    let length = lines.last().map_or(0, |line| line.length);
    Expected {
        table: table[..length].to_vec(),
        lines,
    }
}

/// The library's rows and its last table are the tuned model's.
fn agree(log: &Log, due: &Expected, buffers: &Buffers, others: &Buffers) -> Result<(), String> {
    let mut first = buffers.0[0].borrow_mut();
    let mut second = others.0[0].borrow_mut();
    let mut rows = vec![0xA5; ROW * due.lines.len()];
    let end = replay(&log.bytes, &mut first, &mut second, &mut rows);
    let table = if end.first == 1 { &first } else { &second };
    let name = log.name;
    if rows != due.rows() || end.count != due.lines.len() {
        return Err(format!("{name}: the library's rows are not the model's"));
    }
    if table[..end.length] != due.table {
        return Err(format!("{name}: the library's table is not the model's"));
    }
    Ok(())
}

fn write_row(rows: &mut [u8], line: Line) {
    let at = ROW * (line.number as usize - 1);
    let numbers = [line.answer, line.dropped as u64, line.length as u64];
    common::write_row(&mut rows[at..at + ROW], numbers);
}

fn replay(log: &[u8], first: &mut [u8], second: &mut [u8], rows: &mut [u8]) -> FlatReplayed {
    bridge::replay_flat(
        PROGRAM_CAPABILITY,
        PROGRAM_WIDTH,
        PROGRAM_LINEAR_WIDTH,
        log,
        first,
        second,
        rows,
    )
}

fn library(log: Rc<Vec<u8>>, first: Shared, second: Shared, events: usize) -> Calls {
    let mut rows = vec![0xA5; ROW * events];
    Box::new(move || {
        let mut first = first.borrow_mut();
        let mut second = second.borrow_mut();
        time(events, || {
            black_box(replay(&log, &mut first, &mut second, &mut rows));
        })
    })
}

fn tuned_model(log: Rc<Vec<u8>>, old: Shared, new: Shared, events: usize) -> Calls {
    let mut rows = vec![0xA5; ROW * events];
    Box::new(move || {
        let mut old = old.borrow_mut();
        let mut new = new.borrow_mut();
        time(events, || {
            let each = |line| write_row(&mut rows, line);
            let start = Context::program();
            black_box(tuned::replay(&start, &log, &mut old, &mut new, each));
        })
    })
}

fn plain_copy(lengths: Vec<usize>, old: Shared, new: Shared) -> Calls {
    Box::new(move || {
        let mut old = old.borrow_mut();
        let mut new = new.borrow_mut();
        time(lengths.len(), || {
            for length in &lengths {
                new[..*length].copy_from_slice(black_box(&old[..*length]));
                swap(&mut *old, &mut *new);
            }
        })
    })
}
