//! The inputs of one export of a table as fixed rows, or of one import (document
//! 02, Ask 11).

use crate::bounds::{near_row, near_rows};
use crate::context::{context, BAD_LINEAR_WIDTHS};
use crate::damage::damage;
use crate::record::{other_width, record};
use crate::table::{any_table, boundaries, full_table, long_table, spoil_table, table};
use crate::Rng;
use common::{fixed_row, hex, length, FIXED_ROW, LINEAR_WIDTHS, TABLE_LIMIT};
use model::Context;
use std::fmt;

/// The inputs of one call. `output` is the buffer before it, full of random bytes.
#[derive(Clone, Debug)]
pub struct RowsCall {
    pub linear_width: u64,
    /// The table of an export, the rows of an import.
    pub input: Vec<u8>,
    pub output: Vec<u8>,
}

impl fmt::Display for RowsCall {
    fn fmt(&self, f: &mut fmt::Formatter) -> fmt::Result {
        writeln!(f, "linear width: {:#x}", self.linear_width)?;
        writeln!(f, "input ({}): {}", self.input.len(), hex(&self.input))?;
        write!(f, "output: {} bytes", self.output.len())
    }
}

/// A call at the context's linear width, or now and then at the other one or at one
/// that is none.
fn call(rng: &mut Rng, context: &Context, input: Vec<u8>, room: usize) -> RowsCall {
    RowsCall {
        linear_width: match rng.below(32) {
            0 => rng.pick(&LINEAR_WIDTHS),
            1 | 2 => rng.pick(&BAD_LINEAR_WIDTHS),
            _ => context.linear_width,
        },
        input,
        output: rng.bytes(room),
    }
}

/// The inputs of one export: valid tables of any length, spoiled ones, ones that are
/// too long, and buffers about as long as the rows.
pub fn export(rng: &mut Rng) -> RowsCall {
    let context = context(rng);
    let table = match rng.below(48) {
        0 | 1 => long_table(rng, &context),
        2 => full_table(rng, &context, TABLE_LIMIT),
        3..=7 => {
            let count = 1 + rng.below(12);
            let mut table = table(rng, &context, count);
            spoil_table(rng, &context, &mut table);
            table
        }
        8..=11 => any_table(rng, &context),
        _ => {
            let count = rng.below(20);
            table(rng, &context, count)
        }
    };
    let result = FIXED_ROW * (boundaries(&table).len() - 1);
    let room = room(rng, result);
    call(rng, &context, table, room)
}

/// The inputs of one import: rows of valid records, some with one row spoiled, of a
/// length that is no multiple of a row's, or more than a table has room for.
pub fn import(rng: &mut Rng) -> RowsCall {
    let context = context(rng);
    let mut rows = match rng.below(48) {
        0 => {
            // As long as a table may be, and some with a record too many.
            let less = rng.pick(&[0, 0, 1, 15, 16, 17, 18, 23]);
            let mut table = full_table(rng, &context, TABLE_LIMIT - less);
            if rng.one_in(2) {
                table.extend(record(rng, &context));
            }
            rows_of(&table)
        }
        1 => {
            let count = rng.below(100);
            rng.bytes(count)
        }
        _ => {
            let count = rng.below(12);
            rows_of(&table(rng, &context, count))
        }
    };
    let result = table_length(&rows);
    if !rows.is_empty() {
        match rng.below(8) {
            0 | 1 => spoil_row(rng, &context, &mut rows),
            2 => damage(rng, &mut rows),
            _ => {}
        }
    }
    let room = room(rng, result);
    call(rng, &context, rows, room)
}

/// One row with a field changed, or of the other width; now and then a second one
/// too, so that the first of them is told.
fn spoil_row(rng: &mut Rng, context: &Context, rows: &mut [u8]) {
    let count = rows.len() / FIXED_ROW;
    for _ in 0..rng.pick(&[1, 1, 2]) {
        let Some(nth) = count.checked_sub(1).map(|last| rng.below(last + 1)) else {
            return;
        };
        let row = &mut rows[nth * FIXED_ROW..(nth + 1) * FIXED_ROW];
        let changed = if rng.one_in(6) {
            let record = record(rng, context);
            fixed_row(&other_width(&record).unwrap_or(record)).unwrap_or_default()
        } else {
            near_row(rng, row)
        };
        row.copy_from_slice(&changed);
    }
}

/// The length of a buffer: mostly about that of the result.
fn room(rng: &mut Rng, result: usize) -> usize {
    match rng.below(12) {
        0 => 0,
        1 => rng.below(result + 1),
        2 | 3 => result.saturating_sub(1),
        4 => TABLE_LIMIT,
        5 => 2 * TABLE_LIMIT + rng.below(100),
        6..=8 => result,
        _ => result + rng.below(64),
    }
}

/// The rows of a valid table, one for each record.
pub fn rows_of(table: &[u8]) -> Vec<u8> {
    let starts = boundaries(table);
    let records = starts.windows(2).map(|ends| &table[ends[0]..ends[1]]);
    records.filter_map(fixed_row).flatten().collect()
}

/// How long the table of some rows is; a guess if they are not valid.
pub fn table_length(rows: &[u8]) -> usize {
    let kinds = rows.chunks(FIXED_ROW).map(|row| row[0]);
    kinds.filter_map(length).sum()
}

/// Rows with each row in turn one field away from its own.
pub fn near_imports(rows: &[u8]) -> Vec<Vec<u8>> {
    let mut near = Vec::new();
    for start in (0..rows.len()).step_by(FIXED_ROW) {
        for row in near_rows(&rows[start..start + FIXED_ROW]) {
            let mut changed = rows.to_vec();
            changed[start..start + FIXED_ROW].copy_from_slice(&row);
            near.push(changed);
        }
    }
    near
}
