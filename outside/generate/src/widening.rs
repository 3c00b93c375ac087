//! The inputs of one conversion of a 48-bit table (document 02, Ask 12).

use crate::context::context;
use crate::record::{record, record_of_kind};
use crate::table::{any_table, boundaries, filling_kind, full_table, long_table};
use crate::table::{spoil_table, table};
use crate::Rng;
use common::{hex, length, sibling, TABLE_LIMIT};
use model::Context;
use std::fmt;

/// The inputs of one conversion. `new` is the new buffer before it, full of
/// random bytes.
#[derive(Clone, Debug)]
pub struct Widening {
    pub table: Vec<u8>,
    pub new: Vec<u8>,
}

impl fmt::Display for Widening {
    fn fmt(&self, f: &mut fmt::Formatter) -> fmt::Result {
        writeln!(f, "table ({}): {}", self.table.len(), hex(&self.table))?;
        write!(f, "new buffer: {} bytes", self.new.len())
    }
}

/// The inputs of one conversion: tables of 48 bits, of the other width, spoiled
/// ones, and some whose result is about as long as a table may be.
pub fn widening(rng: &mut Rng) -> Widening {
    let table = table_to_widen(rng);
    let length = room(rng, &table);
    Widening {
        table,
        new: rng.bytes(length),
    }
}

fn table_to_widen(rng: &mut Rng) -> Vec<u8> {
    let at = |rng: &mut Rng, linear_width| Context {
        linear_width,
        ..context(rng)
    };
    let narrow = at(rng, 48);
    match rng.below(48) {
        0 | 1 => long_table(rng, &narrow),
        2 => {
            let less = rng.pick(&[0, 1, 17, 18, 18, 18, 18, 19, 35, 36]);
            table_of_result(rng, &narrow, TABLE_LIMIT + 18 - less)
        }
        3 => full_table(rng, &narrow, TABLE_LIMIT),
        4..=7 => {
            let count = 1 + rng.below(12);
            let mut table = table(rng, &narrow, count);
            spoil_table(rng, &narrow, &mut table);
            table
        }
        8 => {
            let wide = at(rng, 57);
            any_table(rng, &wide)
        }
        9..=11 => any_table(rng, &narrow),
        _ => {
            let count = rng.below(20);
            table(rng, &narrow, count)
        }
    }
}

/// A valid 48-bit table that is so many bytes long at 57 bits, 300 at least.
pub fn table_of_result(rng: &mut Rng, context: &Context, result: usize) -> Vec<u8> {
    let wide = Context {
        linear_width: 57,
        ..*context
    };
    let mut table = Vec::new();
    let mut left = result;
    while left > 0 {
        let record = if left > 300 {
            record(rng, context)
        } else {
            let kind = sibling(48, filling_kind(&wide, left));
            record_of_kind(rng, context, kind)
        };
        left -= widened_length(&record);
        table.extend_from_slice(&record);
    }
    table
}

/// The length of a 48-bit record at 57 bits.
fn widened_length(record: &[u8]) -> usize {
    length(sibling(57, record[0])).unwrap_or(record.len())
}

/// How long a 48-bit table is at 57 bits; a guess if it is not valid.
pub fn result_length(table: &[u8]) -> usize {
    let starts = boundaries(table);
    let records = starts.windows(2).map(|ends| &table[ends[0]..ends[1]]);
    records.map(widened_length).sum()
}

/// The length of the new buffer: mostly about that of the result.
fn room(rng: &mut Rng, table: &[u8]) -> usize {
    let result = result_length(table);
    match rng.below(12) {
        0 => 0,
        1 => table.len(),
        2 => rng.below(result + 1),
        3 | 4 => result.saturating_sub(1),
        5 => TABLE_LIMIT - 1,
        6 => TABLE_LIMIT,
        7 => TABLE_LIMIT + rng.below(100),
        8 | 9 => result,
        _ => result + rng.below(64),
    }
}
