//! Tables.

use crate::bounds::near;
use crate::damage::damage;
use crate::record::{other_width, page, record, record_of_kind};
use crate::Rng;
use common::{length, sibling, TABLE_LIMIT};
use model::Context;

/// A valid table of so many records; some stand twice.
pub fn table(rng: &mut Rng, context: &Context, count: usize) -> Vec<u8> {
    let mut table = Vec::new();
    let mut last = Vec::new();
    for _ in 0..count {
        if last.is_empty() || !rng.one_in(8) {
            last = record(rng, context);
        }
        table.extend_from_slice(&last);
    }
    table
}

/// A valid table of exactly so many bytes, at least 300.
pub fn full_table(rng: &mut Rng, context: &Context, length: usize) -> Vec<u8> {
    let mut table = Vec::with_capacity(length + 64);
    while table.len() + 300 < length {
        table.extend_from_slice(&record(rng, context));
    }
    while table.len() < length {
        let kind = filling_kind(context, length - table.len());
        table.extend_from_slice(&record_of_kind(rng, context, kind));
    }
    table
}

/// The kind of the next record where so many bytes, some 300 at most, are to be
/// filled to the last: kind 1 (17 bytes) until the rest is a multiple of kind 4's
/// 16, or their siblings of 18 and 17 bytes.
pub fn filling_kind(context: &Context, left: usize) -> u8 {
    let [long, short] = [1, 4].map(|kind| sibling(context.linear_width, kind));
    if left.is_multiple_of(length(short).unwrap_or(1)) {
        short
    } else {
        long
    }
}

/// A table that need not be valid: mostly it is, and then it is of any size
/// up to the limit.
pub fn any_table(rng: &mut Rng, context: &Context) -> Vec<u8> {
    let count = match rng.below(64) {
        0..=5 => 0,
        6..=50 => 1 + rng.below(8),
        51..=61 => 1 + rng.below(64),
        62 => 1 + rng.below(1_000),
        _ => {
            let length = TABLE_LIMIT - rng.pick(&[0, 0, 1, 15, 16, 17, 21, 22, 23]);
            return full_table(rng, context, length);
        }
    };
    let mut table = table(rng, context, count);
    if rng.one_in(24) {
        spoil_table(rng, context, &mut table);
    }
    table
}

/// Makes a table bad, or nearly so.
pub fn spoil_table(rng: &mut Rng, context: &Context, table: &mut Vec<u8>) {
    match rng.below(6) {
        0 => damage(rng, table),
        1 => {
            // One record of the other width, somewhere in the table.
            let record = record(rng, context);
            let at = boundary(rng, table);
            table.splice(at..at, other_width(&record).unwrap_or(record));
        }
        2 => *table = table_of_other_width(table),
        3 => {
            let count = 1 + rng.below(60);
            *table = rng.bytes(count);
        }
        _ => {
            // One record with one field at a bound, somewhere in the table.
            let record = record(rng, context);
            let at = boundary(rng, table);
            table.splice(at..at, near(rng, &record));
        }
    }
}

/// A valid table with all records at the other width.
fn table_of_other_width(table: &[u8]) -> Vec<u8> {
    let starts = boundaries(table);
    let records = starts.windows(2).map(|ends| &table[ends[0]..ends[1]]);
    let other = |record: &[u8]| other_width(record).unwrap_or(record.to_vec());
    records.flat_map(other).collect()
}

/// A table longer than the limit, valid but for its length or not.
pub fn long_table(rng: &mut Rng, context: &Context) -> Vec<u8> {
    let mut table = table(rng, context, 40);
    let part = table.clone();
    while table.len() <= TABLE_LIMIT {
        table.extend_from_slice(&part);
    }
    if rng.one_in(2) {
        // One byte too many.
        table.truncate(TABLE_LIMIT + 1);
    } else if rng.one_in(4) {
        table = full_table(rng, context, TABLE_LIMIT + 1);
    }
    table
}

/// Where records of a valid table start, and its end.
pub fn boundaries(table: &[u8]) -> Vec<usize> {
    let mut starts = vec![0];
    let mut at = 0;
    while at < table.len() {
        at += length(table[at]).unwrap_or(table.len());
        starts.push(at.min(table.len()));
    }
    starts
}

fn boundary(rng: &mut Rng, table: &[u8]) -> usize {
    let starts = boundaries(table);
    starts[rng.below(starts.len())]
}

/// The page of some record of a valid table; None if there is none.
pub fn page_of_some(rng: &mut Rng, table: &[u8]) -> Option<u64> {
    let start = boundary(rng, table);
    page(&table[start..])
}

/// A valid table with any whole records taken out, none and all included, as
/// a processor may between two events.
pub fn removal(rng: &mut Rng, table: &[u8]) -> Vec<u8> {
    let keep_of_eight = rng.pick(&[8, 8, 8, 7, 7, 4, 1, 0]);
    let starts = boundaries(table);
    let mut left = Vec::new();
    for ends in starts.windows(2) {
        if rng.below(8) < keep_of_eight {
            left.extend_from_slice(&table[ends[0]..ends[1]]);
        }
    }
    left
}
