//! Claimed tables after an event (document 02, Ask 8).

use crate::bounds::near;
use crate::record::{other_width, record};
use crate::table::{any_table, boundaries, long_table, removal};
use crate::Rng;
use model::Context;

/// A claimed table, made from the table before an event and from what the event
/// leaves of it: whole, with some records dropped, or wrong in one way or two.
pub fn claim(rng: &mut Rng, context: &Context, before: &[u8], left: &[u8]) -> Vec<u8> {
    let mut claim = match rng.below(12) {
        0 => left.to_vec(),
        1..=5 => removal(rng, left),
        // What the event should have taken may still be there.
        6 => before.to_vec(),
        7 => removal(rng, before),
        8 if rng.one_in(8) => long_table(rng, context),
        8 => any_table(rng, context),
        _ => {
            let claim = removal(rng, left);
            changed(rng, context, &claim)
        }
    };
    if rng.one_in(3) {
        claim = changed(rng, context, &claim);
    }
    claim
}

/// A table with a record doubled, swapped with another, moved, added or changed
/// in one field, with one bit altered, cut, or with rubbish added.
fn changed(rng: &mut Rng, context: &Context, table: &[u8]) -> Vec<u8> {
    let starts = boundaries(table);
    let part = |ends: &[usize]| table[ends[0]..ends[1]].to_vec();
    let mut records: Vec<Vec<u8>> = starts.windows(2).map(part).collect();
    if records.is_empty() {
        return if rng.one_in(2) {
            record(rng, context)
        } else {
            rubbish(rng)
        };
    }
    let (one, other) = (rng.below(records.len()), rng.below(records.len()));
    match rng.below(12) {
        0 => records.insert(one, records[one].clone()),
        1 => records.insert(other, records[one].clone()),
        2 => records.swap(one, other),
        3 => {
            let moved = records.remove(one);
            records.insert(other, moved);
        }
        4 => records.insert(one, record(rng, context)),
        5 => records.push(record(rng, context)),
        6 => records[one] = near(rng, &records[one]),
        7 => {
            let own = records[one].clone();
            records[one] = other_width(&own).unwrap_or(own);
        }
        8 => records.insert(one, rubbish(rng)),
        9 => records.push(rubbish(rng)),
        10 => {
            let mut bytes = table.to_vec();
            bytes.truncate(rng.below(table.len()));
            return bytes;
        }
        _ => {
            let mut bytes = table.to_vec();
            bytes[rng.below(table.len())] ^= 1 << rng.below(8);
            return bytes;
        }
    }
    records.concat()
}

/// Some bytes that are mostly no record.
fn rubbish(rng: &mut Rng) -> Vec<u8> {
    let count = 1 + rng.below(24);
    rng.bytes(count)
}
