//! The converter: a stored 48-bit table at 57 bits (document 02, Ask 12).

use crate::address::LinearWidth;
use crate::mapping::{records, Mapping};
use crate::TABLE_LIMIT;

/// What the converter hands back: 0, 2, 3 or 12, and the new table's length,
/// which is 0 on a refusal.
#[derive(Clone, Copy, Debug, PartialEq, Eq)]
pub struct Widened {
    pub answer: u64,
    pub length: usize,
}

impl Widened {
    pub fn refused(answer: u64) -> Widened {
        Widened { answer, length: 0 }
    }
}

/// Rewrites a 48-bit table, record by record in order, to the start of `new`;
/// bytes past it stay. A refusal writes nothing.
pub fn widen(table: &[u8], new: &mut [u8]) -> Widened {
    if table.len() > TABLE_LIMIT {
        return Widened::refused(2);
    }
    let Some(records) = records(LinearWidth::Bits48, table) else {
        return Widened::refused(3);
    };
    let mut wide = Vec::new();
    for (place, mapping) in records {
        wide.extend(widened(&table[place], &mapping));
    }
    if wide.len() > TABLE_LIMIT || wide.len() > new.len() {
        return Widened::refused(12);
    }
    new[..wide.len()].copy_from_slice(&wide);
    Widened {
        answer: 0,
        length: wide.len(),
    }
}

/// One record: kinds 1, 3, 4 and 6 get the kind of their sibling and a page of
/// 6 bytes; kinds 2 and 5 stay as they are.
fn widened(record: &[u8], mapping: &Mapping) -> Vec<u8> {
    let (kind, page_at) = match mapping.kind {
        1 => (7, 7),
        3 => (8, 7),
        4 => (9, 6),
        6 => (10, 6),
        _ => return record.to_vec(),
    };
    let page = widened_page(mapping.page).to_le_bytes();
    [
        &[kind],
        &record[1..page_at],
        &page[..6],
        &record[page_at + 5..],
    ]
    .concat()
}

/// A page of the upper half, 2^35 or more, stays in the upper half.
fn widened_page(page: u64) -> u64 {
    if page >= 1 << 35 {
        page + (1 << 45) - (1 << 36)
    } else {
        page
    }
}
