//! The fixed rows of a table (document 02, Ask 11): where their fields are.

use crate::layouts::{field, is_mapping_kind, length};
use crate::numbers::number;
use std::ops::Range;

/// The bytes of one row.
pub const FIXED_ROW: usize = 32;

/// The fields of a row, in order, by their names in the text form of logs; the fourth
/// is always zero, and that of the frame is the structure of kinds that have one.
pub const FIXED_ROW_FIELDS: [(&str, Range<usize>); 9] = [
    ("kind", 0..1),
    ("span", 1..2),
    ("global", 2..3),
    ("zero", 3..4),
    ("vpid", 4..6),
    ("pcid", 6..8),
    ("page", 8..16),
    ("frame", 16..24),
    ("ep4ta", 24..32),
];

/// The fields of each kind of record, in its order, by their place in a row.
const PLACES: [&[usize]; 11] = [
    &[],
    &[4, 5, 2, 1, 6, 7],
    &[8, 1, 6, 7],
    &[4, 5, 2, 1, 6, 7, 8],
    &[4, 5, 1, 6, 7],
    &[8, 1, 6, 7],
    &[4, 5, 1, 6, 7, 8],
    &[4, 5, 2, 1, 6, 7],
    &[4, 5, 2, 1, 6, 7, 8],
    &[4, 5, 1, 6, 7],
    &[4, 5, 1, 6, 7, 8],
];

/// The row of a whole record of any kind from 1 to 10, valid or not; None for other
/// bytes.
pub fn fixed_row(record: &[u8]) -> Option<[u8; FIXED_ROW]> {
    let kind = *record.first()?;
    if !is_mapping_kind(kind) || length(kind) != Some(record.len()) {
        return None;
    }
    let mut row = [0; FIXED_ROW];
    row[0] = kind;
    for (nth, place) in PLACES[usize::from(kind)].iter().enumerate() {
        set_row_field(&mut row, *place, field(record, nth)?);
    }
    Some(row)
}

/// The n-th field of a row, from 0.
///
/// # Panics
/// If the row has not 32 bytes, or no such field.
pub fn row_field(row: &[u8], nth: usize) -> u64 {
    assert_eq!(row.len(), FIXED_ROW);
    number(&row[FIXED_ROW_FIELDS[nth].1.clone()])
}

/// Puts a number into the n-th field of a row, cut to the field's bytes.
///
/// # Panics
/// If the row has not 32 bytes, or no such field.
pub fn set_row_field(row: &mut [u8], nth: usize, number: u64) {
    assert_eq!(row.len(), FIXED_ROW);
    let place = FIXED_ROW_FIELDS[nth].1.clone();
    let size = place.len();
    row[place].copy_from_slice(&number.to_le_bytes()[..size]);
}
