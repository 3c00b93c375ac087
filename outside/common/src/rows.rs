//! The rows that a replay writes: three 8-byte numbers for each event.

use crate::numbers::number;

/// The bytes of one row.
pub const ROW: usize = 24;

/// Writes a row: answer, dropped count, and the length of the table in force.
///
/// # Panics
/// If the row has not 24 bytes.
#[inline]
pub fn write_row(row: &mut [u8], [answer, dropped, length]: [u64; 3]) {
    assert_eq!(row.len(), ROW);
    row[..8].copy_from_slice(&answer.to_le_bytes());
    row[8..16].copy_from_slice(&dropped.to_le_bytes());
    row[16..].copy_from_slice(&length.to_le_bytes());
}

/// The three numbers of a row.
///
/// # Panics
/// If the row has not 24 bytes.
pub fn read_row(row: &[u8]) -> [u64; 3] {
    assert_eq!(row.len(), ROW);
    [&row[..8], &row[8..16], &row[16..]].map(number)
}
