//! A table as fixed rows, and back.

use crate::raw::{self, Converted};

/// A table of a linear width, 48 or 57, as fixed rows at the start of `rows`: one of
/// [`FIXED_ROW`](crate::FIXED_ROW) bytes for each record, in the table's order. Each
/// field has its place in a row, and those that the kind lacks are 0:
///
/// | bytes | field |
/// |---|---|
/// | 0 | kind |
/// | 1 | span |
/// | 2 | global |
/// | 3 | always 0 |
/// | 4 and 5 | VPID |
/// | 6 and 7 | PCID |
/// | 8 to 15 | page |
/// | 16 to 23 | frame or structure |
/// | 24 to 31 | EP4TA |
///
/// The answer is 0; 1 for another linear width; 2 or 3 for what is no table; 12 where
/// the rows are longer than the buffer. Bytes past them stay; a refusal writes nothing.
///
/// ```
/// use skuldrefn::{export_rows, import_rows, FIXED_ROW};
///
/// // A linear translation of page 12345h: VPID 5, PCID 1, frame ABCDEh.
/// let table = [1, 5, 0, 1, 0, 0, 0, 0x45, 0x23, 1, 0, 0, 0xDE, 0xBC, 0x0A, 0, 0];
/// let mut rows = [0; FIXED_ROW];
/// assert_eq!(export_rows(48, &table, &mut rows).length, FIXED_ROW);
/// assert_eq!(rows[8..16], 0x12345_u64.to_le_bytes());
///
/// let mut again = [0; 17];
/// assert_eq!(import_rows(48, &rows, &mut again).length, 17);
/// assert_eq!(again, table);
///
/// // Byte 3 is unused: the first row is bad.
/// rows[3] = 1;
/// let refused = import_rows(48, &rows, &mut again);
/// assert_eq!((refused.answer, refused.row), (4, 1));
/// ```
pub fn export_rows(linear_width: u64, table: &[u8], rows: &mut [u8]) -> Converted {
    // SAFETY: each pointer is good for its length during the call, `rows` is
    // borrowed alone, and the library keeps nothing.
    unsafe {
        raw::skuldrefn_export(
            linear_width,
            table.as_ptr(),
            table.len(),
            rows.as_mut_ptr(),
            rows.len(),
        )
    }
}

/// The table of fixed rows, at the start of `table`: one record for each row, in their
/// order. No rows are an empty table. What [`export_rows`] wrote gives the same table.
///
/// The answer is 0; 1 for a linear width that is neither 48 nor 57; 4, with row 0,
/// where the length is no multiple of 32; 4, with the number from 1 of the first bad
/// row, where one names no valid record of that width or has a byte set that its kind
/// does not use; 12 where the table is longer than [`TABLE_LIMIT`](crate::TABLE_LIMIT)
/// or the buffer. Every row is judged before the room is. Bytes past the table stay; a
/// refusal writes nothing.
pub fn import_rows(linear_width: u64, rows: &[u8], table: &mut [u8]) -> Converted {
    // SAFETY: each pointer is good for its length during the call, `table` is
    // borrowed alone, and the library keeps nothing.
    unsafe {
        raw::skuldrefn_import(
            linear_width,
            rows.as_ptr(),
            rows.len(),
            table.as_mut_ptr(),
            table.len(),
        )
    }
}
