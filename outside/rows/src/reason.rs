//! Why a table or rows are refused, in words. The library has refused them, and told
//! the number of a bad row.

use skuldrefn::{export_rows, FIXED_ROW};

/// Why a table is refused.
pub fn of_table(answer: u64, linear_width: u64, table: &[u8]) -> String {
    match answer {
        2 => "the table is longer than 47,104 bytes".to_string(),
        3 => bad_record(linear_width, table),
        _ => format!("the library gives answer {answer}"),
    }
}

/// Which record is the first bad one, and why: the library is asked for the row of each
/// record alone.
fn bad_record(linear_width: u64, table: &[u8]) -> String {
    let valid = |record: &[u8]| export_rows(linear_width, record, &mut [0; FIXED_ROW]).answer == 0;
    match convert::bad_record(linear_width, table, valid) {
        Some(bad) => format!(
            "record {} at byte {} is no valid record of {linear_width}-bit linear addresses: {}",
            bad.number, bad.byte, bad.why
        ),
        None => {
            format!("the table is not whole, valid records of {linear_width}-bit linear addresses")
        }
    }
}

/// Why rows are refused. `number` is that of the first bad row, from 1; 0 for a bad
/// length.
pub fn of_rows(answer: u64, number: u64, linear_width: u64, rows: &[u8]) -> String {
    match (answer, number) {
        (4, 0) => format!("the rows have {} bytes, no multiple of 32", rows.len()),
        (4, _) => bad_row(number as usize, linear_width, rows),
        (12, _) => "the table would be longer than 47,104 bytes".to_string(),
        _ => format!("the library gives answer {answer}"),
    }
}

fn bad_row(number: usize, linear_width: u64, rows: &[u8]) -> String {
    let byte = (number - 1) * FIXED_ROW;
    let row = rows.get(byte..byte + FIXED_ROW);
    let why = row.and_then(|row| convert::row_fault(linear_width, row));
    format!(
        "row {number} at byte {byte} is no valid row of {linear_width}-bit linear addresses: {}",
        why.unwrap_or_else(|| "the library refuses it".to_string())
    )
}
