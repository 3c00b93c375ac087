//! Tables and their fixed rows: which record or field is bad, and why, in the names of
//! the text form.

use crate::disassemble::fault;
use crate::forms::{Field, Form};
use common::{is_mapping_kind, row_field, FIXED_ROW_FIELDS};

/// The first record of some bytes that is not whole and valid.
#[derive(Clone, Debug, PartialEq, Eq)]
pub struct BadRecord {
    /// From 1.
    pub number: usize,
    /// Where it starts.
    pub byte: usize,
    pub why: String,
}

/// The first bad record of bytes that should be a table of a linear width, 48 or 57:
/// records are taken one after the other by the length that their kind says, and
/// `valid` judges each whole one. None where all are valid.
pub fn bad_record(
    linear_width: u64,
    table: &[u8],
    valid: impl Fn(&[u8]) -> bool,
) -> Option<BadRecord> {
    let (mut rest, mut number) = (table, 1);
    loop {
        let kind = *rest.first()?;
        let length = Form::of_kind(linear_width, kind).map(Form::length);
        match length.and_then(|length| rest.split_at_checked(length)) {
            Some((record, after)) if valid(record) => rest = after,
            _ => {
                let why = fault(linear_width, rest);
                return Some(BadRecord {
                    number,
                    byte: table.len() - rest.len(),
                    why: why.unwrap_or_else(|| format!("kind {kind:#x} is no mapping's")),
                });
            }
        }
        number += 1;
    }
}

/// The place of the span among the fields of a row.
const SPAN: usize = 1;

/// Why a row of 32 bytes names no valid record of a linear width, 48 or 57, or has an
/// unused byte set: its first field, in the row's order, that is not as its kind wants
/// it. None where all are.
///
/// # Panics
/// If the row has not 32 bytes.
pub fn row_fault(linear_width: u64, row: &[u8]) -> Option<String> {
    let kind = row[0];
    let Some(form) = Form::of_kind(linear_width, kind) else {
        return fault(linear_width, &[kind]);
    };
    if !is_mapping_kind(kind) {
        return Some(format!("kind {kind:#x} is no mapping's"));
    }
    let fields = FIXED_ROW_FIELDS.iter().enumerate().skip(SPAN);
    let span = row_field(row, SPAN);
    let wrong = fields.map(|(nth, (name, _))| {
        let number = row_field(row, nth);
        match form.fields.iter().find(|field| stands_in(field, name)) {
            Some(field) => field.check(linear_width, number, span).err(),
            None if number == 0 => None,
            None if *name == "zero" => Some("byte 3 is not zero".to_string()),
            None => Some(format!("{name} is unused and not zero")),
        }
    });
    let wrong = wrong.flatten().next()?;
    Some(format!("{}, but {wrong}", form.name))
}

/// Whether a field of a record stands in a row's field of this name: a structure stands
/// in that of the frame.
fn stands_in(field: &Field, name: &str) -> bool {
    field.name == name || (field.name == "structure" && name == "frame")
}
