//! Fixed rows, out and in: the form in which the trace viewer reads a table
//! (document 02, Ask 11; the width is Ask 12's).

use crate::address::LinearWidth;
use crate::bytes::Fields;
use crate::mapping::{records, Mapping};
use crate::TABLE_LIMIT;

/// The bytes of a row.
pub const ROW: usize = 32;

/// What export and import hand back. Export answers 0, 1, 2, 3 or 12, import
/// 0, 1, 4 or 12.
#[derive(Clone, Copy, Debug, PartialEq, Eq)]
pub struct Converted {
    pub answer: u64,
    /// With import's answer 4 the number of the first bad row, from 1, and 0 for a
    /// bad length; else 0.
    pub row: u64,
    /// The bytes written; 0 with a refusal.
    pub length: usize,
}

impl Converted {
    pub fn refused(answer: u64) -> Converted {
        Converted {
            answer,
            row: 0,
            length: 0,
        }
    }
}

/// Writes a row for each record of a table, in order, to the start of `rows`;
/// bytes past them stay. A refusal writes nothing.
pub fn export(linear_width: u64, table: &[u8], rows: &mut [u8]) -> Converted {
    let Some(width) = LinearWidth::exactly(linear_width) else {
        return Converted::refused(1);
    };
    if table.len() > TABLE_LIMIT {
        return Converted::refused(2);
    }
    let Some(records) = records(width, table) else {
        return Converted::refused(3);
    };
    let mut all = Vec::new();
    for (_, mapping) in records {
        all.extend(Row::of(&mapping).bytes());
    }
    write(&all, rows, usize::MAX)
}

/// Writes the record of each row, in order, to the start of `table`; bytes past
/// them stay. A refusal writes nothing. All rows are judged before the room is.
pub fn import(linear_width: u64, rows: &[u8], table: &mut [u8]) -> Converted {
    let Some(width) = LinearWidth::exactly(linear_width) else {
        return Converted::refused(1);
    };
    if !rows.len().is_multiple_of(ROW) {
        return Converted::refused(4);
    }
    let mut all = Vec::new();
    for (row, number) in rows.chunks(ROW).zip(1..) {
        match Row::read(row).and_then(|row| row.record(width)) {
            Some(record) => all.extend(record),
            None => {
                return Converted {
                    row: number,
                    ..Converted::refused(4)
                }
            }
        }
    }
    write(&all, table, TABLE_LIMIT)
}

/// Writes all, or nothing if it is longer than the buffer or the limit.
fn write(all: &[u8], buffer: &mut [u8], limit: usize) -> Converted {
    if all.len() > buffer.len() || all.len() > limit {
        return Converted::refused(12);
    }
    buffer[..all.len()].copy_from_slice(all);
    Converted {
        answer: 0,
        row: 0,
        length: all.len(),
    }
}

/// The fields of a row, each as its number.
#[derive(Clone, Copy, PartialEq, Eq)]
struct Row {
    kind: u64,
    span: u64,
    global: u64,
    zero: u64,
    vpid: u64,
    pcid: u64,
    page: u64,
    /// The frame or the structure.
    frame: u64,
    ep4ta: u64,
}

impl Row {
    /// The row of a record: what its kind lacks is zero.
    fn of(mapping: &Mapping) -> Row {
        Row {
            kind: mapping.kind,
            span: mapping.span,
            global: u64::from(mapping.global),
            zero: 0,
            vpid: mapping.vpid.unwrap_or(0),
            pcid: mapping.pcid.unwrap_or(0),
            page: mapping.page,
            frame: mapping.frame,
            ep4ta: mapping.ep4ta.unwrap_or(0),
        }
    }

    /// None if there are not 32 bytes.
    fn read(bytes: &[u8]) -> Option<Row> {
        let mut fields = Fields(bytes);
        let row = Row {
            kind: fields.take(1)?,
            span: fields.take(1)?,
            global: fields.take(1)?,
            zero: fields.take(1)?,
            vpid: fields.take(2)?,
            pcid: fields.take(2)?,
            page: fields.take(8)?,
            frame: fields.take(8)?,
            ep4ta: fields.take(8)?,
        };
        fields.end()?;
        Some(row)
    }

    fn bytes(&self) -> Vec<u8> {
        end_to_end(&[
            (self.kind, 1),
            (self.span, 1),
            (self.global, 1),
            (self.zero, 1),
            (self.vpid, 2),
            (self.pcid, 2),
            (self.page, 8),
            (self.frame, 8),
            (self.ep4ta, 8),
        ])
    }

    /// The record that the row names. None if it names no valid one, as where a
    /// number does not fit into its field there, or if a field that the kind lacks
    /// is not zero.
    fn record(&self, width: LinearWidth) -> Option<Vec<u8>> {
        let page_bytes = if self.kind >= 7 { 6 } else { 5 };
        let fits = |number: u64, bytes: usize| number < 1 << (8 * bytes);
        if !fits(self.page, page_bytes) || !fits(self.frame, 5) || !fits(self.ep4ta, 5) {
            return None;
        }
        let kind = (self.kind, 1);
        let (vpid, pcid, global) = ((self.vpid, 2), (self.pcid, 2), (self.global, 1));
        let span = (self.span, 1);
        let (page, frame) = ((self.page, page_bytes), (self.frame, 5));
        let ep4ta = (self.ep4ta, 5);
        let (unused, record) = match self.kind {
            1 | 7 => (
                vec![self.ep4ta],
                end_to_end(&[kind, vpid, pcid, global, span, page, frame]),
            ),
            3 | 8 => (
                vec![],
                end_to_end(&[kind, vpid, pcid, global, span, page, frame, ep4ta]),
            ),
            4 | 9 => (
                vec![self.global, self.ep4ta],
                end_to_end(&[kind, vpid, pcid, span, page, frame]),
            ),
            6 | 10 => (
                vec![self.global],
                end_to_end(&[kind, vpid, pcid, span, page, frame, ep4ta]),
            ),
            2 | 5 => (
                vec![self.global, self.vpid, self.pcid],
                end_to_end(&[kind, ep4ta, span, page, frame]),
            ),
            _ => return None,
        };
        if self.zero != 0 || unused.iter().any(|number| *number != 0) {
            return None;
        }
        Mapping::decode(width, &record)?;
        Some(record)
    }
}

/// Numbers, each in so many bytes, little-endian.
fn end_to_end(fields: &[(u64, usize)]) -> Vec<u8> {
    let mut bytes = Vec::new();
    for (number, count) in fields {
        bytes.extend_from_slice(&number.to_le_bytes()[..*count]);
    }
    bytes
}
