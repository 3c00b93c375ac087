//! Mapping records and tables.

use crate::address::LinearWidth;
use crate::bytes::Fields;
use std::ops::Range;

/// A valid mapping record. Tags that the kind does not have are None.
#[derive(Clone, Copy, Debug, PartialEq, Eq)]
pub struct Mapping {
    /// 1 linear, 2 guest-physical and 3 combined translation; 4, 5 and 6 the
    /// structure caches in the same order. 7, 8, 9 and 10 are 1, 3, 4 and 6
    /// with pages of 57-bit addresses (document 02, Ask 12).
    pub kind: u64,
    pub vpid: Option<u64>,
    pub pcid: Option<u64>,
    /// Kinds 1, 3, 7 and 8 only; false for the others.
    pub global: bool,
    pub span: u64,
    pub page: u64,
    /// The frame, or for structure caches the structure.
    pub frame: u64,
    pub ep4ta: Option<u64>,
}

/// Whether records of a kind may stand in a table at a width: kinds 2 and 5 at
/// both, 1, 3, 4 and 6 at 48 bits, 7 to 10 at 57.
pub fn has_kind(width: LinearWidth, kind: u8) -> bool {
    match kind {
        2 | 5 => true,
        1 | 3 | 4 | 6 => width == LinearWidth::Bits48,
        7..=10 => width == LinearWidth::Bits57,
        _ => false,
    }
}

/// The length of a mapping record with its kind byte; None for other kinds,
/// those of the other width among them.
pub fn length(width: LinearWidth, kind: u8) -> Option<usize> {
    if !has_kind(width, kind) {
        return None;
    }
    let body = match kind {
        1 | 2 | 5 | 9 => 16,
        3 | 10 => 21,
        4 => 15,
        6 => 20,
        7 => 17,
        8 => 22,
        _ => return None,
    };
    Some(1 + body)
}

/// How many pages a span is: 2^(9s).
fn pages(span: u64) -> u64 {
    1 << (9 * span)
}

impl Mapping {
    /// Reads bytes that are exactly one valid mapping record at a width.
    pub fn decode(width: LinearWidth, record: &[u8]) -> Option<Mapping> {
        if !has_kind(width, *record.first()?) {
            return None;
        }
        let mut fields = Fields(record);
        let kind = fields.take(1)?;
        let (mut vpid, mut pcid, mut global, mut ep4ta) = (None, None, false, None);
        match kind {
            1 | 3 | 7 | 8 => {
                vpid = Some(fields.take(2)?);
                pcid = Some(fields.take(2)?);
                global = fields.take_flag()?;
            }
            4 | 6 | 9 | 10 => {
                vpid = Some(fields.take(2)?);
                pcid = Some(fields.take(2)?);
            }
            2 | 5 => ep4ta = Some(fields.take(5)?),
            _ => return None,
        }
        let span = fields.take(1)?;
        let page = fields.take(if kind >= 7 { 6 } else { 5 })?;
        let frame = fields.take(5)?;
        if matches!(kind, 3 | 6 | 8 | 10) {
            ep4ta = Some(fields.take(5)?);
        }
        fields.end()?;
        let mapping = Mapping {
            kind,
            vpid,
            pcid,
            global,
            span,
            page,
            frame,
            ep4ta,
        };
        mapping.in_range().then_some(mapping)
    }

    fn in_range(&self) -> bool {
        let spans = match self.kind {
            1..=3 | 7 | 8 => 0..=2,
            4..=6 => 1..=3,
            _ => 1..=4,
        };
        let limit: u64 = if self.kind >= 7 { 1 << 45 } else { 1 << 36 };
        self.pcid.is_none_or(|pcid| pcid <= 4_095)
            && self.page < limit
            && spans.contains(&self.span)
            && self.page.is_multiple_of(pages(self.span))
    }

    /// The kind from 1 to 6 as which this one is created, dropped, explained
    /// and looked up.
    pub fn sibling(&self) -> u64 {
        match self.kind {
            7 => 1,
            8 => 3,
            9 => 4,
            10 => 6,
            own => own,
        }
    }

    /// Kinds 1 to 3, 7 and 8; the others are structure caches.
    pub fn is_translation(&self) -> bool {
        self.sibling() <= 3
    }

    /// Whether the record covers a page.
    pub fn covers(&self, page: u64) -> bool {
        page / pages(self.span) == self.page / pages(self.span)
    }
}

/// The records of a table, each with its place in it. None if the table is
/// not whole, valid records at this width.
pub fn records(width: LinearWidth, table: &[u8]) -> Option<Vec<(Range<usize>, Mapping)>> {
    let mut records = Vec::new();
    let mut start = 0;
    while start < table.len() {
        let end = start + length(width, table[start])?;
        let mapping = Mapping::decode(width, table.get(start..end)?)?;
        records.push((start..end, mapping));
        start = end;
    }
    Some(records)
}
