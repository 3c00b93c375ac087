//! Mapping records.

use crate::layouts::encode;

/// The fields of a mapping record. Those that its kind lacks are not looked at.
#[derive(Clone, Copy, Debug)]
pub struct Record {
    /// 1 to 10.
    pub kind: u8,
    pub vpid: u64,
    pub pcid: u64,
    pub global: u64,
    pub span: u64,
    pub page: u64,
    /// The frame, or for structure caches the structure.
    pub frame: u64,
    pub ep4ta: u64,
}

impl Record {
    /// The record's bytes.
    ///
    /// # Panics
    /// If the kind is not one of 1 to 10.
    pub fn bytes(&self) -> Vec<u8> {
        let Record {
            kind,
            vpid,
            pcid,
            global,
            span,
            page,
            frame,
            ep4ta,
        } = *self;
        match kind {
            1 | 7 => encode(kind, &[vpid, pcid, global, span, page, frame]),
            3 | 8 => encode(kind, &[vpid, pcid, global, span, page, frame, ep4ta]),
            4 | 9 => encode(kind, &[vpid, pcid, span, page, frame]),
            6 | 10 => encode(kind, &[vpid, pcid, span, page, frame, ep4ta]),
            _ => encode(kind, &[ep4ta, span, page, frame]),
        }
    }
}
