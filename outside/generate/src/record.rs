//! Mapping records.

use crate::pool;
use crate::Rng;
use common::{encode, field, is_wide_kind, length, set_field, sibling, sizes};
use common::{Record, PAGES, WIDE_PAGES};
use model::{Context, Place};

/// The tags that are current in a context.
pub struct Tags {
    pub vpid: u64,
    pub pcid: u64,
    pub ept: Option<u64>,
}

pub fn current(context: &Context) -> Tags {
    let (vpid, ept) = match context.place {
        Place::Guest { vpid, ept } => (vpid, ept),
        _ => (0, None),
    };
    Tags {
        vpid,
        pcid: context.pcid,
        ept,
    }
}

/// A valid record at the context's width, whose tags are often those of the
/// context.
pub fn record(rng: &mut Rng, context: &Context) -> Vec<u8> {
    let kind = mapping_kind(rng, context.linear_width);
    record_of_kind(rng, context, kind)
}

/// A kind of mapping at a width.
pub fn mapping_kind(rng: &mut Rng, linear_width: u64) -> u8 {
    sibling(linear_width, 1 + rng.below(6) as u8)
}

/// The same, of one kind.
pub fn record_of_kind(rng: &mut Rng, context: &Context, kind: u8) -> Vec<u8> {
    let mut tags = current(context);
    // In root the current VPID is 0, and other VPIDs are named.
    if rng.one_in(if tags.vpid == 0 { 2 } else { 3 }) {
        tags.vpid = pool::vpid(rng);
    }
    if rng.one_in(4) {
        tags.pcid = pool::pcid(rng);
    }
    if tags.ept.is_none() || rng.one_in(4) {
        tags.ept = Some(pool::ep4ta(rng));
    }
    tagged(rng, kind, &tags)
}

/// A valid record with these tags, so far as it has them.
pub fn tagged(rng: &mut Rng, kind: u8, tags: &Tags) -> Vec<u8> {
    let global = match kind {
        1 | 3 | 7 | 8 => rng.pick(&[0, 0, 1]),
        _ => 0,
    };
    let span = match kind {
        1..=3 | 7 | 8 => rng.pick(&[0, 0, 1, 2]),
        4..=6 => rng.pick(&[1, 1, 2, 3]),
        _ => rng.pick(&[1, 1, 2, 3, 4]),
    };
    let record = Record {
        kind,
        vpid: tags.vpid,
        pcid: tags.pcid,
        global,
        span,
        page: pool::page_of_kind(rng, kind) >> (9 * span) << (9 * span),
        frame: rng.pick(&[0, 0xABCDE, (1 << 40) - 1]),
        ep4ta: tags.ept.unwrap_or(0),
    };
    record.bytes()
}

/// Which field of a record is its span, from 0. The page follows it.
pub fn span_field(kind: u8) -> usize {
    match kind {
        1 | 3 | 7 | 8 => 3,
        2 | 5 => 1,
        _ => 2,
    }
}

/// Gives a valid record the page, cut to the bits that it has there and to a
/// multiple of the record's span, so that the record covers it.
pub fn set_page(record: &mut [u8], page: u64) {
    let nth = span_field(record[0]);
    let low = 9 * field(record, nth).unwrap_or(0);
    set_field(record, nth + 1, (page % pages(record[0])) >> low << low);
}

/// The pages of a kind are below this.
fn pages(kind: u8) -> u64 {
    if is_wide_kind(kind) {
        WIDE_PAGES
    } else {
        PAGES
    }
}

/// A whole record of kind 1, 3, 4 or 6 as its sibling at 57 bits, and one of
/// kinds 7 to 10 as that at 48, with its page cut and span 4 made 3; None for
/// other bytes. A valid record gives a valid one of the other width.
pub fn other_width(record: &[u8]) -> Option<Vec<u8>> {
    let kind = *record
        .first()
        .filter(|kind| length(**kind) == Some(record.len()))?;
    let other = sibling(if is_wide_kind(kind) { 48 } else { 57 }, kind);
    if other == kind {
        return None;
    }
    let count = sizes(kind)?.len();
    let numbers: Option<Vec<u64>> = (0..count).map(|nth| field(record, nth)).collect();
    let mut other = encode(other, &numbers?);
    let nth = span_field(kind);
    match field(&other, nth)? {
        0..=3 => set_page(&mut other, page(record)?),
        4 => {
            set_field(&mut other, nth, 3);
            set_page(&mut other, page(record)?);
        }
        // No record has such a span.
        _ => {}
    }
    Some(other)
}

/// The page of the record with which some bytes start; None if it is cut.
pub fn page(bytes: &[u8]) -> Option<u64> {
    field(bytes, span_field(*bytes.first()?) + 1)
}
