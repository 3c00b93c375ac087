//! The inputs of one explanation.

use crate::aim::{aimed, dropping};
use crate::bounds::near;
use crate::context::near_context;
use crate::damage::{damage, spoiled};
use crate::event::good_invvpid;
use crate::pool;
use crate::record::{current, mapping_kind, other_width, record, set_page, tagged};
use crate::Rng;
use common::{field, hex, put, set_field, sibling, TABLE_LIMIT};
use model::Context;
use std::fmt;

/// The inputs of one explanation.
#[derive(Clone, Debug)]
pub struct Explain {
    pub context: Context,
    pub record: Vec<u8>,
    pub event: Vec<u8>,
}

impl fmt::Display for Explain {
    fn fmt(&self, f: &mut fmt::Formatter) -> fmt::Result {
        writeln!(f, "context: {:x?}", self.context)?;
        writeln!(f, "record ({}): {}", self.record.len(), hex(&self.record))?;
        write!(f, "event ({}): {}", self.event.len(), hex(&self.event))
    }
}

/// Mostly an accepted event, and a record that it drops or that misses its
/// scope in one field or a few; else any answer, or a bad record.
pub fn explain(rng: &mut Rng) -> Explain {
    let (mut context, mut event) = if rng.one_in(6) {
        // More often at the answers that have an EPTP rule.
        let aim = match rng.below(24) {
            18..=20 => 8,
            21..=23 => 10,
            aim => aim,
        };
        aimed(rng, aim)
    } else {
        accepted(rng)
    };
    let mut record = near_scope(rng, &context, &event);
    match rng.below(20) {
        0 => context = near_context(rng, &context),
        1 => event = spoiled(rng, &event),
        2 | 3 => record = bad_record(rng, &context, record),
        // INVLPG of an address that is not canonical, though the page stays.
        4 | 5 if event.len() == 9 => event[8] ^= 0x80,
        // A creation of the other width.
        6 if rng.one_in(4) => event = other_width(&record).unwrap_or(event),
        _ => {}
    }
    Explain {
        context,
        record,
        event,
    }
}

/// A context and an event that should be accepted in it; seldom an entry, an
/// exit or a reset, which test little, and often INVVPID type 3.
fn accepted(rng: &mut Rng) -> (Context, Vec<u8>) {
    let (context, mut event) = dropping(rng);
    if (20..=25).contains(&event[0]) && rng.one_in(2) {
        return accepted(rng);
    }
    if event[0] == 16 && rng.one_in(2) {
        event = good_invvpid(rng, &context);
        if rng.one_in(3) {
            set_field(&mut event, 0, 3);
        }
    }
    (context, event)
}

/// A valid record with the tags and the page that the event names, or that
/// are current, but for some of them.
fn near_scope(rng: &mut Rng, context: &Context, event: &[u8]) -> Vec<u8> {
    let kinds: &[u8] = match event.first() {
        Some(16 | 18 | 20 | 21 | 26 | 27) => &[1, 3, 4, 6],
        Some(17 | 19) => &[2, 3, 5, 6],
        _ => &[1, 2, 3, 4, 5, 6],
    };
    let width = context.linear_width;
    let mut kind = sibling(width, rng.pick(kinds));
    let mut tags = current(context);
    let mut page = pool::page_of_kind(rng, kind);
    // 0 if the event is cut.
    let number = |nth| field(event, nth).unwrap_or(0);
    match event.first() {
        Some(16) => {
            tags.vpid = number(1) % (1 << 16);
            page = number(2) >> 12;
        }
        Some(17) => tags.ept = Some(number(1) >> 12),
        Some(18) => page = number(0) >> 12,
        Some(19) if kind == 2 || kind == 5 => page = number(0) >> 12,
        Some(19) => page = number(2) >> 12,
        Some(20 | 21) => tags.vpid = 0,
        Some(26) => {
            tags.pcid = number(1) % (1 << 12);
            page = number(2) >> 12;
        }
        Some(27) => tags.pcid = number(0) % (1 << 12),
        _ => {}
    }
    if tags.vpid == 0 && rng.one_in(4) {
        tags.vpid = pool::vpid(rng);
    }
    for _ in 0..rng.pick(&[0, 0, 1, 1, 1, 2, 3]) {
        // One from the pool, or with one bit changed.
        let pooled = rng.one_in(2);
        match rng.below(6) {
            0 if pooled => tags.vpid = pool::vpid(rng),
            0 => tags.vpid ^= 1 << rng.below(16),
            1 if pooled => tags.pcid = pool::pcid(rng),
            1 => tags.pcid ^= 1 << rng.below(12),
            2 if pooled => tags.ept = Some(pool::ep4ta(rng)),
            2 => tags.ept = tags.ept.map(|ep4ta| ep4ta ^ 1 << rng.below(40)),
            3 if pooled => page = pool::page_of_kind(rng, kind),
            3 | 4 => page ^= 1 << rng.below(if width == 57 { 45 } else { 36 }),
            _ => kind = mapping_kind(rng, width),
        }
    }
    let mut record = tagged(rng, kind, &tags);
    set_page(&mut record, page);
    if [1, 3, 7, 8].contains(&kind) {
        // The global mark.
        set_field(&mut record, 2, rng.below(2) as u64);
    }
    record
}

/// Bytes that are not exactly one valid record, or nearly so: cut, damaged,
/// doubled, of the other width, two records, none, or more than a table may
/// have.
fn bad_record(rng: &mut Rng, context: &Context, mut bytes: Vec<u8>) -> Vec<u8> {
    match rng.below(18) {
        0..=3 => damage(rng, &mut bytes),
        4..=7 => bytes = near(rng, &bytes),
        8 => bytes.clear(),
        9 => bytes.push(0),
        10 => bytes.truncate(bytes.len() - 1),
        11 => bytes.extend_from_within(..),
        12 | 13 => bytes.extend(record(rng, context)),
        14 => put(&mut bytes, rng.number(), 8),
        15 | 16 => bytes = other_width(&bytes).unwrap_or(bytes),
        _ => {
            let more = rng.below(3);
            bytes = bytes.repeat(TABLE_LIMIT / bytes.len() + more);
        }
    }
    bytes
}
