//! Events, and fixed rows, one field away from a given one.

use crate::Rng;
use common::{field, length, row_field, set_field, set_row_field, sizes};
use common::{FIXED_ROW, FIXED_ROW_FIELDS};

const WORD: &[u64] = &[0, 1, 0xFFFF];
const PCID: &[u64] = &[0, 4_095, 4_096, 0xFFFF];
const FLAG: &[u64] = &[0, 1, 2, 0x80, 0xFF];
const CPL: &[u64] = &[0, 1, 3, 4, 0xFF];
const SPAN: &[u64] = &[0, 1, 2, 3, 4, 5, 7, 8, 0x80, 0xFF];
const FIVE: &[u64] = &[0, 1, (1 << 40) - 1];
const PAGE: &[u64] = &[
    0,
    1,
    (1 << 9) - 1,
    1 << 9,
    (1 << 9) + 1,
    (1 << 18) - 1,
    1 << 18,
    (1 << 18) + 1,
    (1 << 27) - 1,
    1 << 27,
    (1 << 27) + 1,
    (1 << 36) - (1 << 27),
    (1 << 36) - (1 << 18),
    (1 << 36) - (1 << 9),
    (1 << 36) - 1,
    1 << 36,
    (1 << 36) + (1 << 27),
    1 << 39,
    (1 << 40) - 1,
];
const WIDE_PAGE: &[u64] = &[
    0,
    1,
    (1 << 9) - 1,
    1 << 9,
    1 << 18,
    1 << 27,
    (1 << 27) + 1,
    (1 << 35) - 1,
    1 << 35,
    (1 << 36) - (1 << 27),
    (1 << 36) - 1,
    1 << 36,
    (1 << 36) + 1,
    1 << 44,
    (1 << 45) - (1 << 36),
    (1 << 45) - (1 << 27),
    (1 << 45) - (1 << 9),
    (1 << 45) - 1,
    1 << 45,
    (1 << 45) + (1 << 36),
    1 << 47,
    (1 << 48) - 1,
];
const KIND_16: &[u64] = &[0, 1, 2, 3, 4, 0x101, (1 << 32) + 1, 1 << 63, u64::MAX];
const LOW_16: &[u64] = &[
    0,
    5,
    0xFFFF,
    0x1_0000,
    0x1_0005,
    5 | 1 << 32,
    5 | 1 << 47,
    5 | 1 << 63,
    u64::MAX,
];
const LOW_26: &[u64] = &[
    0,
    1,
    4_095,
    4_096,
    4_097,
    1 | 1 << 13,
    1 | 1 << 15,
    0xFFFF,
    1 << 16,
    1 | 1 << 32,
    1 | 1 << 63,
    u64::MAX,
];
const HIGH_17: &[u64] = &[0, 1, 1 << 32, 1 << 63, u64::MAX];
const LINEAR: &[u64] = &[
    0,
    0xFFF,
    0x1000,
    0x0000_7FFF_FFFF_F000,
    0x0000_7FFF_FFFF_FFFF,
    0x0000_8000_0000_0000,
    0xFFFF_7FFF_FFFF_FFFF,
    0xFFFF_8000_0000_0000,
    0x00FF_FFFF_FFFF_F000,
    0x00FF_FFFF_FFFF_FFFF,
    0x0100_0000_0000_0000,
    0xFEFF_FFFF_FFFF_FFFF,
    0xFF00_0000_0000_0000,
    u64::MAX,
];
const GUEST_PHYSICAL: &[u64] = &[0, 0xFFF, 0x1000, (1 << 48) - 1, 1 << 48, 1 << 63, u64::MAX];
const EPTP: &[u64] = &[
    0,
    0x12_3456_701E,
    0x12_3456_705E,
    0x12_3456_7018,
    0x12_3456_701F,
    0x12_3456_701D,
    0x12_3456_7019,
    0x12_3456_7016,
    0x12_3456_7026,
    0x12_3456_709E,
    0x12_3456_711E,
    0x12_3456_721E,
    0x12_3456_741E,
    0x12_3456_781E,
    (1 << 36) - (1 << 12) + 0x1E,
    (1 << 36) + 0x1E,
    (1 << 52) - (1 << 12) + 0x1E,
    (1 << 52) + 0x1E,
    (1 << 63) + 0x1E,
    u64::MAX,
];

const ROW_KIND: &[u64] = &[0, 1, 2, 3, 4, 5, 6, 7, 8, 9, 10, 11, 16, 22, 25, 0x81, 0xFF];
const ROW_PAGE: &[u64] = &[
    0,
    1,
    1 << 9,
    1 << 18,
    1 << 27,
    (1 << 36) - (1 << 27),
    (1 << 36) - 1,
    1 << 36,
    1 << 40,
    (1 << 45) - (1 << 36),
    (1 << 45) - 1,
    1 << 45,
    1 << 48,
    1 << 63,
    u64::MAX,
];
const ROW_FIVE: &[u64] = &[
    0,
    1,
    (1 << 40) - 1,
    1 << 40,
    (1 << 40) + 1,
    1 << 63,
    u64::MAX,
];

/// The numbers at the bounds of each field of a fixed row, those past them too.
const ROW_BOUNDS: [&[u64]; FIXED_ROW_FIELDS.len()] = [
    ROW_KIND, SPAN, FLAG, FLAG, WORD, PCID, ROW_PAGE, ROW_FIVE, ROW_FIVE,
];

/// The numbers at the bounds of each field of a kind, in the order of the fields.
fn bounds(kind: u8) -> &'static [&'static [u64]] {
    match kind {
        1 => &[WORD, PCID, FLAG, SPAN, PAGE, FIVE],
        2 | 5 => &[FIVE, SPAN, PAGE, FIVE],
        3 => &[WORD, PCID, FLAG, SPAN, PAGE, FIVE, FIVE],
        4 => &[WORD, PCID, SPAN, PAGE, FIVE],
        6 => &[WORD, PCID, SPAN, PAGE, FIVE, FIVE],
        7 => &[WORD, PCID, FLAG, SPAN, WIDE_PAGE, FIVE],
        8 => &[WORD, PCID, FLAG, SPAN, WIDE_PAGE, FIVE, FIVE],
        9 => &[WORD, PCID, SPAN, WIDE_PAGE, FIVE],
        10 => &[WORD, PCID, SPAN, WIDE_PAGE, FIVE, FIVE],
        16 => &[KIND_16, LOW_16, LINEAR],
        17 => &[KIND_16, EPTP, HIGH_17],
        18 => &[LINEAR],
        19 => &[GUEST_PHYSICAL, FLAG, LINEAR],
        20 => &[FLAG, WORD, FLAG, EPTP, PCID, CPL],
        21 => &[PCID],
        24 => &[PCID, CPL],
        26 => &[KIND_16, LOW_26, LINEAR],
        27 => &[PCID],
        _ => &[],
    }
}

/// A field of a whole event: its place in the order, its bits, its number, and those at its bounds.
struct Field {
    nth: usize,
    bits: usize,
    number: u64,
    bounds: &'static [u64],
}

/// The fields of a whole event; none if it is cut, too long or unknown.
fn fields(event: &[u8]) -> Vec<Field> {
    let whole = |kind: &&u8| length(**kind) == Some(event.len());
    let Some(kind) = event.first().filter(whole) else {
        return Vec::new();
    };
    let mut fields = Vec::new();
    let sizes = sizes(*kind).unwrap_or_default();
    for (nth, (size, bounds)) in sizes.iter().zip(bounds(*kind)).enumerate() {
        fields.push(Field {
            nth,
            bits: 8 * size,
            number: field(event, nth).unwrap_or(0),
            bounds,
        });
    }
    fields
}

/// The event with one field changed; the number is cut to the field's bytes.
fn with(event: &[u8], nth: usize, number: u64) -> Vec<u8> {
    let mut event = event.to_vec();
    set_field(&mut event, nth, number);
    event
}

/// Every event that differs from a whole one in one field: by one either
/// way, by one bit, or at one of the field's bounds.
pub fn near_events(event: &[u8]) -> Vec<Vec<u8>> {
    let mut near = Vec::new();
    for field in fields(event) {
        let mut numbers = vec![field.number.wrapping_add(1), field.number.wrapping_sub(1)];
        numbers.extend((0..field.bits).map(|bit| field.number ^ 1 << bit));
        numbers.extend(field.bounds);
        for number in numbers {
            near.push(with(event, field.nth, number));
        }
    }
    near
}

/// One of these; the event itself if there is none.
pub fn near(rng: &mut Rng, event: &[u8]) -> Vec<u8> {
    let fields = fields(event);
    if fields.is_empty() {
        return event.to_vec();
    }
    let which = rng.below(fields.len());
    near_in(rng, event, &fields[which])
}

/// The same in one field of a whole event, by its place in the order.
pub fn near_field(rng: &mut Rng, event: &[u8], nth: usize) -> Vec<u8> {
    near_in(rng, event, &fields(event)[nth])
}

fn near_in(rng: &mut Rng, event: &[u8], field: &Field) -> Vec<u8> {
    let changed = match rng.below(6) {
        0 => field.number.wrapping_add(1),
        1 => field.number.wrapping_sub(1),
        2 => field.number ^ 1 << rng.below(field.bits),
        _ => rng.pick(field.bounds),
    };
    with(event, field.nth, changed)
}

/// Every fixed row that differs from a given one in one field, used or not: by one
/// either way, by one bit, or at one of the bounds.
pub fn near_rows(row: &[u8]) -> Vec<[u8; FIXED_ROW]> {
    let mut near = Vec::new();
    for (nth, (_, place)) in FIXED_ROW_FIELDS.iter().enumerate() {
        let number = row_field(row, nth);
        let mut numbers = vec![number.wrapping_add(1), number.wrapping_sub(1)];
        numbers.extend((0..8 * place.len()).map(|bit| number ^ 1 << bit));
        numbers.extend(ROW_BOUNDS[nth]);
        near.extend(numbers.into_iter().map(|number| with_row(row, nth, number)));
    }
    near
}

/// One of these.
pub fn near_row(rng: &mut Rng, row: &[u8]) -> [u8; FIXED_ROW] {
    let nth = rng.below(FIXED_ROW_FIELDS.len());
    let number = row_field(row, nth);
    let bits = 8 * FIXED_ROW_FIELDS[nth].1.len();
    let changed = match rng.below(6) {
        0 => number.wrapping_add(1),
        1 => number.wrapping_sub(1),
        2 | 3 => number ^ 1 << rng.below(bits),
        _ => rng.pick(ROW_BOUNDS[nth]),
    };
    with_row(row, nth, changed)
}

/// A row with one field changed; the number is cut to the field's bytes.
fn with_row(row: &[u8], nth: usize, number: u64) -> [u8; FIXED_ROW] {
    let mut changed = [0; FIXED_ROW];
    changed.copy_from_slice(row);
    set_row_field(&mut changed, nth, number);
    changed
}
