//! Fixed rows, out and in (document 02, Ask 11), tuned.
//!
//! A row is four words, and a record at most four that overlap: its head, its page,
//! its frame and its EP4TA, each written over what the one before it wrote too much.

use super::{EP4TA_AT, LENGTH, PAGE_BITS, SPAN_AT};
use crate::address::LinearWidth;
use crate::rows::{Converted, ROW};
use crate::TABLE_LIMIT;

/// The bytes from a record's start that are read or written at once: the EP4TA of
/// kind 8 starts at byte 18, and eight bytes are taken for it.
const WINDOW: usize = 26;

/// The kinds whose records have a VPID and a PCID, a global flag, an EP4TA.
const HAS_TAGS: [bool; 16] = of(&[1, 3, 4, 6, 7, 8, 9, 10]);
const HAS_GLOBAL: [bool; 16] = of(&[1, 3, 7, 8]);
const HAS_EP4TA: [bool; 16] = of(&[2, 3, 5, 6, 8, 10]);

const fn of(kinds: &[usize]) -> [bool; 16] {
    let mut has = [false; 16];
    let mut next = 0;
    while next < kinds.len() {
        has[kinds[next]] = true;
        next += 1;
    }
    has
}

/// These bits by the kinds that have them.
const fn bits(has: [bool; 16], bits: u64) -> [u64; 16] {
    let mut all = [0; 16];
    let mut kind = 0;
    while kind < 16 {
        if has[kind] {
            all[kind] = bits;
        }
        kind += 1;
    }
    all
}

const FIVE_BYTES: u64 = (1 << 40) - 1;
const TAG_BITS: [u64; 16] = bits(HAS_TAGS, 0xFFFF_FFFF);
const GLOBAL_BITS: [u64; 16] = bits(HAS_GLOBAL, 0xFF);
const EP4TA_BITS: [u64; 16] = bits(HAS_EP4TA, FIVE_BYTES);

/// The EP4TA of those kinds that have it in their head.
const HEAD_EP4TA_BITS: [u64; 16] = bits(of(&[2, 5]), FIVE_BYTES);

/// The place of a record's frame or structure by its kind.
const FRAME_AT: [usize; 16] = {
    let mut at = [0; 16];
    let mut kind = 1;
    while kind <= 10 {
        at[kind] = SPAN_AT[kind] + if kind >= 7 { 7 } else { 6 };
        kind += 1;
    }
    at
};

/// As [`crate::export()`].
pub fn export(linear_width: u64, table: &[u8], rows: &mut [u8]) -> Converted {
    let Some(width) = LinearWidth::exactly(linear_width) else {
        return Converted::refused(1);
    };
    if table.len() > TABLE_LIMIT {
        return Converted::refused(2);
    }
    let Some(count) = super::count(width, table) else {
        return Converted::refused(3);
    };
    let length = count * ROW;
    if rows.len() < length {
        return Converted::refused(12);
    }
    let mut from = 0;
    for row in rows[..length].as_chunks_mut::<ROW>().0 {
        // The last record may end before the window does.
        let mut padded = [0; WINDOW];
        let record = match table[from..].first_chunk::<WINDOW>() {
            Some(record) => record,
            None => {
                padded[..table.len() - from].copy_from_slice(&table[from..]);
                &padded
            }
        };
        let kind = usize::from(record[0] & 15);
        put_row(kind, record, row);
        from += LENGTH[kind];
    }
    accepted(length)
}

fn accepted(length: usize) -> Converted {
    Converted {
        answer: 0,
        row: 0,
        length,
    }
}

/// The word at a place of a record.
#[inline(always)]
fn word(record: &[u8; WINDOW], at: usize) -> u64 {
    let mut word = [0; 8];
    word.copy_from_slice(&record[at..at + 8]);
    u64::from_le_bytes(word)
}

#[inline(always)]
fn put_row(kind: usize, record: &[u8; WINDOW], row: &mut [u8; ROW]) {
    let head = word(record, 0);
    let span_at = SPAN_AT[kind];
    let first = kind as u64
        | u64::from(record[span_at]) << 8
        | (head >> 40 & GLOBAL_BITS[kind]) << 16
        | (head >> 8 & TAG_BITS[kind]) << 32;
    let words = [
        first,
        word(record, span_at + 1) & PAGE_BITS[kind],
        word(record, FRAME_AT[kind]) & FIVE_BYTES,
        word(record, EP4TA_AT[kind]) & EP4TA_BITS[kind],
    ];
    for (part, word) in row.as_chunks_mut::<8>().0.iter_mut().zip(words) {
        *part = word.to_le_bytes();
    }
}

/// For each kind and span, the bits of a row's four words that must be zero.
type Masks = [[[u64; 4]; 5]; 11];

const MASKS_48: Masks = masks(&[1, 2, 3, 4, 5, 6]);
const MASKS_57: Masks = masks(&[2, 5, 7, 8, 9, 10]);

/// The masks of a width with these kinds. The kind byte is never zero, so no row of
/// another kind passes.
const fn masks(kinds: &[usize]) -> Masks {
    let mut masks = [[[0xFF, 0, 0, 0]; 5]; 11];
    let mut next = 0;
    while next < kinds.len() {
        let kind = kinds[next];
        let [least, most] = match kind {
            1..=3 | 7 | 8 => [0, 2],
            4..=6 => [1, 3],
            _ => [1, 4],
        };
        let mut span = least;
        while span <= most {
            masks[kind][span] = mask(kind, span);
            span += 1;
        }
        next += 1;
    }
    masks
}

const fn mask(kind: usize, span: usize) -> [u64; 4] {
    let global = if HAS_GLOBAL[kind] { 0xFE } else { 0xFF };
    let [vpid, pcid] = if HAS_TAGS[kind] {
        [0, 0xF000]
    } else {
        [0xFFFF, 0xFFFF]
    };
    let pages = if kind >= 7 { 45 } else { 36 };
    [
        global << 16 | 0xFF << 24 | vpid << 32 | pcid << 48,
        !((1 << pages) - 1) | ((1 << (9 * span)) - 1),
        !FIVE_BYTES,
        !EP4TA_BITS[kind],
    ]
}

/// The four words of a row.
#[inline(always)]
fn words(row: &[u8; ROW]) -> [u64; 4] {
    let mut words = [0; 4];
    for (word, part) in words.iter_mut().zip(row.as_chunks::<8>().0) {
        *word = u64::from_le_bytes(*part);
    }
    words
}

/// As [`crate::import()`].
pub fn import(linear_width: u64, rows: &[u8], table: &mut [u8]) -> Converted {
    let Some(width) = LinearWidth::exactly(linear_width) else {
        return Converted::refused(1);
    };
    let (rows, []) = rows.as_chunks::<ROW>() else {
        return Converted::refused(4);
    };
    let masks = match width {
        LinearWidth::Bits48 => &MASKS_48,
        LinearWidth::Bits57 => &MASKS_57,
    };
    let mut length = 0;
    for (number, row) in rows.iter().enumerate() {
        let (kind, span) = (usize::from(row[0]), usize::from(row[1]));
        let good = (1..=10).contains(&kind) && span <= 4 && {
            let wrong = |(word, mask): (u64, u64)| word & mask;
            let pairs = words(row).into_iter().zip(masks[kind][span]);
            pairs.map(wrong).fold(0, |all, one| all | one) == 0
        };
        if !good {
            return Converted {
                row: number as u64 + 1,
                ..Converted::refused(4)
            };
        }
        length += LENGTH[kind];
    }
    if table.len().min(TABLE_LIMIT) < length {
        return Converted::refused(12);
    }
    let table = &mut table[..length];
    let mut to = 0;
    for row in rows {
        let kind = usize::from(row[0] & 15);
        let end = to + LENGTH[kind];
        match table[to..].first_chunk_mut::<WINDOW>() {
            Some(record) => put_record(kind, row, record),
            None => {
                let mut padded = [0; WINDOW];
                put_record(kind, row, &mut padded);
                table[to..end].copy_from_slice(&padded[..end - to]);
            }
        }
        to = end;
    }
    accepted(length)
}

#[inline(always)]
fn put_record(kind: usize, row: &[u8; ROW], record: &mut [u8; WINDOW]) {
    let [first, page, frame, ep4ta] = words(row);
    let span_at = SPAN_AT[kind];
    let tags = first >> 32 | ep4ta & HEAD_EP4TA_BITS[kind];
    let head =
        kind as u64 | tags << 8 | (first >> 16 & 0xFF) << 40 | (first >> 8 & 0xFF) << (8 * span_at);
    let frame_at = FRAME_AT[kind];
    for (at, word) in [
        (0, head),
        (span_at + 1, page),
        (frame_at, frame),
        (frame_at + 5, ep4ta),
    ] {
        record[at..at + 8].copy_from_slice(&word.to_le_bytes());
    }
}
