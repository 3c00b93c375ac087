//! Document 01's two tables, document 02's kinds 26 and 27 (Ask 5) and its kinds
//! 7 to 10 (Ask 12): the fields of each kind of event, by their bytes.

use crate::numbers::{number, put};
use std::ops::Range;

/// Every kind of event that is known at either linear width; the first ten are mapping records.
pub const KINDS: [u8; 22] = [
    1, 2, 3, 4, 5, 6, 7, 8, 9, 10, 16, 17, 18, 19, 20, 21, 22, 23, 24, 25, 26, 27,
];

/// Those that are known at 48 bits; the first six are mapping records.
const KINDS_48: [u8; 18] = [
    1, 2, 3, 4, 5, 6, 16, 17, 18, 19, 20, 21, 22, 23, 24, 25, 26, 27,
];

/// Those that are known at 57 bits, each where its sibling at 48 bits is.
const KINDS_57: [u8; 18] = [
    7, 2, 8, 9, 5, 10, 16, 17, 18, 19, 20, 21, 22, 23, 24, 25, 26, 27,
];

/// Every kind of event that is known at a linear width, the six mapping records first. Any width
/// but 57 is read as 48.
pub fn kinds(linear_width: u64) -> [u8; 18] {
    match linear_width {
        57 => KINDS_57,
        _ => KINDS_48,
    }
}

/// The kind at a linear width that stands for the same mapping: 1 is 7 at 57 bits, 7 is 1 at 48,
/// and so on. Kinds 2 and 5 and those of other events are the same at both.
pub fn sibling(linear_width: u64, kind: u8) -> u8 {
    let [own, others] = match linear_width {
        57 => [KINDS_57, KINDS_48],
        _ => [KINDS_48, KINDS_57],
    };
    let place = others.iter().position(|other| *other == kind);
    place.map_or(kind, |place| own[place])
}

/// Whether events of this kind are creations, whose bytes are a mapping record.
pub fn is_mapping_kind(kind: u8) -> bool {
    (1..=10).contains(&kind)
}

/// Whether records of this kind have a linear page of 6 bytes: kinds 7 to 10.
pub fn is_wide_kind(kind: u8) -> bool {
    (7..=10).contains(&kind)
}

/// The bytes of each field behind the kind byte, in order; None for an unknown kind.
pub const fn sizes(kind: u8) -> Option<&'static [usize]> {
    Some(match kind {
        // VPID, PCID, global, span, page, frame.
        1 => &[2, 2, 1, 1, 5, 5],
        // EP4TA, span, page, frame or structure.
        2 | 5 => &[5, 1, 5, 5],
        // VPID, PCID, global, span, page, frame, EP4TA.
        3 => &[2, 2, 1, 1, 5, 5, 5],
        // VPID, PCID, span, page, structure.
        4 => &[2, 2, 1, 5, 5],
        // VPID, PCID, span, page, structure, EP4TA.
        6 => &[2, 2, 1, 5, 5, 5],
        // Kinds 1, 3, 4 and 6 with a page of 6 bytes.
        7 => &[2, 2, 1, 1, 6, 5],
        8 => &[2, 2, 1, 1, 6, 5, 5],
        9 => &[2, 2, 1, 6, 5],
        10 => &[2, 2, 1, 6, 5, 5],
        // INVVPID, INVEPT and INVPCID: type, the descriptor's low half, its high half.
        16 | 17 | 26 => &[8, 8, 8],
        // INVLPG: address.
        18 => &[8],
        // EPT violation: guest-physical address, flag, linear address.
        19 => &[8, 1, 8],
        // VM entry: VPIDs enabled, VPID, EPT enabled, EPTP, PCID, CPL.
        20 => &[1, 2, 1, 8, 2, 1],
        // VM exit and MOV to CR3: PCID.
        21 | 27 => &[2],
        // VMXON, VMXOFF, reset.
        22 | 23 | 25 => &[],
        // New PCID and CPL.
        24 => &[2, 1],
        _ => return None,
    })
}

/// The length of each kind's events, worked out once; 0 for an unknown kind.
const LENGTHS: [usize; 256] = {
    let mut lengths = [0; 256];
    let mut next = 0;
    while next < KINDS.len() {
        let kind = KINDS[next];
        lengths[kind as usize] = start_of(kind, usize::MAX);
        next += 1;
    }
    lengths
};

/// Where the n-th field of a kind's events starts, from 0; their length if they have fewer fields.
const fn start_of(kind: u8, nth: usize) -> usize {
    let mut start = 1;
    if let Some(sizes) = sizes(kind) {
        let mut next = 0;
        while next < nth && next < sizes.len() {
            start += sizes[next];
            next += 1;
        }
    }
    start
}

/// The length of an event with its kind byte; None for an unknown kind.
#[inline]
pub fn length(kind: u8) -> Option<usize> {
    match LENGTHS[usize::from(kind)] {
        0 => None,
        length => Some(length),
    }
}

/// An event of a known kind with these numbers in its fields, each cut to its field's bytes.
///
/// # Panics
/// If the kind is unknown or has another count of fields.
pub fn encode(kind: u8, numbers: &[u64]) -> Vec<u8> {
    let sizes = sizes(kind).expect("a known kind");
    assert_eq!(sizes.len(), numbers.len(), "the fields of kind {kind}");
    let mut bytes = Vec::with_capacity(LENGTHS[usize::from(kind)]);
    bytes.push(kind);
    for (number, size) in numbers.iter().zip(sizes) {
        put(&mut bytes, *number, *size);
    }
    bytes
}

/// Where the n-th field of an event is, from 0; None if the event is cut before the field's end, or
/// has no such field.
fn place(event: &[u8], nth: usize) -> Option<Range<usize>> {
    let kind = *event.first()?;
    let size = sizes(kind)?.get(nth)?;
    let start = start_of(kind, nth);
    (start + size <= event.len()).then_some(start..start + size)
}

/// The n-th field of an event, from 0; None if it is cut or there is none.
pub fn field(event: &[u8], nth: usize) -> Option<u64> {
    place(event, nth).map(|place| number(&event[place]))
}

/// Puts a number into the n-th field of an event, cut to the field's bytes.
///
/// # Panics
/// If the field is cut or there is none.
pub fn set_field(event: &mut [u8], nth: usize, number: u64) {
    let place = place(event, nth).expect("a whole field");
    let size = place.len();
    event[place].copy_from_slice(&number.to_le_bytes()[..size]);
}
