//! The same steps, plain and counted, lookup, replay, rows and converter, as a
//! good engineer would tune them.
//!
//! Nothing is allocated. One pass judges the table and one writes; the event
//! is decoded once; of a record only the bytes that a test needs are read;
//! and what stays is copied in runs as long as they come. Lengths and offsets
//! come from small tables and not from a `match` on the kind, which a
//! processor guesses badly where kinds are mixed. The linear width (document
//! 02, Ask 12) chooses one of those tables before the pass, and no record asks
//! for it again. A counted step (Ask 7) counts in the pass that judges, and takes
//! off in the one that writes. Tests compare this with the plain model; the
//! benchmark uses it as its measure.

mod rows;

use crate::address::{guest_physical_page, LinearWidth};
use crate::context::Context;
use crate::event::{self, ep4ta, Event};
use crate::judge::{grounds, needed, rule};
use crate::lookup::Address;
use crate::replay::Line;
use crate::step::Step;
use crate::tally::{Kinds, PCIDS};
use crate::widen::Widened;
use crate::{LOG_LIMIT, TABLE_LIMIT};
pub use rows::{export, import};
use std::ops::Range;

/// The length of a record by its kind; 0 for what is no record.
const LENGTH: [usize; 16] = [0, 17, 17, 22, 16, 17, 21, 18, 23, 17, 22, 0, 0, 0, 0, 0];

/// The place of a record's span byte by its kind. The page follows it.
const SPAN_AT: [usize; 16] = [0, 6, 6, 6, 5, 6, 5, 6, 6, 5, 5, 0, 0, 0, 0, 0];

/// The place of a record's EP4TA by its kind; 0 if it has none.
const EP4TA_AT: [usize; 16] = [0, 0, 1, 17, 0, 1, 16, 0, 18, 0, 17, 0, 0, 0, 0, 0];

/// The bits of a record's page by its kind, in the eight bytes from its start.
const PAGE_BITS: [u64; 16] = {
    let mut bits = [(1 << 40) - 1; 16];
    let mut kind = 7;
    while kind <= 10 {
        bits[kind] = (1 << 48) - 1;
        kind += 1;
    }
    bits
};

/// For each kind and span, the bits of a record's first 16 bytes that must be
/// zero. All that is ever wrong with a record shows there.
type Masks = [[u128; 5]; 11];

const MASKS_48: Masks = masks(&[1, 2, 3, 4, 5, 6]);
const MASKS_57: Masks = masks(&[2, 5, 7, 8, 9, 10]);

/// The masks of a width with these kinds.
const fn masks(kinds: &[usize]) -> Masks {
    // The kind byte is never zero, so no record of another kind passes.
    let mut masks = [[0xFF; 5]; 11];
    let mut next = 0;
    while next < kinds.len() {
        let kind = kinds[next];
        let mut span = 0;
        while span <= 4 {
            masks[kind][span] = mask(kind, span);
            span += 1;
        }
        next += 1;
    }
    masks
}

const fn mask(kind: usize, span: usize) -> u128 {
    let impossible = match kind {
        1..=3 | 7 | 8 => span > 2,
        4..=6 => span == 0 || span > 3,
        _ => span == 0,
    };
    if impossible {
        // As for another kind.
        return 0xFF;
    }
    let page_bit = 8 * (SPAN_AT[kind] + 1);
    let unaligned = ((1 << (9 * span)) - 1) << page_bit;
    let page_top = match kind {
        1..=6 => 0xF0 << (page_bit + 32),
        _ => 0xE0 << (page_bit + 40),
    };
    let pcid_top = 0xF0 << 32;
    let global_top = 0xFE << 40;
    unaligned
        | page_top
        | match kind {
            1 | 3 | 7 | 8 => pcid_top | global_top,
            4 | 6 | 9 | 10 => pcid_top,
            _ => 0,
        }
}

/// The number of records in a table; None if it is not whole, valid records at
/// this width.
fn count(width: LinearWidth, table: &[u8]) -> Option<usize> {
    let mut count = 0;
    judge(width, table, |_, _, _| count += 1).then_some(count)
}

/// Whether a table is whole, valid records at this width. Hands on the kind,
/// the span and the first bytes of each.
#[inline(always)]
fn judge(width: LinearWidth, table: &[u8], mut each: impl FnMut(usize, usize, &[u8; 16])) -> bool {
    let masks = match width {
        LinearWidth::Bits48 => &MASKS_48,
        LinearWidth::Bits57 => &MASKS_57,
    };
    let mut rest = table;
    // The shortest record has 16 bytes.
    while let Some(head) = rest.first_chunk::<16>() {
        let kind = usize::from(head[0]);
        if kind == 0 || kind > 10 {
            return false;
        }
        let span = usize::from(head[SPAN_AT[kind]]);
        if span > 4 || u128::from_le_bytes(*head) & masks[kind][span] != 0 {
            return false;
        }
        let Some(after) = rest.get(LENGTH[kind]..) else {
            return false;
        };
        rest = after;
        each(kind, span, head);
    }
    rest.is_empty()
}

/// A record of a valid table.
#[derive(Clone, Copy)]
struct Record<'a>(&'a [u8]);

impl Record<'_> {
    #[inline(always)]
    fn kind(self) -> u8 {
        self.0[0]
    }

    /// All kinds but 2 and 5.
    #[inline(always)]
    fn has_vpid(self) -> bool {
        !matches!(self.kind(), 2 | 5)
    }

    /// Kinds 1 to 3, 7, 8.
    #[inline(always)]
    fn is_translation(self) -> bool {
        matches!(self.kind(), 1..=3 | 7 | 8)
    }

    /// Of kinds with a VPID.
    #[inline(always)]
    fn vpid(self) -> u64 {
        u16::from_le_bytes([self.0[1], self.0[2]]).into()
    }

    /// Of kinds with a VPID.
    #[inline(always)]
    fn pcid(self) -> u64 {
        u16::from_le_bytes([self.0[3], self.0[4]]).into()
    }

    #[inline(always)]
    fn global(self) -> bool {
        matches!(self.kind(), 1 | 3 | 7 | 8) && self.0[5] == 1
    }

    #[inline(always)]
    fn number(self, at: usize) -> u64 {
        let low = u32::from_le_bytes([self.0[at], self.0[at + 1], self.0[at + 2], self.0[at + 3]]);
        u64::from(low) | u64::from(self.0[at + 4]) << 32
    }

    /// The page, of 5 bytes or 6. Three more bytes follow it at least.
    #[inline(always)]
    fn page(self, kind: usize) -> u64 {
        let at = SPAN_AT[kind] + 1;
        let mut word = [0; 8];
        word.copy_from_slice(&self.0[at..at + 8]);
        u64::from_le_bytes(word) & PAGE_BITS[kind]
    }

    /// All kinds but 1, 4, 7, 9.
    #[inline(always)]
    fn has_ep4ta(self) -> bool {
        !matches!(self.kind(), 1 | 4 | 7 | 9)
    }

    /// Of kinds with an EP4TA.
    #[inline(always)]
    fn ep4ta(self) -> u64 {
        self.number(EP4TA_AT[usize::from(self.kind() & 15)])
    }

    #[inline(always)]
    fn covers(self, page: u64) -> bool {
        let kind = usize::from(self.kind() & 15);
        let at = SPAN_AT[kind];
        (page ^ self.page(kind)) >> (9 * self.0[at]) == 0
    }

    #[inline(always)]
    fn current(self, context: &Context) -> bool {
        self.vpid() == context.vpid() && (self.pcid() == context.pcid || self.global())
    }
}

/// The first record in what is left of a valid table.
#[inline(always)]
fn first(rest: &[u8]) -> Option<Record<'_>> {
    let kind = *rest.first()?;
    rest.get(..LENGTH[usize::from(kind & 15)]).map(Record)
}

/// Writes the records that are not in scope, run by run, and hands on the
/// others. Hands back the length of what it wrote and how many others there were.
#[inline(always)]
fn sweep(
    table: &[u8],
    new: &mut [u8],
    each: &mut impl FnMut(Record),
    in_scope: impl Fn(Record) -> bool,
) -> (usize, usize) {
    let (mut run, mut at, mut length, mut dropped) = (0, 0, 0, 0);
    while let Some(record) = first(&table[at..]) {
        let end = at + record.0.len();
        if in_scope(record) {
            length = copy(new, length, &table[run..at]);
            run = end;
            dropped += 1;
            each(record);
        }
        at = end;
    }
    (copy(new, length, &table[run..]), dropped)
}

#[inline(always)]
fn copy(new: &mut [u8], at: usize, run: &[u8]) -> usize {
    if run.is_empty() {
        return at;
    }
    let end = at + run.len();
    new[at..end].copy_from_slice(run);
    end
}

/// As [`crate::step()`].
pub fn step(context: &Context, table: &[u8], event: &[u8], new: &mut [u8]) -> Step {
    if !context.in_range() {
        return Step::refused(1, context);
    }
    if table.len() > TABLE_LIMIT {
        return Step::refused(2, context);
    }
    let width = context.linear();
    let Some(count) = count(width, table) else {
        return Step::refused(3, context);
    };
    let Some(decoded) = Event::decode(width, event) else {
        return Step::refused(4, context);
    };
    let grounds = grounds(context, &decoded);
    if grounds != 0 {
        return Step {
            rule: rule(context, &decoded, grounds),
            ..Step::refused(grounds, context)
        };
    }
    if new.len().min(TABLE_LIMIT) < needed(table, event, &decoded) {
        return Step::refused(12, context);
    }
    let (length, dropped) = write(context, table, count, event, &decoded, new, &mut |_| ());
    Step {
        answer: 0,
        rule: 0,
        context: decoded.after(context),
        length,
        dropped,
    }
}

/// Writes the new table of an accepted event: its length, and how many
/// records went. Hands each of those on, but for a reset.
fn write(
    context: &Context,
    table: &[u8],
    count: usize,
    event: &[u8],
    decoded: &Event,
    new: &mut [u8],
    each: &mut impl FnMut(Record),
) -> (usize, usize) {
    let width = context.linear();
    let keep_all = |new: &mut [u8]| (copy(new, 0, table), 0);
    match *decoded {
        Event::Creation(_) => {
            let length = copy(new, 0, table);
            (copy(new, length, event), 0)
        }
        Event::Vmxon | Event::Vmxoff | Event::Switch { .. } => keep_all(new),
        Event::Reset => (0, count),
        Event::Invvpid { kind, low, high } => {
            let vpid = low & 0xFFFF;
            let page = width.page(high);
            match kind {
                0 => sweep(table, new, each, |r| {
                    r.has_vpid() && r.vpid() == vpid && r.covers(page)
                }),
                1 => sweep(table, new, each, |r| r.has_vpid() && r.vpid() == vpid),
                2 => sweep(table, new, each, |r| r.has_vpid() && r.vpid() != 0),
                _ => sweep(table, new, each, |r| {
                    r.has_vpid() && r.vpid() == vpid && !r.global()
                }),
            }
        }
        Event::Invept { kind: 1, low, .. } => {
            let named = ep4ta(low);
            sweep(table, new, each, |r| r.has_ep4ta() && r.ep4ta() == named)
        }
        Event::Invept { .. } => sweep(table, new, each, |r| r.has_ep4ta()),
        Event::Invlpg { address } if width.canonical(address) => {
            let page = width.page(address);
            sweep(table, new, each, |r| {
                r.has_vpid() && r.current(context) && (!r.is_translation() || r.covers(page))
            })
        }
        Event::Invlpg { .. } => keep_all(new),
        Event::EptViolation {
            guest_physical,
            linear,
        } => violation(context, table, guest_physical, linear, new, each),
        Event::Entry { vpid: None, .. } => vpid_zero(table, new, each),
        Event::Exit { .. } if context.vpid() == 0 => vpid_zero(table, new, each),
        Event::Entry { .. } | Event::Exit { .. } => keep_all(new),
        Event::Invpcid { kind, low, high } => {
            let vpid = context.vpid();
            let pcid = low & 0xFFF;
            let page = width.page(high);
            match kind {
                0 => sweep(table, new, each, |r| {
                    r.has_vpid()
                        && r.vpid() == vpid
                        && r.pcid() == pcid
                        && r.covers(page)
                        && !r.global()
                }),
                1 => pcid_not_global(table, vpid, pcid, new, each),
                2 => sweep(table, new, each, |r| r.has_vpid() && r.vpid() == vpid),
                _ => sweep(table, new, each, |r| {
                    r.has_vpid() && r.vpid() == vpid && !r.global()
                }),
            }
        }
        Event::MovToCr3 { pcid } => pcid_not_global(table, context.vpid(), pcid, new, each),
    }
}

fn vpid_zero(table: &[u8], new: &mut [u8], each: &mut impl FnMut(Record)) -> (usize, usize) {
    sweep(table, new, each, |r| r.has_vpid() && r.vpid() == 0)
}

fn pcid_not_global(
    table: &[u8],
    vpid: u64,
    pcid: u64,
    new: &mut [u8],
    each: &mut impl FnMut(Record),
) -> (usize, usize) {
    sweep(table, new, each, |r| {
        r.has_vpid() && r.vpid() == vpid && r.pcid() == pcid && !r.global()
    })
}

fn violation(
    context: &Context,
    table: &[u8],
    guest_physical: u64,
    linear: Option<u64>,
    new: &mut [u8],
    each: &mut impl FnMut(Record),
) -> (usize, usize) {
    let (vpid, pcid) = (context.vpid(), context.pcid);
    let current = context.ep4ta().unwrap_or(u64::MAX);
    let guest_page = guest_physical_page(guest_physical);
    // No record covers a page of 2^45 or more.
    let linear_page = linear.map_or(u64::MAX, |address| context.linear().page(address));
    sweep(table, new, each, |r| match r.kind() {
        1 | 4 | 7 | 9 => false,
        2 | 5 => r.ep4ta() == current && r.covers(guest_page),
        _ => r.vpid() == vpid && r.pcid() == pcid && r.ep4ta() == current && r.covers(linear_page),
    })
}

/// The place of a kind's row among the cells.
const CELL_AT: [usize; 16] = [0, 0, 5, 10, 15, 20, 25, 0, 10, 15, 25, 0, 0, 0, 0, 0];

/// What a record of a kind adds to the count of its PCID: 0 for kinds 2 and 5,
/// whose bytes there are others.
const PCID_COUNTS: [u16; 16] = [0, 1, 0, 1, 1, 0, 1, 1, 1, 1, 1, 0, 0, 0, 0, 0];

/// A fresh count: the six rows end to end, and the PCIDs.
struct Fresh {
    cells: [u16; 32],
    pcids: [u16; PCIDS],
}

/// The cell of a valid record.
#[inline(always)]
fn cell(kind: usize, span: usize) -> usize {
    (CELL_AT[kind] + span) & 31
}

/// The place of the PCID in a record's first bytes. Kinds 2 and 5 have other
/// bytes there, and no count of theirs changes.
#[inline(always)]
fn pcid_at(head: &[u8]) -> usize {
    usize::from(u16::from_le_bytes([head[3], head[4]]) & 0xFFF)
}

impl Fresh {
    /// As rows.
    fn kinds(&self) -> Kinds {
        let mut kinds = Kinds::default();
        kinds.as_flattened_mut().copy_from_slice(&self.cells[..30]);
        kinds
    }
}

/// As [`crate::counted_step()`], with the rows by value and the PCIDs lent.
pub fn counted_step(
    context: &Context,
    kinds: Kinds,
    pcids: &mut [u16],
    table: &[u8],
    event: &[u8],
    new: &mut [u8],
) -> (Step, Kinds) {
    let refused = |answer| (Step::refused(answer, context), kinds);
    if !context.in_range() {
        return refused(1);
    }
    if table.len() > TABLE_LIMIT {
        return refused(2);
    }
    let width = context.linear();
    let mut count = 0;
    let mut fresh = Fresh {
        cells: [0; 32],
        pcids: [0; PCIDS],
    };
    let valid = judge(width, table, |kind, span, head| {
        count += 1;
        fresh.cells[cell(kind, span)] += 1;
        fresh.pcids[pcid_at(head)] += PCID_COUNTS[kind];
    });
    if !valid {
        return refused(3);
    }
    let Some(decoded) = Event::decode(width, event) else {
        return refused(4);
    };
    let Ok(pcids) = <&mut [u16; PCIDS]>::try_from(pcids) else {
        return refused(13);
    };
    if fresh.cells[..30] != *kinds.as_flattened() || fresh.pcids != *pcids {
        return refused(13);
    }
    let grounds = grounds(context, &decoded);
    if grounds != 0 {
        let (step, kinds) = refused(grounds);
        let rule = rule(context, &decoded, grounds);
        return (Step { rule, ..step }, kinds);
    }
    if new.len().min(TABLE_LIMIT) < needed(table, event, &decoded) {
        return refused(12);
    }
    let each = &mut |record: Record| {
        let kind = usize::from(record.kind() & 15);
        let span = usize::from(record.0[SPAN_AT[kind]]);
        fresh.cells[cell(kind, span)] -= 1;
        pcids[pcid_at(record.0)] -= PCID_COUNTS[kind];
    };
    let (length, dropped) = write(context, table, count, event, &decoded, new, each);
    match decoded {
        Event::Creation(mapping) => {
            let kind = mapping.kind as usize;
            fresh.cells[cell(kind, mapping.span as usize)] += 1;
            pcids[pcid_at(event)] += PCID_COUNTS[kind];
        }
        Event::Reset => {
            fresh.cells.fill(0);
            pcids.fill(0);
        }
        _ => {}
    }
    let step = Step {
        answer: 0,
        rule: 0,
        context: decoded.after(context),
        length,
        dropped,
    };
    (step, fresh.kinds())
}

/// As [`crate::lookup()`].
pub fn lookup(
    context: &Context,
    table: &[u8],
    address: Address,
    k: u64,
) -> (u64, Option<Range<usize>>) {
    if !context.in_range() {
        return (1, None);
    }
    if table.len() > TABLE_LIMIT {
        return (2, None);
    }
    if count(context.linear(), table).is_none() {
        return (3, None);
    }
    (0, find(context, table, address, k))
}

fn find(context: &Context, table: &[u8], address: Address, k: u64) -> Option<Range<usize>> {
    let width = context.linear();
    match (address, context.ep4ta()) {
        (Address::Linear(address), None) if width.canonical(address) => {
            let page = width.page(address);
            search(table, k, |r| {
                matches!(r.kind(), 1 | 4 | 7 | 9) && r.current(context) && r.covers(page)
            })
        }
        (Address::Linear(address), Some(current)) if width.canonical(address) => {
            let page = width.page(address);
            search(table, k, |r| {
                matches!(r.kind(), 3 | 6 | 8 | 10)
                    && r.current(context)
                    && r.ep4ta() == current
                    && r.covers(page)
            })
        }
        (Address::GuestPhysical(address), Some(current)) if address < 1 << 48 => {
            let page = guest_physical_page(address);
            search(table, k, |r| {
                !r.has_vpid() && r.ep4ta() == current && r.covers(page)
            })
        }
        _ => None,
    }
}

#[inline(always)]
fn search(table: &[u8], k: u64, usable: impl Fn(Record) -> bool) -> Option<Range<usize>> {
    let (mut at, mut left) = (0, k);
    while let Some(record) = first(&table[at..]) {
        let end = at + record.0.len();
        if usable(record) {
            if left == 0 {
                return Some(at..end);
            }
            left -= 1;
        }
        at = end;
    }
    None
}

/// As [`crate::replay()`] from any context, in two lent buffers, with each line
/// handed on as it comes. False, and no line, if the log is too long. Buffers
/// of `TABLE_LIMIT` bytes or more give the program's lines; with shorter ones
/// there is less room.
pub fn replay<'a>(
    start: &Context,
    log: &[u8],
    mut old: &'a mut [u8],
    mut new: &'a mut [u8],
    mut each: impl FnMut(Line),
) -> bool {
    if log.len() > LOG_LIMIT {
        return false;
    }
    let mut context = *start;
    let (mut rest, mut number, mut length) = (log, 0, 0);
    while let Some(kind) = rest.first() {
        let whole = event::length(context.linear(), *kind).filter(|length| *length <= rest.len());
        let (event, after) = rest.split_at(whole.unwrap_or(rest.len()));
        let step = step(&context, &old[..length], event, new);
        if step.answer == 0 {
            context = step.context;
            length = step.length;
            std::mem::swap(&mut old, &mut new);
        }
        number += 1;
        each(Line {
            number,
            answer: step.answer,
            dropped: step.dropped,
            length,
        });
        if whole.is_none() || step.answer == 2 || step.answer == 3 {
            break;
        }
        rest = after;
    }
    true
}

/// As [`crate::widen()`].
pub fn widen(table: &[u8], new: &mut [u8]) -> Widened {
    if table.len() > TABLE_LIMIT {
        return Widened::refused(2);
    }
    let mut length = table.len();
    let gain = |kind: usize, _, _: &_| length += widened_length(kind) - LENGTH[kind];
    if !judge(LinearWidth::Bits48, table, gain) {
        return Widened::refused(3);
    }
    if new.len().min(TABLE_LIMIT) < length {
        return Widened::refused(12);
    }
    write_widened(table, &mut new[..length]);
    Widened { answer: 0, length }
}

/// The kind at 57 bits by that at 48.
const WIDENED: [u8; 16] = [0, 7, 2, 8, 9, 5, 10, 0, 0, 0, 0, 0, 0, 0, 0, 0];

/// The length of a record at 57 bits by its kind at 48.
#[inline(always)]
fn widened_length(kind: usize) -> usize {
    LENGTH[usize::from(WIDENED[kind])]
}

/// Writes the new table of a valid one; it has just the room that it needs.
fn write_widened(table: &[u8], new: &mut [u8]) {
    let (mut from, mut to) = (0, 0);
    // 24 bytes at once: what is too much, the next record is written over.
    while let (Some(old), Some(wide)) = (
        table[from..].first_chunk::<24>(),
        new[to..].first_chunk_mut::<24>(),
    ) {
        let kind = usize::from(old[0] & 15);
        put_widened(kind, old, wide);
        from += LENGTH[kind];
        to += widened_length(kind);
    }
    while let Some(record) = first(&table[from..]) {
        let kind = usize::from(record.kind() & 15);
        let (mut old, mut wide) = ([0; 24], [0; 24]);
        old[..record.0.len()].copy_from_slice(record.0);
        put_widened(kind, &old, &mut wide);
        let end = to + widened_length(kind);
        new[to..end].copy_from_slice(&wide[..end - to]);
        from += record.0.len();
        to = end;
    }
}

/// The record at the start of these bytes, and anything behind it. A page of
/// the upper half gains bits 36 to 44: four of its fifth byte, five of its sixth.
#[inline(always)]
fn put_widened(kind: usize, old: &[u8; 24], wide: &mut [u8; 24]) {
    *wide = *old;
    if kind == 2 || kind == 5 {
        return;
    }
    let end = SPAN_AT[kind] + 6;
    let upper_half = old[end - 1] & 0x08 != 0;
    let (fifth, sixth) = if upper_half { (0xF0, 0x1F) } else { (0, 0) };
    wide[0] = WIDENED[kind];
    wide[end - 1] |= fifth;
    wide[end] = sixth;
    wide[end + 1..end + 11].copy_from_slice(&old[end..end + 10]);
}
