//! Two levels of TLB: a small first-level table before the large one.

use crate::context::Context;
use crate::raw::{self, FlatContext, FlatLevel, FlatLevelStep, LevelPart};
use crate::{known, Tally};
use std::ops::Range;

/// One level of a step: its table with its tally, and the buffer for its new table.
#[derive(Debug)]
pub struct Level<'a> {
    pub tally: &'a mut Tally,
    pub table: &'a [u8],
    pub new: &'a mut [u8],
}

/// What a step reports of one level: 0 and 0 on a refusal.
#[derive(Clone, Copy, Debug, Default, PartialEq, Eq)]
pub struct LevelAfter {
    /// The new table's length in bytes.
    pub length: usize,
    /// How many records went.
    pub dropped: usize,
}

/// What a step of both levels reports. A refusal hands back the context as it came.
#[derive(Clone, Copy, Debug, PartialEq, Eq)]
pub struct LevelStep {
    /// The first table's answer, or the second's where that is 0.
    pub answer: u64,
    /// The rule of the EPTP, as [`crate::Step`] has it, of the table whose answer is
    /// given.
    pub rule: u64,
    /// The context after the event.
    pub context: Context,
    pub first: LevelAfter,
    pub second: LevelAfter,
}

/// One event on a context and two tables, each with its own tally and buffer, as
/// [`crate::step`] does it on one. A creation goes into both. If either table's step
/// would be refused, neither buffer is written, and context and both tallies stay.
///
/// ```
/// use skuldrefn::{lookup_levels, step_levels, Context, Found, Level, Place, Tally};
///
/// let guest = Context {
///     pcid: 1,
///     place: Place::Guest { vpid: 5, ept: None },
///     ..Context::program()
/// };
/// // A linear translation of page 12345h: VPID 5, PCID 1, frame ABCDEh.
/// let created = [1, 5, 0, 1, 0, 0, 0, 0x45, 0x23, 1, 0, 0, 0xDE, 0xBC, 0x0A, 0, 0];
/// let (mut small, mut large) = ([0; 17], [0; 100]);
/// let (mut tally, mut other) = (Tally::new(), Tally::new());
/// let first = Level { tally: &mut tally, table: &[], new: &mut small };
/// let second = Level { tally: &mut other, table: &[], new: &mut large };
/// let step = step_levels(&guest, &created, first, second);
/// assert_eq!((step.answer, step.first.length, step.second.length), (0, 17, 17));
///
/// // The first level may drop it again, and the second still has it.
/// let found = |first: &[u8]| lookup_levels(&guest, first, &large[..17], 0x1234_5678);
/// assert_eq!(found(&small), (0, Some(Found { level: 1, place: 0..17 })));
/// assert_eq!(found(&[]), (0, Some(Found { level: 2, place: 0..17 })));
/// ```
///
/// # Panics
/// If the library hands back what its contract rules out.
pub fn step_levels(context: &Context, event: &[u8], first: Level, second: Level) -> LevelStep {
    let step = step_levels_flat(&context.into(), event, first, second);
    let after = |level: &FlatLevel| LevelAfter {
        length: level.length,
        dropped: level.dropped,
    };
    LevelStep {
        answer: step.answer,
        rule: step.rule,
        context: known(&step.context),
        first: after(&step.first),
        second: after(&step.second),
    }
}

/// One step of both levels, on a flat context.
pub fn step_levels_flat(
    context: &FlatContext,
    event: &[u8],
    first: Level,
    second: Level,
) -> FlatLevelStep {
    // SAFETY: each pointer is good for its length during the call, both new buffers
    // and both lists of counts are borrowed alone, and the library keeps nothing.
    let step = unsafe {
        raw::skuldrefn_step_levels(
            *context,
            event.as_ptr(),
            event.len(),
            first.tally.kinds,
            first.tally.pcids.as_mut_ptr(),
            first.tally.pcids.len(),
            first.table.as_ptr(),
            first.table.len(),
            first.new.as_mut_ptr(),
            first.new.len(),
            second.tally.kinds,
            second.tally.pcids.as_mut_ptr(),
            second.tally.pcids.len(),
            second.table.as_ptr(),
            second.table.len(),
            second.new.as_mut_ptr(),
            second.new.len(),
        )
    };
    first.tally.kinds = step.first.kinds;
    second.tally.kinds = step.second.kinds;
    step
}

/// Where a translation stands.
#[derive(Clone, Debug, PartialEq, Eq)]
pub struct Found {
    /// 1 or 2.
    pub level: u64,
    /// Its place in that level's table.
    pub place: Range<usize>,
}

/// The answer, 0 to 3, and the first translation (kind 1 or 3, at 57 bits 7 or 8) that
/// is usable at a linear address: from the first table if it has one, else from the
/// second. The answer is the first table's, or the second's where that is 0, and with
/// any but 0 there is no translation.
pub fn lookup_levels(
    context: &Context,
    first: &[u8],
    second: &[u8],
    address: u64,
) -> (u64, Option<Found>) {
    let part = lookup_levels_flat(&context.into(), first, second, address);
    let found = Found {
        level: part.level,
        place: part.start..part.start + part.length,
    };
    (part.answer, (part.level > 0).then_some(found))
}

/// The lookup in both levels, on a flat context.
pub fn lookup_levels_flat(
    context: &FlatContext,
    first: &[u8],
    second: &[u8],
    address: u64,
) -> LevelPart {
    // SAFETY: each table is good for its length during the call, and the library
    // keeps nothing.
    unsafe {
        raw::skuldrefn_lookup_levels(
            *context,
            first.as_ptr(),
            first.len(),
            second.as_ptr(),
            second.len(),
            address,
        )
    }
}
