//! Two levels of tables, with the model's tallies.

use crate::tally::{of_library, of_model};
use crate::FlatContext;
use model::Kinds;
use skuldrefn::raw;
use skuldrefn::raw::LevelPart;

/// One level whose counts of PCIDs and new buffer are lent.
#[derive(Debug)]
pub struct LentLevel<'a> {
    pub kinds: Kinds,
    pub pcids: &'a mut [u16],
    pub table: &'a [u8],
    pub new: &'a mut [u8],
}

/// What a step reports of one level, with the model's rows.
#[derive(Clone, Copy, Debug, PartialEq, Eq)]
pub struct LevelAfter {
    pub length: usize,
    pub dropped: usize,
    pub kinds: Kinds,
}

/// What a step of both levels reports.
#[derive(Clone, Copy, Debug, PartialEq, Eq)]
pub struct LevelStep {
    pub answer: u64,
    pub rule: u64,
    pub context: FlatContext,
    pub levels: [LevelAfter; 2],
}

/// One step of both levels by the C function.
pub fn step_levels_lent(
    context: &FlatContext,
    event: &[u8],
    first: LentLevel,
    second: LentLevel,
) -> LevelStep {
    // SAFETY: each pointer is good for its length during the call, both lists and both
    // new buffers are borrowed alone, and the library keeps nothing.
    let step = unsafe {
        raw::skuldrefn_step_levels(
            *context,
            event.as_ptr(),
            event.len(),
            of_model(&first.kinds),
            first.pcids.as_mut_ptr(),
            first.pcids.len(),
            first.table.as_ptr(),
            first.table.len(),
            first.new.as_mut_ptr(),
            first.new.len(),
            of_model(&second.kinds),
            second.pcids.as_mut_ptr(),
            second.pcids.len(),
            second.table.as_ptr(),
            second.table.len(),
            second.new.as_mut_ptr(),
            second.new.len(),
        )
    };
    LevelStep {
        answer: step.answer,
        rule: step.rule,
        context: step.context,
        levels: [step.first, step.second].map(|level| LevelAfter {
            length: level.length,
            dropped: level.dropped,
            kinds: of_library(&level.kinds),
        }),
    }
}

/// The first usable translation of a linear address, on a flat context.
pub fn lookup_levels(
    context: &FlatContext,
    first: &[u8],
    second: &[u8],
    address: u64,
) -> LevelPart {
    skuldrefn::lookup_levels_flat(context, first, second, address)
}
