//! Counted steps and fresh counts, with the model's tally.

use crate::{FlatContext, FlatStep};
use model::{Kinds, Tally};
use skuldrefn::{raw, Row};
use std::mem::take;

/// The model's rows as the library has them.
pub(crate) fn of_model(kinds: &Kinds) -> skuldrefn::Kinds {
    skuldrefn::Kinds {
        rows: kinds.map(|spans| Row { spans }),
    }
}

/// The library's rows as the model has them.
pub(crate) fn of_library(kinds: &skuldrefn::Kinds) -> Kinds {
    kinds.rows.map(|row| row.spans)
}

/// One counted step by the wrapper.
pub fn step_flat(
    context: &FlatContext,
    tally: &mut Tally,
    table: &[u8],
    event: &[u8],
    new: &mut [u8],
) -> FlatStep {
    let mut own = skuldrefn::Tally {
        kinds: of_model(&tally.kinds),
        pcids: take(&mut tally.pcids),
    };
    let step = skuldrefn::step_flat(context, &mut own, table, event, new);
    tally.kinds = of_library(&own.kinds);
    tally.pcids = own.pcids;
    step
}

/// The same by the C function: the rows by value, and a part of the caller's
/// counts of PCIDs lent.
pub fn counted_step_lent(
    context: &FlatContext,
    kinds: &Kinds,
    pcids: &mut [u16],
    table: &[u8],
    event: &[u8],
    new: &mut [u8],
) -> (FlatStep, Kinds) {
    // SAFETY: each pointer is good for its length during the call, `pcids` and
    // `new` are borrowed alone, and the library keeps nothing.
    let step = unsafe {
        raw::skuldrefn_step(
            *context,
            of_model(kinds),
            pcids.as_mut_ptr(),
            pcids.len(),
            table.as_ptr(),
            table.len(),
            event.as_ptr(),
            event.len(),
            new.as_mut_ptr(),
            new.len(),
        )
    };
    let plain = FlatStep {
        answer: step.answer,
        rule: step.rule,
        context: step.context,
        length: step.length,
        dropped: step.dropped,
    };
    (plain, of_library(&step.kinds))
}

/// A fresh count by the wrapper; Err is the answer.
pub fn count(linear_width: u64, table: &[u8]) -> Result<Tally, u64> {
    let tally = skuldrefn::count(linear_width, table)?;
    Ok(Tally {
        kinds: of_library(&tally.kinds),
        pcids: tally.pcids,
    })
}

/// The same by the C function, into a list that is lent: the answer and the
/// rows.
pub fn count_lent(linear_width: u64, table: &[u8], pcids: &mut [u16]) -> (u64, Kinds) {
    // SAFETY: each pointer is good for its length during the call, `pcids` is
    // borrowed alone, and the library keeps nothing.
    let counted = unsafe {
        raw::skuldrefn_count(
            linear_width,
            table.as_ptr(),
            table.len(),
            pcids.as_mut_ptr(),
            pcids.len(),
        )
    };
    (counted.answer, of_library(&counted.kinds))
}
