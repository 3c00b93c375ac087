//! Logs in fragments, with the model's reader and tally.

use crate::tally::{of_library, of_model};
use crate::{FlatContext, FlatStep};
use model::stream::Reader;
use model::Kinds;
use skuldrefn::raw;

/// What a call with a fragment reports, with the model's reader and rows.
#[derive(Clone, Copy, Debug, PartialEq, Eq)]
pub struct Taken {
    pub reader: Reader,
    pub taken: usize,
    pub finished: u64,
    pub step: FlatStep,
    pub kinds: Kinds,
}

/// What a finish call reports, with the model's reader.
#[derive(Clone, Copy, Debug, PartialEq, Eq)]
pub struct Finished {
    pub reader: Reader,
    pub finished: u64,
    pub answer: u64,
}

fn to_library(reader: &Reader) -> skuldrefn::Reader {
    skuldrefn::Reader {
        line: reader.line,
        ignoring: reader.ignoring,
        length: reader.length,
        held: reader.held,
    }
}

fn to_model(reader: &skuldrefn::Reader) -> Reader {
    Reader {
        line: reader.line,
        ignoring: reader.ignoring,
        length: reader.length,
        held: reader.held,
    }
}

/// A fragment by the C function: the rows by value, and a part of the caller's
/// counts of PCIDs lent.
pub fn take_lent(
    reader: &Reader,
    context: &FlatContext,
    kinds: &Kinds,
    pcids: &mut [u16],
    table: &[u8],
    fragment: &[u8],
    new: &mut [u8],
) -> Taken {
    // SAFETY: each pointer is good for its length during the call, `pcids` and
    // `new` are borrowed alone, and the library keeps nothing.
    let taken = unsafe {
        raw::skuldrefn_take(
            to_library(reader),
            *context,
            of_model(kinds),
            pcids.as_mut_ptr(),
            pcids.len(),
            table.as_ptr(),
            table.len(),
            fragment.as_ptr(),
            fragment.len(),
            new.as_mut_ptr(),
            new.len(),
        )
    };
    Taken {
        reader: to_model(&taken.reader),
        taken: taken.taken,
        finished: taken.finished,
        step: taken.step,
        kinds: of_library(&taken.kinds),
    }
}

/// The end of a log, by the wrapper.
pub fn finish(reader: &Reader, context: &FlatContext, table: &[u8]) -> Finished {
    let mut own = to_library(reader);
    let finished = own.finish_flat(context, table);
    Finished {
        reader: to_model(&own),
        finished: finished.finished,
        answer: finished.answer,
    }
}

/// The reader after a reset, by the wrapper.
pub fn reset_reader(reader: &Reader) -> Reader {
    let mut own = to_library(reader);
    own.reset();
    to_model(&own)
}
