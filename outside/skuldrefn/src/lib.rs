//! Skuldrefn for Rust: the proved model of the translations that a processor
//! caches under VMX, behind safe functions.
//!
//! From any other workspace, one line in its Cargo.toml:
//!
//! ```toml
//! skuldrefn = { path = "../skuldrefn/outside/skuldrefn" }
//! ```
//!
//! The static library comes first: `./skuldrefn library`, at the top of the
//! checkout, proves and builds it. This crate finds it there; if it is
//! elsewhere, SKULDREFN_LIB names its folder. Linux on x86-64 only.
//!
//! Tables, records, events and answers are bytes and numbers as `docs/MODEL.md`
//! and the header `outside/c/skuldrefn.h` describe them. A table and its new
//! version stand in two buffers of the caller, which take turns:
//!
//! ```
//! use skuldrefn::{lookup, step, Address, Context, Place, Tally, TABLE_LIMIT};
//!
//! let guest = Context {
//!     pcid: 1,
//!     place: Place::Guest { vpid: 5, ept: None },
//!     ..Context::program()
//! };
//! // A linear translation of page 12345h: VPID 5, PCID 1, frame ABCDEh.
//! let created = [1, 5, 0, 1, 0, 0, 0, 0x45, 0x23, 1, 0, 0, 0xDE, 0xBC, 0x0A, 0, 0];
//! let mut table = [0; TABLE_LIMIT];
//! let mut tally = Tally::new();
//! let done = step(&guest, &mut tally, &[], &created, &mut table);
//! assert_eq!((done.answer, done.length, done.dropped), (0, 17, 0));
//! assert_eq!(tally.pcids[1], 1);
//!
//! let at = |address| lookup(&guest, &table[..done.length], Address::Linear(address), 0);
//! assert_eq!(at(0x1234_5678), (0, Some(0..17)));
//! assert_eq!(at(0x1234_6000), (0, None));
//! ```
//!
//! Each function that takes a context or hands one back comes twice: on
//! [`Context`], and as `.._flat` on the numbers of the C interface,
//! [`FlatContext`], where a place may be any number too. [`raw`] has the C
//! functions themselves.
//!
//! A step carries a [`Tally`]: how many records the table has of each kind and
//! span, and of each PCID. [`plain_step`] does without.
//!
//! A context has a linear width, 48 or 57 bits. [`widen`] makes a table of the
//! second sort from a stored one of the first. [`export_rows`] makes rows of 32 bytes
//! from a table, one for each record, and [`import_rows`] a table from such rows.
//!
//! [`step_levels`] and [`lookup_levels`] are for two levels of TLB: a small table
//! before the large one.
//!
//! A log need not be there whole: a [`Reader`] takes it in fragments, cut anywhere.
//!
//! [`judge`] says of another simulator's table whether an event may leave it, and
//! [`walk`] what a guest's page tables and EPT let the processor cache.

mod claim;
mod context;
mod levels;
mod logs;
pub mod raw;
mod reason;
mod rows;
mod stream;
mod tally;
mod walk;

pub use claim::{judge, judge_flat, Judgement};
pub use context::{Context, Place};
pub use levels::{lookup_levels, lookup_levels_flat, step_levels, step_levels_flat};
pub use levels::{Found, Level, LevelAfter, LevelStep};
pub use logs::{event_length, events, lines, replay, replay_flat, Line, Replay};
pub use raw::{
    Converted, FlatContext, FlatFinished, FlatJudgement, FlatLevel, FlatLevelStep, FlatReason,
    FlatReplayed, FlatStep, FlatTaken, FlatWalk, Kinds, LevelPart, Part, Reader, Row, Widened,
};
pub use reason::Reason;
pub use rows::{export_rows, import_rows};
use std::ops::Range;
pub use stream::Taken;
pub use tally::{count, step, step_flat, Tally};
pub use walk::{walk, walk_flat, Ending, Spot, Walk};

/// The longest table, in bytes.
pub const TABLE_LIMIT: usize = 47_104;

/// The longest log that the replay program reads, in bytes.
pub const LOG_LIMIT: usize = 65_536;

/// The bytes of one row of a replay.
pub const ROW: usize = 24;

/// The bytes of one fixed row, which holds a record of a table.
pub const FIXED_ROW: usize = 32;

/// How many PCIDs there are, 0 to 4,095; as many counts a tally has for them.
pub const PCIDS: usize = 4_096;

/// The replay program's IA32_VMX_EPT_VPID_CAP: bits 6, 8, 14, 20, 21, 25, 26,
/// 32 and 40 to 43.
pub const PROGRAM_CAPABILITY: u64 = 0x0F01_0630_4140;

/// The replay program's physical width N.
pub const PROGRAM_WIDTH: u64 = 52;

/// The replay program's linear width.
pub const PROGRAM_LINEAR_WIDTH: u64 = 48;

/// The folder in which the build found the library.
pub const LIBRARY: &str = env!("SKULDREFN_LIB_FOUND");

/// What a step reports. A refusal hands back the context as it came, 0 and 0.
#[derive(Clone, Copy, Debug, PartialEq, Eq)]
pub struct Step {
    /// 0 to 13; 0 is accepted, and a plain step never gives 13.
    pub answer: u64,
    /// The first rule that the EPTP breaks, if that is the ground of answer 8
    /// or 10, else 0: 1 memory type, 2 walk length, 3 accessed and dirty, 4
    /// bits 11:7, 5 bits above the width.
    pub rule: u64,
    /// The context after the event.
    pub context: Context,
    /// The new table's length in bytes.
    pub length: usize,
    /// How many records went.
    pub dropped: usize,
}

/// One event on a context and a table, without a tally. The new table is
/// written to the start of `new`, and the bytes past it stay; a refusal writes
/// nothing.
///
/// # Panics
/// If the library hands back what its contract rules out.
pub fn plain_step(context: &Context, table: &[u8], event: &[u8], new: &mut [u8]) -> Step {
    known_step(&plain_step_flat(&context.into(), table, event, new))
}

fn known_step(step: &FlatStep) -> Step {
    Step {
        answer: step.answer,
        rule: step.rule,
        context: known(&step.context),
        length: step.length,
        dropped: step.dropped,
    }
}

fn known(context: &FlatContext) -> Context {
    match context.context() {
        Some(context) => context,
        None => panic!("the library handed back {context:?}"),
    }
}

/// One step without a tally, on a flat context.
pub fn plain_step_flat(
    context: &FlatContext,
    table: &[u8],
    event: &[u8],
    new: &mut [u8],
) -> FlatStep {
    // SAFETY: each pointer is good for its length during the call, `new` is
    // borrowed alone, and the library keeps nothing.
    unsafe {
        raw::skuldrefn_plain_step(
            *context,
            table.as_ptr(),
            table.len(),
            event.as_ptr(),
            event.len(),
            new.as_mut_ptr(),
            new.len(),
        )
    }
}

/// What is looked up: any number of either sort.
#[derive(Clone, Copy, Debug, PartialEq, Eq)]
pub enum Address {
    Linear(u64),
    GuestPhysical(u64),
}

/// The answer, 0 to 3, and the place in the table of the k-th record, from 0,
/// that is usable at an address.
pub fn lookup(
    context: &Context,
    table: &[u8],
    address: Address,
    k: u64,
) -> (u64, Option<Range<usize>>) {
    let part = lookup_flat(&context.into(), table, address, k);
    let place = part.start..part.start + part.length;
    (part.answer, (part.length > 0).then_some(place))
}

/// The k-th usable record, from 0, on a flat context.
pub fn lookup_flat(context: &FlatContext, table: &[u8], address: Address, k: u64) -> Part {
    let (start, length) = (table.as_ptr(), table.len());
    // SAFETY: the table is good for its length during the call, and the
    // library keeps nothing.
    unsafe {
        match address {
            Address::Linear(address) => {
                raw::skuldrefn_lookup_linear(*context, start, length, address, k)
            }
            Address::GuestPhysical(address) => {
                raw::skuldrefn_lookup_guest_physical(*context, start, length, address, k)
            }
        }
    }
}

/// Why an event drops a record or leaves it.
///
/// # Panics
/// If the library hands back what its contract rules out.
pub fn explain(context: &Context, record: &[u8], event: &[u8]) -> Reason {
    let flat = explain_flat(&context.into(), record, event);
    match flat.reason() {
        Some(reason) => reason,
        None => panic!("the library handed back {flat:?}"),
    }
}

/// Why an event drops a record or leaves it, on a flat context.
pub fn explain_flat(context: &FlatContext, record: &[u8], event: &[u8]) -> FlatReason {
    // SAFETY: each pointer is good for its length during the call, and the
    // library keeps nothing.
    unsafe {
        raw::skuldrefn_explain(
            *context,
            record.as_ptr(),
            record.len(),
            event.as_ptr(),
            event.len(),
        )
    }
}

/// A stored table of 48-bit linear addresses as one of 57, at the start of
/// `new`: kinds 1, 3, 4 and 6 become 7, 8, 9 and 10, with a page of 6 bytes, to
/// which 2^45 - 2^36 is added from 2^35 on, and kinds 2 and 5 stay. Bytes past the result stay; a refusal writes nothing.
pub fn widen(table: &[u8], new: &mut [u8]) -> Widened {
    // SAFETY: each pointer is good for its length during the call, `new` is
    // borrowed alone, and the library keeps nothing.
    unsafe { raw::skuldrefn_widen(table.as_ptr(), table.len(), new.as_mut_ptr(), new.len()) }
}
