//! A log that arrives in fragments.

use crate::context::Context;
use crate::raw::{self, FlatContext, FlatFinished, FlatTaken, Reader};
use crate::tally::Tally;
use crate::{known_step, Step};

/// What a [`Reader`] made of a fragment.
#[derive(Clone, Copy, Debug, PartialEq, Eq)]
pub struct Taken {
    /// How many bytes of the fragment were taken, from its start. The others are to
    /// be handed in again.
    pub taken: usize,
    /// What the step of the event reports that was finished; None if none was.
    pub step: Option<Step>,
}

/// Takes a log as it arrives: in fragments of any length, none included, cut
/// anywhere. Each call stops after the first event that it finishes. At most 24
/// bytes of an unfinished one are held from call to call, so the log may have any
/// length. Context, table and tally stay the caller's, as in [`crate::step`].
///
/// ```
/// use skuldrefn::{Context, Reader, Tally};
///
/// // VMXON; VM entry with VPID 5, PCID 1 and CPL 0; VM exit to PCID 0, cut.
/// let log = [22, 20, 1, 5, 0, 0, 0, 0, 0, 0, 0, 0, 0, 0, 1, 0, 0, 21, 0];
/// let (mut reader, mut tally) = (Reader::new(), Tally::new());
/// let (mut context, mut table) = (Context::program(), Vec::new());
/// let mut answers = Vec::new();
/// for fragment in log.chunks(7) {
///     let mut rest = fragment;
///     while !rest.is_empty() {
///         let mut new = vec![0; table.len() + 25];
///         let taken = reader.take(&context, &mut tally, &table, rest, &mut new);
///         rest = &rest[taken.taken..];
///         if let Some(step) = taken.step {
///             answers.push((reader.line, step.answer));
///             context = step.context;
///             if step.answer == 0 {
///                 new.truncate(step.length);
///                 table = new;
///             }
///         }
///     }
/// }
/// assert_eq!(answers, [(1, 0), (2, 0)]);
/// assert_eq!(reader.length, 2);
///
/// // The end of the log: the record is cut.
/// assert_eq!(reader.finish(&context, &table), Some(4));
/// assert_eq!(reader.line, 3);
/// ```
///
/// It ignores what follows an unknown kind, an answer 2 or 3 and a finish, until it
/// is [`Reader::reset`]: fragments are taken whole, and nothing is reported. So does
/// one that holds more than 24 bytes, or bytes that begin no event known at the
/// context's linear width or complete one, which only a caller can make.
impl Reader {
    /// The reader at the start of a log: line 0, and nothing held.
    pub fn new() -> Reader {
        Reader::default()
    }

    /// Takes a fragment. If it finishes an event, that is one step with the tally,
    /// as [`crate::step`] has it, and `line` is its number, which stops at 2^64 - 1.
    /// An unknown kind is finished after its one byte, and answered 4, or 1 to 3 if
    /// they apply; kinds are known by the context's linear width, any but 57 read as
    /// 48. If it finishes none, all of it is taken, and nothing else changes.
    ///
    /// # Panics
    /// If the library hands back what its contract rules out.
    pub fn take(
        &mut self,
        context: &Context,
        tally: &mut Tally,
        table: &[u8],
        fragment: &[u8],
        new: &mut [u8],
    ) -> Taken {
        let flat = self.take_flat(&context.into(), tally, table, fragment, new);
        let step = match flat.finished {
            0 => None,
            _ => Some(known_step(&flat.step)),
        };
        Taken {
            taken: flat.taken,
            step,
        }
    }

    /// Takes a fragment, on a flat context. The reader and the tally become those
    /// that it reports.
    pub fn take_flat(
        &mut self,
        context: &FlatContext,
        tally: &mut Tally,
        table: &[u8],
        fragment: &[u8],
        new: &mut [u8],
    ) -> FlatTaken {
        // SAFETY: each pointer is good for its length during the call, `new` and
        // the PCIDs' counts are borrowed alone, and the library keeps nothing.
        let taken = unsafe {
            raw::skuldrefn_take(
                *self,
                *context,
                tally.kinds,
                tally.pcids.as_mut_ptr(),
                tally.pcids.len(),
                table.as_ptr(),
                table.len(),
                fragment.as_ptr(),
                fragment.len(),
                new.as_mut_ptr(),
                new.len(),
            )
        };
        *self = taken.reader;
        tally.kinds = taken.kinds;
        taken
    }

    /// The end of the log. The answer to a cut record, which then is the next line:
    /// 4, or 1 to 3 if they apply; None if no byte is held or the reader ignores.
    pub fn finish(&mut self, context: &Context, table: &[u8]) -> Option<u64> {
        let flat = self.finish_flat(&context.into(), table);
        (flat.finished != 0).then_some(flat.answer)
    }

    /// The end of the log, on a flat context. The reader becomes the one that it
    /// reports.
    pub fn finish_flat(&mut self, context: &FlatContext, table: &[u8]) -> FlatFinished {
        // SAFETY: the table is good for its length during the call, and the library
        // keeps nothing.
        let finished =
            unsafe { raw::skuldrefn_finish(*self, *context, table.as_ptr(), table.len()) };
        *self = finished.reader;
        finished
    }

    /// Discards held bytes and ends the ignoring. The line number stays, and so do
    /// context, table and tally, which are the caller's.
    pub fn reset(&mut self) {
        // SAFETY: no pointer is handed over.
        *self = unsafe { raw::skuldrefn_reset_reader(*self) };
    }
}
