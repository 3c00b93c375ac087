//! A log as it arrives (document 02, Ask 3): a reader that is handed the log in
//! fragments, cut anywhere.

use crate::address::LinearWidth;
use crate::context::Context;
use crate::event;
use crate::judge::answer;
use crate::step::Step;
use crate::tally::{counted_step, Tally};

/// The most bytes of an unfinished event that are held between calls.
pub const HELD: usize = 24;

/// A reader. Any numbers and bytes may be handed in.
#[derive(Clone, Copy, Debug, PartialEq, Eq)]
pub struct Reader {
    /// The number of the last event that was reported; it stops at 2^64 - 1.
    pub line: u64,
    /// 0 for no, any other number for yes.
    pub ignoring: u64,
    /// How many bytes are held.
    pub length: u64,
    /// They are at its front; what is behind them is not looked at.
    pub held: [u8; HELD],
}

/// What a call with a fragment hands back.
#[derive(Clone, Copy, Debug, PartialEq, Eq)]
pub struct Taken {
    pub reader: Reader,
    /// How many bytes of the fragment were taken.
    pub taken: usize,
    /// The step of the event that was finished; None if none was.
    pub finished: Option<Step>,
}

/// What a finish call hands back.
#[derive(Clone, Copy, Debug, PartialEq, Eq)]
pub struct Finished {
    pub reader: Reader,
    /// The answer to a cut record; None if nothing is reported.
    pub answer: Option<u64>,
}

impl Reader {
    /// The reader at the start of a log.
    pub fn new() -> Reader {
        Reader {
            line: 0,
            ignoring: 0,
            length: 0,
            held: [0; HELD],
        }
    }

    /// The bytes held; None if there are more than there can be.
    fn bytes(&self) -> Option<&[u8]> {
        self.held.get(..usize::try_from(self.length).ok()?)
    }

    /// Whether the reader counts as ignoring: it was told so, or it holds more
    /// than 24 bytes, or bytes that begin no known event at this width or complete
    /// one.
    pub fn ignores(&self, width: LinearWidth) -> bool {
        let held = match self.bytes() {
            Some(held) if self.ignoring == 0 => held,
            _ => return true,
        };
        held.first().is_some_and(|kind| {
            let whole = event::length(width, *kind);
            whole.is_none_or(|whole| held.len() >= whole)
        })
    }

    /// After an event was reported: its line is counted, and nothing is held.
    fn reported(&self, ignoring: bool) -> Reader {
        Reader {
            line: self.line.saturating_add(1),
            ignoring: u64::from(ignoring),
            length: 0,
            held: self.held,
        }
    }

    /// A reset of the reader: held bytes are discarded, and the ignoring ends. The
    /// line number stays.
    pub fn reset(&self) -> Reader {
        Reader {
            ignoring: 0,
            length: 0,
            ..*self
        }
    }
}

impl Default for Reader {
    fn default() -> Reader {
        Reader::new()
    }
}

/// A fragment of the log, on a context, a table and its tally. The call stops
/// after the first event that it finishes, which is then one counted step.
pub fn take(
    reader: &Reader,
    context: &Context,
    tally: &mut Tally,
    table: &[u8],
    fragment: &[u8],
    new: &mut [u8],
) -> Taken {
    let width = context.linear();
    if reader.ignores(width) {
        return Taken {
            reader: *reader,
            taken: fragment.len(),
            finished: None,
        };
    }
    let mut so_far = reader.bytes().unwrap_or_default().to_vec();
    for (place, byte) in fragment.iter().enumerate() {
        so_far.push(*byte);
        // An unknown kind byte counts as a finished event.
        let whole = event::length(width, so_far[0]);
        if whole.is_some_and(|whole| so_far.len() < whole) {
            continue;
        }
        let step = counted_step(context, tally, table, &so_far, new);
        let ends = whole.is_none() || step.answer == 2 || step.answer == 3;
        return Taken {
            reader: reader.reported(ends),
            taken: place + 1,
            finished: Some(step),
        };
    }
    let mut after = *reader;
    after.length = so_far.len() as u64;
    after.held[..so_far.len()].copy_from_slice(&so_far);
    Taken {
        reader: after,
        taken: fragment.len(),
        finished: None,
    }
}

/// The end of the log. Bytes that are held are a cut record: answer 4, but 1 to 3
/// go first. With none, nothing is reported. Either way the ignoring begins.
pub fn finish(reader: &Reader, context: &Context, table: &[u8]) -> Finished {
    if reader.ignores(context.linear()) {
        return Finished {
            reader: *reader,
            answer: None,
        };
    }
    match reader.bytes() {
        Some(cut) if !cut.is_empty() => Finished {
            reader: reader.reported(true),
            answer: Some(answer(context, table, cut, 0)),
        },
        _ => Finished {
            reader: Reader {
                ignoring: 1,
                ..*reader
            },
            answer: None,
        },
    }
}
