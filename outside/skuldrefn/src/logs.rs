//! Logs: their events, and their replay.

use crate::context::Context;
use crate::raw::{self, FlatReplayed};
use crate::{known, ROW, TABLE_LIMIT};

/// How many bytes the kind of a log's first event says that it has at a linear
/// width; 0 for no byte and for an unknown kind, as those of the other width
/// are. It is more than the log has where the record is cut. Any linear width
/// but 57 is read as 48.
pub fn event_length(linear_width: u64, log: &[u8]) -> usize {
    // SAFETY: the log is good for its length during the call, and the library
    // keeps nothing.
    unsafe { raw::skuldrefn_event_length(linear_width, log.as_ptr(), log.len()) }
}

/// The events of a log at a linear width, in order. The last has all bytes that
/// are left where its kind is unknown or its record cut, as in a replay.
pub fn events(linear_width: u64, log: &[u8]) -> impl Iterator<Item = &[u8]> {
    let mut rest = log;
    std::iter::from_fn(move || {
        if rest.is_empty() {
            return None;
        }
        let length = match event_length(linear_width, rest) {
            0 => rest.len(),
            length => length.min(rest.len()),
        };
        let (event, after) = rest.split_at(length);
        rest = after;
        Some(event)
    })
}

/// What a replay says of one event.
#[derive(Clone, Copy, Debug, PartialEq, Eq)]
pub struct Line {
    /// The event's number, from 1.
    pub number: u64,
    pub answer: u64,
    pub dropped: usize,
    /// The length of the table in force after the event.
    pub length: usize,
}

/// What a whole log gives.
#[derive(Clone, Debug, PartialEq, Eq)]
pub struct Replay {
    /// The context in force at the end.
    pub context: Context,
    /// The table in force at the end.
    pub table: Vec<u8>,
    pub lines: Vec<Line>,
}

/// A whole log from a reset, of any length, in buffers of its own.
///
/// # Panics
/// If the library hands back what its contract rules out.
pub fn replay(capability: u64, width: u64, linear_width: u64, log: &[u8]) -> Replay {
    let mut first = vec![0; TABLE_LIMIT];
    let mut second = vec![0; TABLE_LIMIT];
    // An event has at least one byte.
    let mut rows = vec![0; ROW * log.len()];
    let end = replay_flat(
        capability,
        width,
        linear_width,
        log,
        &mut first,
        &mut second,
        &mut rows,
    );
    let mut table = if end.first == 1 { first } else { second };
    assert!(end.length <= table.len(), "a table longer than its buffer");
    table.truncate(end.length);
    Replay {
        context: known(&end.context),
        table,
        lines: lines(&rows[..ROW * end.count]),
    }
}

/// A whole log from a reset, in lent buffers. It ends early where there is no
/// room for another row.
pub fn replay_flat(
    capability: u64,
    width: u64,
    linear_width: u64,
    log: &[u8],
    first: &mut [u8],
    second: &mut [u8],
    rows: &mut [u8],
) -> FlatReplayed {
    // SAFETY: each pointer is good for its length during the call, the three
    // buffers are borrowed alone, and the library keeps nothing.
    unsafe {
        raw::skuldrefn_replay(
            capability,
            width,
            linear_width,
            log.as_ptr(),
            log.len(),
            first.as_mut_ptr(),
            first.len(),
            second.as_mut_ptr(),
            second.len(),
            rows.as_mut_ptr(),
            rows.len(),
        )
    }
}

/// The rows of a replay as lines, numbered from 1.
pub fn lines(rows: &[u8]) -> Vec<Line> {
    let number = |bytes: &[u8]| {
        let mut word = [0; 8];
        word.copy_from_slice(bytes);
        u64::from_le_bytes(word)
    };
    (1..)
        .zip(rows.chunks_exact(ROW))
        .map(|(nth, row)| Line {
            number: nth,
            answer: number(&row[..8]),
            dropped: number(&row[8..16]) as usize,
            length: number(&row[16..]) as usize,
        })
        .collect()
}
