//! Two levels of TLB (document 02, Ask 10): a small first-level table before the
//! large one.

use crate::context::Context;
use crate::lookup::{answer, usable, Address};
use crate::mapping::Mapping;
use crate::tally::{counted_step, Tally};
use std::ops::Range;

/// One level: its table with its tally, and the buffer for its new table.
#[derive(Debug)]
pub struct Level<'a> {
    pub tally: &'a mut Tally,
    pub table: &'a [u8],
    pub new: &'a mut [u8],
}

/// What a step hands back of one level: 0 and 0 on a refusal.
#[derive(Clone, Copy, Debug, Default, PartialEq, Eq)]
pub struct After {
    /// The new table's length.
    pub length: usize,
    /// How many records went.
    pub dropped: usize,
}

/// What a step of both levels hands back.
#[derive(Clone, Copy, Debug, PartialEq, Eq)]
pub struct LevelStep {
    /// The first table's, or the second's where that is 0.
    pub answer: u64,
    /// The EPTP's failed rule, of the table whose answer is given.
    pub rule: u64,
    pub context: Context,
    pub first: After,
    pub second: After,
}

/// One event on a context and both levels. If either would be refused, nothing is
/// written, and context and both tallies stay.
pub fn step_levels(context: &Context, event: &[u8], first: Level, second: Level) -> LevelStep {
    // Each is stepped alone, on copies of what a step may write.
    let [one, two] = [&first, &second].map(|level| {
        let (mut tally, mut new) = (level.tally.clone(), level.new.to_vec());
        let step = counted_step(context, &mut tally, level.table, event, &mut new);
        (step, tally, new)
    });
    let refused = [&one, &two].into_iter().find(|(step, ..)| step.answer != 0);
    if let Some((step, ..)) = refused {
        return LevelStep {
            answer: step.answer,
            rule: step.rule,
            context: *context,
            first: After::default(),
            second: After::default(),
        };
    }
    let after = one.0.context;
    let [first, second] = [(first, one), (second, two)].map(|(level, (step, tally, new))| {
        *level.tally = tally;
        level.new.copy_from_slice(&new);
        After {
            length: step.length,
            dropped: step.dropped,
        }
    });
    LevelStep {
        answer: 0,
        rule: 0,
        context: after,
        first,
        second,
    }
}

/// Where a translation stands: its level, 1 or 2, and its place in that table.
#[derive(Clone, Debug, PartialEq, Eq)]
pub struct Found {
    pub level: u64,
    pub place: Range<usize>,
}

/// The answer, and the first usable translation of a linear address: from the first
/// level if it has one, else from the second. There is none if either table is
/// refused.
pub fn lookup_levels(
    context: &Context,
    first: &[u8],
    second: &[u8],
    address: u64,
) -> (u64, Option<Found>) {
    let answers = [first, second].map(|table| answer(context, table));
    if let Some(refused) = answers.into_iter().find(|answer| *answer != 0) {
        return (refused, None);
    }
    let translation = |(level, table): (u64, &[u8])| {
        let mut usable = usable(context, table, Address::Linear(address)).into_iter();
        let place = usable.find(|place| {
            let record = Mapping::decode(context.linear(), &table[place.clone()]);
            record.is_some_and(|mapping| mapping.is_translation())
        })?;
        Some(Found { level, place })
    };
    (
        0,
        [(1, first), (2, second)].into_iter().find_map(translation),
    )
}
