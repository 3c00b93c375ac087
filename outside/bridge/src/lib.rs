//! The proved library on the independent model's types, so that the two can be
//! compared. The wrapper has types of its own, and of the model only the plain
//! types of a context, an address, a tally and a result are used, none of its
//! rules.

mod levels;
mod stream;
mod tally;

pub use levels::{lookup_levels, step_levels_lent, LentLevel, LevelAfter, LevelStep};
use model::{Address, Context, Place, Reason};
pub use skuldrefn::{
    explain_flat, judge_flat, plain_step_flat, replay_flat, walk_flat, FlatContext, FlatJudgement,
    FlatReason, FlatReplayed, FlatStep, FlatWalk, LevelPart, Part,
};
use std::ops::Range;
pub use stream::{finish, reset_reader, take_lent, Finished, Taken};
pub use tally::{count, count_lent, counted_step_lent, step_flat};

/// A context of the model as numbers; fields that its place lacks are 0.
pub fn flat(context: &Context) -> FlatContext {
    FlatContext::from(&skuldrefn::Context {
        capability: context.capability,
        width: context.width,
        linear_width: context.linear_width,
        pcid: context.pcid,
        cpl: context.cpl,
        place: match context.place {
            Place::Outside => skuldrefn::Place::Outside,
            Place::Root => skuldrefn::Place::Root,
            Place::Guest { vpid, ept } => skuldrefn::Place::Guest { vpid, ept },
        },
    })
}

/// The model's context that the numbers stand for; None if the place or the
/// EPT number stands for nothing.
pub fn context(flat: &FlatContext) -> Option<Context> {
    let context = flat.context()?;
    Some(Context {
        capability: context.capability,
        width: context.width,
        linear_width: context.linear_width,
        pcid: context.pcid,
        cpl: context.cpl,
        place: match context.place {
            skuldrefn::Place::Outside => Place::Outside,
            skuldrefn::Place::Root => Place::Root,
            skuldrefn::Place::Guest { vpid, ept } => Place::Guest { vpid, ept },
        },
    })
}

/// A reason of the model as numbers.
pub fn flat_reason(reason: Reason) -> FlatReason {
    FlatReason {
        reason: reason.number(),
        answer: reason.answer(),
        rule: reason.rule(),
    }
}

fn of_model(address: Address) -> skuldrefn::Address {
    match address {
        Address::Linear(address) => skuldrefn::Address::Linear(address),
        Address::GuestPhysical(address) => skuldrefn::Address::GuestPhysical(address),
    }
}

/// The k-th usable record, from 0, on a flat context.
pub fn lookup_flat(context: &FlatContext, table: &[u8], address: Address, k: u64) -> Part {
    skuldrefn::lookup_flat(context, table, of_model(address), k)
}

/// The answer, and the place of the k-th usable record, from 0.
pub fn lookup(
    context: &Context,
    table: &[u8],
    address: Address,
    k: u64,
) -> (u64, Option<Range<usize>>) {
    let part = lookup_flat(&flat(context), table, address, k);
    let place = part.start..part.start + part.length;
    (part.answer, (part.length > 0).then_some(place))
}

/// One step without a tally, with the model's context after it.
///
/// # Panics
/// If the library hands back a context that is none.
pub fn plain_step(context: &Context, table: &[u8], event: &[u8], new: &mut [u8]) -> model::Step {
    of_flat(&plain_step_flat(&flat(context), table, event, new))
}

/// What a step reports, with the model's context.
///
/// # Panics
/// If the context is none.
pub fn of_flat(step: &FlatStep) -> model::Step {
    model::Step {
        answer: step.answer,
        rule: step.rule,
        context: self::context(&step.context).expect("a context"),
        length: step.length,
        dropped: step.dropped,
    }
}

/// The converter of 48-bit tables.
pub fn widen(table: &[u8], new: &mut [u8]) -> model::Widened {
    let widened = skuldrefn::widen(table, new);
    model::Widened {
        answer: widened.answer,
        length: widened.length,
    }
}

/// A table as fixed rows.
pub fn export(linear_width: u64, table: &[u8], rows: &mut [u8]) -> model::Converted {
    converted(skuldrefn::export_rows(linear_width, table, rows))
}

/// Fixed rows as a table.
pub fn import(linear_width: u64, rows: &[u8], table: &mut [u8]) -> model::Converted {
    converted(skuldrefn::import_rows(linear_width, rows, table))
}

fn converted(converted: skuldrefn::Converted) -> model::Converted {
    model::Converted {
        answer: converted.answer,
        row: converted.row,
        length: converted.length,
    }
}

/// A flat judgement as the model's; None for numbers that stand for none.
pub fn judgement(flat: &FlatJudgement) -> Option<model::Judgement> {
    Some(match flat.judgement()? {
        skuldrefn::Judgement::Accepted => model::Judgement::Accepted,
        skuldrefn::Judgement::Refused { answer, rule } => {
            model::Judgement::Refused { answer, rule }
        }
        skuldrefn::Judgement::Malformed => model::Judgement::Malformed,
        skuldrefn::Judgement::Unmatched { position } => model::Judgement::Unmatched { position },
    })
}

/// A flat walk as the model's; None for numbers that stand for none.
pub fn walk(flat: &FlatWalk) -> Option<model::Walk> {
    use model::walk::{Ending, Spot};
    let walk = flat.walk()?;
    let spot = |spot: skuldrefn::Spot| Spot {
        guest_level: spot.guest_level,
        ept_level: spot.ept_level,
        address: spot.address,
    };
    Some(model::Walk {
        ending: match walk.ending {
            skuldrefn::Ending::Translated(record) => Ending::Translated(record),
            skuldrefn::Ending::ContextOutOfRange => Ending::ContextOutOfRange,
            skuldrefn::Ending::BadEptp(rule) => Ending::BadEptp(rule),
            skuldrefn::Ending::NotCanonical => Ending::NotCanonical,
            skuldrefn::Ending::Absent(at) => Ending::Absent(spot(at)),
            skuldrefn::Ending::TooHigh(at) => Ending::TooHigh(spot(at)),
            skuldrefn::Ending::Outside(at) => Ending::Outside(spot(at)),
        },
        read: walk.read,
    })
}

/// The rows of a replay as the model's lines.
pub fn lines(rows: &[u8]) -> Vec<model::Line> {
    let lines = skuldrefn::lines(rows).into_iter();
    lines
        .map(|line| model::Line {
            number: line.number,
            answer: line.answer,
            dropped: line.dropped,
            length: line.length,
        })
        .collect()
}
