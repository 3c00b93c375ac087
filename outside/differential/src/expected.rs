//! What the model says, in the library's form.

use crate::walk::WalkCase;
use bridge::{Finished, FlatContext, FlatReason, FlatReplayed, FlatStep, Part, Taken};
use bridge::{LevelAfter, LevelPart, LevelStep};
use common::{write_row, ROW, TABLE_LIMIT};
use model::event::Event;
use model::levels::{self, After, Level};
use model::reason::has_scope;
use model::stream::{self, Reader};
use model::walk::{walk_with_spans, Ending};
use model::{Address, Context, Judgement, LinearWidth, Reason, Step, Tally, Walk, PCIDS};
use std::mem::swap;
use std::ops::Range;

/// One step without a tally.
pub fn plain_step(context: &FlatContext, table: &[u8], event: &[u8], new: &mut [u8]) -> FlatStep {
    on_flat(context, |known| model::step(known, table, event, new))
}

/// One counted step.
pub fn step(
    context: &FlatContext,
    tally: &mut Tally,
    table: &[u8],
    event: &[u8],
    new: &mut [u8],
) -> FlatStep {
    on_flat(context, |known| {
        model::counted_step(known, tally, table, event, new)
    })
}

/// A step on a context as numbers. A place or EPT number that stands for
/// nothing is out of its range; a refusal hands back the context as it came.
fn on_flat(context: &FlatContext, step: impl FnOnce(&Context) -> Step) -> FlatStep {
    let refused = |answer, rule| FlatStep {
        answer,
        rule,
        context: *context,
        length: 0,
        dropped: 0,
    };
    let Some(known) = bridge::context(context) else {
        return refused(1, 0);
    };
    let step = step(&known);
    if step.answer != 0 {
        return refused(step.answer, step.rule);
    }
    FlatStep {
        answer: 0,
        rule: 0,
        context: bridge::flat(&step.context),
        length: step.length,
        dropped: step.dropped,
    }
}

/// One level of a step: its tally, its table and its new buffer.
pub type OneLevel<'a> = (&'a mut Tally, &'a [u8], &'a mut [u8]);

/// One step of both levels.
pub fn step_levels(
    context: &FlatContext,
    event: &[u8],
    first: OneLevel,
    second: OneLevel,
) -> LevelStep {
    let [first, second] = [first, second].map(|(tally, table, new)| Level { tally, table, new });
    let kinds = |level: &Level| level.tally.kinds;
    let mut result = LevelStep {
        answer: 1,
        rule: 0,
        context: *context,
        levels: [kinds(&first), kinds(&second)].map(|kinds| LevelAfter {
            length: 0,
            dropped: 0,
            kinds,
        }),
    };
    let Some(known) = bridge::context(context) else {
        return result;
    };
    // The tallies are looked at again behind the step.
    let (own, other) = (first.tally, second.tally);
    let level = |tally, table, new| Level { tally, table, new };
    let one = level(&mut *own, first.table, first.new);
    let two = level(&mut *other, second.table, second.new);
    let step = levels::step_levels(&known, event, one, two);
    (result.answer, result.rule) = (step.answer, step.rule);
    if step.answer == 0 {
        result.context = bridge::flat(&step.context);
        let after = |after: After, tally: &Tally| LevelAfter {
            length: after.length,
            dropped: after.dropped,
            kinds: tally.kinds,
        };
        result.levels = [after(step.first, own), after(step.second, other)];
    }
    result
}

/// The first usable translation of a linear address in two levels.
pub fn lookup_levels(
    context: &FlatContext,
    first: &[u8],
    second: &[u8],
    address: u64,
) -> LevelPart {
    let (answer, found) = match bridge::context(context) {
        None => (1, None),
        Some(known) => levels::lookup_levels(&known, first, second, address),
    };
    LevelPart {
        answer,
        level: found.as_ref().map_or(0, |found| found.level),
        start: found.as_ref().map_or(0, |found| found.place.start),
        length: found.as_ref().map_or(0, |found| found.place.len()),
    }
}

/// The context that the numbers stand for; where the place or the EPT number stands
/// for nothing, one out of range with the same linear width.
fn readable(context: &FlatContext) -> Context {
    let FlatContext {
        capability,
        width,
        linear_width,
        ..
    } = *context;
    let out_of_range = Context {
        cpl: 4,
        ..Context::after_reset(capability, width, linear_width)
    };
    bridge::context(context).unwrap_or(out_of_range)
}

/// Whether a reader counts as ignoring.
pub fn ignores(reader: &Reader, context: &FlatContext) -> bool {
    reader.ignores(readable(context).linear())
}

/// Whether the next event is of an unknown kind.
pub fn is_unknown(reader: &Reader, context: &FlatContext, fragment: &[u8]) -> bool {
    let width = readable(context).linear();
    let unknown = |kind: &u8| model::event::length(width, *kind).is_none();
    reader.length == 0 && fragment.first().is_some_and(unknown)
}

/// A fragment of a log.
pub fn take(
    reader: &Reader,
    context: &FlatContext,
    tally: &mut Tally,
    table: &[u8],
    fragment: &[u8],
    new: &mut [u8],
) -> Taken {
    let known = readable(context);
    let taken = stream::take(reader, &known, tally, table, fragment, new);
    let nothing = FlatStep {
        answer: 0,
        rule: 0,
        context: *context,
        length: 0,
        dropped: 0,
    };
    Taken {
        reader: taken.reader,
        taken: taken.taken,
        finished: u64::from(taken.finished.is_some()),
        step: taken
            .finished
            .map_or(nothing, |step| on_flat(context, |_| step)),
        kinds: tally.kinds,
    }
}

/// The end of a log.
pub fn finish(reader: &Reader, context: &FlatContext, table: &[u8]) -> Finished {
    let finished = stream::finish(reader, &readable(context), table);
    Finished {
        reader: finished.reader,
        finished: u64::from(finished.answer.is_some()),
        answer: finished.answer.unwrap_or(0),
    }
}

/// A fresh count into a list of so many PCIDs; Err is the answer. Any linear
/// width but 57 is read as 48.
pub fn count(linear_width: u64, table: &[u8], length: usize) -> Result<Tally, u64> {
    let tally = model::count(LinearWidth::of(linear_width), table)?;
    if length == PCIDS {
        Ok(tally)
    } else {
        Err(13)
    }
}

/// The answer to a lookup, and the places of all usable records.
pub fn usable(context: &FlatContext, table: &[u8], address: Address) -> (u64, Vec<Range<usize>>) {
    match bridge::context(context) {
        None => (1, Vec::new()),
        Some(known) => (
            model::lookup::answer(&known, table),
            model::usable(&known, table, address),
        ),
    }
}

/// The part for the k-th of these.
pub fn part(answer: u64, usable: &[Range<usize>], k: u64) -> Part {
    let place = usize::try_from(k).ok().and_then(|k| usable.get(k));
    let (start, length) = place.map_or((0, 0), |place| (place.start, place.len()));
    Part {
        answer,
        start,
        length,
    }
}

/// A reason. A place or EPT number that stands for nothing is refused with 1.
pub fn explain(context: &FlatContext, record: &[u8], event: &[u8]) -> FlatReason {
    let reason = match bridge::context(context) {
        None => Reason::refused(1),
        Some(known) => model::explain(&known, record, event),
    };
    bridge::flat_reason(reason)
}

/// A judgement. A place or EPT number that stands for nothing is refused with 1.
pub fn judge(context: &FlatContext, table: &[u8], event: &[u8], claim: &[u8]) -> Judgement {
    match bridge::context(context) {
        None => Judgement::Refused { answer: 1, rule: 0 },
        Some(known) => model::judge_claim(&known, table, event, claim),
    }
}

/// What a step with a new buffer of 47,104 bytes leaves; the table before where it
/// is refused.
pub fn left(context: &FlatContext, table: &[u8], event: &[u8]) -> Vec<u8> {
    let mut new = vec![0; TABLE_LIMIT];
    let step = plain_step(context, table, event, &mut new);
    if step.answer != 0 {
        return table.to_vec();
    }
    new.truncate(step.length);
    new
}

/// A walk, and the spans of the two pages of a translation. A place or EPT number
/// that stands for nothing is out of its range.
pub fn walk(case: &WalkCase) -> (Walk, Option<[u64; 2]>) {
    match bridge::context(&case.context) {
        None => {
            let ending = Ending::ContextOutOfRange;
            (Walk { ending, read: 0 }, None)
        }
        Some(known) => {
            let (root, eptp, vpid) = (case.root, case.eptp, case.vpid);
            walk_with_spans(&known, &case.image, root, eptp, vpid, case.address)
        }
    }
}

/// A whole log: the model's steps, as long as there is room for a row. With two
/// buffers of 47,104 bytes or more an event without a scope leaves the table in
/// its buffer, with a creation behind it; any other event that is accepted
/// writes the table into the other buffer.
pub fn replay(
    capability: u64,
    width: u64,
    linear_width: u64,
    log: &[u8],
    first: &mut [u8],
    second: &mut [u8],
    rows: &mut [u8],
) -> FlatReplayed {
    let long = first.len().min(second.len()) >= TABLE_LIMIT;
    let mut scratch = vec![0; TABLE_LIMIT];
    let (mut old, mut new) = (first, second);
    let mut rows = rows.chunks_exact_mut(ROW);
    let mut end = FlatReplayed {
        context: bridge::flat(&Context::after_reset(capability, width, linear_width)),
        length: 0,
        first: 1,
        count: 0,
    };
    let mut rest = log;
    while !rest.is_empty() {
        let Some(row) = rows.next() else {
            break;
        };
        let known = model::replay::first_event(LinearWidth::of(linear_width), rest);
        let event = known.unwrap_or(rest);
        let step = if long && is_without_scope(&end.context, event) {
            let step = plain_step(&end.context, &old[..end.length], event, &mut scratch);
            if step.answer == 0 {
                let created = end.length..step.length;
                old[created.clone()].copy_from_slice(&scratch[created]);
            }
            step
        } else {
            let step = plain_step(&end.context, &old[..end.length], event, new);
            if step.answer == 0 {
                end.first = 1 - end.first;
                swap(&mut old, &mut new);
            }
            step
        };
        if step.answer == 0 {
            end.context = step.context;
            end.length = step.length;
        }
        end.count += 1;
        write_row(row, [step.answer, step.dropped as u64, end.length as u64]);
        if known.is_none() || step.answer == 2 || step.answer == 3 {
            break;
        }
        rest = &rest[event.len()..];
    }
    end
}

/// Whether the bytes are a valid event that drops nothing, whatever the table.
fn is_without_scope(context: &FlatContext, event: &[u8]) -> bool {
    bridge::context(context).is_some_and(|known| {
        let decoded = Event::decode(known.linear(), event);
        decoded.is_some_and(|decoded| !has_scope(&known, &decoded))
    })
}
