//! One step.

use crate::context::Context;
use crate::event::Event;
use crate::judge::{answer, rule};
use crate::mapping::records;
use crate::scope::in_scope;

/// What a step hands back.
#[derive(Clone, Copy, Debug, PartialEq, Eq)]
pub struct Step {
    pub answer: u64,
    /// The EPTP's first failed rule, 1 to 5, if that was the ground of the
    /// refusal; else 0 (document 02, Ask 6).
    pub rule: u64,
    pub context: Context,
    /// The new table's length; 0 on a refusal.
    pub length: usize,
    /// How many records went; 0 on a refusal.
    pub dropped: usize,
}

impl Step {
    /// A refusal on another ground than an EPTP: the same context, 0 and 0.
    pub fn refused(answer: u64, context: &Context) -> Step {
        Step {
            answer,
            rule: 0,
            context: *context,
            length: 0,
            dropped: 0,
        }
    }
}

/// One event on a context and a table. The new table is written to the start
/// of `new`; bytes past it stay. A refusal writes nothing.
pub fn step(context: &Context, table: &[u8], event: &[u8], new: &mut [u8]) -> Step {
    let answer = answer(context, table, event, new.len());
    let width = context.linear();
    let decoded = Event::decode(width, event);
    let (0, Some(decoded)) = (answer, decoded) else {
        return Step {
            rule: decoded.map_or(0, |event| rule(context, &event, answer)),
            ..Step::refused(answer, context)
        };
    };
    let mut kept = Vec::new();
    let mut dropped = 0;
    for (place, mapping) in records(width, table).unwrap_or_default() {
        if in_scope(context, &decoded, &mapping) {
            dropped += 1;
        } else {
            kept.extend_from_slice(&table[place]);
        }
    }
    if let Event::Creation(_) = decoded {
        kept.extend_from_slice(event);
    }
    new[..kept.len()].copy_from_slice(&kept);
    Step {
        answer,
        rule: 0,
        context: decoded.after(context),
        length: kept.len(),
        dropped,
    }
}
