//! The judge of another simulator's table (document 02, Ask 8).

use crate::context::Context;
use crate::mapping::records;
use crate::step::step;
use crate::TABLE_LIMIT;

/// What is said of a claimed table after an event: accepted, or the first
/// ground against it.
#[derive(Clone, Copy, Debug, PartialEq, Eq)]
pub enum Judgement {
    Accepted,
    /// The event is refused: its answer, and the EPTP's failed rule (Ask 6).
    Refused {
        answer: u64,
        rule: u64,
    },
    /// The claim is too long, or not whole, valid records.
    Malformed,
    /// The byte position, from 0, of the first claimed record that has no match.
    Unmatched {
        position: usize,
    },
}

/// Judges the claim that `claim` is the table after an event on `table`. Each
/// claimed record takes the earliest equal record after the last one taken.
pub fn judge_claim(context: &Context, table: &[u8], event: &[u8], claim: &[u8]) -> Judgement {
    let mut new = vec![0; TABLE_LIMIT];
    let step = step(context, table, event, &mut new);
    if step.answer != 0 {
        return Judgement::Refused {
            answer: step.answer,
            rule: step.rule,
        };
    }
    let width = context.linear();
    let claimed = if claim.len() > TABLE_LIMIT {
        None
    } else {
        records(width, claim)
    };
    let Some(claimed) = claimed else {
        return Judgement::Malformed;
    };
    new.truncate(step.length);
    let left: Vec<&[u8]> = records(width, &new)
        .unwrap_or_default()
        .into_iter()
        .map(|(place, _)| &new[place])
        .collect();
    let mut next = 0;
    for (place, _) in claimed {
        let record = &claim[place.clone()];
        match left[next..].iter().position(|other| *other == record) {
            Some(skipped) => next += skipped + 1,
            None => {
                return Judgement::Unmatched {
                    position: place.start,
                }
            }
        }
    }
    Judgement::Accepted
}
