//! The judge of another simulator's table.

use crate::context::Context;
use crate::raw::{self, FlatContext, FlatJudgement};

/// What is said of a claimed table after an event: accepted, or the first ground
/// against it, in this order.
#[derive(Clone, Copy, Debug, PartialEq, Eq)]
pub enum Judgement {
    /// The claim is an in-order part of what the step leaves.
    Accepted,
    /// The step is refused, with this answer and this rule of the EPTP, as
    /// [`crate::Step`] has them.
    Refused { answer: u64, rule: u64 },
    /// The claim is longer than a table may be, or not whole, valid records.
    Malformed,
    /// The first claimed record that cannot be matched starts at this byte of the
    /// claim, from 0.
    Unmatched { position: usize },
}

impl From<Judgement> for FlatJudgement {
    fn from(judgement: Judgement) -> FlatJudgement {
        let (number, answer, rule, position) = match judgement {
            Judgement::Accepted => (0, 0, 0, 0),
            Judgement::Refused { answer, rule } => (1, answer, rule, 0),
            Judgement::Malformed => (2, 0, 0, 0),
            Judgement::Unmatched { position } => (3, 0, 0, position),
        };
        FlatJudgement {
            number,
            answer,
            rule,
            position,
        }
    }
}

impl FlatJudgement {
    /// The judgement; None for numbers that stand for none.
    pub fn judgement(&self) -> Option<Judgement> {
        let judgement = match self.number {
            0 => Judgement::Accepted,
            1 => Judgement::Refused {
                answer: self.answer,
                rule: self.rule,
            },
            2 => Judgement::Malformed,
            3 => Judgement::Unmatched {
                position: self.position,
            },
            _ => return None,
        };
        (FlatJudgement::from(judgement) == *self).then_some(judgement)
    }
}

/// Judges the claim that `claim` is the table after an event on `table`. A
/// simulator may drop more than it must: the claim is accepted if it is an
/// in-order part of what the step leaves. Each claimed record takes the earliest
/// equal record behind the last one taken. The step is judged as with a new buffer
/// of [`crate::TABLE_LIMIT`]; where it is refused the claim is not looked at.
///
/// # Panics
/// If the library hands back what its contract rules out.
pub fn judge(context: &Context, table: &[u8], event: &[u8], claim: &[u8]) -> Judgement {
    let flat = judge_flat(&context.into(), table, event, claim);
    match flat.judgement() {
        Some(judgement) => judgement,
        None => panic!("the library handed back {flat:?}"),
    }
}

/// The judge on a flat context.
pub fn judge_flat(
    context: &FlatContext,
    table: &[u8],
    event: &[u8],
    claim: &[u8],
) -> FlatJudgement {
    // SAFETY: each pointer is good for its length during the call, and the
    // library keeps nothing.
    unsafe {
        raw::skuldrefn_judge(
            *context,
            table.as_ptr(),
            table.len(),
            event.as_ptr(),
            event.len(),
            claim.as_ptr(),
            claim.len(),
        )
    }
}
