//! A run from the replay program's start, with the table that a simulator claims.

use crate::trace::Claim;
use crate::verdict::Verdict;
use skuldrefn::{count, event_length, plain_step, Context, Judgement, Step};
use skuldrefn::{PROGRAM_CAPABILITY, PROGRAM_WIDTH, TABLE_LIMIT};

/// The context and the table before the next event.
pub struct Run {
    context: Context,
    table: Vec<u8>,
    /// The table that the last step left is at its front.
    new: Vec<u8>,
}

impl Run {
    /// After a reset, with an empty table.
    pub fn new(linear_width: u64) -> Run {
        Run {
            context: Context::after_reset(PROGRAM_CAPABILITY, PROGRAM_WIDTH, linear_width),
            table: Vec::new(),
            new: vec![0; TABLE_LIMIT],
        }
    }

    /// One event, with the library's own table; the table after it.
    pub fn step(&mut self, event: &[u8]) -> &[u8] {
        let step = self.stepped(event);
        self.keep_own(&step);
        &self.table
    }

    /// One event, and the table that is claimed after it. The context goes on by
    /// the library's step. The table goes on as the simulator says, lawful or not,
    /// so that one mistake is told once; where the claim is no table, it is the
    /// one that the library leaves.
    pub fn judge(&mut self, event: &[u8], claim: Claim) -> Verdict {
        let judgement = skuldrefn::judge(&self.context, &self.table, event, &claim.bytes);
        let step = self.stepped(event);
        let verdict = self.verdict(judgement, &step, &claim);
        if is_table(self.context.linear_width, &claim.bytes) {
            self.table = claim.bytes;
        } else {
            self.keep_own(&step);
        }
        verdict
    }

    /// The library's step. A refusal hands back the context as it came.
    fn stepped(&mut self, event: &[u8]) -> Step {
        let step = plain_step(&self.context, &self.table, event, &mut self.new);
        self.context = step.context;
        step
    }

    /// The table that the library leaves goes on; a refusal leaves it as it was.
    fn keep_own(&mut self, step: &Step) {
        if step.answer == 0 {
            self.table = self.new[..step.length].to_vec();
        }
    }

    fn verdict(&self, judgement: Judgement, step: &Step, claim: &Claim) -> Verdict {
        let width = self.context.linear_width;
        match judgement {
            Judgement::Accepted => Verdict::Accepted {
                kept: records(width, &claim.bytes),
                left: records(width, &self.new[..step.length]),
            },
            Judgement::Refused { answer, rule } => match difference(&self.table, &claim.bytes) {
                None => Verdict::Refused { answer, rule },
                Some(byte) => Verdict::Changed { byte, answer, rule },
            },
            Judgement::Malformed => malformed(width, claim),
            Judgement::Unmatched { position } => {
                let rest = &claim.bytes[position..];
                let record = convert::line(width, &rest[..event_length(width, rest)]);
                Verdict::Unmatched {
                    byte: position,
                    // The claim is a valid table, so its records have a line.
                    record: record.unwrap_or_default(),
                }
            }
        }
    }
}

/// Whether bytes are a valid table.
fn is_table(linear_width: u64, bytes: &[u8]) -> bool {
    count(linear_width, bytes).is_ok()
}

/// How many records a valid table has.
fn records(linear_width: u64, table: &[u8]) -> usize {
    skuldrefn::events(linear_width, table).count()
}

/// The first byte from which two tables are not the same.
fn difference(one: &[u8], other: &[u8]) -> Option<usize> {
    let same = one.iter().zip(other).take_while(|(a, b)| a == b).count();
    (same < one.len().max(other.len())).then_some(same)
}

/// Where and why a claim is no table: its first record that is not whole and
/// valid, or its first byte past the limit.
fn malformed(linear_width: u64, claim: &Claim) -> Verdict {
    if claim.length > TABLE_LIMIT {
        return Verdict::Malformed {
            byte: TABLE_LIMIT,
            why: format!("{} bytes, longer than 47,104", claim.length),
        };
    }
    let mut byte = 0;
    for record in skuldrefn::events(linear_width, &claim.bytes) {
        if !is_table(linear_width, record) {
            break;
        }
        byte += record.len();
    }
    let rest = &claim.bytes[byte..];
    let why = convert::fault(linear_width, rest);
    let why = why.unwrap_or_else(|| match rest {
        [kind, ..] => format!("kind {kind:#x} is no mapping's"),
        [] => "the library finds it malformed".to_string(),
    });
    Verdict::Malformed { byte, why }
}
