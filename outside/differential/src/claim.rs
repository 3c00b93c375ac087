//! Judgements of claimed tables by the library against the model's.

use crate::case::smaller_tables;
use crate::expected;
use crate::reached::Reached;
use crate::text::{bytes, context};
use bridge::FlatContext;
use model::Judgement;
use std::fmt;

/// The inputs of one judgement.
#[derive(Clone, Debug, PartialEq, Eq)]
pub struct ClaimCase {
    pub context: FlatContext,
    pub table: Vec<u8>,
    pub event: Vec<u8>,
    pub claim: Vec<u8>,
}

impl ClaimCase {
    pub fn check(&self, reached: &mut Reached) -> Result<(), String> {
        // The library gets a copy, so that a write to it shows.
        let lent = self.clone();
        let due = expected::judge(&self.context, &self.table, &self.event, &self.claim);
        let got = bridge::judge_flat(&lent.context, &lent.table, &lent.event, &lent.claim);
        if bridge::judgement(&got) != Some(due) {
            return Err(format!("judged as {got:?} and should be {due:?}"));
        }
        if lent != *self {
            return Err("the table, the event or the claim was written to".to_string());
        }
        let counts = reached.at(self.context.linear_width);
        counts.claims[got.number as usize] += 1;
        counts.claim_answers[got.answer as usize] += 1;
        counts.claim_rules[got.rule as usize] += 1;
        let behind = matches!(due, Judgement::Unmatched { position } if position > 0);
        counts.part_matched += u64::from(behind);
        Ok(())
    }

    pub fn smaller(&self) -> Vec<ClaimCase> {
        let width = self.context.linear_width;
        let tables = smaller_tables(width, &self.table).into_iter();
        let claims = smaller_tables(width, &self.claim).into_iter();
        let tables = tables.map(|table| ClaimCase {
            table,
            ..self.clone()
        });
        let claims = claims.map(|claim| ClaimCase {
            claim,
            ..self.clone()
        });
        tables.chain(claims).collect()
    }
}

impl fmt::Display for ClaimCase {
    fn fmt(&self, f: &mut fmt::Formatter) -> fmt::Result {
        writeln!(f, "case claim")?;
        writeln!(f, "{}", context(&self.context))?;
        writeln!(f, "{}", bytes("table", &self.table))?;
        writeln!(f, "{}", bytes("event", &self.event))?;
        write!(f, "{}", bytes("claim", &self.claim))
    }
}
