//! Reasons of the library against the model's.

use crate::case::smaller_tables;
use crate::difference::{all_same, difference};
use crate::expected;
use crate::reached::Reached;
use crate::step::StepCase;
use crate::text::{bytes, context};
use bridge::FlatContext;
use std::fmt;

/// The inputs of one explanation.
#[derive(Clone, Debug, PartialEq, Eq)]
pub struct ExplainCase {
    pub context: FlatContext,
    pub record: Vec<u8>,
    pub event: Vec<u8>,
}

impl From<StepCase> for ExplainCase {
    /// The same inputs, with the whole table as the record.
    fn from(step: StepCase) -> ExplainCase {
        ExplainCase {
            context: step.context,
            record: step.table,
            event: step.event,
        }
    }
}

impl ExplainCase {
    pub fn check(&self, reached: &mut Reached) -> Result<(), String> {
        // The library gets copies, so that a write to them shows.
        let (record, event) = (self.record.clone(), self.event.clone());
        let due = expected::explain(&self.context, &self.record, &self.event);
        let got = bridge::explain_flat(&self.context, &record, &event);
        let differences = [
            difference("reason", got.reason, due.reason),
            difference("answer", got.answer, due.answer),
            difference("rule", got.rule, due.rule),
        ];
        all_same(differences.into_iter().flatten().collect())?;
        if record != self.record || event != self.event {
            return Err("the record or the event was written to".to_string());
        }
        let counts = reached.at(self.context.linear_width);
        counts.reasons[due.reason as usize] += 1;
        counts.refusals[due.answer as usize] += 1;
        counts.reason_rules[due.rule as usize] += 1;
        Ok(())
    }

    pub fn smaller(&self) -> Vec<ExplainCase> {
        let with = |record| ExplainCase {
            record,
            ..self.clone()
        };
        let records = smaller_tables(self.context.linear_width, &self.record);
        records.into_iter().map(with).collect()
    }
}

impl fmt::Display for ExplainCase {
    fn fmt(&self, f: &mut fmt::Formatter) -> fmt::Result {
        writeln!(f, "case explain")?;
        writeln!(f, "{}", context(&self.context))?;
        writeln!(f, "{}", bytes("record", &self.record))?;
        write!(f, "{}", bytes("event", &self.event))
    }
}
