//! Lookups of the library against the model's, for all k.

use crate::case::smaller_tables;
use crate::difference::{all_same, difference};
use crate::expected;
use crate::reached::Reached;
use crate::text::{address, bytes, context};
use bridge::FlatContext;
use model::Address;
use std::fmt;

/// The inputs of the lookups of one address.
#[derive(Clone, Debug, PartialEq, Eq)]
pub struct LookupCase {
    pub context: FlatContext,
    pub table: Vec<u8>,
    pub address: Address,
}

/// The most bytes of tables that one case reads for its k.
const BUDGET: usize = 1 << 21;

impl LookupCase {
    pub fn check(&self, reached: &mut Reached) -> Result<(), String> {
        let table = self.table.clone();
        let (answer, usable) = expected::usable(&self.context, &self.table, self.address);
        for k in indices(usable.len(), self.table.len()) {
            let got = bridge::lookup_flat(&self.context, &table, self.address, k);
            let due = expected::part(answer, &usable, k);
            let differences = [
                difference("answer", got.answer, due.answer),
                difference("start", got.start as u64, due.start as u64),
                difference("length", got.length as u64, due.length as u64),
            ];
            all_same(differences.into_iter().flatten().collect())
                .map_err(|why| format!("k = {k:#x}: {why}"))?;
            let counts = reached.at(self.context.linear_width);
            counts.lookups[answer as usize] += 1;
            counts.found += u64::from(due.length > 0);
        }
        if table != self.table {
            return Err("the table was written to".to_string());
        }
        Ok(())
    }

    pub fn smaller(&self) -> Vec<LookupCase> {
        let with = |table| LookupCase {
            table,
            ..self.clone()
        };
        let tables = smaller_tables(self.context.linear_width, &self.table);
        tables.into_iter().map(with).collect()
    }
}

/// Every k that finds something and the next two, then some large ones. In a
/// large table with many usable records only every so many-th.
fn indices(usable: usize, table: usize) -> Vec<u64> {
    let step = (usable * table / BUDGET).max(1);
    let mut indices: Vec<u64> = (0..usable as u64).step_by(step).collect();
    let end = usable as u64;
    indices.extend([end.saturating_sub(1), end, end + 1]);
    indices.extend([1 << 32, 1 << 63, u64::MAX]);
    indices
}

impl fmt::Display for LookupCase {
    fn fmt(&self, f: &mut fmt::Formatter) -> fmt::Result {
        writeln!(f, "case lookup")?;
        writeln!(f, "{}", context(&self.context))?;
        writeln!(f, "{}", bytes("table", &self.table))?;
        write!(f, "{}", address(&self.address))
    }
}
