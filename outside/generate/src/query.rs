//! The inputs of one lookup.

use crate::context::any_context;
use crate::pool;
use crate::table::{any_table, long_table, page_of_some};
use crate::Rng;
use common::hex;
use model::{Address, Context};
use std::fmt;

/// The inputs of one lookup.
#[derive(Clone, Debug)]
pub struct Query {
    pub context: Context,
    pub table: Vec<u8>,
    pub address: Address,
    pub k: u64,
}

impl fmt::Display for Query {
    fn fmt(&self, f: &mut fmt::Formatter) -> fmt::Result {
        writeln!(f, "context: {:x?}", self.context)?;
        writeln!(f, "table ({}): {}", self.table.len(), hex(&self.table))?;
        write!(f, "address: {:x?}, k: {}", self.address, self.k)
    }
}

/// The inputs of one lookup. Mostly the table is valid and the address is
/// one that some record covers.
pub fn query(rng: &mut Rng) -> Query {
    let context = any_context(rng);
    let table = if rng.one_in(100) {
        long_table(rng, &context)
    } else {
        any_table(rng, &context)
    };
    let address = match page_of_some(rng, &table) {
        Some(page) if rng.one_in(2) => match rng.below(3) {
            0 => Address::GuestPhysical(page << 12),
            _ => Address::Linear(pool::canonical_of(context.linear_width, page, 0x9AB)),
        },
        _ => pool::address(rng, context.linear_width),
    };
    Query {
        context,
        table,
        address,
        k: rng.pick(&[0, 0, 0, 1, 1, 2, 3, 5, 1 << 32, u64::MAX]),
    }
}
