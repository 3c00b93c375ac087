//! Two levels of tables (document 02, Ask 10).

use crate::case::case;
use crate::pool;
use crate::query::query;
use crate::table::{any_table, long_table, page_of_some, removal, spoil_table, table};
use crate::tally::{tally, wrong_tally, SparseTally};
use crate::Rng;
use common::TABLE_LIMIT;
use model::{Address, Context};

/// The inputs of one level of a step. `new` is the length of its new buffer.
#[derive(Clone, Debug)]
pub struct OneLevel {
    pub tally: SparseTally,
    pub table: Vec<u8>,
    pub new: usize,
}

/// The inputs of one step of both levels.
#[derive(Clone, Debug)]
pub struct LevelCase {
    pub context: Context,
    pub event: Vec<u8>,
    pub levels: [OneLevel; 2],
}

/// The inputs of one step of both levels: one is that of a single step, aimed at any
/// answer, and the other one for the same context and event, with a table of its own
/// and perhaps a defect of its own.
pub fn level_case(rng: &mut Rng) -> LevelCase {
    let case = case(rng);
    let one = OneLevel {
        tally: case.tally,
        table: case.table,
        new: case.new.len(),
    };
    let other = beside(rng, &case.context, &case.event, &one.table);
    let mut levels = [one, other];
    if rng.one_in(2) {
        levels.reverse();
    }
    LevelCase {
        context: case.context,
        event: case.event,
        levels,
    }
}

/// A level beside one with this table: with the same table, a part of it, or another.
fn beside(rng: &mut Rng, context: &Context, event: &[u8], own: &[u8]) -> OneLevel {
    let mut table = match rng.below(6) {
        0 => Vec::new(),
        1 if own.len() <= 2_000 => own.to_vec(),
        2 | 3 if own.len() <= 2_000 => removal(rng, own),
        _ => {
            let count = rng.pick(&[1, 3, 6, 24]);
            table(rng, context, count)
        }
    };
    let defect = rng.below(12);
    match defect {
        0 if rng.one_in(2) => table = long_table(rng, context),
        1 => spoil_table(rng, context, &mut table),
        _ => {}
    }
    let mut tally = tally(rng, &table);
    if defect == 2 {
        tally = wrong_tally(rng, &SparseTally::of(&table));
    }
    let needed = table.len() + event.len();
    let new = match defect {
        3 | 4 => rng.pick(&[
            0,
            table.len(),
            table.len().saturating_sub(1),
            needed.saturating_sub(1),
        ]),
        _ => needed + rng.pick(&[0, 1, 40, TABLE_LIMIT]),
    };
    OneLevel { tally, table, new }
}

/// The inputs of one lookup in both levels.
#[derive(Clone, Debug)]
pub struct LevelQuery {
    pub context: Context,
    pub tables: [Vec<u8>; 2],
    pub address: u64,
}

/// The inputs of one lookup in both levels, mostly of an address that some record of
/// one of them covers.
pub fn level_query(rng: &mut Rng) -> LevelQuery {
    let query = query(rng);
    let context = query.context;
    let other = match rng.below(8) {
        0 => Vec::new(),
        1 => removal(rng, &query.table),
        2 if rng.one_in(4) => long_table(rng, &context),
        _ => any_table(rng, &context),
    };
    let mut tables = [query.table, other];
    if rng.one_in(2) {
        tables.reverse();
    }
    let page = page_of_some(rng, &tables[1]);
    let address = match (query.address, page) {
        (Address::Linear(address), _) if rng.one_in(2) => address,
        (_, Some(page)) => pool::canonical_of(context.linear_width, page, 0x9AB),
        (Address::Linear(address) | Address::GuestPhysical(address), None) => address,
    };
    LevelQuery {
        context,
        tables,
        address,
    }
}
