//! Looking up.

use crate::address::guest_physical_page;
use crate::context::Context;
use crate::mapping::{records, Mapping};
use crate::TABLE_LIMIT;
use std::ops::Range;

/// What is looked up: any 64-bit number of either sort.
#[derive(Clone, Copy, Debug, PartialEq, Eq)]
pub enum Address {
    Linear(u64),
    GuestPhysical(u64),
}

/// The answer to a lookup: 0, 1, 2 or 3.
pub fn answer(context: &Context, table: &[u8]) -> u64 {
    if !context.in_range() {
        1
    } else if table.len() > TABLE_LIMIT {
        2
    } else if records(context.linear(), table).is_none() {
        3
    } else {
        0
    }
}

/// The places of all usable records in the table, in order. None of them if
/// answers 1, 2 or 3 apply.
pub fn usable(context: &Context, table: &[u8], address: Address) -> Vec<Range<usize>> {
    if answer(context, table) != 0 {
        return Vec::new();
    }
    records(context.linear(), table)
        .unwrap_or_default()
        .into_iter()
        .filter(|(_, mapping)| is_usable(context, mapping, address))
        .map(|(place, _)| place)
        .collect()
}

/// The answer, and the place of the k-th usable record, from 0.
pub fn lookup(
    context: &Context,
    table: &[u8],
    address: Address,
    k: u64,
) -> (u64, Option<Range<usize>>) {
    let place = usize::try_from(k)
        .ok()
        .and_then(|k| usable(context, table, address).into_iter().nth(k));
    (answer(context, table), place)
}

fn is_usable(context: &Context, mapping: &Mapping, address: Address) -> bool {
    match address {
        Address::Linear(address) => {
            // Kinds 1 and 4 have no EP4TA and serve with EPT not in use;
            // kinds 3 and 6 have one and serve with that one in use. Kinds 2
            // and 5 have no VPID. Kinds 7 to 10 are as their siblings.
            let width = context.linear();
            width.canonical(address)
                && mapping.vpid == Some(context.vpid())
                && (mapping.pcid == Some(context.pcid) || mapping.global)
                && mapping.ep4ta == context.ep4ta()
                && mapping.covers(width.page(address))
        }
        Address::GuestPhysical(address) => {
            address < 1 << 48
                && context.ep4ta().is_some()
                && matches!(mapping.kind, 2 | 5)
                && mapping.ep4ta == context.ep4ta()
                && mapping.covers(guest_physical_page(address))
        }
    }
}
