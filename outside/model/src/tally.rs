//! The tally beside the table (document 02, Ask 7): how many records of each
//! kind and span stand, and how many of each PCID.

use crate::address::LinearWidth;
use crate::context::Context;
use crate::event::Event;
use crate::judge::answer;
use crate::mapping::{records, Mapping};
use crate::scope::in_scope;
use crate::step::{step, Step};
use crate::TABLE_LIMIT;

/// How many PCIDs there are.
pub const PCIDS: usize = 4_096;

/// A row for each of kinds 1 to 6, in it a count for each span from 0. Kinds 7
/// to 10 are counted as their siblings, and spans run to 4 (Ask 12).
pub type Kinds = [[u16; 5]; 6];

/// A tally. Any numbers may be handed in, and a list of PCIDs of any length.
#[derive(Clone, Debug, PartialEq, Eq)]
pub struct Tally {
    pub kinds: Kinds,
    /// The records of kinds 1, 3, 4 and 6 by their PCID, global ones too.
    pub pcids: Vec<u16>,
}

impl Tally {
    /// Every count 0: the tally of an empty table.
    pub fn empty() -> Tally {
        Tally {
            kinds: Kinds::default(),
            pcids: vec![0; PCIDS],
        }
    }

    /// One record more.
    ///
    /// # Panics
    /// If a count is full, or the list has no such PCID.
    pub fn add(&mut self, mapping: &Mapping) {
        self.change(mapping, |count| count.checked_add(1));
    }

    /// One record fewer.
    ///
    /// # Panics
    /// If a count is 0 already, or the list has no such PCID.
    pub fn take_off(&mut self, mapping: &Mapping) {
        self.change(mapping, |count| count.checked_sub(1));
    }

    /// Kinds 2 and 5 have no PCID, and count under none.
    fn change(&mut self, mapping: &Mapping, by_one: fn(u16) -> Option<u16>) {
        let cell = &mut self.kinds[mapping.sibling() as usize - 1][mapping.span as usize];
        *cell = by_one(*cell).expect("a count in range");
        if let Some(pcid) = mapping.pcid {
            let count = &mut self.pcids[pcid as usize];
            *count = by_one(*count).expect("a count in range");
        }
    }
}

/// A fresh count of a table at a width; Err is answer 2 or 3, as a step gives
/// it.
pub fn count(width: LinearWidth, table: &[u8]) -> Result<Tally, u64> {
    if table.len() > TABLE_LIMIT {
        return Err(2);
    }
    let mut tally = Tally::empty();
    for (_, mapping) in records(width, table).ok_or(3_u64)? {
        tally.add(&mapping);
    }
    Ok(tally)
}

/// One step with a tally. One that does not match its table is refused as 13,
/// after answers 1 to 4 and before all others. Accepted, the step leaves a fresh
/// count of the new table; a refusal leaves the tally as it came, wrong or not.
pub fn counted_step(
    context: &Context,
    tally: &mut Tally,
    table: &[u8],
    event: &[u8],
    new: &mut [u8],
) -> Step {
    let matches = count(context.linear(), table).as_ref() == Ok(tally);
    let first_four = || (1..=4).contains(&answer(context, table, event, new.len()));
    if !matches && !first_four() {
        return Step::refused(13, context);
    }
    let step = step(context, table, event, new);
    if step.answer == 0 {
        // A step writes only valid tables.
        *tally = count(context.linear(), &new[..step.length]).expect("a valid table");
    }
    step
}

/// The tally after an accepted event, carried on from the one that matched the
/// old table: what was created is added, what was dropped is taken off.
pub fn carried(context: &Context, tally: &Tally, table: &[u8], event: &Event) -> Tally {
    let mut tally = tally.clone();
    for (_, mapping) in records(context.linear(), table).unwrap_or_default() {
        if in_scope(context, event, &mapping) {
            tally.take_off(&mapping);
        }
    }
    if let Event::Creation(mapping) = event {
        tally.add(mapping);
    }
    tally
}
