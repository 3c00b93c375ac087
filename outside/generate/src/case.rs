//! The inputs of one step.

use crate::aim::aimed;
use crate::context::near_context;
use crate::damage::spoiled;
use crate::pool;
use crate::table::{any_table, full_table, long_table, page_of_some, spoil_table, table};
use crate::tally::{tally, SparseTally};
use crate::Rng;
use common::{hex, length, set_field, PAGES, TABLE_LIMIT};
use model::Context;
use std::fmt;

/// The inputs of one step, counted or plain. `new` is the new buffer before it, full of random
/// bytes, so that a byte written too many shows.
#[derive(Clone, Debug)]
pub struct Case {
    pub context: Context,
    pub tally: SparseTally,
    pub table: Vec<u8>,
    pub event: Vec<u8>,
    pub new: Vec<u8>,
}

impl fmt::Display for Case {
    fn fmt(&self, f: &mut fmt::Formatter) -> fmt::Result {
        writeln!(f, "context: {:x?}", self.context)?;
        writeln!(f, "tally: {}", self.tally)?;
        writeln!(f, "table ({}): {}", self.table.len(), hex(&self.table))?;
        writeln!(f, "event ({}): {}", self.event.len(), hex(&self.event))?;
        write!(f, "new buffer: {} bytes", self.new.len())
    }
}

/// The room a new buffer has.
enum Room {
    Enough,
    Short,
}

/// The inputs of one step, aimed at one of the answers 0 to 12; some carry a
/// second defect, and one tally in six is wrong.
pub fn case(rng: &mut Rng) -> Case {
    let aim = rng.below(18);
    let (mut context, mut event) = aimed(rng, aim);
    let mut table = match aim {
        2 => long_table(rng, &context),
        12 if rng.one_in(8) => crowded(rng, &context),
        12 => {
            let count = 1 + rng.below(6);
            table(rng, &context, count)
        }
        13 => any_table(rng, &context),
        _ => {
            let count = rng.pick(&[0, 1, 3, 6, 12, 24, 48]);
            table(rng, &context, count)
        }
    };
    if rng.one_in(2) {
        aim_at_some_record(rng, &context, &table, &mut event);
    }
    let mut room = if aim == 12 { Room::Short } else { Room::Enough };
    match aim {
        1 => context = near_context(rng, &context),
        3 => spoil_table(rng, &context, &mut table),
        4 => event = spoiled(rng, &event),
        _ => {}
    }
    if rng.one_in(8) {
        match rng.below(5) {
            0 => context = near_context(rng, &context),
            1 => spoil_table(rng, &context, &mut table),
            2 => event = spoiled(rng, &event),
            3 => context.capability = rng.number(),
            _ => room = Room::Short,
        }
    }
    let length = room_length(rng, room, table.len(), event.len());
    let new = rng.bytes(length);
    Case {
        context,
        tally: tally(rng, &table),
        table,
        event,
        new,
    }
}

/// Gives a whole INVVPID, INVPCID, INVLPG or EPT violation the page of some record.
fn aim_at_some_record(rng: &mut Rng, context: &Context, table: &[u8], event: &mut [u8]) {
    let Some(page) = page_of_some(rng, table) else {
        return;
    };
    let address = pool::canonical_of(context.linear_width, page, 0x9AB);
    let whole = |kind: &&u8| length(**kind) == Some(event.len());
    match event.first().filter(whole) {
        Some(16 | 26) => set_field(event, 2, address),
        Some(18) => set_field(event, 0, address),
        Some(19) if rng.one_in(2) => set_field(event, 2, address),
        Some(19) => set_field(event, 0, address % (PAGES << 12)),
        _ => {}
    }
}

/// A table so full that a creation has just room or just none.
fn crowded(rng: &mut Rng, context: &Context) -> Vec<u8> {
    let free = rng.pick(&[0, 1, 15, 16, 17, 18, 20, 21, 22, 23]);
    full_table(rng, context, TABLE_LIMIT - free)
}

fn room_length(rng: &mut Rng, room: Room, table: usize, event: usize) -> usize {
    match room {
        Room::Enough => {
            let needed = table + event;
            match rng.below(16) {
                0 => TABLE_LIMIT,
                1 => TABLE_LIMIT + rng.below(100),
                2 => table,
                3 | 4 => needed,
                _ => needed + rng.below(64),
            }
        }
        Room::Short => match rng.below(6) {
            0 => table,
            1 => table.saturating_sub(1),
            2 => rng.below(table + 1),
            3 => table + event.saturating_sub(1),
            4 => TABLE_LIMIT,
            _ => 0,
        },
    }
}
