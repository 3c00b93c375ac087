//! A run from the replay program's start, one proved step for each event.

use skuldrefn::{step, Context, Step, Tally, PROGRAM_CAPABILITY, PROGRAM_WIDTH, TABLE_LIMIT};

/// What is in force.
pub struct Run {
    context: Context,
    /// The first has the table in force at its front.
    tables: [Vec<u8>; 2],
    /// The length of that table.
    pub length: usize,
    /// The tally of that table.
    pub tally: Tally,
}

impl Run {
    /// After a reset, with an empty table.
    pub fn new(linear_width: u64) -> Run {
        Run {
            context: Context::after_reset(PROGRAM_CAPABILITY, PROGRAM_WIDTH, linear_width),
            tables: [vec![0; TABLE_LIMIT], vec![0; TABLE_LIMIT]],
            length: 0,
            tally: Tally::new(),
        }
    }

    /// One event; what its step reports.
    pub fn take(&mut self, event: &[u8]) -> Step {
        let [old, new] = &mut self.tables;
        let old = &old[..self.length];
        let step = step(&self.context, &mut self.tally, old, event, new);
        if step.answer == 0 {
            self.context = step.context;
            self.length = step.length;
            self.tables.swap(0, 1);
        }
        step
    }
}
