//! A run of a log, one proved step for each event, with the event that created
//! each mapping in force.

use crate::log::Event;
use crate::words::Settings;
use skuldrefn::{events, lookup, plain_step, Address, Context, TABLE_LIMIT};

/// What is in force.
pub struct Run {
    pub context: Context,
    /// The first has the table in force at its front.
    tables: [Vec<u8>; 2],
    length: usize,
    /// The number of the event that created each record of the table, in the
    /// table's order.
    origins: Vec<usize>,
}

/// What an event did.
pub struct Taken {
    pub answer: u64,
    /// The rule that an EPTP breaks, where that is why the answer is 8 or 10.
    pub rule: u64,
    /// The context before it.
    pub before: Context,
    /// The numbers of the events that had created the mappings that went.
    pub dropped: Vec<usize>,
}

impl Run {
    /// After a reset, with an empty table.
    pub fn new(settings: &Settings) -> Run {
        let Settings {
            capability,
            width,
            linear_width,
        } = *settings;
        Run {
            context: Context::after_reset(capability, width, linear_width),
            tables: [vec![0; TABLE_LIMIT], vec![0; TABLE_LIMIT]],
            length: 0,
            origins: Vec::new(),
        }
    }

    /// The table in force.
    pub fn table(&self) -> &[u8] {
        &self.tables[0][..self.length]
    }

    /// How many mappings are in force.
    pub fn count(&self) -> usize {
        self.origins.len()
    }

    /// The mappings in force, each behind the number of the event that created it.
    pub fn mappings(&self) -> impl Iterator<Item = (usize, &[u8])> {
        let records = events(self.context.linear_width, self.table());
        self.origins.iter().copied().zip(records)
    }

    /// One event.
    ///
    /// # Panics
    /// If the library hands back what its contract rules out.
    pub fn take(&mut self, event: &Event) -> Taken {
        let [old, new] = &mut self.tables;
        let before = self.context;
        let step = plain_step(&before, &old[..self.length], event.bytes, new);
        // A run from a reset with such buffers has none of these.
        assert!(!matches!(step.answer, 1..=3), "answer {}", step.answer);
        let mut dropped = Vec::new();
        if step.answer == 0 {
            self.context = step.context;
            self.tables.swap(0, 1);
            let old = self.length;
            self.length = step.length;
            dropped = self.carry(old, event);
            assert_eq!(dropped.len(), step.dropped, "dropped at {}", event.number);
        }
        Taken {
            answer: step.answer,
            rule: step.rule,
            before,
            dropped,
        }
    }

    /// Carries the origins over from the old table, now second, to the new one; those
    /// of the records that went. A step leaves records in their order, takes equal
    /// ones together, and adds a creation at the end. So each old record is the next
    /// of the new table, or went.
    fn carry(&mut self, old: usize, event: &Event) -> Vec<usize> {
        let [new, before] = &self.tables;
        let (mut rest, before) = (&new[..self.length], &before[..old]);
        let mut dropped = Vec::new();
        if let Some(created) = rest.strip_prefix(before) {
            rest = created;
        } else {
            let mut kept = Vec::new();
            let records = events(self.context.linear_width, before);
            for (origin, record) in self.origins.iter().zip(records) {
                match rest.strip_prefix(record) {
                    Some(after) => {
                        kept.push(*origin);
                        rest = after;
                    }
                    None => dropped.push(*origin),
                }
            }
            self.origins = kept;
        }
        if !rest.is_empty() {
            assert_eq!(rest, event.bytes, "created at {}", event.number);
            self.origins.push(event.number);
        }
        dropped
    }

    /// The mappings in force that are usable at an address, in their order.
    pub fn usable(&self, address: Address) -> Vec<(usize, &[u8])> {
        let mut mappings = Vec::new();
        let table = self.table();
        let starts = events(self.context.linear_width, table).scan(0, |next, record| {
            let start = *next;
            *next += record.len();
            Some(start)
        });
        let starts: Vec<usize> = starts.collect();
        for k in 0.. {
            let (_, Some(place)) = lookup(&self.context, table, address, k) else {
                break;
            };
            let nth = starts.binary_search(&place.start);
            let nth = nth.expect("a lookup hands back a record of the table");
            mappings.push((self.origins[nth], &table[place]));
        }
        mappings
    }
}

/// Whether a record alone is usable at an address.
pub fn is_usable(context: &Context, record: &[u8], address: Address) -> bool {
    let (answer, place) = lookup(context, record, address, 0);
    assert_eq!(answer, 0, "a lookup in a record of the table");
    place.is_some()
}
