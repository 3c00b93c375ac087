//! The invalidations of a run, and why each left a mapping.

use crate::log::Event;
use crate::names;
use crate::run::Taken;
use skuldrefn::{explain, Context, Reason};
use std::ops::Range;

/// How many are listed of a mapping, if not all.
pub const LISTED: usize = 10;

/// Any record: whether an event has a scope does not depend on it.
const RECORD: [u8; 17] = [2, 0, 0, 0, 0, 0, 0, 0, 0, 0, 0, 0, 0, 0, 0, 0, 0];

/// An event that could have dropped a mapping.
pub struct Invalidation<'a> {
    pub event: Event<'a>,
    before: Context,
    answer: u64,
    rule: u64,
}

impl<'a> Invalidation<'a> {
    /// None for an event without a scope; a refused one counts by its kind.
    fn of(event: &Event<'a>, taken: &Taken) -> Option<Invalidation<'a>> {
        let is_one = match taken.answer {
            0 => explain(&taken.before, &RECORD, event.bytes) != Reason::NoScope,
            _ => event.whole && matches!(event.kind(), 16..=19 | 26 | 27),
        };
        is_one.then_some(Invalidation {
            event: *event,
            before: taken.before,
            answer: taken.answer,
            rule: taken.rule,
        })
    }

    /// Why it left a record.
    pub fn why(&self, record: &[u8]) -> String {
        if self.answer != 0 {
            return names::answer(self.answer, self.rule);
        }
        let reason = explain(&self.before, record, self.event.bytes);
        assert_ne!(reason, Reason::InScope, "event {}", self.event.number);
        names::reason(reason).to_string()
    }

    /// That it left a record, and why.
    pub fn words(&self, linear_width: u64, record: &[u8]) -> String {
        let line = names::event(linear_width, self.event.bytes);
        let number = self.event.number;
        format!("left by event {number}, {}: {line}", self.why(record))
    }
}

/// Those of a run so far, in order.
#[derive(Default)]
pub struct Invalidations<'a>(Vec<Invalidation<'a>>);

impl<'a> Invalidations<'a> {
    /// Adds an event that the run has taken, if it is one.
    pub fn add(&mut self, event: &Event<'a>, taken: &Taken) {
        self.0.extend(Invalidation::of(event, taken));
    }

    /// The places of those from an event on.
    pub fn since(&self, number: usize) -> Range<usize> {
        let first = self.0.partition_point(|one| one.event.number < number);
        first..self.0.len()
    }

    /// The last at some places, at most so many, and how many there are before them.
    pub fn last(&self, places: Range<usize>, most: usize) -> (usize, &[Invalidation<'a>]) {
        let all = &self.0[places];
        let earlier = all.len().saturating_sub(most);
        (earlier, &all[earlier..])
    }
}
