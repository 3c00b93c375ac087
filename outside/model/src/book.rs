//! Document 01's book: a whole run judged from its events alone.
//!
//! The book keeps no table. It notes each accepted event with the context
//! before it; what stands follows from the notes.

use crate::context::Context;
use crate::event::Event;
use crate::judge::{answer, rule};
use crate::mapping::Mapping;
use crate::scope::in_scope;
use crate::TABLE_LIMIT;

/// An accepted event, with the context just before it.
#[derive(Clone, Debug)]
pub struct Note {
    pub event: Vec<u8>,
    decoded: Event,
    pub context: Context,
}

impl Note {
    fn creation(&self) -> Option<&Mapping> {
        match &self.decoded {
            Event::Creation(mapping) => Some(mapping),
            _ => None,
        }
    }
}

/// What the book says of one event.
#[derive(Clone, Copy, Debug, PartialEq, Eq)]
pub struct Verdict {
    pub answer: u64,
    /// As the step's.
    pub rule: u64,
    pub dropped: usize,
}

/// The book of one run.
#[derive(Clone, Debug)]
pub struct Book {
    context: Context,
    notes: Vec<Note>,
    /// The numbers of the standing notes, kept so that a long run need not
    /// work them out again for each event. Equal to `standing_by_notes`.
    standing: Vec<usize>,
}

impl Book {
    /// The book at the start of a run, whose context is one after a reset.
    pub fn new(start: &Context) -> Book {
        Book {
            context: *start,
            notes: Vec::new(),
            standing: Vec::new(),
        }
    }

    /// The context in force.
    pub fn context(&self) -> &Context {
        &self.context
    }

    /// All that was noted, in order.
    pub fn notes(&self) -> &[Note] {
        &self.notes
    }

    /// The numbers (in `notes`) of the standing records, in order.
    pub fn standing(&self) -> &[usize] {
        &self.standing
    }

    /// The same by the definition: the noted creations in order, less each
    /// one in the required scope of an event noted later, judged in the
    /// context noted with that event.
    pub fn standing_by_notes(&self) -> Vec<usize> {
        let stands = |number: &usize| {
            self.notes[*number].creation().is_some_and(|mapping| {
                let later = &self.notes[number + 1..];
                !later
                    .iter()
                    .any(|note| in_scope(&note.context, &note.decoded, mapping))
            })
        };
        (0..self.notes.len()).filter(stands).collect()
    }

    /// The standing records end to end.
    pub fn table(&self) -> Vec<u8> {
        let mut table = Vec::new();
        for number in &self.standing {
            table.extend_from_slice(&self.notes[*number].event);
        }
        table
    }

    /// The next event: any bytes.
    pub fn feed(&mut self, event: &[u8]) -> Verdict {
        let answer = answer(&self.context, &self.table(), event, TABLE_LIMIT);
        let decoded = Event::decode(self.context.linear(), event);
        let (0, Some(decoded)) = (answer, decoded) else {
            return Verdict {
                answer,
                rule: decoded.map_or(0, |event| rule(&self.context, &event, answer)),
                dropped: 0,
            };
        };
        let note = Note {
            event: event.to_vec(),
            decoded,
            context: self.context,
        };
        let stood = self.standing.len();
        let notes = &self.notes;
        self.standing.retain(|number| {
            !notes[*number]
                .creation()
                .is_some_and(|mapping| in_scope(&note.context, &note.decoded, mapping))
        });
        let dropped = stood - self.standing.len();
        if note.creation().is_some() {
            self.standing.push(self.notes.len());
        }
        self.context = decoded.after(&self.context);
        self.notes.push(note);
        Verdict {
            answer,
            rule: 0,
            dropped,
        }
    }
}
