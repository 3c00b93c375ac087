//! What is looked for in a run: mappings of one renter that another can use, or,
//! where it is not known who rents, stale translations.

use crate::log::{Event, Log};
use crate::names::{is_translation, Fields};
use crate::renters::Renters;
use crate::run::{is_usable, Run, Taken};
use crate::words::Settings;
use crate::Failure;
use skuldrefn::{Context, Place};
use std::collections::{BTreeMap, BTreeSet};

const SWITCH: u8 = 24;

/// A mapping that should not be usable any more.
#[derive(Clone, Debug, PartialEq, Eq)]
pub struct Finding {
    /// The event from which on it can be used, or stands beside a newer one.
    pub at: usize,
    /// The event that created it.
    pub created: usize,
    pub record: Vec<u8>,
    /// Who made it, and who can use it; None of a stale translation.
    pub between: Option<(usize, usize)>,
}

/// What is looked for, in words.
pub fn sought(renters: Option<&Renters>) -> &'static str {
    match renters {
        Some(_) => "leaks",
        None => "stale translations",
    }
}

/// What an event brings to light.
#[derive(Default)]
pub struct Findings {
    pub new: Vec<Finding>,
    /// How many more of these there are that were told before: mappings that the
    /// renter who comes in can still use, or translations older than a new one.
    pub again: usize,
    /// The renter who comes in with it.
    pub entered: Option<usize>,
}

/// Looks at each event of a run.
pub struct Finder<'a> {
    renters: Option<&'a Renters>,
    /// Who is in the guest.
    here: Option<usize>,
    /// Who made each mapping, by the number of its event.
    owners: BTreeMap<usize, usize>,
    /// Mappings and who can use them, as they were told; nobody of a stale one.
    told: BTreeSet<(usize, Option<usize>)>,
}

impl Finder<'_> {
    pub fn new(renters: Option<&Renters>) -> Finder<'_> {
        Finder {
            renters,
            here: None,
            owners: BTreeMap::new(),
            told: BTreeSet::new(),
        }
    }

    /// Looks at an event that the run has taken.
    fn look(&mut self, run: &Run, event: &Event, taken: &Taken) -> Result<Findings, Failure> {
        if taken.answer != 0 {
            return Ok(Findings::default());
        }
        let Some(renters) = self.renters else {
            return Ok(self.stale(run, event));
        };
        if event.is_entry() {
            self.here = Some(renters.of(event.number)?);
        }
        if !matches!(run.context.place, Place::Guest { .. }) {
            self.here = None;
        }
        let Some(here) = self.here else {
            return Ok(Findings::default());
        };
        if event.is_entry() || event.kind() == SWITCH {
            return Ok(self.leaks(run, event, here));
        }
        if common::is_mapping_kind(event.kind()) {
            self.owners.insert(event.number, here);
        }
        Ok(Findings::default())
    }

    /// The mappings of others that are usable at some address. Only a VM entry and a
    /// new PCID make one usable that was not, and MOV to CR3 without bit 63 takes those
    /// of its PCID first. A creation's own is the renter's.
    fn leaks(&mut self, run: &Run, event: &Event, here: usize) -> Findings {
        let enters = event.is_entry();
        let mut findings = Findings {
            entered: enters.then_some(here),
            ..Findings::default()
        };
        for (created, record) in run.mappings() {
            let owner = self.owners.get(&created).copied();
            let Some(owner) = owner.filter(|owner| *owner != here) else {
                continue;
            };
            if !is_usable_somewhere(&run.context, record) {
                continue;
            }
            if self.told.insert((created, Some(here))) {
                findings.new.push(Finding {
                    at: event.number,
                    created,
                    record: record.to_vec(),
                    between: Some((owner, here)),
                });
            } else if enters {
                findings.again += 1;
            }
        }
        findings
    }

    /// The older translations that are usable at an address of the one that was
    /// created, and lead to another frame there.
    fn stale(&mut self, run: &Run, event: &Event) -> Findings {
        let mut findings = Findings::default();
        if !is_translation(event.kind()) {
            return findings;
        }
        let new = Fields::of(event.bytes);
        for (created, record) in run.mappings() {
            if record[0] != new.kind || created == event.number {
                continue;
            }
            let old = Fields::of(record);
            if !leads_elsewhere(&old, &new)
                || !both_usable(run, (&old, record), (&new, event.bytes))
            {
                continue;
            }
            if self.told.insert((created, None)) {
                findings.new.push(Finding {
                    at: event.number,
                    created,
                    record: record.to_vec(),
                    between: None,
                });
            } else {
                findings.again += 1;
            }
        }
        findings
    }
}

/// Whether a record is usable at an address that it covers. At one it is so exactly
/// if it is at all.
fn is_usable_somewhere(context: &Context, record: &[u8]) -> bool {
    let address = Fields::of(record).address(context.linear_width);
    is_usable(context, record, address)
}

/// Whether two records have pages in common, and lead to two frames there. The n-th
/// page of a record has the n-th frame from its own.
fn leads_elsewhere(one: &Fields, other: &Fields) -> bool {
    let span = 9 * one.span.max(other.span);
    let from = |record: &Fields| record.frame.wrapping_sub(record.page);
    one.page >> span == other.page >> span && from(one) != from(other)
}

/// Whether two records are usable at one address: the first of the smaller.
fn both_usable(run: &Run, one: (&Fields, &[u8]), other: (&Fields, &[u8])) -> bool {
    let smaller = if one.0.span <= other.0.span {
        one.0
    } else {
        other.0
    };
    let address = smaller.address(run.context.linear_width);
    [one.1, other.1]
        .iter()
        .all(|record| is_usable(&run.context, record, address))
}

/// Runs a log, and hands each event with what it did and brought to light to a
/// function; the last event.
pub fn watch<'a>(
    log: &'a Log,
    settings: &Settings,
    renters: Option<&Renters>,
    mut each: impl FnMut(&Run, &Event<'a>, &Taken, &Findings),
) -> Result<Option<Event<'a>>, Failure> {
    let mut run = Run::new(settings);
    let mut finder = Finder::new(renters);
    let mut last = None;
    for event in log.events() {
        let taken = run.take(&event);
        let findings = finder.look(&run, &event, &taken)?;
        each(&run, &event, &taken, &findings);
        last = Some(event);
    }
    Ok(last)
}
