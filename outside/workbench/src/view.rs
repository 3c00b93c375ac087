//! `view LOG`: a picture of a run.

use crate::finder::{watch, Finding};
use crate::invalidations::{Invalidations, LISTED};
use crate::log::Log;
use crate::names::{self, Fields};
use crate::renters::Renters;
use crate::room::NoRoom;
use crate::run::Taken;
use crate::words::Words;
use crate::{print, tell, Found};
use skuldrefn::{Context, Place};
use std::collections::BTreeMap;

mod page;
mod trace;

/// A run as it is drawn.
pub struct Picture {
    pub name: String,
    /// Each event in words.
    pub events: Vec<String>,
    /// The numbers of the events that were refused.
    pub refused: Vec<usize>,
    /// Each stretch of events with one place: the first event behind which it is
    /// so, and the place.
    pub places: Vec<(usize, Place)>,
    /// Who comes in with which VM entry, where that is known.
    pub renters: Vec<(usize, String)>,
    pub bars: Vec<Bar>,
    pub groups: Vec<Group>,
    /// How many mappings were found that should not be usable any more.
    pub findings: usize,
    /// Creations that were refused for room; None where there are none.
    pub no_room: Option<NoRoom>,
}

/// A mapping from its creation to its end.
pub struct Bar {
    pub created: usize,
    /// The event that dropped it, and the name of its kind; None where it is in
    /// force at the end.
    pub ended: Option<(usize, &'static str)>,
    pub record: String,
    /// All that is said of it.
    pub words: String,
    /// The events from which on somebody can use it who should not.
    pub found: Vec<usize>,
    /// The line of its group in which it is drawn.
    pub lane: usize,
}

/// The mappings with the same tags.
pub struct Group {
    pub name: String,
    pub bars: Vec<usize>,
    pub lanes: usize,
}

pub fn view(words: &Words) -> Found {
    let log = Log::read(&words.logs[0], words.settings.linear_width)?;
    let renters = Renters::given(words, &log)?;
    let mut drawing = Drawing::new(&log);
    let last = watch(
        &log,
        &words.settings,
        renters.as_ref(),
        |run, event, taken, found| {
            let line = names::event(log.linear_width, event.bytes);
            drawing.event(event.number, &line, event.bytes, taken, &run.context);
            if let Some(renter) = found.entered.zip(renters.as_ref()) {
                let (renter, renters) = renter;
                drawing.entered(event.number, renters.name(renter));
            }
            for finding in &found.new {
                let who = finding.between.zip(renters.as_ref());
                let said = match who {
                    Some(((owner, user), renters)) => format!(
                        "{} can use this mapping of {}",
                        renters.name(user),
                        renters.name(owner)
                    ),
                    None => "a newer translation leads to another frame".to_string(),
                };
                drawing.found(finding, &said);
            }
            drawing.invalidations.add(event, taken);
            NoRoom::add(&mut drawing.picture.no_room, event, taken);
        },
    )?;
    let picture = drawing.end();
    print(&if words.flag("--trace") {
        trace::trace(&picture)
    } else {
        page::page(&picture)
    })?;
    let stop = log.stop(last);
    if let Some(why) = &stop {
        tell("view", why);
    }
    Ok(stop.is_some())
}

/// A picture that is being drawn.
struct Drawing<'a> {
    linear_width: u64,
    picture: Picture,
    invalidations: Invalidations<'a>,
    /// The place in `bars` of each mapping, by the event that created it.
    places: BTreeMap<usize, usize>,
    /// The bars of each group.
    groups: BTreeMap<(Option<u64>, Option<u64>), Vec<usize>>,
    names: BTreeMap<(Option<u64>, Option<u64>), String>,
}

impl Drawing<'_> {
    fn new(log: &Log) -> Self {
        Drawing {
            linear_width: log.linear_width,
            picture: Picture {
                name: log.name.clone(),
                events: Vec::new(),
                refused: Vec::new(),
                places: vec![(0, Place::Outside)],
                renters: Vec::new(),
                bars: Vec::new(),
                groups: Vec::new(),
                findings: 0,
                no_room: None,
            },
            invalidations: Invalidations::default(),
            places: BTreeMap::new(),
            groups: BTreeMap::new(),
            names: BTreeMap::new(),
        }
    }

    /// An event that the run has taken.
    fn event(&mut self, number: usize, line: &str, bytes: &[u8], taken: &Taken, after: &Context) {
        let picture = &mut self.picture;
        let answer = names::answered(self.linear_width, bytes, taken.answer, taken.rule);
        picture
            .events
            .push(format!("event {number}: {line}\n{answer}"));
        if taken.answer != 0 {
            picture.refused.push(number);
            return;
        }
        if picture.places.last().map(|(_, place)| *place) != Some(after.place) {
            picture.places.push((number, after.place));
        }
        for created in &taken.dropped {
            let bar = &mut picture.bars[self.places[created]];
            bar.ended = Some((number, names::kind(self.linear_width, bytes[0])));
            bar.words += &format!("\ndropped by event {number}, in scope: {line}");
        }
        if common::is_mapping_kind(bytes[0]) {
            let fields = Fields::of(bytes);
            let group = (fields.vpid, fields.ep4ta);
            let place = picture.bars.len();
            self.groups.entry(group).or_default().push(place);
            self.names.entry(group).or_insert_with(|| fields.group());
            self.places.insert(number, place);
            picture.bars.push(Bar {
                created: number,
                ended: None,
                record: line.to_string(),
                words: format!("created by event {number}: {line}"),
                found: Vec::new(),
                lane: 0,
            });
        }
    }

    /// A renter who comes in.
    fn entered(&mut self, number: usize, name: &str) {
        self.picture.renters.push((number, name.to_string()));
    }

    /// A mapping that can be used from an event on, and the last invalidations that
    /// left it before.
    fn found(&mut self, finding: &Finding, said: &str) {
        let bar = &mut self.picture.bars[self.places[&finding.created]];
        let told = bar.found.last().copied().unwrap_or(bar.created);
        let since = self.invalidations.since(told);
        let (earlier, listed) = self.invalidations.last(since, LISTED);
        if earlier > 0 {
            bar.words += &format!("\nleft by {earlier} earlier invalidations");
        }
        for one in listed {
            bar.words += "\n";
            bar.words += &one.words(self.linear_width, &finding.record);
        }
        bar.found.push(finding.at);
        bar.words += &format!("\nfound at event {}: {said}", finding.at);
        self.picture.findings += 1;
    }

    /// The picture, with a lane for each bar: the first of its group that is free.
    fn end(mut self) -> Picture {
        let end = self.picture.events.len() + 1;
        for (group, bars) in self.groups {
            // Where the last bar of each lane ends.
            let mut lanes: Vec<usize> = Vec::new();
            for place in &bars {
                let bar = &mut self.picture.bars[*place];
                let ended = bar.ended.as_ref().map_or(end, |(number, _)| *number);
                let free = lanes.iter().position(|last| *last <= bar.created);
                bar.lane = free.unwrap_or(lanes.len());
                match free {
                    Some(lane) => lanes[lane] = ended,
                    None => lanes.push(ended),
                }
            }
            self.picture.groups.push(Group {
                name: self.names.remove(&group).unwrap_or_default(),
                bars,
                lanes: lanes.len(),
            });
        }
        for bar in &mut self.picture.bars {
            if bar.ended.is_none() {
                bar.words += "\nin force at the end";
            }
        }
        self.picture
    }
}
