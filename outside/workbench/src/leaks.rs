//! `leaks LOG [renters=FILE]`: what one renter can use of another's.

use crate::finder::{sought, watch, Finding};
use crate::invalidations::{Invalidation, Invalidations, LISTED};
use crate::json::Json;
use crate::log::{Event, Log};
use crate::names;
use crate::renters::Renters;
use crate::room::NoRoom;
use crate::words::Words;
use crate::{tell, Found};
use common::{encode, field};
use skuldrefn::{explain, Context, Reason};
use std::io::{self, BufWriter, Write};
use std::ops::Range;

const INVVPID: u8 = 16;
const INVEPT: u8 = 17;

/// The VM entry by which the guest of a finding was entered, and the context before
/// it.
#[derive(Clone, Copy)]
struct Entered<'a> {
    event: Event<'a>,
    before: Context,
}

impl Entered<'_> {
    /// An INVVPID or INVEPT that would have dropped a record just before.
    fn mend(&self, width: u64, record: &[u8]) -> Option<String> {
        let vpid = names::Fields::of(record).vpid.filter(|vpid| *vpid != 0);
        let invvpid = vpid.map(|vpid| encode(INVVPID, &[1, vpid, 0]));
        let eptp = field(self.event.bytes, 3).unwrap_or(0);
        let invept = encode(INVEPT, &[1, eptp, 0]);
        let mut events = invvpid.into_iter().chain([invept]);
        let event = events.find(|event| explain(&self.before, record, event) == Reason::InScope)?;
        Some(names::event(width, &event))
    }
}

/// A finding with all that is said of it.
struct Told {
    finding: Finding,
    /// The invalidations since it was created, all of which left it.
    since: Range<usize>,
    mend: Option<(usize, String)>,
}

/// What an event brings to light.
struct Report {
    at: usize,
    byte: usize,
    event: String,
    told: Vec<Told>,
    again: usize,
}

/// All that is said of a log.
struct Leaks<'a> {
    linear_width: u64,
    renters: Option<&'a Renters>,
    /// How many invalidations are listed of a mapping, at most.
    most: usize,
    invalidations: Invalidations<'a>,
    reports: Vec<Report>,
    /// How many VM entries were accepted.
    entries: usize,
    /// How many translations were created.
    creations: usize,
    /// Creations that were refused for room; None where there are none.
    no_room: Option<NoRoom>,
}

pub fn leaks(words: &Words) -> Found {
    let width = words.settings.linear_width;
    let log = Log::read(&words.logs[0], width)?;
    let renters = Renters::given(words, &log)?;
    let renters = renters.as_ref();
    let all = words.flag("--all");
    let mut leaks = Leaks {
        linear_width: width,
        renters,
        most: if all { usize::MAX } else { LISTED },
        invalidations: Invalidations::default(),
        reports: Vec::new(),
        entries: 0,
        creations: 0,
        no_room: None,
    };
    let mut entered = None;
    let last = watch(&log, &words.settings, renters, |_, event, taken, found| {
        if taken.answer == 0 && event.is_entry() {
            leaks.entries += 1;
            entered = Some(Entered {
                event: *event,
                before: taken.before,
            });
        }
        if taken.answer == 0 && names::is_translation(event.kind()) {
            leaks.creations += 1;
        }
        if !found.new.is_empty() || found.again > 0 {
            let told = found.new.iter().map(|finding| leaks.told(finding, entered));
            let report = Report {
                at: event.number,
                byte: event.byte,
                event: names::event(width, event.bytes),
                told: told.collect(),
                again: found.again,
            };
            leaks.reports.push(report);
        }
        leaks.invalidations.add(event, taken);
        NoRoom::add(&mut leaks.no_room, event, taken);
    })?;
    let amiss = log.amiss(last);
    let mut out = BufWriter::new(io::stdout().lock());
    if words.flag("--json") {
        leaks.json(&mut out, amiss.as_deref().unwrap_or(""))?;
    } else {
        leaks.text(&mut out)?;
    }
    out.flush()?;
    if let Some(why) = &amiss {
        tell("leaks", why);
    }
    Ok(leaks.count() > 0 || leaks.no_room.is_some() || amiss.is_some())
}

impl Leaks<'_> {
    fn count(&self) -> usize {
        self.reports.iter().map(|report| report.told.len()).sum()
    }

    /// What is to be said of a finding of the event that is next.
    fn told(&self, finding: &Finding, entered: Option<Entered>) -> Told {
        let mend = entered.filter(|_| finding.between.is_some());
        Told {
            finding: finding.clone(),
            since: self.invalidations.since(finding.created),
            mend: mend.and_then(|entered| {
                let event = entered.mend(self.linear_width, &finding.record)?;
                Some((entered.event.number, event))
            }),
        }
    }

    /// How many invalidations of a finding are not listed, and those that are.
    fn listed(&self, told: &Told) -> (usize, &[Invalidation<'_>]) {
        self.invalidations.last(told.since.clone(), self.most)
    }

    fn text(&self, out: &mut impl Write) -> io::Result<()> {
        let sought = sought(self.renters);
        let mut no_room = self.no_room;
        for report in &self.reports {
            let (at, byte, event) = (report.at, report.byte, &report.event);
            if let Some(before) = no_room.take_if(|first| first.at < at) {
                writeln!(out, "{}", before.words(sought))?;
            }
            writeln!(out, "event {at}, at byte {byte}: {event}")?;
            if report.again > 0 {
                writeln!(out, "  still usable, told before: {}", report.again)?;
            }
            for told in &report.told {
                self.told_text(told, out)?;
            }
        }
        if let Some(last) = no_room {
            writeln!(out, "{}", last.words(sought))?;
        }
        let (count, entries, creations) = (self.count(), self.entries, self.creations);
        let more = match self.no_room {
            Some(_) => "; others may be missed",
            None => "",
        };
        match self.renters {
            Some(_) => writeln!(out, "{sought}: {count}, in {entries} VM entries{more}"),
            None => writeln!(
                out,
                "{sought}: {count}, in {creations} translations created{more}"
            ),
        }
    }

    fn told_text(&self, told: &Told, out: &mut impl Write) -> io::Result<()> {
        let Finding {
            created,
            record,
            between,
            ..
        } = &told.finding;
        let line = names::event(self.linear_width, record);
        match between.zip(self.renters) {
            Some(((owner, user), renters)) => writeln!(
                out,
                "  {} can use a mapping of {}, created by event {created}: {line}",
                renters.name(user),
                renters.name(owner)
            ),
            None => writeln!(
                out,
                "  beside an older translation, created by event {created}: {line}"
            ),
        }?;
        let (earlier, listed) = self.listed(told);
        if earlier > 0 {
            writeln!(out, "    {earlier} earlier invalidations; --all lists them")?;
        }
        for one in listed {
            writeln!(out, "    {}", one.words(self.linear_width, record))?;
        }
        if listed.is_empty() {
            writeln!(out, "    no invalidation since")?;
        }
        if let Some((before, event)) = &told.mend {
            writeln!(out, "    before event {before} it would go with: {event}")?;
        }
        Ok(())
    }

    /// One object. The findings are written one by one, since they may be many.
    fn json(&self, out: &mut impl Write, stopped: &str) -> io::Result<()> {
        write!(out, "{{\"findings\":[")?;
        let mut between = "";
        for report in &self.reports {
            for told in &report.told {
                write!(out, "{between}{}", self.told_json(report, told))?;
                between = ",";
            }
        }
        let rest = Json::object()
            .with("entries", self.entries)
            .with("translations", self.creations)
            .with(
                "room",
                self.no_room.map_or("null".to_string(), |own| own.json()),
            )
            .text("stopped", stopped)
            .end();
        writeln!(out, "],{}", &rest[1..])
    }

    fn told_json(&self, report: &Report, told: &Told) -> String {
        let finding = &told.finding;
        let record = &finding.record;
        let mut json = Json::object()
            .with("at", report.at)
            .with("byte", report.byte)
            .text("event", &report.event);
        if let Some(((owner, user), renters)) = finding.between.zip(self.renters) {
            json = json
                .text("user", renters.name(user))
                .text("owner", renters.name(owner));
        }
        let (earlier, listed) = self.listed(told);
        let spared = listed.iter().map(|one| {
            Json::object()
                .with("number", one.event.number)
                .text("event", &names::event(self.linear_width, one.event.bytes))
                .text("reason", &one.why(record))
                .end()
        });
        json = json
            .with("created", finding.created)
            .text("record", &names::event(self.linear_width, record))
            .with("earlier", earlier)
            .with("spared", Json::list(spared));
        if let Some((before, event)) = &told.mend {
            json = json.with("before", before).text("mend", event);
        }
        json.end()
    }
}
