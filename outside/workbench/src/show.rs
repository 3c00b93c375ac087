//! `show LOG [after=N]`: the table in force after an event.

use crate::json::Json;
use crate::log::{Event, Log};
use crate::run::Run;
use crate::words::Words;
use crate::{names, print, tell, Failure, Found};
use skuldrefn::{count, Row, Tally};
use std::fmt::Write;

/// A run up to an event, and where it stands.
pub struct At<'a> {
    pub run: Run,
    /// The last event that was taken; None before the first.
    pub last: Option<Event<'a>>,
    /// Its answer and the rule that its EPTP breaks.
    pub answer: (u64, u64),
    /// How many events the log has.
    pub events: usize,
}

/// Runs a log up to an event, or to its end.
pub fn run_to<'a>(log: &'a Log, words: &Words) -> Result<At<'a>, Failure> {
    let after = words.number("after");
    let mut at = At {
        run: Run::new(&words.settings),
        last: None,
        answer: (0, 0),
        events: 0,
    };
    for event in log.events() {
        at.events += 1;
        if after.is_none_or(|after| event.number as u64 <= after) {
            let taken = at.run.take(&event);
            at.answer = (taken.answer, taken.rule);
            at.last = Some(event);
        }
    }
    match after {
        Some(after) if after > at.events as u64 => Err(Failure::new(format!(
            "{} has {} events; there is no event {after}",
            log.name, at.events
        ))),
        _ => Ok(at),
    }
}

impl At<'_> {
    /// Which event it stands behind, and the context.
    pub fn words(&self, linear_width: u64) -> String {
        let mut text = match self.last {
            None => format!("before event 1 of {}\n", self.events),
            Some(event) => {
                let line = names::event(linear_width, event.bytes);
                let (answer, rule) = self.answer;
                format!(
                    "after event {} of {}, at byte {}: {line}\nanswer: {}\n",
                    event.number,
                    self.events,
                    event.byte,
                    names::answered(linear_width, event.bytes, answer, rule)
                )
            }
        };
        let _ = writeln!(text, "context: {}", names::context(&self.run.context));
        text
    }

    /// The same as members of an object.
    pub fn json(&self, linear_width: u64) -> Json {
        let after = self.last.map_or(0, |event| event.number);
        let line = self
            .last
            .map(|event| names::event(linear_width, event.bytes));
        Json::object()
            .with("after", after)
            .with("events", self.events)
            .text("event", &line.unwrap_or_default())
            .with("answer", self.answer.0)
            .with("rule", self.answer.1)
            .text("context", &names::context(&self.run.context))
    }

    /// Says where the run ended before the end of the log; whether it did.
    pub fn tell_stop(&self, log: &Log, command: &str) -> bool {
        match log.stop(self.last) {
            Some(why) => {
                tell(command, &why);
                true
            }
            None => false,
        }
    }
}

/// A line of a mapping: the number of the event that created it, and its record.
pub fn line(linear_width: u64, (created, record): (usize, &[u8])) -> String {
    format!("{created:6} {}\n", names::event(linear_width, record))
}

/// A mapping as an object.
pub fn object(linear_width: u64, (created, record): (usize, &[u8])) -> String {
    Json::object()
        .with("created", created)
        .text("record", &names::event(linear_width, record))
        .end()
}

pub fn show(words: &Words) -> Found {
    let width = words.settings.linear_width;
    let log = Log::read(&words.logs[0], width)?;
    let at = run_to(&log, words)?;
    let run = &at.run;
    if words.flag("--table") {
        crate::write(run.table())?;
        return Ok(at.tell_stop(&log, "show"));
    }
    let tally = count(width, run.table());
    let tally = tally.map_err(|answer| Failure::new(format!("the library answers {answer}")))?;
    if words.flag("--json") {
        let mappings = run.mappings().map(|mapping| object(width, mapping));
        let json = at
            .json(width)
            .with("mappings", Json::list(mappings))
            .with("totals", totals_json(&tally))
            .with("bytes", run.table().len())
            .end();
        print(&format!("{json}\n"))?;
    } else {
        let mut text = at.words(width);
        for mapping in run.mappings() {
            text += &line(width, mapping);
        }
        text += &totals(&tally);
        let _ = writeln!(text, "mappings in force: {}", run.count());
        let _ = writeln!(text, "bytes in force: {}", run.table().len());
        print(&text)?;
    }
    Ok(at.tell_stop(&log, "show"))
}

/// The rows of a tally behind the names of their kinds at 48 bits, 1 to 6; those of
/// 57-bit addresses are counted with their siblings.
fn rows(tally: &Tally) -> impl Iterator<Item = (&'static str, &Row)> {
    let names = (1..=6).map(|kind| names::kind(48, kind));
    names.zip(&tally.kinds.rows)
}

/// A line for each kind, with how many there are of each span.
fn totals(tally: &Tally) -> String {
    let mut text = format!("{:24}", "");
    for span in 0..5 {
        let _ = write!(text, "  span {span}");
    }
    text.push('\n');
    for (name, row) in rows(tally) {
        let _ = write!(text, "{name:24}");
        for count in row.spans {
            let _ = write!(text, "{count:8}");
        }
        text.push('\n');
    }
    text
}

fn totals_json(tally: &Tally) -> String {
    let object = rows(tally).fold(Json::object(), |object, (name, row)| {
        let spans = row.spans.iter().map(ToString::to_string);
        object.with(name, Json::list(spans))
    });
    object.end()
}
