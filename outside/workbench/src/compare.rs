//! `compare LOG LOG`: where two runs part.

use crate::json::Json;
use crate::log::{Event, Log};
use crate::run::Run;
use crate::show::{line, object};
use crate::words::Words;
use crate::{names, print, tell, Found};
use std::collections::BTreeMap;

/// Mappings, each behind the number of the event that created it.
type Mappings = Vec<(usize, Vec<u8>)>;

/// What only one of two runs holds.
struct Apart([Mappings; 2]);

impl Apart {
    /// Equal records are matched from the first on.
    fn of(one: &Run, other: &Run) -> Apart {
        Apart([only(one, other), only(other, one)])
    }

    fn text(&self, width: u64, names: &[String; 2]) -> String {
        let mut text = String::new();
        for (name, mappings) in names.iter().zip(&self.0) {
            text += &format!("  only in {name}: {}\n", mappings.len());
            for (created, record) in mappings {
                text += &line(width, (*created, record));
            }
        }
        text
    }

    fn json(&self, width: u64) -> String {
        let lists = self.0.iter().map(|mappings| {
            let mappings = mappings.iter();
            Json::list(mappings.map(|(created, record)| object(width, (*created, record))))
        });
        Json::list(lists)
    }
}

/// The mappings of a run that another one does not hold.
fn only(run: &Run, other: &Run) -> Mappings {
    let mut held: BTreeMap<&[u8], usize> = BTreeMap::new();
    for (_, record) in other.mappings() {
        *held.entry(record).or_insert(0) += 1;
    }
    let mut only = Vec::new();
    for (created, record) in run.mappings() {
        match held.get_mut(record) {
            Some(count) if *count > 0 => *count -= 1,
            _ => only.push((created, record.to_vec())),
        }
    }
    only
}

/// Where two runs part, and what they hold then.
struct Parting {
    number: usize,
    /// The event of each, with its byte; None where the log has ended.
    events: [Option<(usize, String)>; 2],
    then: Apart,
}

pub fn compare(words: &Words) -> Found {
    let width = words.settings.linear_width;
    let logs = [
        Log::read(&words.logs[0], width)?,
        Log::read(&words.logs[1], width)?,
    ];
    let mut runs = [Run::new(&words.settings), Run::new(&words.settings)];
    let mut events = [logs[0].events(), logs[1].events()];
    let mut last: [Option<Event>; 2] = [None, None];
    let mut counts = [0, 0];
    let mut parting = None;
    for number in 1.. {
        let [first, second] = &mut events;
        let next = [first.next(), second.next()];
        if next.iter().all(Option::is_none) {
            break;
        }
        for place in 0..2 {
            if let Some(event) = &next[place] {
                runs[place].take(event);
                last[place] = Some(*event);
                counts[place] += 1;
            }
        }
        let [one, other] = next.map(|event| event.map(|event| event.bytes));
        if parting.is_none() && one != other {
            parting = Some(Parting {
                number,
                events: next.map(|event| {
                    let event = event?;
                    Some((event.byte, names::event(width, event.bytes)))
                }),
                then: Apart::of(&runs[0], &runs[1]),
            });
        }
    }
    let end = Apart::of(&runs[0], &runs[1]);
    let names = [logs[0].name.clone(), logs[1].name.clone()];
    print(&match (&parting, words.flag("--json")) {
        (parting, true) => json(width, parting.as_ref(), counts, &end),
        (None, false) => format!("the same events: {}\n", counts[0]),
        (Some(parting), false) => text(width, parting, &names, counts, &end),
    })?;
    let mut found = parting.is_some();
    for (log, last) in logs.iter().zip(last) {
        if let Some(why) = log.stop(last) {
            tell("compare", &why);
            found = true;
        }
    }
    Ok(found)
}

fn text(
    width: u64,
    parting: &Parting,
    names: &[String; 2],
    counts: [usize; 2],
    end: &Apart,
) -> String {
    let number = parting.number;
    let mut text = format!("they part at event {number}\n");
    for (name, event) in names.iter().zip(&parting.events) {
        text += &match event {
            Some((byte, line)) => format!("  {name}, at byte {byte}: {line}\n"),
            None => format!("  {name} has ended\n"),
        };
    }
    text += &format!("after event {number}\n{}", parting.then.text(width, names));
    let [one, other] = counts;
    text += &format!(
        "at the end, after {one} and {other} events\n{}",
        end.text(width, names)
    );
    text
}

fn json(width: u64, parting: Option<&Parting>, counts: [usize; 2], end: &Apart) -> String {
    let counts = Json::list(counts.map(|count| count.to_string()));
    let mut json = Json::object()
        .with("same", parting.is_none())
        .with("events", counts);
    if let Some(parting) = parting {
        let events = parting.events.iter().map(|event| match event {
            Some((byte, line)) => Json::object().with("byte", byte).text("event", line).end(),
            None => "null".to_string(),
        });
        json = json
            .with("part", parting.number)
            .with("parting", Json::list(events))
            .with("then", parting.then.json(width));
    }
    format!("{}\n", json.with("end", end.json(width)).end())
}
