//! `explain LOG event=N`: what an event did, and why each mapping went or stayed.

use crate::json::Json;
use crate::log::{Event, Log};
use crate::run::Run;
use crate::words::Words;
use crate::{names, print, tell, Failure, Found};
use skuldrefn::{Context, Reason};
use std::fmt::Write;

/// A mapping that was in force before an event.
struct Fate {
    created: usize,
    record: Vec<u8>,
    reason: Reason,
}

/// What an event did.
struct Explained {
    before: Context,
    after: Context,
    answer: (u64, u64),
    fates: Vec<Fate>,
    dropped: usize,
}

pub fn explain(words: &Words) -> Found {
    let width = words.settings.linear_width;
    let log = Log::read(&words.logs[0], width)?;
    let number = words.number("event").unwrap_or(0);
    let mut run = Run::new(&words.settings);
    let mut count = 0;
    for event in log.events() {
        if event.number as u64 != number {
            run.take(&event);
            count = event.number;
            continue;
        }
        let explained = explain_event(&mut run, &event);
        let text = if words.flag("--json") {
            json(width, &event, &explained)
        } else {
            text(width, &event, &explained)
        };
        print(&text)?;
        let stop = log.stop(Some(event));
        if let Some(why) = &stop {
            tell("explain", why);
        }
        return Ok(stop.is_some());
    }
    Err(Failure::new(format!(
        "{} has {count} events; there is no event {number}",
        log.name
    )))
}

/// Takes an event, and asks the library of each mapping why it went or stayed. A
/// mapping is in scope exactly if the step drops it. A refused event leaves them
/// all, whatever a step on one record alone would answer: room is asked of the
/// whole table.
fn explain_event(run: &mut Run, event: &Event) -> Explained {
    let mappings: Vec<(usize, Vec<u8>)> = run
        .mappings()
        .map(|(created, record)| (created, record.to_vec()))
        .collect();
    let taken = run.take(event);
    let refused = Reason::Refused {
        answer: taken.answer,
        rule: taken.rule,
    };
    let fates = mappings.into_iter().map(|(created, record)| {
        let reason = match taken.answer {
            0 => skuldrefn::explain(&taken.before, &record, event.bytes),
            _ => refused,
        };
        let went = taken.dropped.binary_search(&created).is_ok();
        assert_eq!(reason == Reason::InScope, went, "the mapping of {created}");
        Fate {
            created,
            record,
            reason,
        }
    });
    Explained {
        before: taken.before,
        fates: fates.collect(),
        after: run.context,
        answer: (taken.answer, taken.rule),
        dropped: taken.dropped.len(),
    }
}

/// What became of a mapping.
fn fate(reason: Reason) -> &'static str {
    match reason {
        Reason::InScope => "dropped",
        _ => "kept",
    }
}

fn text(width: u64, event: &Event, explained: &Explained) -> String {
    let (number, byte) = (event.number, event.byte);
    let line = names::event(width, event.bytes);
    let (answer, rule) = explained.answer;
    let mut text = format!(
        "event {number}, at byte {byte}: {line}\nanswer: {}\nbefore: {}\nafter: {}\n",
        names::answered(width, event.bytes, answer, rule),
        names::context(&explained.before),
        names::context(&explained.after)
    );
    for mapping in &explained.fates {
        let _ = writeln!(
            text,
            "{:6} {:7} {:26} {}",
            mapping.created,
            fate(mapping.reason),
            names::reason(mapping.reason),
            names::event(width, &mapping.record)
        );
    }
    let (dropped, all) = (explained.dropped, explained.fates.len());
    let _ = writeln!(text, "dropped: {dropped} of {all} mappings");
    text
}

fn json(width: u64, event: &Event, explained: &Explained) -> String {
    let mappings = explained.fates.iter().map(|mapping| {
        Json::object()
            .with("created", mapping.created)
            .text("record", &names::event(width, &mapping.record))
            .with("dropped", mapping.reason == Reason::InScope)
            .text("reason", names::reason(mapping.reason))
            .end()
    });
    let (answer, rule) = explained.answer;
    let json = Json::object()
        .with("number", event.number)
        .with("byte", event.byte)
        .text("event", &names::event(width, event.bytes))
        .with("answer", answer)
        .with("rule", rule)
        .text("words", &names::answered(width, event.bytes, answer, rule))
        .text("before", &names::context(&explained.before))
        .text("after", &names::context(&explained.after))
        .with("dropped", explained.dropped)
        .with("mappings", Json::list(mappings))
        .end();
    format!("{json}\n")
}
