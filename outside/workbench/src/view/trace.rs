//! A picture in the trace event format, a millisecond for each event.

use super::Picture;
use crate::json::Json;
use skuldrefn::Place;

/// Microseconds of an event.
const EVENT: usize = 1000;

/// A group's lanes are threads of a process of its own; the first process has the
/// places and the refused events.
pub fn trace(picture: &Picture) -> String {
    let mut entries = vec![
        name("process_name", 0, 0, &picture.name),
        name("thread_name", 0, 0, "places"),
        name("thread_name", 0, 1, "refused events"),
    ];
    let end = picture.events.len() + 1;
    let ends = picture.places.iter().skip(1).map(|(number, _)| *number);
    for ((number, place), end) in picture.places.iter().zip(ends.chain([end])) {
        let name = match place {
            Place::Outside => "outside VMX",
            Place::Root => "root",
            Place::Guest { .. } => "guest",
        };
        entries.push(span(name, "place", (0, 0), *number, end).end());
    }
    for number in &picture.refused {
        entries.push(instant(
            "refused",
            (0, 1),
            *number,
            &picture.events[number - 1],
        ));
    }
    for (process, group) in (1..).zip(&picture.groups) {
        entries.push(name("process_name", process, 0, &group.name));
        for place in &group.bars {
            let bar = &picture.bars[*place];
            let ended = bar.ended.as_ref();
            let (last, by) = ended.map_or((end, "held"), |(number, kind)| (*number, kind));
            let args = Json::object()
                .with("created", bar.created)
                .text("ended by", by)
                .text("words", &bar.words)
                .end();
            let lane = (process, bar.lane);
            entries.push(
                span(&bar.record, "mapping", lane, bar.created, last)
                    .with("args", args)
                    .end(),
            );
            for at in &bar.found {
                entries.push(instant("found", lane, *at, &bar.words));
            }
        }
    }
    let entries = entries.join(",\n");
    format!("{{\"displayTimeUnit\":\"ms\",\"traceEvents\":[\n{entries}\n]}}\n")
}

/// The name of a process or a thread.
fn name(what: &str, process: usize, thread: usize, name: &str) -> String {
    Json::object()
        .text("name", what)
        .text("ph", "M")
        .with("pid", process)
        .with("tid", thread)
        .with("args", Json::object().text("name", name).end())
        .end()
}

/// A stretch from one event to another.
fn span(name: &str, sort: &str, lane: (usize, usize), from: usize, to: usize) -> Json {
    Json::object()
        .text("name", name)
        .text("cat", sort)
        .text("ph", "X")
        .with("ts", EVENT * from)
        .with("dur", EVENT * (to - from))
        .with("pid", lane.0)
        .with("tid", lane.1)
}

fn instant(name: &str, lane: (usize, usize), at: usize, words: &str) -> String {
    Json::object()
        .text("name", name)
        .text("ph", "i")
        .text("s", "t")
        .with("ts", EVENT * at)
        .with("pid", lane.0)
        .with("tid", lane.1)
        .with("args", Json::object().text("words", words).end())
        .end()
}
