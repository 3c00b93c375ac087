//! `replay --words LOG`: the four numbers of each event, and then the event and its
//! answer in words.

use crate::json::Json;
use crate::log::Log;
use crate::run::Run;
use crate::words::Words;
use crate::{names, tell, Found};
use std::io::{self, BufWriter, Write};

pub fn replay(words: &Words) -> Found {
    let width = words.settings.linear_width;
    let log = Log::read(&words.logs[0], width)?;
    let mut run = Run::new(&words.settings);
    let mut output = BufWriter::new(io::stdout().lock());
    let mut last = None;
    for event in log.events() {
        let taken = run.take(&event);
        let (number, answer, rule) = (event.number, taken.answer, taken.rule);
        let (dropped, length) = (taken.dropped.len(), run.table().len());
        let line = names::event(width, event.bytes);
        let words_of = names::answered(width, event.bytes, answer, rule);
        if words.flag("--json") {
            let json = Json::object()
                .with("number", number)
                .with("byte", event.byte)
                .with("answer", answer)
                .with("rule", rule)
                .with("dropped", dropped)
                .with("length", length)
                .text("event", &line)
                .text("words", &words_of)
                .end();
            writeln!(output, "{json}")?;
        } else {
            writeln!(
                output,
                "{number} {answer} {dropped} {length} {line}  # {words_of}"
            )?;
        }
        last = Some(event);
    }
    output.flush()?;
    let stop = log.stop(last);
    if let Some(why) = &stop {
        tell("replay", why);
    }
    Ok(stop.is_some())
}
