//! A tally as text, and as CSV.

use skuldrefn::{Step, Tally};
use std::collections::BTreeMap;
use std::fmt::Write;

/// The rows of a tally, by the names that the text form of logs has for their
/// kinds. Those of 57-bit addresses are counted with their siblings.
const NAMES: [&str; 6] = [
    "linear",
    "guest-physical",
    "combined",
    "linear-structure",
    "guest-physical-structure",
    "combined-structure",
];

/// A line for each row, one for each PCID that has mappings, and how many
/// mappings and bytes there are. Each mapping is a record of the table.
pub fn totals(tally: &Tally, length: usize) -> String {
    let mut text = format!("{:24}", "");
    for span in 0..5 {
        let _ = write!(text, "  span {span}");
    }
    text.push('\n');
    for (name, row) in NAMES.iter().zip(&tally.kinds.rows) {
        let _ = write!(text, "{name:24}");
        for count in row.spans {
            let _ = write!(text, "{count:8}");
        }
        text.push('\n');
    }
    for (pcid, count) in tally.pcids.iter().enumerate() {
        if *count > 0 {
            let _ = writeln!(text, "pcid {pcid:#x}: {count}");
        }
    }
    let _ = writeln!(text, "mappings in force: {}", tally.records());
    let _ = writeln!(text, "bytes in force: {length}");
    text
}

/// How many events there were, and how many of them were refused, with each
/// answer.
pub fn events(count: usize, refused: &BTreeMap<u64, u64>) -> String {
    let mut text = format!("events: {count}\n");
    if count == 0 {
        return text;
    }
    let all: u64 = refused.values().sum();
    let _ = write!(text, "refused: {all}");
    let answers = refused.iter();
    let answers = answers.map(|(answer, times)| format!("answer {answer}: {times}"));
    let answers: Vec<String> = answers.collect();
    if !answers.is_empty() {
        let _ = write!(text, " ({})", answers.join(", "));
    }
    text.push('\n');
    text
}

/// The names of the columns.
pub fn header() -> String {
    let mut text = "event,answer,dropped,mappings,bytes".to_string();
    for name in NAMES {
        for span in 0..5 {
            let _ = write!(text, ",{name} span {span}");
        }
    }
    text.push('\n');
    text
}

/// An event, and the totals after it.
pub fn line(number: u64, step: &Step, tally: &Tally, length: usize) -> String {
    let (answer, dropped, mappings) = (step.answer, step.dropped, tally.records());
    let mut text = format!("{number},{answer},{dropped},{mappings},{length}");
    for count in tally.kinds.rows.iter().flat_map(|row| row.spans) {
        let _ = write!(text, ",{count}");
    }
    text.push('\n');
    text
}
