//! What was measured, as a table for reading and as CSV.

use crate::rows::{full_of, growth, same, series, Row, What};
use crate::tables::COUNTS;
use std::fmt::Write;

/// The table for reading: a line for each family and shape of table.
pub fn table(rows: &[Row]) -> String {
    let mut out = String::new();
    let mut heading = String::new();
    for (number, row) in rows.iter().enumerate() {
        if row.what == What::Replay {
            continue;
        }
        let all = series(rows, row);
        let block = format!("{}, {}", row.what.name(), row.table);
        if block != heading {
            heading = block;
            out += &head(&heading, row.what.beside(), &full_of(rows, row));
        }
        let seen = rows[..number].iter();
        let first = seen.filter(|other| same(other, row)).count() == 0;
        if first {
            out += &line(&all);
        }
    }
    out + &replays(rows)
}

fn head(heading: &str, beside: &str, full: &usize) -> String {
    let mut out = format!("\n{heading}: ns an event (times that of {beside})\n");
    let _ = write!(out, "{:<22}", "records");
    for count in &COUNTS[..4] {
        let _ = write!(out, "{count:>15}");
    }
    let _ = write!(out, "{full:>15}");
    let _ = writeln!(out, "{:>11}{:>8}{:>8}", "ns/record", "x copy", "growth");
    out
}

fn line(series: &[&Row]) -> String {
    let mut out = format!("{:<22}", series[0].family);
    let cell = |row: Option<&&Row>| match row {
        Some(row) => format!("{:.0} ({:.2})", row.ours(), row.to_tuned()),
        None => String::new(),
    };
    for count in &COUNTS[..4] {
        let row = series.iter().find(|row| row.records == *count);
        let _ = write!(out, "{:>15}", cell(row));
    }
    let full = series.last().filter(|row| row.records > COUNTS[3]);
    let _ = write!(out, "{:>15}", cell(full));
    if let Some(row) = full {
        let _ = write!(out, "{:>11.2}{:>8.2}", row.per_record(), row.to_copy());
    }
    if let Some(growth) = growth(series) {
        let _ = write!(out, "{growth:>8.2}");
    }
    out + "\n"
}

fn replays(rows: &[Row]) -> String {
    let mut out = String::from("\nreplay of a whole log: ns an event\n");
    let _ = writeln!(
        out,
        "{:<36}{:>8}{:>8}{:>11}{:>11}{:>11}{:>9}{:>8}",
        "log", "bytes", "events", "ours", "tuned", "copy", "x tuned", "x copy"
    );
    for row in rows.iter().filter(|row| row.what == What::Replay) {
        let [ours, tuned, copy] = row.times;
        let _ = writeln!(
            out,
            "{:<36}{:>8}{:>8}{ours:>11.1}{tuned:>11.1}{copy:>11.1}{:>9.3}{:>8.2}",
            row.family,
            row.bytes,
            row.events,
            row.to_tuned(),
            row.to_copy()
        );
    }
    out
}

/// All rows as CSV.
pub fn csv(rows: &[Row]) -> String {
    let mut out = String::from(
        "what,family,table,records,bytes,events,ours_ns_per_event,tuned_ns_per_event,\
         copy_ns_per_event,ours_ns_per_record,ours_over_tuned,ours_over_copy\n",
    );
    for row in rows {
        let [ours, tuned, copy] = row.times;
        let _ = writeln!(
            out,
            "{},\"{}\",\"{}\",{},{},{},{ours:.2},{tuned:.2},{copy:.2},{:.4},{:.4},{:.4}",
            row.what.name(),
            row.family,
            row.table,
            row.records,
            row.bytes,
            row.events,
            row.per_record(),
            row.to_tuned(),
            row.to_copy()
        );
    }
    out
}
