//! The bars, and what was measured against them.

use crate::logs::{CREATIONS, FILLED, SMALL, SWITCHES};
use crate::rows::{full_of, growth, series, Row, What};
use std::fmt::Write;

/// How many times the tuned model's time.
const REPLAY_BARS: [(&str, f64); 4] = [
    (CREATIONS, 0.02),
    (SWITCHES, 0.02),
    (FILLED, 0.5),
    (SMALL, 1.5),
];
const STEP_BAR: f64 = 1.05;
const LOOKUP_BAR: f64 = 1.1;
const COUNTED_BAR: f64 = 1.3;
const FIXED_ROWS_BAR: f64 = 1.2;

/// The bar of counted steps holds for tables of so many records and more.
const COUNTED_FROM: usize = 176;

/// The microseconds of a counted step on an empty table.
const EMPTY_BAR: f64 = 2.0;

/// How many times two counted steps, for a step of two levels.
const LEVELS_BAR: f64 = 1.1;

/// How many times the time of half the records.
const GROWTH_BAR: f64 = 2.2;

const TIMES: &str = "times";
const MICROSECONDS: &str = "us";

/// The widest line of a list.
const LINE: usize = 110;

/// A figure, and what it was measured of.
type Figure<'a> = (f64, &'a Row);

/// One bar: what it is about, its limit, and all that was measured.
struct Bar<'a> {
    about: String,
    limit: f64,
    unit: &'static str,
    figures: Vec<Figure<'a>>,
}

impl<'a> Bar<'a> {
    fn beside_tuned(about: &str, limit: f64, rows: impl Iterator<Item = &'a Row>) -> Bar<'a> {
        Bar {
            about: format!("{about}, beside the tuned model"),
            limit,
            unit: TIMES,
            figures: rows.map(|row| (row.to_tuned(), row)).collect(),
        }
    }

    /// Pass or miss, the worst figure and, where there are several, all that
    /// missed. A bar of which nothing was measured is missed.
    fn print(&self) -> String {
        let worst = self.figures.iter().max_by(|a, b| a.0.total_cmp(&b.0));
        let (figure, name) = match worst {
            Some((figure, row)) => (*figure, format!("worst {figure:.3} ({})", name(row))),
            None => (f64::INFINITY, "nothing was measured".to_string()),
        };
        let Bar {
            about, limit, unit, ..
        } = self;
        let verdict = if figure <= *limit { "pass" } else { "MISS" };
        let mut out = format!("{verdict}  {about}: at most {limit} {unit}; {name}\n");
        if self.figures.len() > 1 {
            out += &self.missed();
        }
        out
    }

    /// All that missed, by their tables.
    fn missed(&self) -> String {
        let mut tables: Vec<(String, Vec<String>)> = Vec::new();
        let missed = self.figures.iter();
        for (figure, row) in missed.filter(|(figure, _)| *figure > self.limit) {
            let entry = format!("{figure:.3} {}", row.family);
            let place = place(row);
            match tables.iter_mut().find(|(other, _)| *other == place) {
                Some((_, entries)) => entries.push(entry),
                None => tables.push((place, vec![entry])),
            }
        }
        let count: usize = tables.iter().map(|(_, entries)| entries.len()).sum();
        if count == 0 {
            return String::new();
        }
        let mut out = format!("      missed by {count} of {}\n", self.figures.len());
        for (place, entries) in &tables {
            let _ = write!(out, "      {place}:{}", wrapped(entries));
        }
        out
    }
}

/// Entries on lines that are not too wide.
fn wrapped(entries: &[String]) -> String {
    let mut out = String::new();
    let mut width = LINE;
    for entry in entries {
        let end = if out.is_empty() { "" } else { ";" };
        if width + entry.len() + 3 > LINE {
            let _ = write!(out, "{end}\n        {entry}");
            width = 8 + entry.len();
        } else {
            let _ = write!(out, "{end} {entry}");
            width += 2 + entry.len();
        }
    }
    out + "\n"
}

/// The tables of a row.
fn place(row: &Row) -> String {
    format!(
        "{}, {}, {} records",
        row.what.name(),
        row.table,
        row.records
    )
}

/// What a row is of; of a replay, whose log the bar names, the two times.
fn name(row: &Row) -> String {
    let [ours, tuned, _] = row.times;
    match row.what {
        What::Replay => format!("{ours:.1} ns an event, the tuned model {tuned:.1}"),
        _ => format!("{}; {}", row.family, place(row)),
    }
}

/// The bars with pass or miss.
pub fn bars(rows: &[Row]) -> String {
    let mut bars = Vec::from(REPLAY_BARS.map(|bar| replay(rows, bar)));
    bars.extend([
        step(rows),
        lookup(rows),
        counted(rows),
        counted_on_empty(rows),
        levels(rows),
        fixed_rows(rows),
        twice_the_records(rows),
    ]);
    bars.iter().map(Bar::print).collect()
}

fn of(rows: &[Row], what: What) -> impl Iterator<Item = &Row> {
    rows.iter().filter(move |row| row.what == what)
}

/// The rows of the fullest tables.
fn full(rows: &[Row], what: What) -> impl Iterator<Item = &Row> {
    of(rows, what).filter(|row| row.records == full_of(rows, row))
}

fn replay<'a>(rows: &'a [Row], (log, limit): (&str, f64)) -> Bar<'a> {
    let own = of(rows, What::Replay).filter(|row| row.family == log);
    Bar::beside_tuned(&format!("replay, {log}"), limit, own)
}

fn step(rows: &[Row]) -> Bar<'_> {
    Bar::beside_tuned("step on a full table", STEP_BAR, full(rows, What::Step))
}

fn lookup(rows: &[Row]) -> Bar<'_> {
    let full = full(rows, What::Lookup);
    Bar::beside_tuned("lookup in a full table", LOOKUP_BAR, full)
}

fn counted(rows: &[Row]) -> Bar<'_> {
    let about = format!("counted step from {COUNTED_FROM} records");
    let large = of(rows, What::Counted).filter(|row| row.records >= COUNTED_FROM);
    Bar::beside_tuned(&about, COUNTED_BAR, large)
}

fn counted_on_empty(rows: &[Row]) -> Bar<'_> {
    let empty = of(rows, What::Counted).filter(|row| row.records == 0);
    Bar {
        about: "counted step on an empty table".to_string(),
        limit: EMPTY_BAR,
        unit: MICROSECONDS,
        figures: empty.map(|row| (row.ours() / 1e3, row)).collect(),
    }
}

fn levels(rows: &[Row]) -> Bar<'_> {
    Bar {
        about: format!("step of two levels, beside {}", What::Levels.beside()),
        limit: LEVELS_BAR,
        unit: TIMES,
        figures: of(rows, What::Levels)
            .map(|row| (row.to_tuned(), row))
            .collect(),
    }
}

fn fixed_rows(rows: &[Row]) -> Bar<'_> {
    let about = "a full table as fixed rows, and back";
    Bar::beside_tuned(about, FIXED_ROWS_BAR, full(rows, What::FixedRows))
}

fn twice_the_records(rows: &[Row]) -> Bar<'_> {
    let all = [
        What::Step,
        What::Counted,
        What::Lookup,
        What::FixedRows,
        What::Widen,
    ];
    let full = all.into_iter().flat_map(|what| full(rows, what));
    Bar {
        about: "twice the records (1,408 to 2,816)".to_string(),
        limit: GROWTH_BAR,
        unit: TIMES,
        figures: full
            .filter_map(|row| Some((growth(&series(rows, row))?, row)))
            .collect(),
    }
}

#[cfg(test)]
mod tests {
    use super::*;

    fn row(what: What, records: usize, times: [f64; 3]) -> Row {
        Row {
            what,
            family: "reset".to_string(),
            table: "mixed kinds".to_string(),
            records,
            bytes: 16 * records,
            events: 1,
            times,
        }
    }

    #[test]
    fn a_bar_is_passed_or_missed() {
        let half = || row(What::Step, 1_408, [100.0, 50.0, 50.0]);
        let full = |ours| row(What::Step, 2_816, [ours, 200.0, 100.0]);
        let said = step(&[half(), full(210.0)]).print();
        let due = "pass  step on a full table, beside the tuned model: at most 1.05 times; \
                   worst 1.050 (reset; step, mixed kinds, 2816 records)\n";
        assert_eq!(said, due);
        let said = step(&[half(), full(211.0)]).print();
        let due = "MISS  step on a full table, beside the tuned model: at most 1.05 times; \
                   worst 1.055 (reset; step, mixed kinds, 2816 records)\n";
        assert_eq!(said, due);
    }

    #[test]
    fn a_bar_of_nothing_is_missed() {
        let said = bars(&[]);
        assert_eq!(said.matches("MISS").count(), 11, "{said}");
        assert_eq!(said.matches("nothing was measured\n").count(), 11, "{said}");
    }

    #[test]
    fn each_log_has_its_bar() {
        let replayed = |family: &str, ours| Row {
            family: family.to_string(),
            ..row(What::Replay, 0, [ours, 1_000.0, 1.0])
        };
        let rows = [
            replayed("creations only", 19.0),
            replayed("fill, then VMXON and VMXOFF in turn", 21.0),
            replayed("fill, then random events", 501.0),
            replayed("random events on small tables", 1_499.0),
        ];
        let said = REPLAY_BARS.map(|bar| replay(&rows, bar).print());
        let due = "pass  replay, creations only, beside the tuned model: at most 0.02 times; \
                   worst 0.019 (19.0 ns an event, the tuned model 1000.0)\n";
        assert_eq!(said[0], due);
        let passed = said.map(|said| said.starts_with("pass"));
        assert_eq!(passed, [true, false, false, true]);
    }

    #[test]
    fn lookups_are_of_full_tables() {
        let small = row(What::Lookup, 16, [900.0, 100.0, 1.0]);
        let large = row(What::Lookup, 2_816, [110.0, 100.0, 1.0]);
        let said = lookup(&[small, large]).print();
        assert!(said.starts_with("pass") && said.contains("1.100"), "{said}");
    }

    /// Counted steps have two bars of their own.
    #[test]
    fn bars_of_counted_steps() {
        let good = [
            row(What::Counted, 0, [1_990.0, 100.0, 1.0]),
            row(What::Counted, 16, [1_000.0, 100.0, 1.0]),
            row(What::Counted, 176, [129.0, 100.0, 50.0]),
        ];
        let due = "pass  counted step from 176 records, beside the tuned model: at most 1.3 \
                   times; worst 1.290 (reset; counted step, mixed kinds, 176 records)\n";
        assert_eq!(counted(&good).print(), due);
        let due =
            "pass  counted step on an empty table: at most 2 us; worst 1.990 (reset; counted \
                   step, mixed kinds, 0 records)\n";
        assert_eq!(counted_on_empty(&good).print(), due);

        let bad = [
            row(What::Counted, 0, [2_100.0, 2_100.0, 1.0]),
            row(What::Counted, 176, [131.0, 100.0, 50.0]),
            row(What::Counted, 2_816, [150.0, 100.0, 50.0]),
        ];
        let said = counted(&bad).print();
        let due = "      missed by 2 of 2\n      \
                   counted step, mixed kinds, 176 records:\n        1.310 reset\n      \
                   counted step, mixed kinds, 2816 records:\n        1.500 reset\n";
        assert!(said.ends_with(due), "{said}");
        let said = counted_on_empty(&bad).print();
        assert!(said.starts_with("MISS"), "{said}");
    }

    /// Both ways on the fullest tables, each with its figure.
    #[test]
    fn bars_of_fixed_rows() {
        let way = |family: &str, records, ours| Row {
            family: family.to_string(),
            ..row(What::FixedRows, records, [ours, 100.0, 1.0])
        };
        let good = [
            way("export", 16, 900.0),
            way("export", 2_816, 120.0),
            way("import", 2_816, 90.0),
        ];
        let due = "pass  a full table as fixed rows, and back, beside the tuned model: at most \
                   1.2 times; worst 1.200 (export; fixed rows, mixed kinds, 2816 records)\n";
        assert_eq!(fixed_rows(&good).print(), due);
        let bad = [way("export", 2_816, 110.0), way("import", 2_816, 121.0)];
        let due = "MISS  a full table as fixed rows, and back, beside the tuned model: at most \
                   1.2 times; worst 1.210 (import; fixed rows, mixed kinds, 2816 records)\n      \
                   missed by 1 of 2\n      fixed rows, mixed kinds, 2816 records:\n        \
                   1.210 import\n";
        assert_eq!(fixed_rows(&bad).print(), due);
    }

    #[test]
    fn the_bar_of_two_levels() {
        let good = [
            row(What::Levels, 16, [109.0, 100.0, 1.0]),
            row(What::Levels, 2_816, [50.0, 100.0, 1.0]),
        ];
        let due = "pass  step of two levels, beside two counted steps: at most 1.1 times; \
                   worst 1.090 (reset; step of two levels, mixed kinds, 16 records)\n";
        assert_eq!(levels(&good).print(), due);
        let said = levels(&[row(What::Levels, 0, [111.0, 100.0, 1.0])]).print();
        assert!(said.starts_with("MISS"), "{said}");
    }

    #[test]
    fn lists_are_wrapped() {
        let entries = ["1.250 INVVPID 0", "1.350 reset"].map(str::to_string);
        let due = "\n        1.250 INVVPID 0; 1.350 reset\n";
        assert_eq!(wrapped(&entries), due);
        let many = vec!["1.250 INVVPID 0".to_string(); 20];
        let said = wrapped(&many);
        assert!(said.lines().all(|line| line.len() <= LINE), "{said}");
        assert_eq!(said.matches("INVVPID").count(), 20);
        assert_eq!(said.lines().count(), 1 + 4, "{said}");
    }

    /// A fullest table with fewer than twice the records: its growth is scaled.
    #[test]
    fn growth_is_of_twice_the_records() {
        let half = row(What::Step, 1_408, [100.0; 3]);
        let full = row(What::Step, 2_112, [150.0; 3]);
        assert_eq!(growth(&[&half, &full]), Some(2.0));
        assert_eq!(growth(&[&half]), None);
        let said = twice_the_records(&[half, full]).print();
        let due = "worst 2.000 (reset; step, mixed kinds, 2112 records)\n";
        assert!(said.ends_with(due), "{said}");
    }
}
