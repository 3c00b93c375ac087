//! `bench [--csv FILE] [--svg FILE]`: what an event and a record cost.

mod bars;
mod counted;
mod fixed_rows;
mod levels;
mod logs;
mod lookups;
mod measure;
mod plot;
mod replays;
mod report;
mod rows;
mod steps;
mod tables;
mod widenings;

use common::TABLE_LIMIT;
use measure::{Buffers, Item};
use model::Address;
use rows::{Row, What};
use std::env;
use std::fs::File;
use std::io::{self, Write};
use std::process::ExitCode;
use steps::Family;
use tables::{Shape, Tables, COUNTS, SHAPES};

const USAGE: &str = "usage: bench [--csv FILE] [--svg FILE]";

const NOTES: &str = "\
The proved library beside the tuned model and a plain copy of the same bytes,
in one run. Each time is processor time, and the least of many, taken in turn.
All buffers were filled before the first call and not cleared between calls.
Calls take several tables of one shape and size in turn, 11,264 records in all,
so that no table is learnt by heart. A creation on the fullest table finds one
record fewer. The fullest tables of 48-bit addresses have 45,056 bytes, as they
had before 57-bit addresses came; those of 57 bits go to the limit, and those
that are converted have a few records fewer. Fixed rows are exported from a table,
and the same rows imported; their plain copy is of what is read.
A counted step has a tally besides, whose counts of PCIDs stand in one list that
is made to match the next table before each call.
A step of two levels is measured beside two counted steps of the library. Its
first level has 176 records of the same shape, or as many as the second has; the
records shown are those of the second.
A replay starts with an empty table; its time is that of the whole log, shared
among its events. The tuned model's is a loop of its steps.
'growth' is the time at 2,816 records over that at 1,408; a full table of
mixed kinds has fewer, and its growth is scaled to twice the records.";

/// How often all is measured.
const PASSES: u32 = 12;

/// How often in a row. Replays take longer, and each is many calls already.
fn in_a_row(what: What) -> u32 {
    match what {
        What::Step | What::Lookup | What::FixedRows | What::Widen => 3,
        What::Counted | What::Levels => 2,
        What::Replay => 1,
    }
}

/// Where to write, besides standard output.
#[derive(Default)]
struct Files {
    csv: Option<String>,
    svg: Option<String>,
}

fn files(words: &[String]) -> Option<Files> {
    let mut files = Files::default();
    for pair in words.chunks(2) {
        match pair {
            [flag, file] if flag == "--csv" && files.csv.is_none() => {
                files.csv = Some(file.clone());
            }
            [flag, file] if flag == "--svg" && files.svg.is_none() => {
                files.svg = Some(file.clone());
            }
            _ => return None,
        }
    }
    Some(files)
}

fn main() -> ExitCode {
    let words: Vec<String> = env::args().skip(1).collect();
    let is_help = words.len() == 1 && ["help", "-h", "--help"].contains(&&words[0][..]);
    let ended = match files(&words) {
        _ if is_help => print(USAGE),
        Some(files) => bench(&files),
        None => {
            tell(USAGE);
            return ExitCode::from(2);
        }
    };
    match ended {
        Ok(()) => ExitCode::SUCCESS,
        Err(why) => {
            tell(&format!("bench: {why}"));
            ExitCode::FAILURE
        }
    }
}

/// Text and a line end on standard output.
fn print(text: &str) -> Result<(), String> {
    writeln!(io::stdout(), "{text}")
        .map_err(|error| format!("standard output cannot be written: {error}"))
}

/// A line on standard error; if that is gone there is nobody left to tell.
fn tell(line: &str) {
    let _ = writeln!(io::stderr(), "{line}");
}

fn bench(files: &Files) -> Result<(), String> {
    for file in [&files.csv, &files.svg].into_iter().flatten() {
        // What is there stays until the end.
        let opened = File::options().append(true).create(true).open(file);
        opened.map_err(|error| format!("{file}: {error}"))?;
    }
    print(NOTES)?;
    let mut items = items()?;
    for pass in 1..=PASSES {
        tell(&format!("pass {pass} of {PASSES}"));
        for item in &mut items {
            item.measure(in_a_row(item.row.what));
        }
    }
    let rows: Vec<Row> = items.into_iter().map(|item| item.row).collect();
    print(&format!(
        "{}\nbars\n{}",
        report::table(&rows),
        bars::bars(&rows)
    ))?;
    write(&files.csv, &report::csv(&rows))?;
    write(&files.svg, &plot::svg(&rows, Shape::Scattered.name()))
}

fn write(file: &Option<String>, text: &str) -> Result<(), String> {
    match file {
        Some(file) => std::fs::write(file, text).map_err(|error| format!("{file}: {error}")),
        None => Ok(()),
    }
}

/// Makes an item of a family of events and some tables.
type MakeStep = fn(&Family, &Tables, &Buffers) -> Result<Item, String>;

fn items() -> Result<Vec<Item>, String> {
    let (buffers, others) = (Buffers::new(TABLE_LIMIT), Buffers::new(TABLE_LIMIT));
    let mut items = Vec::new();
    for make in [steps::item as MakeStep, counted::item] {
        for shape in SHAPES {
            let sizes = COUNTS.map(|count| tables::tables(shape, count));
            for family in steps::families() {
                for tables in &sizes {
                    items.push(make(&family, tables, &buffers)?);
                }
            }
        }
        let sizes = COUNTS.map(|count| tables::tables(Shape::Wide, count));
        for family in steps::wide_families() {
            for tables in &sizes {
                items.push(make(&family, tables, &buffers)?);
            }
        }
    }
    for (shape, all) in [
        (Shape::Scattered, steps::families()),
        (Shape::Mixed, steps::families()),
        (Shape::Wide, steps::wide_families()),
    ] {
        let sizes = COUNTS.map(|count| tables::tables(shape, count));
        for family in levels::families(all) {
            for tables in &sizes {
                items.push(levels::item(&family, tables, &buffers, &others)?);
            }
        }
    }
    for (shape, address) in [
        (Shape::Scattered, Address::Linear as fn(u64) -> Address),
        (Shape::Mixed, Address::Linear),
        (Shape::Mixed, Address::GuestPhysical),
        (Shape::Wide, Address::Linear),
    ] {
        let sizes = COUNTS.map(|count| tables::tables(shape, count));
        for place in lookups::PLACES {
            for tables in &sizes {
                items.extend(lookups::item(tables, address, place, &buffers)?);
            }
        }
    }
    for shape in [Shape::Scattered, Shape::Mixed] {
        for tables in COUNTS.map(|count| tables::tables(shape, count)) {
            items.push(widenings::item(&tables, &buffers)?);
        }
    }
    let longer = Buffers::new(2 * TABLE_LIMIT);
    for shape in [Shape::Scattered, Shape::Mixed, Shape::Wide] {
        for tables in COUNTS.map(|count| tables::tables(shape, count)) {
            items.extend(fixed_rows::items(&tables, &longer)?);
        }
    }
    for log in logs::logs() {
        items.push(replays::item(log, &buffers, &others)?);
    }
    Ok(items)
}

#[cfg(test)]
mod tests {
    use super::*;

    /// On all that is measured the library and the tuned model do the same.
    #[test]
    fn all_items_agree() {
        let items = items().expect("no difference");
        let count = |what| items.iter().filter(|item| item.row.what == what).count();
        assert_eq!(count(What::Step), (3 * 22 + 4) * COUNTS.len());
        assert_eq!(count(What::Counted), count(What::Step));
        assert_eq!(count(What::Levels), (2 * 6 + 4) * COUNTS.len());
        assert!(count(What::Lookup) > 30);
        assert_eq!(count(What::Widen), 2 * COUNTS.len());
        assert_eq!(count(What::FixedRows), 2 * 3 * COUNTS.len());
        assert_eq!(count(What::Replay), 4);
    }
}
