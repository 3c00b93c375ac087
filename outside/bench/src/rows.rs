//! What was measured.

use crate::tables::COUNTS;

#[derive(Clone, Copy, PartialEq, Eq)]
pub enum What {
    Step,
    /// A step with a tally.
    Counted,
    /// A step of two levels, each with a tally.
    Levels,
    Lookup,
    /// A table as fixed rows, or rows as a table.
    FixedRows,
    /// The converter of 48-bit tables.
    Widen,
    Replay,
}

impl What {
    pub fn name(self) -> &'static str {
        match self {
            What::Step => "step",
            What::Counted => "counted step",
            What::Levels => "step of two levels",
            What::Lookup => "lookup",
            What::FixedRows => "fixed rows",
            What::Widen => "widen",
            What::Replay => "replay",
        }
    }

    /// What the library is measured beside.
    pub fn beside(self) -> &'static str {
        match self {
            What::Levels => "two counted steps",
            _ => "the tuned model",
        }
    }
}

/// One measurement.
pub struct Row {
    pub what: What,
    pub family: String,
    /// The shape of the table; none for a replay.
    pub table: String,
    pub records: usize,
    pub bytes: usize,
    pub events: usize,
    /// Nanoseconds of an event: the library, the tuned model (or two counted steps of
    /// the library, beside a step of two levels), a plain copy.
    pub times: [f64; 3],
}

impl Row {
    pub fn ours(&self) -> f64 {
        self.times[0]
    }

    /// How many times the time of what it is measured beside.
    pub fn to_tuned(&self) -> f64 {
        self.times[0] / self.times[1]
    }

    /// How many times a plain copy's.
    pub fn to_copy(&self) -> f64 {
        self.times[0] / self.times[2]
    }

    pub fn per_record(&self) -> f64 {
        self.times[0] / self.records.max(1) as f64
    }
}

/// The rows of one family on one shape of table, by their records.
pub fn series<'a>(rows: &'a [Row], like: &Row) -> Vec<&'a Row> {
    rows.iter().filter(|row| same(row, like)).collect()
}

/// The growth from 1,408 records to twice as many; for a table with fewer it
/// is scaled to twice.
pub fn growth(series: &[&Row]) -> Option<f64> {
    let half = series.iter().find(|row| row.records == COUNTS[3])?;
    let full = series.last().filter(|row| row.records > COUNTS[3])?;
    let times = full.records as f64 / half.records as f64;
    Some(full.ours() / half.ours() * 2.0 / times)
}

/// Whether two rows are of one family on one shape of table.
pub fn same(one: &Row, other: &Row) -> bool {
    one.what == other.what && one.family == other.family && one.table == other.table
}

/// The records of the fullest table of this block.
pub fn full_of(rows: &[Row], like: &Row) -> usize {
    let block = rows
        .iter()
        .filter(|row| row.what == like.what && row.table == like.table);
    block.map(|row| row.records).max().unwrap_or(0)
}
