//! The tables that are measured.

use common::{is_wide_kind, kinds, Record, TABLE_LIMIT};
use generate::Rng;
use model::{Context, LinearWidth, Place};

/// The numbers of records.
pub const COUNTS: [usize; 5] = [0, 16, 176, 1_408, 2_816];

/// The bytes of the fullest tables of 48-bit addresses. A table may have 2,048
/// more since Ask 12; these stay, so that figures compare with older ones.
pub const FULL: usize = 45_056;

/// What a table is made of.
#[derive(Clone, Copy, PartialEq, Eq)]
pub enum Shape {
    /// Kind 4, alike but for the page; INVVPID 2 and a reset drop all of
    /// them, and other events none.
    Alike,
    /// Kind 4, their tags and spans scattered; most events drop one record
    /// in four or fewer.
    Scattered,
    /// All six kinds, their tags scattered. The largest such table has fewer
    /// than 2,816 records.
    Mixed,
    /// The same for 57-bit addresses, to the limit.
    Wide,
}

/// The shapes on which every family of events is measured.
pub const SHAPES: [Shape; 3] = [Shape::Alike, Shape::Scattered, Shape::Mixed];

impl Shape {
    pub fn name(self) -> &'static str {
        match self {
            Shape::Alike => "kind 4, alike",
            Shape::Scattered => "kind 4, scattered",
            Shape::Mixed => "mixed kinds",
            Shape::Wide => "mixed kinds, 57 bits",
        }
    }

    pub fn linear_width(self) -> u64 {
        match self {
            Shape::Wide => 57,
            _ => 48,
        }
    }

    /// The bytes of the fullest table.
    pub fn limit(self) -> usize {
        match self {
            Shape::Wide => TABLE_LIMIT,
            _ => FULL,
        }
    }
}

/// The EP4TA that events name; one record in four has it.
pub const EP4TA: u64 = 0x123_4567;

/// A page in the span of one record in four.
pub const PAGE: u64 = 0x12345;

/// The VPIDs, PCIDs and EP4TAs of records; VPIDs 0 and 5 and PCIDs 0 and 1
/// are named by events.
const VPIDS: [u64; 4] = [0, 5, 6, 7];
const PCIDS: [u64; 4] = [0, 0, 1, 2];
const EP4TAS: [u64; 4] = [EP4TA, 0x123_4568, 1, 2];

/// The records of all tables of one size together; a size of none counts
/// as many calls as a size of 16.
const TOGETHER: usize = 4 * 2_816;

/// Tables of one shape and size. Calls take them in turn, so that neither a
/// cache nor a branch predictor favours the smaller sizes.
pub struct Tables {
    pub shape: Shape,
    /// The records of the largest of them.
    pub records: usize,
    pub all: Vec<Vec<u8>>,
}

/// Tables of so many records, or of as many as the fullest have.
pub fn tables(shape: Shape, count: usize) -> Tables {
    let mut rng = Rng::new(count as u64);
    let number = TOGETHER / count.max(16);
    let all: Vec<Vec<u8>> = (0..number).map(|_| table(&mut rng, shape, count)).collect();
    let width = shape.linear_width();
    let records = all.iter().map(|table| starts(width, table).len()).max();
    Tables {
        shape,
        records: records.unwrap_or(0),
        all,
    }
}

/// Where the records of a valid table start.
pub fn starts(linear_width: u64, table: &[u8]) -> Vec<usize> {
    let width = LinearWidth::of(linear_width);
    let records = model::mapping::records(width, table).unwrap_or_default();
    records.iter().map(|(place, _)| place.start).collect()
}

fn table(rng: &mut Rng, shape: Shape, count: usize) -> Vec<u8> {
    let mut bytes = Vec::new();
    for _ in 0..count {
        let record = record(rng, shape);
        if bytes.len() + record.len() > shape.limit() {
            break;
        }
        bytes.extend_from_slice(&record);
    }
    bytes
}

fn record(rng: &mut Rng, shape: Shape) -> Vec<u8> {
    match shape {
        Shape::Scattered => scattered(rng, 4),
        Shape::Mixed | Shape::Wide => {
            let kind = kinds(shape.linear_width())[rng.below(6)];
            scattered(rng, kind)
        }
        Shape::Alike => {
            let mut record = scattered(rng, 4);
            // A VPID and a PCID that nobody names, and span 1.
            record[1..6].copy_from_slice(&[9, 0, 9, 0, 1]);
            record
        }
    }
}

/// A record of a kind with tags from the small sets.
fn scattered(rng: &mut Rng, kind: u8) -> Vec<u8> {
    let ep4ta = rng.pick(&EP4TAS);
    let (vpid, pcid) = match kind {
        2 | 5 => (0, 0),
        _ => (rng.pick(&VPIDS), rng.pick(&PCIDS)),
    };
    let global = match kind {
        1 | 3 | 7 | 8 => rng.pick(&[0, 0, 0, 1]),
        _ => 0,
    };
    let span = 1 + rng.below(2) as u64;
    let high = if is_wide_kind(kind) { 1 << 44 } else { 1 << 35 };
    let page = rng.pick(&[PAGE, 0x54_3210, 0x7FF_FFFF, high]);
    let record = Record {
        kind,
        vpid,
        pcid,
        global,
        span,
        page: page >> (9 * span) << (9 * span),
        frame: rng.number() >> 24,
        ep4ta,
    };
    record.bytes()
}

/// A context at CPL 0 with PCID 0 and the program's numbers.
pub fn at(place: Place) -> Context {
    Context {
        place,
        ..Context::program()
    }
}

/// A guest.
pub fn guest(vpid: u64, ept: Option<u64>) -> Context {
    at(Place::Guest { vpid, ept })
}
