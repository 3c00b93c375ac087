//! Random cases.

use crate::buffer::Buffer;
use crate::claim::ClaimCase;
use crate::count::CountCase;
use crate::expected;
use crate::explain::ExplainCase;
use crate::level::{LevelCase, LevelInput, LevelLookupCase};
use crate::level_run::{LevelMoment, LevelRunCase};
use crate::lookup::LookupCase;
use crate::replay::{starts, ReplayCase};
use crate::rows::{RowsCase, Way};
use crate::run::{Moment, RunCase};
use crate::step::StepCase;
use crate::stream::{Call, StreamCase};
use crate::take::TakeCase;
use crate::walk::WalkCase;
use crate::widen::WidenCase;
use bridge::FlatContext;
use common::{LINEAR_WIDTHS, LOG_LIMIT, PCIDS, ROW, TABLE_LIMIT};
use common::{PROGRAM_CAPABILITY, PROGRAM_WIDTH};
use generate::{start, Rng, BAD_LINEAR_WIDTHS};
use model::{Address, Context, Place};

/// Numbers near the bounds of what a place or an EPT state can be.
pub const ODD_NUMBERS: [u64; 10] = [
    2,
    3,
    4,
    255,
    256,
    257,
    1 << 32,
    (1 << 32) + 1,
    (1 << 32) + 2,
    u64::MAX,
];

/// A context as numbers, with anything in the fields that are not looked at.
pub fn flat(rng: &mut Rng, context: &Context) -> FlatContext {
    let mut flat = bridge::flat(context);
    if rng.one_in(2) {
        return flat;
    }
    let mut any = || {
        let number = rng.number();
        rng.pick(&[0, 1, 2, 5, 65_535, 65_536, 1 << 40, u64::MAX, number])
    };
    match context.place {
        Place::Outside | Place::Root => {
            flat.vpid = any();
            flat.ept = any();
            flat.ep4ta = any();
        }
        Place::Guest { ept: None, .. } => flat.ep4ta = any(),
        Place::Guest { .. } => {}
    }
    flat
}

/// The same; now and then with a place or EPT number that stands for nothing.
fn any_flat(rng: &mut Rng, context: &Context) -> FlatContext {
    let mut flat = flat(rng, context);
    match rng.below(80) {
        0 => flat.place = rng.pick(&ODD_NUMBERS),
        1 => {
            flat.place = 2;
            flat.ept = rng.pick(&ODD_NUMBERS);
        }
        _ => {}
    }
    flat
}

pub fn buffer(rng: &mut Rng, length: usize) -> Buffer {
    Buffer {
        length,
        fill: rng.number(),
    }
}

/// A step: valid, near-valid, damaged or random, aimed at any answer.
pub fn step(rng: &mut Rng) -> StepCase {
    let case = generate::case(rng);
    StepCase {
        context: any_flat(rng, &case.context),
        tally: case.tally,
        table: case.table,
        event: case.event,
        new: buffer(rng, case.new.len()),
    }
}

/// A fresh count, mostly of a valid table and into a list of 4,096.
pub fn count(rng: &mut Rng) -> CountCase {
    let case = generate::case(rng);
    let length = match rng.below(8) {
        0 => rng.pick(&[0, 1, PCIDS - 1, PCIDS + 1, 2 * PCIDS]),
        _ => PCIDS,
    };
    let linear_width = match rng.below(12) {
        0 => rng.pick(&LINEAR_WIDTHS),
        1 => rng.pick(&BAD_LINEAR_WIDTHS),
        _ => case.context.linear_width,
    };
    CountCase {
        linear_width,
        table: case.table,
        pcids: buffer(rng, length),
    }
}

/// A lookup, mostly of an address that some record covers.
pub fn lookup(rng: &mut Rng) -> LookupCase {
    let query = generate::query(rng);
    LookupCase {
        context: any_flat(rng, &query.context),
        table: query.table,
        address: query.address,
    }
}

/// An explanation, aimed at any reason.
pub fn explain(rng: &mut Rng) -> ExplainCase {
    let case = generate::explain(rng);
    ExplainCase {
        context: any_flat(rng, &case.context),
        record: case.record,
        event: case.event,
    }
}

/// A claimed table after a step, which is aimed at any answer that it has with a
/// new buffer of 47,104 bytes.
pub fn claim(rng: &mut Rng) -> ClaimCase {
    let (context, table, event) = if rng.one_in(32) {
        crowded(rng)
    } else {
        let case = generate::case(rng);
        (case.context, case.table, case.event)
    };
    let flat = any_flat(rng, &context);
    let left = expected::left(&flat, &table, &event);
    ClaimCase {
        context: flat,
        claim: generate::claim(rng, &context, &table, &left),
        table,
        event,
    }
}

/// A table so full that a creation has just room or just none, and an event that
/// should be accepted but for that.
fn crowded(rng: &mut Rng) -> (Context, Vec<u8>, Vec<u8>) {
    let context = Context {
        capability: PROGRAM_CAPABILITY,
        width: PROGRAM_WIDTH,
        ..generate::context(rng)
    };
    let free = rng.pick(&[0, 1, 15, 16, 17, 18, 20, 21, 22, 23]);
    let table = generate::full_table(rng, &context, TABLE_LIMIT - free);
    let (event, _) = generate::fitting(rng, &context);
    (context, table, event)
}

/// A run of so many events, with addresses to look up at some of them.
pub fn run(rng: &mut Rng, count: usize) -> RunCase {
    let start = start(rng);
    let events = generate::events(rng, start.linear_width, count);
    run_of(rng, &start, events, 8)
}

/// The program's context after a reset, at either linear width.
fn program(rng: &mut Rng) -> Context {
    Context {
        linear_width: rng.pick(&LINEAR_WIDTHS),
        ..Context::program()
    }
}

/// A run that fills the table to its last byte or nearly, and goes on for
/// some hundreds of events.
pub fn filling_run(rng: &mut Rng) -> RunCase {
    let start = program(rng);
    let log = generate::filling_log(rng, start.linear_width);
    let starts = starts(start.linear_width, &log);
    let events = starts.windows(2).map(|ends| log[ends[0]..ends[1]].to_vec());
    let events = events.collect();
    run_of(rng, &start, events, 100)
}

fn run_of(rng: &mut Rng, start: &Context, events: Vec<Vec<u8>>, seldom: usize) -> RunCase {
    let mut buffers = [Buffer { length: 0, fill: 0 }; 4];
    for lent in &mut buffers {
        let more = rng.pick(&[0, 0, 1, 100]);
        *lent = buffer(rng, TABLE_LIMIT + more);
    }
    let width = start.linear_width;
    let moments = events.into_iter().map(Some).chain([None]);
    let moments = moments.map(|event| moment(rng, width, event, seldom));
    RunCase {
        capability: start.capability,
        width: start.width,
        linear_width: width,
        buffers,
        moments: moments.collect(),
    }
}

fn moment(rng: &mut Rng, linear_width: u64, event: Option<Vec<u8>>, seldom: usize) -> Moment {
    let count = if event.is_none() || rng.one_in(seldom) {
        3
    } else {
        0
    };
    Moment {
        removal: rng.number(),
        addresses: (0..count)
            .map(|_| generate::address(rng, linear_width))
            .collect(),
        event,
    }
}

/// A replay of a log of at most so many bytes: mostly events that fit, some
/// cut or damaged, some random bytes.
pub fn replay(rng: &mut Rng, most: usize) -> ReplayCase {
    let length = rng.below(most + 1);
    let start = start(rng);
    // Now and then of the other width.
    let other = rng.pick(&LINEAR_WIDTHS);
    let width = if rng.one_in(16) {
        other
    } else {
        start.linear_width
    };
    let log = match rng.below(10) {
        0 => rng.bytes(length % 100),
        // Damaged ones too.
        1 => generate::events(rng, width, length / 20).concat(),
        _ => generate::log(rng, width, length),
    };
    replay_of(rng, &start, log)
}

/// A replay that fills the table; now and then longer than the program reads.
pub fn filling_replay(rng: &mut Rng) -> ReplayCase {
    let start = program(rng);
    let width = start.linear_width;
    let mut log = generate::filling_log(rng, width);
    if rng.one_in(3) {
        let more = LOG_LIMIT + 1 - log.len() + rng.below(500);
        let more = generate::log(rng, width, more);
        log.extend_from_slice(&more);
    }
    replay_of(rng, &start, log)
}

fn replay_of(rng: &mut Rng, start: &Context, log: Vec<u8>) -> ReplayCase {
    let first = table_room(rng);
    let second = table_room(rng);
    let rows = rows_room(rng, start.linear_width, &log);
    ReplayCase {
        capability: start.capability,
        width: start.width,
        linear_width: start.linear_width,
        first: buffer(rng, first),
        second: buffer(rng, second),
        rows: buffer(rng, rows),
        log,
    }
}

/// A step of two levels, aimed at any pair of answers.
pub fn level(rng: &mut Rng) -> LevelCase {
    let drawn = generate::level_case(rng);
    LevelCase {
        context: any_flat(rng, &drawn.context),
        event: drawn.event,
        levels: drawn.levels.map(|level| LevelInput {
            tally: level.tally,
            table: level.table,
            new: buffer(rng, level.new),
        }),
    }
}

/// A lookup in two levels.
pub fn level_lookup(rng: &mut Rng) -> LevelLookupCase {
    let query = generate::level_query(rng);
    LevelLookupCase {
        context: any_flat(rng, &query.context),
        tables: query.tables,
        address: query.address,
    }
}

/// A run of two levels of so many events, with addresses to look up at some of them;
/// one in six has short buffers at the first level.
pub fn level_run(rng: &mut Rng, count: usize) -> LevelRunCase {
    let start = start(rng);
    let width = start.linear_width;
    let events = generate::events(rng, width, count);
    let mut case = level_run_of(rng, &start, events, 8);
    if rng.one_in(6) {
        for nth in [0, 1, 4, 5] {
            case.buffers[nth].length = rng.pick(&[100, 400, 1_000]);
        }
    }
    case
}

/// A run of two levels that fills both tables.
pub fn filling_level_run(rng: &mut Rng) -> LevelRunCase {
    let start = program(rng);
    let log = generate::filling_log(rng, start.linear_width);
    let starts = starts(start.linear_width, &log);
    let events = starts.windows(2).map(|ends| log[ends[0]..ends[1]].to_vec());
    let events = events.collect();
    level_run_of(rng, &start, events, 100)
}

fn level_run_of(
    rng: &mut Rng,
    start: &Context,
    events: Vec<Vec<u8>>,
    seldom: usize,
) -> LevelRunCase {
    let mut buffers = [Buffer { length: 0, fill: 0 }; 8];
    for lent in &mut buffers {
        let more = rng.pick(&[0, 0, 1, 100]);
        *lent = buffer(rng, TABLE_LIMIT + more);
    }
    let width = start.linear_width;
    let moments = events.into_iter().map(Some).chain([None]);
    let moments = moments.map(|event| {
        let some = moment(rng, width, event, seldom);
        let number = |address: &Address| match address {
            Address::Linear(number) | Address::GuestPhysical(number) => *number,
        };
        LevelMoment {
            removals: [some.removal, rng.number()],
            addresses: some.addresses.iter().map(number).collect(),
            event: some.event,
        }
    });
    LevelRunCase {
        capability: start.capability,
        width: start.width,
        linear_width: width,
        buffers,
        moments: moments.collect(),
    }
}

/// A call of a reader with a fragment.
pub fn take(rng: &mut Rng) -> TakeCase {
    let drawn = generate::taking(rng);
    TakeCase {
        reader: drawn.reader,
        context: any_flat(rng, &drawn.case.context),
        tally: drawn.case.tally,
        table: drawn.case.table,
        fragment: drawn.fragment,
        new: buffer(rng, drawn.case.new.len()),
    }
}

/// A log of at most so many bytes in fragments, and its end; in one of two there
/// are resets and ends between them, and fragments behind the last.
pub fn stream(rng: &mut Rng, most: usize) -> StreamCase {
    let whole = replay(rng, most);
    stream_of(rng, whole)
}

/// The same of a log that fills the table.
pub fn filling_stream(rng: &mut Rng) -> StreamCase {
    let whole = filling_replay(rng);
    stream_of(rng, whole)
}

fn stream_of(rng: &mut Rng, whole: ReplayCase) -> StreamCase {
    let fragments = generate::fragments(rng, &whole.log);
    let mut calls: Vec<Call> = fragments
        .into_iter()
        .map(|fragment| Call::Fragment(fragment.to_vec()))
        .collect();
    let mut line = 0;
    if rng.one_in(2) {
        let any = rng.number();
        line = rng.pick(&[0, any, u64::MAX - 3]);
        for _ in 0..rng.below(6) {
            let at = rng.below(calls.len() + 1);
            let call = rng.pick(&[true, true, false]);
            calls.insert(at, if call { Call::Reset } else { Call::Finish });
        }
        let more = generate::log(rng, whole.linear_width, 60);
        calls.push(Call::Finish);
        calls.push(Call::Fragment(more.clone()));
        calls.push(Call::Finish);
        calls.push(Call::Reset);
        calls.push(Call::Fragment(more));
    }
    calls.push(Call::Finish);
    StreamCase {
        capability: whole.capability,
        width: whole.width,
        linear_width: whole.linear_width,
        line,
        first: whole.first,
        second: whole.second,
        calls,
    }
}

/// The length of a buffer for a table: mostly enough.
fn table_room(rng: &mut Rng) -> usize {
    match rng.below(12) {
        0 => 0,
        1 => rng.below(100),
        2 => rng.below(2_000),
        3 => TABLE_LIMIT - 1,
        4 => TABLE_LIMIT + 1,
        5 => TABLE_LIMIT + 500,
        _ => TABLE_LIMIT,
    }
}

/// The length of a buffer for rows: none, short, exact, more.
fn rows_room(rng: &mut Rng, linear_width: u64, log: &[u8]) -> usize {
    let exact = ROW * (starts(linear_width, log).len() - 1);
    match rng.below(12) {
        0 => 0,
        1 => rng.below(2 * ROW),
        2 => rng.below(exact + 1),
        3 => exact.saturating_sub(1),
        4 => exact + 1,
        5 => exact + ROW,
        6 => exact + 1_000,
        _ => exact,
    }
}

/// A conversion, mostly of a 48-bit table.
pub fn widen(rng: &mut Rng) -> WidenCase {
    let case = generate::widening(rng);
    WidenCase {
        table: case.table,
        new: buffer(rng, case.new.len()),
    }
}

/// A table as fixed rows or rows as a table, mostly at the linear width of its
/// records.
pub fn rows(rng: &mut Rng, way: Way) -> RowsCase {
    let call = match way {
        Way::Export => generate::export(rng),
        Way::Import => generate::import(rng),
    };
    RowsCase {
        way,
        linear_width: call.linear_width,
        input: call.input,
        output: buffer(rng, call.output.len()),
    }
}

/// A walk, aimed at a translation or at any ground.
pub fn walk(rng: &mut Rng) -> WalkCase {
    let case = generate::walk(rng);
    WalkCase {
        context: any_flat(rng, &case.context),
        image: case.image,
        root: case.root,
        eptp: case.eptp,
        vpid: case.vpid,
        address: case.address,
    }
}
