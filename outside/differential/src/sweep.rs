//! Cases near the bounds, all of them for one context and table.

use crate::claim::ClaimCase;
use crate::count::CountCase;
use crate::draw::{self, buffer, flat, ODD_NUMBERS};
use crate::expected;
use crate::explain::ExplainCase;
use crate::level::{LevelCase, LevelInput, LevelLookupCase};
use crate::lookup::LookupCase;
use crate::replay::ReplayCase;
use crate::rows::{RowsCase, Way};
use crate::step::StepCase;
use crate::stream::{Call, StreamCase};
use crate::take::TakeCase;
use crate::walk::WalkCase;
use crate::widen::WidenCase;
use bridge::FlatContext;
use common::{canonical, encode, is_mapping_kind, CAPABILITY_BITS, KINDS, PAGES};
use common::{FIXED_ROW, LINEAR_WIDTHS, PCIDS, ROW, TABLE_LIMIT};
use common::{PROGRAM_CAPABILITY, PROGRAM_WIDTH};
use generate::{image_entries, near_tallies, Rng, SparseTally, BAD_LINEAR_WIDTHS};
use model::{Address, Context, LinearWidth, Place};

fn step(rng: &mut Rng, context: FlatContext, table: &[u8], event: &[u8]) -> StepCase {
    let more = rng.below(64);
    StepCase {
        context,
        tally: generate::tally(rng, table),
        table: table.to_vec(),
        event: event.to_vec(),
        new: buffer(rng, table.len() + event.len() + more),
    }
}

/// Every event one field away from a valid one of each kind, those of the other
/// linear width too, and every mapping record so changed as a part of the
/// table.
pub fn near_events(rng: &mut Rng) -> Vec<StepCase> {
    let context = generate::context(rng);
    let own = Context {
        linear_width: context.linear_width,
        ..Context::program()
    };
    let count = rng.below(6);
    let table = generate::table(rng, &context, count);
    let mut cases = Vec::new();
    for kind in KINDS {
        let event = generate::event_of_kind(rng, &context, kind);
        for near in generate::near_events(&event) {
            let context = flat(rng, &context);
            cases.push(step(rng, context, &table, &near));
            if is_mapping_kind(kind) {
                let event = generate::event(rng, &own);
                cases.push(step(rng, context, &[&near, &table[..]].concat(), &event));
                cases.push(step(rng, context, &[&table[..], &near].concat(), &[25]));
            }
        }
    }
    cases
}

/// Every context one field away from a valid one, those that stand for
/// nothing included, with an event of each kind.
pub fn near_contexts(rng: &mut Rng) -> Vec<StepCase> {
    let context = generate::context(rng);
    let count = rng.below(6);
    let table = generate::table(rng, &context, count);
    let mut cases = Vec::new();
    for near in contexts_near(rng, &context) {
        for kind in KINDS {
            let event = generate::event_of_kind(rng, &context, kind);
            cases.push(step(rng, near, &table, &event));
        }
    }
    cases
}

/// Those contexts.
fn contexts_near(rng: &mut Rng, context: &Context) -> Vec<FlatContext> {
    let near = generate::near_contexts(context);
    let mut contexts: Vec<FlatContext> = near.iter().map(|near| flat(rng, near)).collect();
    for place in 0..3 {
        for ept in [0, 1].into_iter().chain(ODD_NUMBERS) {
            contexts.push(numbered(context, place, ept));
        }
    }
    for place in ODD_NUMBERS {
        contexts.push(numbered(context, place, 0));
        contexts.push(numbered(context, place, 1));
    }
    contexts
}

fn numbered(context: &Context, place: u64, ept: u64) -> FlatContext {
    FlatContext {
        place,
        ept,
        vpid: 5,
        ep4ta: 0x123_4567,
        ..bridge::flat(context)
    }
}

/// Every kind in every place, at CPL 0, 1 and 3, with all capability bits,
/// none, and one missing or alone.
pub fn matrix(rng: &mut Rng) -> Vec<StepCase> {
    let mut capabilities = vec![PROGRAM_CAPABILITY, 0, u64::MAX];
    for bit in CAPABILITY_BITS {
        capabilities.push(PROGRAM_CAPABILITY & !(1 << bit));
        capabilities.push(1 << bit);
    }
    let guest = |vpid, ept| Place::Guest { vpid, ept };
    let ept = Some(0x123_4567);
    let places = [
        Place::Outside,
        Place::Root,
        guest(0, None),
        guest(5, None),
        guest(0, ept),
        guest(5, ept),
    ];
    let mut cases = Vec::new();
    for place in places {
        for cpl in [0, 1, 3] {
            for capability in &capabilities {
                let context = Context {
                    capability: *capability,
                    cpl,
                    place,
                    ..generate::context(rng)
                };
                let table = generate::table(rng, &context, 3);
                for kind in KINDS {
                    let event = generate::event_of_kind(rng, &context, kind);
                    let context = flat(rng, &context);
                    cases.push(step(rng, context, &table, &event));
                }
            }
        }
    }
    cases
}

/// One event on one table with new buffers of many lengths. Now and then the
/// table is near the limit.
pub fn rooms(rng: &mut Rng) -> Vec<StepCase> {
    let context = Context {
        capability: PROGRAM_CAPABILITY,
        width: PROGRAM_WIDTH,
        ..generate::context(rng)
    };
    let table = if rng.one_in(6) {
        let free = rng.pick(&[0, 1, 15, 16, 17, 18, 20, 21, 22, 23]);
        generate::full_table(rng, &context, TABLE_LIMIT - free)
    } else {
        let count = rng.below(9);
        generate::table(rng, &context, count)
    };
    let (event, _) = generate::fitting(rng, &context);
    let context = flat(rng, &context);
    let needed = table.len() + event.len();
    let mut lengths = vec![0, 1, 15, 16, 17, table.len(), table.len() + 1];
    lengths.extend([
        table.len().saturating_sub(1),
        needed - 1,
        needed,
        needed + 1,
    ]);
    lengths.extend([TABLE_LIMIT - 1, TABLE_LIMIT, TABLE_LIMIT + 1]);
    lengths.extend([TABLE_LIMIT + 22, 2 * TABLE_LIMIT]);
    let tally = SparseTally::of(&table);
    let with = |length| StepCase {
        context,
        tally: tally.clone(),
        table: table.clone(),
        event: event.clone(),
        new: buffer(rng, length),
    };
    lengths.into_iter().map(with).collect()
}

/// Any step, with the tally that matches its table and every one near it.
pub fn near_counts(rng: &mut Rng) -> Vec<StepCase> {
    let case = generate::case(rng);
    let context = flat(rng, &case.context);
    let new = buffer(rng, case.new.len());
    let with = |tally| StepCase {
        context,
        tally,
        table: case.table.clone(),
        event: case.event.clone(),
        new,
    };
    let near = near_tallies(rng, &SparseTally::of(&case.table));
    near.into_iter().map(with).collect()
}

/// Fresh counts of a table with every record one field away from a valid one of
/// each kind, at either width, and of a table cut after each of its bytes.
pub fn near_counted(rng: &mut Rng) -> Vec<CountCase> {
    let context = generate::context(rng);
    let count = rng.below(4);
    let table = generate::table(rng, &context, count);
    let tables = near_tables(rng, &context, &table);
    let with = |table| CountCase {
        linear_width: context.linear_width,
        table,
        pcids: buffer(rng, PCIDS),
    };
    tables.into_iter().map(with).collect()
}

/// Tables with a record one field away from a valid one of each kind, those of
/// the other linear width too, first or last, and one cut after each byte.
fn near_tables(rng: &mut Rng, context: &Context, table: &[u8]) -> Vec<Vec<u8>> {
    let mut tables = Vec::new();
    for kind in KINDS.into_iter().filter(|kind| is_mapping_kind(*kind)) {
        let record = generate::event_of_kind(rng, context, kind);
        for near in generate::near_events(&record) {
            tables.push([&near, table].concat());
            tables.push([table, &near].concat());
        }
    }
    for cut in 0..=table.len() {
        tables.push(table[..cut].to_vec());
    }
    tables
}

/// Addresses one byte inside and outside of each end of each record.
fn edges(linear_width: u64, table: &[u8]) -> Vec<u64> {
    let mut edges = Vec::new();
    let width = LinearWidth::of(linear_width);
    for (_, mapping) in model::mapping::records(width, table).unwrap_or_default() {
        let start = mapping.page << 12;
        let end = (mapping.page + (1 << (9 * mapping.span))) << 12;
        edges.extend([start.wrapping_sub(1), start, end - 1, end]);
    }
    edges
}

/// Events with an address, at the ends of each record.
pub fn edge_events(rng: &mut Rng) -> Vec<StepCase> {
    edge_events_of(rng, 6)
}

/// The same for a table of so many records.
fn edge_events_of(rng: &mut Rng, count: usize) -> Vec<StepCase> {
    let context = Context {
        cpl: 0,
        capability: PROGRAM_CAPABILITY,
        ..generate::context(rng)
    };
    let table = generate::table(rng, &context, count);
    let width = context.linear_width;
    let records = model::mapping::records(LinearWidth::of(width), &table).unwrap_or_default();
    let vpids: Vec<u64> = records.iter().filter_map(|(_, m)| m.vpid).collect();
    let pcids: Vec<u64> = records.iter().filter_map(|(_, m)| m.pcid).collect();
    let mut cases = Vec::new();
    for edge in edges(width, &table) {
        let linear = canonical(width, edge);
        let vpid = vpids.first().map_or(5, |_| rng.pick(&vpids));
        let invvpid = encode(16, &[0, vpid, linear]);
        let pcid = pcids.first().map_or(1, |_| rng.pick(&pcids));
        let invpcid = encode(26, &[0, pcid, linear]);
        let invlpg = encode(18, &[linear]);
        let violation = encode(19, &[edge % (PAGES << 12), 1, linear]);
        let root = Context {
            place: Place::Root,
            ..context
        };
        let context = flat(rng, &context);
        let root = flat(rng, &root);
        cases.push(step(rng, root, &table, &invvpid));
        cases.push(step(rng, root, &table, &invlpg));
        cases.push(step(rng, context, &table, &invlpg));
        cases.push(step(rng, context, &table, &invpcid));
        cases.push(step(rng, context, &table, &violation));
    }
    cases
}

/// Every context, record and event one field away from those of one
/// explanation.
pub fn near_explains(rng: &mut Rng) -> Vec<ExplainCase> {
    let near = generate::explain(rng);
    let case = ExplainCase {
        context: flat(rng, &near.context),
        record: near.record,
        event: near.event,
    };
    let mut cases = Vec::new();
    for context in contexts_near(rng, &near.context) {
        let case = case.clone();
        cases.push(ExplainCase { context, ..case });
    }
    for record in generate::near_events(&case.record) {
        let case = case.clone();
        cases.push(ExplainCase { record, ..case });
    }
    for event in generate::near_events(&case.event) {
        let case = case.clone();
        cases.push(ExplainCase { event, ..case });
    }
    cases
}

/// One record, and events with an address at its ends.
pub fn edge_explains(rng: &mut Rng) -> Vec<ExplainCase> {
    let steps = edge_events_of(rng, 1);
    steps.into_iter().map(ExplainCase::from).collect()
}

/// An event on a small table, and every claim one change away from what it leaves:
/// each record dropped, doubled in its place or at the end, or swapped with the
/// next; each bit altered; cut after each byte; a byte of rubbish at each place.
pub fn near_claims(rng: &mut Rng) -> Vec<ClaimCase> {
    let context = Context {
        capability: PROGRAM_CAPABILITY,
        width: PROGRAM_WIDTH,
        ..generate::context(rng)
    };
    let count = 1 + rng.below(5);
    let table = generate::table(rng, &context, count);
    let (event, _) = generate::fitting(rng, &context);
    let width = LinearWidth::of(context.linear_width);
    let context = flat(rng, &context);
    let left = expected::left(&context, &table, &event);
    let records = model::mapping::records(width, &left).unwrap_or_default();
    let records: Vec<&[u8]> = records.into_iter().map(|(at, _)| &left[at]).collect();
    let mut claims = vec![left.clone(), table.clone()];
    for (number, record) in records.iter().enumerate() {
        let (before, behind) = (&records[..number], &records[number + 1..]);
        claims.push([before, behind].concat().concat());
        claims.push([before, &[record, record], behind].concat().concat());
        claims.push([before, &[record], behind, &[record]].concat().concat());
        if let [next, rest @ ..] = behind {
            claims.push([before, &[next, record], rest].concat().concat());
        }
    }
    for at in 0..left.len() {
        claims.push(left[..at].to_vec());
        claims.push([&left[..at], &[rng.number() as u8], &left[at..]].concat());
        for bit in 0..8 {
            let mut claim = left.clone();
            claim[at] ^= 1 << bit;
            claims.push(claim);
        }
    }
    let with = |claim| ClaimCase {
        context,
        table: table.clone(),
        event: event.clone(),
        claim,
    };
    claims.into_iter().map(with).collect()
}

/// One claim, with every context and event one field away from its own.
pub fn near_judgements(rng: &mut Rng) -> Vec<ClaimCase> {
    let case = draw::claim(rng);
    let own = bridge::context(&case.context);
    let own = own.unwrap_or_else(|| generate::context(rng));
    let mut cases = Vec::new();
    for context in contexts_near(rng, &own) {
        let case = case.clone();
        cases.push(ClaimCase { context, ..case });
    }
    for event in generate::near_events(&case.event) {
        let case = case.clone();
        cases.push(ClaimCase { event, ..case });
    }
    cases
}

/// Lookups of both sorts at the ends of each record and of all addresses.
pub fn edge_lookups(rng: &mut Rng) -> Vec<LookupCase> {
    let context = generate::context(rng);
    let count = rng.below(9);
    let table = generate::table(rng, &context, count);
    let width = context.linear_width;
    let mut addresses = edges(width, &table);
    for bit in [12, 47, 48, 56, 57, 63] {
        addresses.extend([(1 << bit) - 1, 1 << bit]);
    }
    addresses.extend([0, u64::MAX, 0xFFFF_7FFF_FFFF_FFFF, 0xFFFF_8000_0000_0000]);
    addresses.extend([0xFEFF_FFFF_FFFF_FFFF, 0xFF00_0000_0000_0000]);
    let mut cases = Vec::new();
    for number in addresses {
        for address in [
            Address::Linear(canonical(width, number)),
            Address::Linear(number),
            Address::GuestPhysical(number),
        ] {
            cases.push(LookupCase {
                context: flat(rng, &context),
                table: table.clone(),
                address,
            });
        }
    }
    cases
}

/// Lookups in every context near a valid one.
pub fn near_lookups(rng: &mut Rng) -> Vec<LookupCase> {
    let context = generate::context(rng);
    let table = generate::any_table(rng, &context);
    let near = generate::near_contexts(&context);
    let mut contexts: Vec<FlatContext> = near.iter().map(|near| flat(rng, near)).collect();
    for odd in ODD_NUMBERS {
        contexts.push(numbered(&context, odd, 0));
        contexts.push(numbered(&context, 2, odd));
    }
    let with = |context| LookupCase {
        context,
        table: table.clone(),
        address: generate::address(rng, context.linear_width),
    };
    contexts.into_iter().map(with).collect()
}

/// A short log cut after each of its bytes.
pub fn cut_logs(rng: &mut Rng) -> Vec<ReplayCase> {
    let length = rng.below(200);
    let linear_width = rng.pick(&LINEAR_WIDTHS);
    let log = generate::log(rng, linear_width, length);
    let with = |cut: usize| ReplayCase {
        capability: PROGRAM_CAPABILITY,
        width: PROGRAM_WIDTH,
        linear_width,
        log: log[..cut].to_vec(),
        first: buffer(rng, 400),
        second: buffer(rng, 400),
        rows: buffer(rng, ROW * cut),
    };
    (0..=log.len()).map(with).collect()
}

/// One event on two tables, with every pair of new buffers that matter: too short by
/// one, just long enough, and longer.
pub fn level_rooms(rng: &mut Rng) -> Vec<LevelCase> {
    let case = draw::level(rng);
    let rooms = |level: &LevelInput| {
        let table = level.table.len();
        let needed = table + case.event.len();
        [
            table.saturating_sub(1),
            table,
            needed.saturating_sub(1),
            needed,
            needed + 9,
        ]
    };
    let mut cases = Vec::new();
    for one in rooms(&case.levels[0]) {
        for other in rooms(&case.levels[1]) {
            let mut case = case.clone();
            case.levels[0].new.length = one;
            case.levels[1].new.length = other;
            cases.push(case);
        }
    }
    cases
}

/// One step of two levels in every context one field away from its own, and those that
/// stand for nothing; and a lookup in each.
pub fn near_levels(rng: &mut Rng) -> (Vec<LevelCase>, Vec<LevelLookupCase>) {
    let (case, lookup) = (draw::level(rng), draw::level_lookup(rng));
    let own = bridge::context(&case.context);
    let own = own.unwrap_or_else(|| generate::context(rng));
    let (mut cases, mut lookups) = (Vec::new(), Vec::new());
    for context in contexts_near(rng, &own) {
        let (case, lookup) = (case.clone(), lookup.clone());
        cases.push(LevelCase { context, ..case });
        lookups.push(LevelLookupCase { context, ..lookup });
    }
    (cases, lookups)
}

/// Lookups in two levels at the ends of each record of either.
pub fn level_edges(rng: &mut Rng) -> Vec<LevelLookupCase> {
    let context = generate::context(rng);
    let width = context.linear_width;
    let tables = [0, 1].map(|_| {
        let count = rng.below(6);
        generate::table(rng, &context, count)
    });
    let mut addresses = edges(width, &tables[0]);
    addresses.extend(edges(width, &tables[1]));
    let mut cases = Vec::new();
    for number in addresses {
        for address in [canonical(width, number), number] {
            cases.push(LevelLookupCase {
                context: flat(rng, &context),
                tables: tables.clone(),
                address,
            });
        }
    }
    cases
}

/// A log with an event of every kind, cut in two after each of its bytes, ended
/// after each of them, and a byte at a time.
pub fn cut_streams(rng: &mut Rng) -> Vec<StreamCase> {
    let linear_width = rng.pick(&LINEAR_WIDTHS);
    let log = generate::log_of_every_kind(rng, linear_width);
    let room = rng.pick(&[0, 30, 400, TABLE_LIMIT]);
    let mut with = |fragments: Vec<&[u8]>| {
        let fragments = fragments.into_iter();
        let calls = fragments.map(|fragment| Call::Fragment(fragment.to_vec()));
        StreamCase {
            capability: PROGRAM_CAPABILITY,
            width: PROGRAM_WIDTH,
            linear_width,
            line: 0,
            first: buffer(rng, room),
            second: buffer(rng, room),
            calls: calls.chain([Call::Finish]).collect(),
        }
    };
    let mut cases = vec![with(log.chunks(1).collect())];
    for cut in 0..=log.len() {
        cases.push(with(vec![&log[..cut], &log[cut..]]));
        cases.push(with(vec![&log[..cut]]));
    }
    cases
}

/// One step's inputs with every reader that holds up to 26 bytes of each kind, and a
/// fragment that is empty, short or long.
pub fn near_readers(rng: &mut Rng) -> Vec<TakeCase> {
    let case = draw::take(rng);
    let own = bridge::context(&case.context);
    let own = own.unwrap_or_else(|| generate::context(rng));
    let mut cases = Vec::new();
    for reader in generate::readers(rng, &own) {
        let count = rng.pick(&[0, 1, 24, 30]);
        cases.push(TakeCase {
            reader,
            fragment: rng.bytes(count),
            ..case.clone()
        });
    }
    cases
}

/// One call of a reader in every context one field away from its own, and those
/// that stand for nothing.
pub fn near_takes(rng: &mut Rng) -> Vec<TakeCase> {
    let case = draw::take(rng);
    let own = bridge::context(&case.context);
    let own = own.unwrap_or_else(|| generate::context(rng));
    let mut cases = Vec::new();
    for context in contexts_near(rng, &own) {
        let case = case.clone();
        cases.push(TakeCase { context, ..case });
    }
    cases
}

/// A context for records of 48 bits.
fn narrow(rng: &mut Rng) -> Context {
    Context {
        linear_width: 48,
        ..generate::context(rng)
    }
}

/// Conversions of one table into buffers of many lengths. Now and then the
/// result is about as long as a table may be.
pub fn widening_rooms(rng: &mut Rng) -> Vec<WidenCase> {
    let context = narrow(rng);
    let table = if rng.one_in(6) {
        let less = rng.pick(&[0, 0, 1, 2, 3, 16, 17, 18, 19, 36]);
        generate::table_of_result(rng, &context, TABLE_LIMIT + 18 - less)
    } else {
        let count = rng.below(9);
        generate::table(rng, &context, count)
    };
    let result = generate::result_length(&table);
    let mut lengths = vec![0, 1, 15, 16, 17, 18, table.len(), table.len() + 1];
    lengths.extend([result.saturating_sub(1), result, result + 1, result + 64]);
    lengths.extend([TABLE_LIMIT - 1, TABLE_LIMIT, TABLE_LIMIT + 1]);
    lengths.push(2 * TABLE_LIMIT);
    let with = |length| WidenCase {
        table: table.clone(),
        new: buffer(rng, length),
    };
    lengths.into_iter().map(with).collect()
}

/// Conversions of a table with every record one field away from a valid one of
/// each kind, those of 57 bits too, and of a table cut after each of its bytes.
pub fn near_widenings(rng: &mut Rng) -> Vec<WidenCase> {
    let context = narrow(rng);
    let count = rng.below(4);
    let table = generate::table(rng, &context, count);
    let tables = near_tables(rng, &context, &table);
    let with = |table: Vec<u8>| {
        let more = rng.below(20);
        let new = buffer(rng, generate::result_length(&table) + more);
        WidenCase { table, new }
    };
    tables.into_iter().map(with).collect()
}

/// One table as fixed rows, and its rows as a table, into buffers of many lengths. Now
/// and then it is about as long as a table may be, and the rows have a record more.
pub fn rows_rooms(rng: &mut Rng) -> Vec<RowsCase> {
    let context = generate::context(rng);
    let (table, rows) = if rng.one_in(6) {
        let free = rng.pick(&[0, 1, 15, 16, 17, 18, 23]);
        let table = generate::full_table(rng, &context, TABLE_LIMIT - free);
        let more = generate::table(rng, &context, 1);
        let rows = generate::rows_of(&[&table[..], &more].concat());
        (table, rows)
    } else {
        let count = rng.below(9);
        let table = generate::table(rng, &context, count);
        let rows = generate::rows_of(&table);
        (table, rows)
    };
    let mut cases = Vec::new();
    for (way, input, other, result) in [
        (
            Way::Export,
            &table,
            table.len(),
            generate::rows_of(&table).len(),
        ),
        (
            Way::Import,
            &rows,
            rows.len(),
            generate::table_length(&rows),
        ),
    ] {
        let mut lengths = vec![0, 1, 15, 16, 17, 31, 32, 33, other];
        lengths.extend([result.saturating_sub(1), result, result + 1, result + 64]);
        lengths.extend([result.saturating_sub(FIXED_ROW), result.saturating_sub(16)]);
        lengths.extend([TABLE_LIMIT - 1, TABLE_LIMIT, TABLE_LIMIT + 1]);
        lengths.push(2 * TABLE_LIMIT);
        for length in lengths {
            cases.push(RowsCase {
                way,
                linear_width: context.linear_width,
                input: input.clone(),
                output: buffer(rng, length),
            });
        }
    }
    cases
}

/// Exports of a table with every record one field away from a valid one of each kind,
/// those of the other linear width too, and of a table cut after each of its bytes.
pub fn near_exports(rng: &mut Rng) -> Vec<RowsCase> {
    let context = generate::context(rng);
    let count = rng.below(4);
    let table = generate::table(rng, &context, count);
    let tables = near_tables(rng, &context, &table);
    let with = |input: Vec<u8>| {
        let more = rng.below(20);
        RowsCase {
            way: Way::Export,
            linear_width: context.linear_width,
            output: buffer(rng, FIXED_ROW * (count + 1) + more),
            input,
        }
    };
    tables.into_iter().map(with).collect()
}

/// Imports of rows of each kind, those of the other linear width too, with every row
/// one field away from its own in turn, and cut after each byte; and at linear widths
/// that are none.
pub fn near_imports(rng: &mut Rng) -> Vec<RowsCase> {
    let context = generate::context(rng);
    let mut inputs = Vec::new();
    for kind in KINDS.into_iter().filter(|kind| is_mapping_kind(*kind)) {
        let record = generate::event_of_kind(rng, &context, kind);
        inputs.extend(generate::near_imports(&generate::rows_of(&record)));
    }
    let count = 1 + rng.below(3);
    let rows = generate::rows_of(&generate::table(rng, &context, count));
    inputs.extend(generate::near_imports(&rows));
    inputs.extend((0..=rows.len()).map(|cut| rows[..cut].to_vec()));
    let mut widths = vec![context.linear_width; inputs.len()];
    for linear_width in LINEAR_WIDTHS.into_iter().chain(BAD_LINEAR_WIDTHS) {
        inputs.push(rows.clone());
        widths.push(linear_width);
    }
    let with = |(input, linear_width): (Vec<u8>, u64)| {
        let more = rng.pick(&[0, 0, 1, 20]);
        RowsCase {
            way: Way::Import,
            linear_width,
            output: buffer(rng, generate::table_length(&input) + more),
            input,
        }
    };
    inputs.into_iter().zip(widths).map(with).collect()
}

/// Walks one bit away from a given one in the root, the EPTP, the address or the
/// entries, and those with every context near its own.
pub fn near_walks(rng: &mut Rng) -> Vec<WalkCase> {
    let case = draw::walk(rng);
    let entries = image_entries(&case.image);
    let mut cases = Vec::new();
    for bit in 0..64 {
        for field in 0..3 {
            let mut near = case.clone();
            let number = match field {
                0 => &mut near.root,
                1 => &mut near.eptp,
                _ => &mut near.address,
            };
            *number ^= 1 << bit;
            cases.push(near);
        }
        // Of an image that is full only some.
        for (at, _) in entries.iter().step_by(1 + entries.len() / 32) {
            let mut near = case.clone();
            if let Some(byte) = near.image.get_mut(at + bit / 8) {
                *byte ^= 1 << (bit % 8);
            }
            cases.push(near);
        }
    }
    if let Some(context) = bridge::context(&case.context) {
        for context in contexts_near(rng, &context) {
            let case = case.clone();
            cases.push(WalkCase { context, ..case });
        }
    }
    cases
}

/// One walk with images of many lengths: as few bytes as there are, and ending
/// before, in and behind each of its entries.
pub fn cut_images(rng: &mut Rng) -> Vec<WalkCase> {
    let case = draw::walk(rng);
    let entries = image_entries(&case.image);
    let mut lengths: Vec<usize> = (0..=16).collect();
    for (at, _) in entries.iter().step_by(1 + entries.len() / 32) {
        lengths.extend([*at, at + 1, at + 7, at + 8, at + 9]);
    }
    let with = |length| {
        let mut case = case.clone();
        case.image.resize(length, 0);
        case
    };
    lengths.into_iter().map(with).collect()
}
