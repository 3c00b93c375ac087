//! The generator reaches every answer, reason and EPTP rule and every wrong
//! tally often, at both linear widths, and gives the same each time.

use common::{canonical, field, is_mapping_kind, kinds, row_field, sizes};
use common::{FIXED_ROW, FIXED_ROW_FIELDS, KINDS, LINEAR_WIDTHS, LOG_LIMIT, PCIDS};
use generate::{case, events, explain, filling_log, log, near_events, near_tallies, other_width};
use generate::{
    fragments, level_case, level_query, log_of_every_kind, query, table_of_result, taking, walk,
    widening,
};
use generate::{Rng, SparseTally, Taking, BAD_LINEAR_WIDTHS};
use model::event::{length, Event};
use model::levels::lookup_levels;
use model::mapping::{records, Mapping};
use model::replay::first_event;
use model::stream::take;
use model::walk::{walk_with_spans, Ending};
use model::LinearWidth::{self, Bits48, Bits57};
use model::{count, counted_step, lookup, step, widen, Converted, Tally, TABLE_LIMIT};

const SEED: u64 = 7;

/// Which counts a context belongs to: those of 48 bits, of 57, or none.
fn place(linear_width: u64) -> Option<usize> {
    LINEAR_WIDTHS.iter().position(|own| *own == linear_width)
}

/// What was reached at one linear width.
#[derive(Debug, Default)]
struct Reached {
    answers: [usize; 13],
    kinds_accepted: [usize; 28],
    rules: [[usize; 6]; 13],
    dropping: usize,
}

#[test]
fn every_answer_is_reached() {
    println!("seed {SEED}");
    let mut rng = Rng::new(SEED);
    let mut both = [Reached::default(), Reached::default()];
    let mut bad_widths = 0;
    for _ in 0..40_000 {
        let mut case = case(&mut rng);
        let step = step(&case.context, &case.table, &case.event, &mut case.new);
        let Some(place) = place(case.context.linear_width) else {
            assert_eq!(step.answer, 1);
            bad_widths += 1;
            continue;
        };
        let reached = &mut both[place];
        reached.answers[step.answer as usize] += 1;
        reached.rules[step.answer as usize][step.rule as usize] += 1;
        if step.answer == 0 {
            reached.kinds_accepted[usize::from(case.event[0])] += 1;
            reached.dropping += usize::from(step.dropped > 0);
        }
    }
    println!("at widths out of range: {bad_widths}");
    assert!(bad_widths >= 300);
    for (width, reached) in LINEAR_WIDTHS.iter().zip(both) {
        println!("{width} bits: {reached:?}");
        assert!(reached.answers.iter().all(|count| *count >= 300));
        for kind in kinds(*width) {
            let count = reached.kinds_accepted[usize::from(kind)];
            assert!(count >= 30, "kind {kind} at {width} bits");
        }
        assert!(reached.dropping >= 500);
        for answer in [8, 10] {
            assert!(reached.rules[answer].iter().all(|count| *count >= 20));
        }
    }
}

/// Steps of two levels reach what each table can say beside the other, and lookups
/// find a translation at either level.
#[test]
fn two_levels() {
    println!("seed {SEED}");
    let mut rng = Rng::new(SEED);
    let mut answers = [[0; 14]; 14];
    for _ in 0..20_000 {
        let case = level_case(&mut rng);
        let [one, other] = [0, 1].map(|nth: usize| {
            let level = &case.levels[nth];
            let (mut tally, mut new) = (level.tally.tally(), vec![0; level.new]);
            let (context, table) = (&case.context, &level.table);
            counted_step(context, &mut tally, table, &case.event, &mut new).answer
        });
        answers[one as usize][other as usize] += 1;
    }
    println!("{answers:?}");
    // What a table, its tally or its room says, beside another table's.
    for one in [0, 2, 3, 12, 13] {
        for other in [0, 2, 3, 12, 13] {
            assert!(answers[one][other] >= 4, "{one}, {other}");
        }
    }
    for same in [1, 4, 5, 6, 7, 8, 9, 10, 11] {
        assert!(answers[same][same] >= 100, "{same}");
    }
    let mut found = [0; 3];
    for _ in 0..10_000 {
        let query = level_query(&mut rng);
        let [first, second] = &query.tables;
        let (_, place) = lookup_levels(&query.context, first, second, query.address);
        found[place.map_or(0, |found| found.level as usize)] += 1;
    }
    println!("found: {found:?}");
    assert!(found.iter().all(|count| *count >= 200), "{found:?}");
}

/// What calls of a reader reach at one linear width.
#[derive(Debug, Default)]
struct Takings {
    answers: [usize; 14],
    held_before: [usize; 25],
    unknown: usize,
    held: usize,
    ignored: usize,
    last_line: usize,
}

#[test]
fn fragments_of_every_sort() {
    println!("seed {SEED}");
    let mut rng = Rng::new(SEED);
    let mut both = [Takings::default(), Takings::default()];
    for _ in 0..30_000 {
        let Taking {
            mut case,
            reader,
            fragment,
        } = taking(&mut rng);
        let Some(place) = place(case.context.linear_width) else {
            continue;
        };
        let width = case.context.linear();
        let reached = &mut both[place];
        let mut tally = case.tally.tally();
        let (context, table) = (&case.context, &case.table);
        let taken = take(
            &reader,
            context,
            &mut tally,
            table,
            &fragment,
            &mut case.new,
        );
        if reader.ignores(width) {
            reached.ignored += 1;
        } else if let Some(step) = taken.finished {
            reached.answers[step.answer as usize] += 1;
            reached.held_before[reader.length as usize] += 1;
            let kind = if reader.length == 0 {
                fragment[0]
            } else {
                reader.held[0]
            };
            reached.unknown += usize::from(length(width, kind).is_none());
            reached.last_line += usize::from(reader.line == u64::MAX);
        } else {
            reached.held += 1;
        }
    }
    for (width, reached) in LINEAR_WIDTHS.iter().zip(both) {
        println!("{width} bits: {reached:?}");
        assert!(reached.answers.iter().all(|count| *count >= 100));
        assert!(reached.held_before.iter().all(|count| *count >= 20));
        assert!(reached.unknown >= 100 && reached.held >= 500);
        assert!(reached.ignored >= 1_000 && reached.last_line >= 500);
    }
}

/// Fragments end to end are the log, and of every size.
#[test]
fn fragments_are_the_log() {
    let mut rng = Rng::new(SEED);
    let mut sizes = [0; 4];
    for _ in 0..200 {
        let log = log(&mut rng, 48, 300);
        let fragments = fragments(&mut rng, &log);
        assert_eq!(fragments.concat(), log);
        for fragment in fragments {
            sizes[fragment.len().min(27) / 9] += 1;
        }
    }
    assert!(sizes.iter().all(|count| *count > 100), "{sizes:?}");
}

/// A log with each kind that is known once, and all of them are accepted.
#[test]
fn a_log_of_every_kind() {
    let mut rng = Rng::new(SEED);
    for linear_width in LINEAR_WIDTHS {
        for _ in 0..50 {
            let log = log_of_every_kind(&mut rng, linear_width);
            let start = model::Context {
                linear_width,
                ..model::Context::program()
            };
            let lines = model::replay::lines(&start, &log);
            assert!(lines.iter().all(|line| line.answer == 0), "{lines:?}");
            let mut found = Vec::new();
            let mut rest = &log[..];
            while let Some(event) = first_event(start.linear(), rest) {
                found.push(event[0]);
                rest = &rest[event.len()..];
            }
            found.sort_unstable();
            let mut due = kinds(linear_width);
            due.sort_unstable();
            assert_eq!(found, due);
        }
    }
}

/// How a tally differs from the one that matches.
#[derive(Debug, Default)]
struct Wrong {
    /// Answers 1 to 4 with a wrong tally, and what would be answered with a
    /// right one where 13 is.
    instead: [usize; 13],
    /// Tallies of which one count of a kind and span is one too many, one too
    /// few (or as large as can be, for 0) or 65,535.
    cells: [[[usize; 3]; 5]; 6],
    /// The same for PCIDs: the first, the last, one that is counted and another.
    pcids: [[usize; 3]; 4],
    moved: usize,
    rows_swapped: usize,
    /// Lists of 0, of 4,095 and of 4,097 counts, and of another length.
    lengths: [usize; 4],
}

impl Wrong {
    /// Whether a count is one too many, one too few, and as large as can be.
    fn ways(got: u16, due: u16) -> [bool; 3] {
        [
            got == due.wrapping_add(1),
            got == due.wrapping_sub(1),
            got == u16::MAX,
        ]
    }

    fn note(&mut self, got: &Tally, due: &Tally) {
        match got.pcids.len() {
            PCIDS => {}
            0 => self.lengths[0] += 1,
            4_095 => self.lengths[1] += 1,
            4_097 => self.lengths[2] += 1,
            _ => self.lengths[3] += 1,
        }
        if got.pcids.len() != PCIDS {
            return;
        }
        let cells = || (0..6).flat_map(|row| (0..5).map(move |span| (row, span)));
        let wrong_cells: Vec<(usize, usize)> = cells()
            .filter(|(row, span)| got.kinds[*row][*span] != due.kinds[*row][*span])
            .collect();
        let wrong_pcids: Vec<usize> = (0..PCIDS)
            .filter(|pcid| got.pcids[*pcid] != due.pcids[*pcid])
            .collect();
        match (&wrong_cells[..], &wrong_pcids[..]) {
            ([(row, span)], []) => {
                let ways = Wrong::ways(got.kinds[*row][*span], due.kinds[*row][*span]);
                for (count, way) in self.cells[*row][*span].iter_mut().zip(ways) {
                    *count += usize::from(way);
                }
            }
            ([], [pcid]) => {
                let place = match pcid {
                    0 => 0,
                    4_095 => 1,
                    _ if due.pcids[*pcid] > 0 => 2,
                    _ => 3,
                };
                let ways = Wrong::ways(got.pcids[*pcid], due.pcids[*pcid]);
                for (count, way) in self.pcids[place].iter_mut().zip(ways) {
                    *count += usize::from(way);
                }
            }
            ([], [one, other]) => {
                let [more, less] = [one, other].map(|pcid| {
                    let [more, less, _] = Wrong::ways(got.pcids[*pcid], due.pcids[*pcid]);
                    usize::from(more) + 2 * usize::from(less)
                });
                self.moved += usize::from(more + less == 3);
            }
            (_, []) => {
                let changed = |row: &usize| got.kinds[*row] != due.kinds[*row];
                let rows: Vec<usize> = (0..6).filter(changed).collect();
                if let [one, other] = rows[..] {
                    let mut back = got.kinds;
                    back.swap(one, other);
                    self.rows_swapped += usize::from(back == due.kinds);
                }
            }
            _ => {}
        }
    }
}

/// Answer 13 where every other one but 1 to 4 would be given, those four with a
/// wrong tally, and wrong tallies of every sort.
#[test]
fn every_wrong_tally_is_reached() {
    println!("seed {SEED}");
    let mut rng = Rng::new(SEED);
    let mut both = [Wrong::default(), Wrong::default()];
    let mut matching = 0;
    for _ in 0..60_000 {
        let mut case = case(&mut rng);
        let width = LinearWidth::of(case.context.linear_width);
        let due = count(width, &case.table).unwrap_or(Tally::empty());
        let tally = case.tally.tally();
        let plain = step(&case.context, &case.table, &case.event, &mut case.new).answer;
        if tally == due {
            matching += 1;
            continue;
        }
        let mut after = tally.clone();
        let step = counted_step(
            &case.context,
            &mut after,
            &case.table,
            &case.event,
            &mut case.new,
        );
        let first_four = (1..=4).contains(&plain);
        assert_eq!(step.answer, if first_four { plain } else { 13 });
        let Some(place) = place(case.context.linear_width) else {
            continue;
        };
        both[place].instead[plain as usize] += 1;
        if !first_four {
            both[place].note(&tally, &due);
        }
    }
    println!("matching: {matching}");
    assert!((42_000..54_000).contains(&matching));
    for (width, wrong) in LINEAR_WIDTHS.iter().zip(both) {
        println!("{width} bits: {wrong:?}");
        assert!(wrong.instead.iter().all(|count| *count >= 50));
        assert!(wrong.cells.as_flattened().iter().all(|ways| ways[0] >= 3));
        assert!(wrong.cells.as_flattened().iter().all(|ways| ways[1] >= 3));
        assert!(wrong.cells.as_flattened().iter().all(|ways| ways[2] >= 3));
        assert!(wrong.pcids.iter().flatten().all(|count| *count >= 10));
        assert!(wrong.moved >= 100 && wrong.rows_swapped >= 100);
        assert!(wrong.lengths.iter().all(|count| *count >= 30));
    }
}

/// The tally drawn for a valid table is the model's fresh count, unless it is
/// one of the wrong ones; and of those near it, few match.
#[test]
fn tallies_by_the_layouts() {
    let mut rng = Rng::new(SEED);
    for number in 0..300 {
        let context = generate::context(&mut rng);
        let length = if number % 100 == 0 {
            TABLE_LIMIT
        } else {
            300 + number
        };
        let table = generate::full_table(&mut rng, &context, length);
        let width = LinearWidth::of(context.linear_width);
        let right = SparseTally::of(&table);
        let due = count(width, &table).expect("a valid table");
        assert_eq!(right.tally(), due);
        let near = near_tallies(&mut rng, &right);
        assert_eq!(near[0], right);
        let wrong = near.iter().filter(|near| near.tally() != due).count();
        assert!(wrong >= 130 && wrong + 30 > near.len(), "{wrong}");
        // Each cell in three ways, of which two are the same for one that is 0.
        for row in 0..6 {
            for span in 0..5 {
                let alone = |near: &&SparseTally| {
                    let mut back = (*near).clone();
                    back.kinds[row][span] = right.kinds[row][span];
                    **near != right && back == right
                };
                assert!(near.iter().filter(alone).count() >= 3);
            }
        }
    }
}

/// Answers 3 and 4 because of a record of the other width alone, and those
/// addresses at 48 bits that would be canonical at 57.
#[test]
fn the_other_width_is_reached() {
    let mut rng = Rng::new(SEED);
    let (mut tables, mut creations, mut addresses) = ([0; 2], [0; 2], 0);
    for _ in 0..40_000 {
        let mut case = case(&mut rng);
        let step = step(&case.context, &case.table, &case.event, &mut case.new);
        let Some(place) = place(case.context.linear_width) else {
            continue;
        };
        let other = [Bits57, Bits48][place];
        let whole = records(other, &case.table).is_some();
        tables[place] += usize::from(step.answer == 3 && whole);
        let valid = Mapping::decode(other, &case.event).is_some();
        creations[place] += usize::from(step.answer == 4 && valid);
        let violation = case.event.first() == Some(&19);
        let valid = Event::decode(other, &case.event).is_some();
        addresses += usize::from(step.answer == 4 && violation && valid && place == 0);
    }
    println!("tables {tables:?}, creations {creations:?}, addresses {addresses}");
    assert!(tables.iter().all(|count| *count >= 100));
    assert!(creations.iter().all(|count| *count >= 100));
    assert!(addresses >= 10);
}

#[test]
fn every_answer_of_the_converter_is_reached() {
    let mut rng = Rng::new(SEED);
    let mut reached = [0; 13];
    let (mut grown, mut upper, mut full) = (0, 0, 0);
    for _ in 0..20_000 {
        let mut case = widening(&mut rng);
        let widened = widen(&case.table, &mut case.new);
        reached[widened.answer as usize] += 1;
        let all = records(Bits48, &case.table).unwrap_or_default();
        grown += usize::from(widened.answer == 12 && case.new.len() >= TABLE_LIMIT);
        full += usize::from(widened.length == TABLE_LIMIT);
        if widened.answer == 0 {
            upper += all.iter().filter(|(_, m)| m.page >= 1 << 35).count();
        }
    }
    println!("answers {reached:?}, past the limit {grown}, to the byte {full}, {upper} upper");
    for answer in [0, 2, 3, 12] {
        assert!(reached[answer] >= 500, "answer {answer}");
    }
    assert!(grown >= 50 && full >= 5 && upper >= 1_000);
}

#[test]
fn every_answer_of_export_is_reached() {
    let mut rng = Rng::new(SEED);
    let (mut both, mut bad_widths) = ([[0; 13]; 2], 0);
    let (mut exact, mut short, mut full, mut more) = (0, 0, 0, 0);
    for _ in 0..20_000 {
        let mut call = generate::export(&mut rng);
        let exported = model::export(call.linear_width, &call.input, &mut call.output);
        let Some(place) = place(call.linear_width) else {
            assert_eq!(exported.answer, 1);
            bad_widths += 1;
            continue;
        };
        both[place][exported.answer as usize] += 1;
        let Some(records) = records(LinearWidth::of(call.linear_width), &call.input) else {
            continue;
        };
        let result = FIXED_ROW * records.len();
        exact += usize::from(result > 0 && call.output.len() == result);
        short += usize::from(call.output.len() + 1 == result);
        full += usize::from(exported.answer == 0 && call.input.len() == TABLE_LIMIT);
        // Export's room is its buffer alone.
        more += usize::from(exported.length > TABLE_LIMIT);
    }
    println!("answers {both:?}, exact {exact}, short {short}, full {full}, more {more}");
    for answer in [0, 2, 3, 12] {
        assert!(both.iter().all(|counts| counts[answer] >= 300), "{answer}");
    }
    assert!(bad_widths >= 300 && exact >= 1_000 && short >= 1_000);
    assert!(full >= 50 && more >= 50);
}

/// Why a row is bad: the last field of it that, with another small number, would
/// make it good; None if one change is not enough.
fn field_to_blame(linear_width: u64, row: &[u8]) -> Option<usize> {
    let good = |row: &[u8]| model::import(linear_width, row, &mut [0; 23]).answer == 0;
    (0..FIXED_ROW_FIELDS.len()).rev().find(|nth| {
        let mut changed = row.to_vec();
        (0..=10).any(|number| {
            common::set_row_field(&mut changed, *nth, number);
            good(&changed)
        })
    })
}

#[test]
fn every_answer_of_import_is_reached() {
    let mut rng = Rng::new(SEED);
    let (mut both, mut bad_widths) = ([[0; 13]; 2], 0);
    let (mut lengths, mut later, mut other, mut grown) = (0, 0, 0, 0);
    let (mut exact, mut short) = (0, 0);
    let mut blamed = [0; FIXED_ROW_FIELDS.len()];
    for _ in 0..40_000 {
        let mut call = generate::import(&mut rng);
        let Converted {
            answer,
            row,
            length,
        } = model::import(call.linear_width, &call.input, &mut call.output);
        let Some(place) = place(call.linear_width) else {
            assert_eq!((answer, row), (1, 0));
            bad_widths += 1;
            continue;
        };
        both[place][answer as usize] += 1;
        lengths += usize::from(answer == 4 && row == 0);
        later += usize::from(row > 1);
        if row > 0 {
            let start = FIXED_ROW * (row as usize - 1);
            let bad = &call.input[start..start + FIXED_ROW];
            let width = LINEAR_WIDTHS[1 - place];
            let there = model::import(width, bad, &mut [0; 23]).answer == 0;
            other += usize::from(there);
            if let Some(nth) = field_to_blame(call.linear_width, bad) {
                blamed[nth] += 1;
            }
        }
        let result = generate::table_length(&call.input);
        exact += usize::from(answer == 0 && length > 0 && length == call.output.len());
        short += usize::from(answer == 12 && result == call.output.len() + 1);
        grown += usize::from(answer == 12 && call.output.len() >= result);
    }
    println!("answers {both:?}, bad lengths {lengths}, not the first row {later}");
    println!("exact {exact}, short {short}, past the limit {grown}, of the other width {other}");
    println!("fields to blame {blamed:?}");
    for answer in [0, 4, 12] {
        assert!(both.iter().all(|counts| counts[answer] >= 500), "{answer}");
    }
    assert!(bad_widths >= 500 && lengths >= 300 && later >= 1_000 && other >= 100);
    assert!(exact >= 1_000 && short >= 1_000 && grown >= 30);
    assert!(blamed.iter().all(|count| *count >= 50));
}

/// In each field of a row there are near rows, all bits of it and more.
#[test]
fn near_rows_change_every_field() {
    let mut rng = Rng::new(SEED);
    for width in LINEAR_WIDTHS {
        let context = model::Context {
            linear_width: width,
            ..generate::context(&mut rng)
        };
        let table = generate::table(&mut rng, &context, 3);
        let rows = generate::rows_of(&table);
        assert_eq!(rows.len(), 3 * FIXED_ROW);
        assert_eq!(generate::table_length(&rows), table.len());
        let near = generate::near_imports(&rows);
        for at in [0, 1, 2] {
            let part = at * FIXED_ROW..(at + 1) * FIXED_ROW;
            for (nth, (_, place)) in FIXED_ROW_FIELDS.iter().enumerate() {
                let number = |rows: &[u8]| row_field(&rows[part.clone()], nth);
                let changed = |near: &&Vec<u8>| number(near) != number(&rows);
                let count = near.iter().filter(changed).count();
                assert!(count > 8 * place.len(), "row {at}, field {nth}: {count}");
            }
        }
        assert!(near.iter().all(|near| near.len() == rows.len()));
    }
    assert!(generate::near_imports(&[]).is_empty());
}

/// Absent and outside at every pair of levels, and every pair of page sizes.
#[test]
fn every_ending_of_the_walk_is_reached() {
    let mut rng = Rng::new(SEED);
    let (mut absent, mut outside) = ([[0; 5]; 5], [[0; 5]; 5]);
    let (mut too_high, mut rules, mut spans) = ([0; 5], [0; 6], [[0; 3]; 3]);
    let (mut contexts, mut addresses, mut whole, mut longest) = (0, 0, 0, 0);
    for _ in 0..40_000 {
        let case = walk(&mut rng);
        let (context, image) = (&case.context, &case.image);
        let (vpid, address) = (case.vpid, case.address);
        let (walk, pages) = walk_with_spans(context, image, case.root, case.eptp, vpid, address);
        match walk.ending {
            Ending::Translated(_) => {
                let [guest, ept] = pages.expect("two spans").map(|span| span as usize);
                spans[guest][ept] += 1;
            }
            Ending::ContextOutOfRange => contexts += 1,
            Ending::BadEptp(rule) => rules[rule as usize] += 1,
            Ending::NotCanonical => addresses += 1,
            Ending::Absent(at) => absent[at.guest_level as usize][at.ept_level as usize] += 1,
            Ending::TooHigh(at) => too_high[at.guest_level as usize] += 1,
            Ending::Outside(at) => outside[at.guest_level as usize][at.ept_level as usize] += 1,
        }
        whole += usize::from(walk.read == 24);
        longest = longest.max(image.len());
    }
    println!("absent {absent:?}, outside {outside:?}, too high {too_high:?}");
    println!("spans {spans:?}, rules {rules:?}, contexts {contexts}, addresses {addresses}");
    println!("24 entries: {whole}, longest image {longest}");
    assert_eq!((absent[0][0], outside[0][0], rules[0]), (0, 0, 0));
    assert!(absent.iter().flatten().skip(1).all(|count| *count >= 20));
    assert!(outside.iter().flatten().skip(1).all(|count| *count >= 20));
    assert!(too_high.iter().all(|count| *count >= 100));
    assert!(spans.iter().flatten().all(|count| *count >= 100));
    assert!(rules[1..].iter().all(|count| *count >= 100));
    assert!(contexts >= 300 && addresses >= 300 && whole >= 1_000);
    assert!(longest <= 32_776);
}

#[test]
fn tables_of_a_result() {
    let mut rng = Rng::new(SEED);
    let mut new = vec![0; TABLE_LIMIT];
    for result in (300..700).chain([TABLE_LIMIT - 1, TABLE_LIMIT]) {
        let mut context = generate::context(&mut rng);
        context.linear_width = 48;
        let table = table_of_result(&mut rng, &context, result);
        let widened = widen(&table, &mut new);
        assert_eq!((widened.answer, widened.length), (0, result));
        assert_eq!(generate::result_length(&table), result);
    }
}

#[test]
fn records_of_the_other_width() {
    let mut rng = Rng::new(SEED);
    for number in 0..2_000 {
        let mut context = generate::context(&mut rng);
        context.linear_width = LINEAR_WIDTHS[number % 2];
        let (own, other) = [(Bits48, Bits57), (Bits57, Bits48)][number % 2];
        for kind in kinds(context.linear_width) {
            let event = generate::event_of_kind(&mut rng, &context, kind);
            let changed = other_width(&event);
            let same = !is_mapping_kind(kind) || kind == 2 || kind == 5;
            assert_eq!(changed.is_none(), same, "kind {kind}");
            if let Some(changed) = changed {
                assert!(Mapping::decode(own, &event).is_some());
                assert!(Mapping::decode(other, &changed).is_some());
            }
        }
    }
    assert_eq!(other_width(&[]), None);
    assert_eq!(other_width(&[1, 0]), None);
}

/// Each ground of INVPCID's answer 7 alone: the CPL, the type, the reserved
/// bits, the address.
#[test]
fn every_ground_of_invpcid_is_reached() {
    let mut rng = Rng::new(SEED);
    let mut both = [[0; 4]; 2];
    for _ in 0..40_000 {
        let mut case = case(&mut rng);
        let step = step(&case.context, &case.table, &case.event, &mut case.new);
        if step.answer != 7 || case.event[0] != 26 {
            continue;
        }
        let place = place(case.context.linear_width).expect("a width in range");
        let number = |nth| field(&case.event, nth).unwrap_or(0);
        let (kind, low, address) = (number(0), number(1), number(2));
        let grounds = [
            case.context.cpl > 0,
            kind > 3,
            low >> 12 != 0,
            kind == 0 && address != canonical(case.context.linear_width, address),
        ];
        if grounds.iter().filter(|holds| **holds).count() == 1 {
            let alone = grounds.iter().position(|holds| *holds);
            both[place][alone.expect("a ground")] += 1;
        }
    }
    println!("grounds reached: {both:?}");
    assert!(both.iter().flatten().all(|count| *count >= 30));
}

#[test]
fn lookups_find() {
    let mut rng = Rng::new(SEED);
    let mut both = [[0; 4]; 2];
    let mut found = [0; 2];
    for _ in 0..40_000 {
        let query = query(&mut rng);
        let (answer, part) = lookup(&query.context, &query.table, query.address, query.k);
        let Some(place) = place(query.context.linear_width) else {
            assert_eq!(answer, 1);
            continue;
        };
        both[place][answer as usize] += 1;
        found[place] += usize::from(part.is_some());
    }
    println!("answers {both:?}, found {found:?}");
    assert!(both.iter().flatten().all(|count| *count >= 100));
    assert!(found.iter().all(|count| *count >= 1_000));
}

/// The reasons that the papers' tests leave possible for an event of a kind.
fn possible(kind: u8) -> &'static [u64] {
    match kind {
        16 => &[1, 4, 5, 8, 9, 10],
        17 => &[1, 4, 7, 10],
        18 => &[1, 3, 4, 5, 6, 8, 10],
        19 => &[1, 4, 5, 6, 7, 8, 10],
        20 | 21 => &[1, 2, 4, 5, 10],
        25 => &[1, 10],
        26 => &[1, 4, 5, 6, 8, 9, 10],
        27 => &[1, 4, 5, 6, 9, 10],
        _ => &[1, 2],
    }
}

/// What reasons were reached at one linear width.
#[derive(Default)]
struct Reasons {
    reached: [usize; 11],
    answers: [usize; 13],
    rules: [usize; 6],
    by_kind: [[usize; 11]; 28],
    /// The reasons of records of each kind.
    by_record: [[usize; 11]; 11],
}

impl Reasons {
    fn check(&self, linear_width: u64) {
        println!("{linear_width} bits");
        println!("reasons reached: {:?}", self.reached);
        println!("answers reached: {:?}", self.answers);
        println!("rules reached: {:?}", self.rules);
        assert!(self.reached[1..].iter().all(|count| *count >= 400));
        assert!(self.rules.iter().all(|count| *count >= 20));
        for (answer, count) in self.answers.iter().enumerate() {
            if answer == 2 || answer == 12 {
                assert_eq!(*count, 0, "answer {answer}");
            } else {
                assert!(*count >= 100, "answer {answer}");
            }
        }
        for kind in KINDS {
            let known = kinds(linear_width).contains(&kind);
            for reason in 1..=10 {
                let count = self.by_kind[usize::from(kind)][reason as usize];
                // A kind of the other width is refused.
                let possible = if known { possible(kind) } else { &[1] };
                let right = if possible.contains(&reason) {
                    count >= 10
                } else {
                    count == 0
                };
                assert!(right, "kind {kind}, reason {reason}: {count}");
            }
            if is_mapping_kind(kind) {
                let in_scope = self.by_record[usize::from(kind)][10];
                assert_eq!(in_scope >= 100, known, "records of kind {kind}");
            }
        }
    }
}

#[test]
fn every_reason_is_reached() {
    println!("seed {SEED}");
    let mut rng = Rng::new(SEED);
    let mut both = [Reasons::default(), Reasons::default()];
    for _ in 0..100_000 {
        let case = explain(&mut rng);
        let reason = model::explain(&case.context, &case.record, &case.event);
        let Some(place) = place(case.context.linear_width) else {
            assert_eq!(reason.answer(), 1);
            continue;
        };
        let number = reason.number() as usize;
        let counts = &mut both[place];
        counts.reached[number] += 1;
        counts.answers[reason.answer() as usize] += 1;
        counts.rules[reason.rule() as usize] += 1;
        let kind = |bytes: &[u8]| usize::from(*bytes.first().unwrap_or(&255));
        if let Some(counts) = counts.by_kind.get_mut(kind(&case.event)) {
            counts[number] += 1;
        }
        if let Some(counts) = counts.by_record.get_mut(kind(&case.record)) {
            counts[number] += 1;
        }
    }
    for (width, reasons) in LINEAR_WIDTHS.iter().zip(both) {
        reasons.check(*width);
    }
}

/// Runs start at both widths, and now and then at one that is out of range.
#[test]
fn every_start_is_reached() {
    let mut rng = Rng::new(SEED);
    let starts: Vec<u64> = (0..2_000)
        .map(|_| generate::start(&mut rng).linear_width)
        .collect();
    let count = |width| starts.iter().filter(|own| **own == width).count();
    assert!(LINEAR_WIDTHS.into_iter().all(|width| count(width) >= 500));
    assert!(BAD_LINEAR_WIDTHS.into_iter().all(|width| count(width) >= 1));
}

/// Logs that end at a whole record of the other width, and not at their end.
#[test]
fn logs_end_at_the_other_width() {
    let mut rng = Rng::new(SEED);
    for (linear_width, other) in [(48, Bits57), (57, Bits48)] {
        let mut ended = 0;
        for _ in 0..500 {
            let log = log(&mut rng, linear_width, 200);
            let mut rest = &log[..];
            while let Some(event) = model::replay::first_event(LinearWidth::of(linear_width), rest)
            {
                rest = &rest[event.len()..];
            }
            let next = model::replay::first_event(other, rest);
            ended += usize::from(next.is_some_and(|event| event.len() < rest.len()));
        }
        assert!(ended >= 10, "{ended} at {linear_width} bits");
    }
}

#[test]
fn the_same_seed_gives_the_same() {
    for seed in 0..20 {
        let (mut one, mut two) = (Rng::new(seed), Rng::new(seed));
        assert_eq!(format!("{}", case(&mut one)), format!("{}", case(&mut two)));
        let (ours, theirs) = (explain(&mut one), explain(&mut two));
        assert_eq!(format!("{ours}"), format!("{theirs}"));
        for width in [48, 57, 0] {
            assert_eq!(events(&mut one, width, 50), events(&mut two, width, 50));
            assert_eq!(log(&mut one, width, 500), log(&mut two, width, 500));
        }
        let (ours, theirs) = (widening(&mut one), widening(&mut two));
        assert_eq!(format!("{ours}"), format!("{theirs}"));
        for call in [generate::export, generate::import] {
            let (ours, theirs) = (call(&mut one), call(&mut two));
            assert_eq!(format!("{ours}"), format!("{theirs}"));
            assert_eq!(ours.output, theirs.output);
        }
        let claimed = |rng: &mut Rng| {
            let case = case(rng);
            generate::claim(rng, &case.context, &case.table, &case.table)
        };
        assert_eq!(claimed(&mut one), claimed(&mut two));
        let (ours, theirs) = (walk(&mut one), walk(&mut two));
        assert_eq!(format!("{ours}"), format!("{theirs}"));
    }
    assert_ne!(Rng::new(0).number(), Rng::new(1).number());
}

/// In each field there are near events, all bits of it and more.
#[test]
fn near_events_change_every_field() {
    let mut rng = Rng::new(SEED);
    let context = generate::context(&mut rng);
    for kind in KINDS {
        let event = generate::event_of_kind(&mut rng, &context, kind);
        let near = near_events(&event);
        for (nth, size) in sizes(kind).unwrap_or_default().iter().enumerate() {
            let changed = |near: &&Vec<u8>| field(near, nth) != field(&event, nth);
            let count = near.iter().filter(changed).count();
            assert!(count > 8 * size, "kind {kind}, field {nth}: {count}");
        }
        assert!(near.iter().all(|near| near.len() == event.len()));
    }
    assert!(near_events(&[16, 0]).is_empty() && near_events(&[]).is_empty());
}

#[test]
fn filling_logs_stay_within_the_limit() {
    let mut rng = Rng::new(SEED);
    for width in LINEAR_WIDTHS {
        for _ in 0..10 {
            let log = filling_log(&mut rng, width);
            assert!(log.len() <= LOG_LIMIT && log.len() > LOG_LIMIT - 25);
        }
    }
}
