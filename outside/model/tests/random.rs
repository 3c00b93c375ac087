//! The plain steps against the tuned ones and the book, and the tally that is
//! carried on against a fresh count, on random inputs. A failure prints the seed
//! and the case.

use generate::{case, events, filling_log, fragments, hex, level_case, level_query, log};
use generate::{query, removal, start, Rng};
use model::book::Book;
use model::event::Event;
use model::levels::{lookup_levels, step_levels, Level};
use model::mapping::records;
use model::replay::lines;
use model::stream::{finish, take, Reader};
use model::tally::carried;
use model::{count, counted_step, lookup, replay, step, tuned, usable, widen};
use model::{Address, Context, Line, Tally, TABLE_LIMIT};

const SEED: u64 = 20_260_101;

#[test]
fn steps() {
    println!("seed {SEED}");
    let mut rng = Rng::new(SEED);
    let mut reached = [0; 13];
    let mut rules = [0; 6];
    for number in 0..100_000 {
        let case = case(&mut rng);
        let mut plain = case.new.clone();
        let mut fast = case.new.clone();
        let expected = step(&case.context, &case.table, &case.event, &mut plain);
        let got = tuned::step(&case.context, &case.table, &case.event, &mut fast);
        let same = expected == got && plain == fast;
        assert!(
            same,
            "seed {SEED}, case {number}\n{case}\n{expected:?}\n{got:?}"
        );
        let touched = if expected.answer == 0 {
            expected.length
        } else {
            0
        };
        assert_eq!(plain[touched..], case.new[touched..], "{case}");
        reached[expected.answer as usize] += 1;
        rules[expected.rule as usize] += 1;
    }
    println!("answers reached: {reached:?}, rules: {rules:?}");
    assert!(reached.iter().all(|count| *count > 1_000));
    assert!(rules.iter().all(|count| *count > 200));
}

/// Counted steps, one in six with a wrong tally.
#[test]
fn counted_steps() {
    println!("seed {SEED}");
    let mut rng = Rng::new(SEED);
    let mut reached = [0; 14];
    for number in 0..40_000 {
        let case = case(&mut rng);
        let (context, table, event) = (&case.context, &case.table, &case.event);
        let before = case.tally.tally();
        let (mut after, mut pcids) = (before.clone(), before.pcids.clone());
        let mut plain = case.new.clone();
        let mut fast = case.new.clone();
        let expected = counted_step(context, &mut after, table, event, &mut plain);
        let got = tuned::counted_step(context, before.kinds, &mut pcids, table, event, &mut fast);
        let same = (expected, after.kinds) == got && after.pcids == pcids && plain == fast;
        assert!(
            same,
            "seed {SEED}, case {number}\n{case}\n{expected:?}\n{got:?}"
        );
        // Accepted, or refused on another ground, it is the step without a tally.
        if expected.answer != 13 {
            let mut new = case.new.clone();
            assert_eq!(step(context, table, event, &mut new), expected, "{case}");
            assert_eq!(new, plain, "{case}");
        }
        if expected.answer != 0 {
            assert!(after == before && plain == case.new, "{case}");
        }
        reached[expected.answer as usize] += 1;
    }
    println!("answers reached: {reached:?}");
    assert!(reached.iter().all(|count| *count > 400));
}

#[test]
fn lookups() {
    println!("seed {SEED}");
    let mut rng = Rng::new(SEED);
    let mut found = 0;
    for number in 0..50_000 {
        let query = query(&mut rng);
        let expected = lookup(&query.context, &query.table, query.address, query.k);
        let got = tuned::lookup(&query.context, &query.table, query.address, query.k);
        assert_eq!(expected, got, "seed {SEED}, query {number}\n{query}");
        found += usize::from(expected.1.is_some());
    }
    println!("found: {found}");
    assert!(found > 1_000);
}

#[test]
fn near_events_all() {
    // Every event one field away from a valid one, in a few contexts.
    let mut rng = Rng::new(SEED);
    let mut new = vec![0; 500];
    let mut other = new.clone();
    for _ in 0..40 {
        let context = generate::context(&mut rng);
        let table = generate::table(&mut rng, &context, 5);
        for kind in generate::KINDS {
            let event = generate::event_of_kind(&mut rng, &context, kind);
            for near in generate::near_events(&event) {
                let expected = step(&context, &table, &near, &mut new);
                let got = tuned::step(&context, &table, &near, &mut other);
                assert_eq!(expected, got, "{context:x?}\n{}", hex(&near));
                assert_eq!(new, other);
            }
            // The same bytes as a table, for mapping records.
            for near in generate::near_events(&event) {
                let expected = step(&context, &near, &[25], &mut new);
                let got = tuned::step(&context, &near, &[25], &mut other);
                assert_eq!(expected, got, "{context:x?}\n{}", hex(&near));
            }
        }
        for near in generate::near_contexts(&context) {
            let expected = step(&near, &table, &[25], &mut new);
            assert_eq!(expected, tuned::step(&near, &table, &[25], &mut other));
            if !near.in_range() {
                assert_eq!(expected.answer, 1);
            } else if near.linear_width == context.linear_width {
                assert_eq!(expected.answer, 0);
            } else {
                // Of the other width, unless all are of kinds 2 and 5.
                assert!(expected.answer == 0 || expected.answer == 3);
            }
        }
    }
}

/// One run of the counted step: the context, the table in force and its tally.
struct Run {
    context: Context,
    table: Vec<u8>,
    tally: Tally,
}

impl Run {
    fn new(start: &Context) -> Run {
        Run {
            context: *start,
            table: Vec::new(),
            tally: Tally::empty(),
        }
    }

    /// Answer, EPTP rule and dropped count of one event. The tally that is
    /// carried on must be the fresh count, and the plain step must agree.
    fn feed(&mut self, event: &[u8], room: usize) -> (u64, u64, usize) {
        let mut new = vec![0; room];
        let plain = step(&self.context, &self.table, event, &mut new);
        let mut counted = vec![0; room];
        let mut tally = self.tally.clone();
        let step = counted_step(&self.context, &mut tally, &self.table, event, &mut counted);
        assert_eq!(step, plain);
        assert!(counted == new);
        if step.answer == 0 {
            let decoded = Event::decode(self.context.linear(), event).unwrap();
            let carried = carried(&self.context, &self.tally, &self.table, &decoded);
            assert_eq!(carried, tally);
            new.truncate(step.length);
            self.table = new;
        } else {
            assert_eq!(tally, self.tally);
        }
        self.tally = tally;
        self.context = step.context;
        self.check_tally();
        (step.answer, step.rule, step.dropped)
    }

    fn check_tally(&self) {
        let fresh = count(self.context.linear(), &self.table);
        assert_eq!(fresh.as_ref(), Ok(&self.tally));
    }

    /// Takes records out of the table, and off the tally.
    fn take_out(&mut self, rng: &mut Rng) {
        let left = removal(rng, &self.table);
        let mut rest = &left[..];
        for (place, mapping) in records(self.context.linear(), &self.table).unwrap() {
            match rest.strip_prefix(&self.table[place]) {
                Some(after) => rest = after,
                None => self.tally.take_off(&mapping),
            }
        }
        assert!(rest.is_empty());
        self.table = left;
        self.check_tally();
    }
}

#[test]
fn runs_against_the_book() {
    println!("seed {SEED}");
    let mut rng = Rng::new(SEED);
    let mut dropped = 0;
    for number in 0..60 {
        let start = start(&mut rng);
        let mut run = Run::new(&start);
        let mut book = Book::new(&start);
        for event in events(&mut rng, start.linear_width, 250) {
            let room = TABLE_LIMIT + rng.below(3);
            let got = run.feed(&event, room);
            let verdict = book.feed(&event);
            let due = (verdict.answer, verdict.rule, verdict.dropped);
            let shown = || format!("seed {SEED}, run {number}: {}", hex(&event));
            assert_eq!(got, due, "{}", shown());
            assert_eq!(&run.context, book.context(), "{}", shown());
            assert_eq!(run.table, book.table(), "{}", shown());
            assert_eq!(book.standing(), book.standing_by_notes(), "{}", shown());
            dropped += got.2;
        }
    }
    println!("dropped: {dropped}");
    assert!(dropped > 500);
}

#[test]
fn second_runs() {
    println!("seed {SEED}");
    let mut rng = Rng::new(SEED);
    for number in 0..60 {
        let start = start(&mut rng);
        let width = start.linear_width;
        let mut first = Run::new(&start);
        let mut second = Run::new(&start);
        for event in events(&mut rng, width, 200) {
            let addresses: Vec<Address> =
                (0..4).map(|_| generate::address(&mut rng, width)).collect();
            in_order_parts(&first, &second, &addresses);
            second.take_out(&mut rng);
            in_order_parts(&first, &second, &addresses);
            let (answer, rule, _) = first.feed(&event, TABLE_LIMIT);
            let (other, other_rule, _) = second.feed(&event, TABLE_LIMIT);
            let shown = || format!("seed {SEED}, run {number}: {}", hex(&event));
            assert_ne!(answer, 12, "{}", shown());
            assert_eq!((answer, rule), (other, other_rule), "{}", shown());
            assert_eq!(first.context, second.context, "{}", shown());
            in_order_parts(&first, &second, &addresses);
        }
    }
}

/// The second run's usable records are an in-order part of the first's.
fn in_order_parts(first: &Run, second: &Run, addresses: &[Address]) {
    for address in addresses {
        let all = parts(first, *address);
        let mut rest = all.iter();
        for record in parts(second, *address) {
            assert!(rest.any(|own| *own == record));
        }
    }
}

fn parts(run: &Run, address: Address) -> Vec<&[u8]> {
    usable(&run.context, &run.table, address)
        .into_iter()
        .map(|place| &run.table[place])
        .collect()
}

fn tuned_replay(start: &Context, log: &[u8]) -> Option<Vec<Line>> {
    let (mut old, mut new) = (vec![0; TABLE_LIMIT], vec![0; TABLE_LIMIT]);
    let mut lines = Vec::new();
    tuned::replay(start, log, &mut old, &mut new, |line| lines.push(line)).then_some(lines)
}

/// The lines by the book: a third way to the same output.
fn book_replay(start: &Context, log: &[u8]) -> Vec<Line> {
    let mut book = Book::new(start);
    let mut lines = Vec::new();
    let mut rest = log;
    while !rest.is_empty() {
        let event = model::replay::first_event(start.linear(), rest);
        let verdict = book.feed(event.unwrap_or(rest));
        lines.push(Line {
            number: lines.len() as u64 + 1,
            answer: verdict.answer,
            dropped: verdict.dropped,
            length: book.table().len(),
        });
        match event {
            Some(event) => rest = &rest[event.len()..],
            None => break,
        }
    }
    lines
}

#[test]
fn logs() {
    println!("seed {SEED}");
    let mut rng = Rng::new(SEED);
    for number in 0..300 {
        let length = rng.below(3_000);
        let start = start(&mut rng);
        let log = log(&mut rng, start.linear_width, length);
        for start in [start, Context::program()] {
            let expected = lines(&start, &log);
            let shown = || format!("seed {SEED}, log {number}, {start:x?}: {}", hex(&log));
            assert_eq!(
                Some(&expected),
                tuned_replay(&start, &log).as_ref(),
                "{}",
                shown()
            );
            assert_eq!(expected, book_replay(&start, &log), "{}", shown());
        }
        assert_eq!(replay(&log), Some(lines(&Context::program(), &log)));
    }
}

#[test]
fn filling_logs() {
    println!("seed {SEED}");
    let mut rng = Rng::new(SEED);
    for number in 0..6 {
        for linear_width in [48, 57] {
            let start = Context {
                linear_width,
                ..Context::program()
            };
            let log = filling_log(&mut rng, linear_width);
            let got = tuned_replay(&start, &log).unwrap();
            assert!(got.iter().any(|line| line.answer == 12));
            assert!(got
                .iter()
                .any(|line| line.length == TABLE_LIMIT || line.length > TABLE_LIMIT - 17));
            // The plain model takes its time; one such log is enough.
            if number == 0 {
                assert_eq!(lines(&start, &log), got, "seed {SEED}");
                assert_eq!(book_replay(&start, &log), got, "seed {SEED}");
            }
        }
    }
}

/// The plain converter against the tuned one, on tables and buffers of every
/// sort.
#[test]
fn converters() {
    println!("seed {SEED}");
    let mut rng = Rng::new(SEED);
    let mut reached = [0; 13];
    for number in 0..20_000 {
        let case = generate::widening(&mut rng);
        let mut plain = case.new.clone();
        let mut fast = case.new.clone();
        let expected = widen(&case.table, &mut plain);
        let got = tuned::widen(&case.table, &mut fast);
        let shown = || format!("seed {SEED}, case {number}\n{case}");
        assert_eq!(expected, got, "{}", shown());
        assert_eq!(plain, fast, "{}", shown());
        assert_eq!(plain[expected.length..], case.new[expected.length..]);
        reached[expected.answer as usize] += 1;
    }
    println!("answers reached: {reached:?}");
    for answer in [0, 2, 3, 12] {
        assert!(reached[answer] > 500, "answer {answer}");
    }
}

/// Logs in fragments, through two buffers as long as those of a whole replay: the
/// same lines, table and context, and the tally is a fresh count after each event.
#[test]
fn fragments_of_logs() {
    println!("seed {SEED}");
    let mut rng = Rng::new(SEED);
    let mut events = 0;
    for number in 0..600 {
        let start = start(&mut rng);
        let log = match number % 10 {
            0 => rng.bytes(40),
            1 => generate::events(&mut rng, start.linear_width, 40).concat(),
            _ => log(&mut rng, start.linear_width, 1_500),
        };
        let (mut reader, mut tally) = (Reader::new(), Tally::empty());
        let (mut context, mut table) = (start, Vec::new());
        let mut got = Vec::new();
        for fragment in fragments(&mut rng, &log) {
            let mut rest = fragment;
            loop {
                let mut new = vec![0; TABLE_LIMIT];
                let taken = take(&reader, &context, &mut tally, &table, rest, &mut new);
                assert!(taken.taken <= rest.len() && taken.reader.length <= 24);
                reader = taken.reader;
                rest = &rest[taken.taken..];
                if let Some(step) = taken.finished {
                    if step.answer == 0 {
                        context = step.context;
                        table = new[..step.length].to_vec();
                    }
                    assert_eq!(count(context.linear(), &table).as_ref(), Ok(&tally));
                    got.push(Line {
                        number: reader.line,
                        answer: step.answer,
                        dropped: step.dropped,
                        length: table.len(),
                    });
                }
                if rest.is_empty() {
                    break;
                }
            }
        }
        let end = finish(&reader, &context, &table);
        got.extend(end.answer.map(|answer| Line {
            number: end.reader.line,
            answer,
            dropped: 0,
            length: table.len(),
        }));
        assert_eq!(got, lines(&start, &log), "seed {SEED}, log {number}");
        events += got.len();
    }
    assert!(events > 20_000, "{events} events");
}

/// Two levels against the tuned steps of each table alone: accepted if both are, and
/// else neither is written.
#[test]
fn two_levels() {
    println!("seed {SEED}");
    let mut rng = Rng::new(SEED);
    let mut reached = [0; 3];
    for number in 0..20_000 {
        let case = level_case(&mut rng);
        let (context, event) = (&case.context, &case.event);
        let before = case.levels.clone().map(|level| {
            let new = vec![0xA5; level.new];
            (level.tally.tally(), level.table, new)
        });
        let alone = before.clone().map(|(mut tally, table, mut new)| {
            let (kinds, pcids) = (tally.kinds, &mut tally.pcids);
            let (step, kinds) = tuned::counted_step(context, kinds, pcids, &table, event, &mut new);
            tally.kinds = kinds;
            (step, tally, new)
        });
        let [mut one, mut two] = before.clone();
        let step = step_levels(
            context,
            event,
            Level {
                tally: &mut one.0,
                table: &one.1,
                new: &mut one.2,
            },
            Level {
                tally: &mut two.0,
                table: &two.1,
                new: &mut two.2,
            },
        );
        let at = || format!("seed {SEED}, case {number}\n{case:x?}\n{step:?}");
        let refused = alone.iter().find(|(step, ..)| step.answer != 0);
        if let Some((first, ..)) = refused {
            assert_eq!(
                (step.answer, step.rule),
                (first.answer, first.rule),
                "{}",
                at()
            );
            assert!(step.context == *context && [one, two] == before, "{}", at());
            let refused_first = alone[0].0.answer != 0;
            reached[if refused_first { 1 } else { 2 }] += 1;
        } else {
            assert_eq!((step.answer, step.rule), (0, 0), "{}", at());
            for ((own, (due, tally, new)), after) in
                [one, two].iter().zip(&alone).zip([step.first, step.second])
            {
                assert_eq!((after.length, after.dropped), (due.length, due.dropped));
                assert_eq!(step.context, due.context);
                assert!(own.0 == *tally && own.2 == *new, "{}", at());
            }
            reached[0] += 1;
        }
    }
    println!("accepted, refused for the first, for the second: {reached:?}");
    assert!(reached.iter().all(|count| *count > 500));
}

/// The first translation of the first level, or else of the second, by the lookups of
/// one table.
#[test]
fn lookups_in_two_levels() {
    let mut rng = Rng::new(SEED);
    let mut reached = [0; 3];
    for _ in 0..20_000 {
        let query = level_query(&mut rng);
        let (context, [first, second]) = (&query.context, &query.tables);
        let address = Address::Linear(query.address);
        let (answer, found) = lookup_levels(context, first, second, query.address);
        let answers = [first, second].map(|table| lookup(context, table, address, 0).0);
        let refused = answers.into_iter().find(|answer| *answer != 0);
        assert_eq!(answer, refused.unwrap_or(0));
        let translations = |table: &Vec<u8>| -> Vec<std::ops::Range<usize>> {
            let mut all = usable(context, table, address);
            all.retain(|place| matches!(table[place.start], 1 | 3 | 7 | 8));
            all
        };
        let due = match (refused, translations(first), translations(second)) {
            (Some(_), ..) => None,
            (_, one, _) if !one.is_empty() => Some((1, one[0].clone())),
            (_, _, two) => two.first().map(|place| (2, place.clone())),
        };
        assert_eq!(found.map(|found| (found.level, found.place)), due);
        reached[due.map_or(0, |(level, _)| level as usize)] += 1;
    }
    assert!(reached.iter().all(|count| *count > 500), "{reached:?}");
}

/// The plain rows against the tuned ones, out and in, on inputs and buffers of
/// every sort, and back again where the call is accepted.
#[test]
fn fixed_rows() {
    println!("seed {SEED}");
    type Call = fn(u64, &[u8], &mut [u8]) -> model::Converted;
    type Draw = fn(&mut Rng) -> generate::RowsCall;
    let mut rng = Rng::new(SEED);
    let ways: [(Draw, [Call; 2], Call); 2] = [
        (
            generate::export,
            [model::export, tuned::export],
            model::import,
        ),
        (
            generate::import,
            [model::import, tuned::import],
            model::export,
        ),
    ];
    for (draw, [plainly, fast], back) in ways {
        let mut reached = [0; 13];
        for number in 0..20_000 {
            let call = draw(&mut rng);
            let mut plain = call.output.clone();
            let mut tuned = call.output.clone();
            let expected = plainly(call.linear_width, &call.input, &mut plain);
            let got = fast(call.linear_width, &call.input, &mut tuned);
            let shown = || format!("seed {SEED}, case {number}\n{call}");
            assert_eq!(expected, got, "{}", shown());
            assert_eq!(plain, tuned, "{}", shown());
            assert_eq!(plain[expected.length..], call.output[expected.length..]);
            reached[expected.answer as usize] += 1;
            if expected.answer == 0 {
                let mut again = vec![0; call.input.len()];
                let written = &plain[..expected.length];
                let returned = back(call.linear_width, written, &mut again);
                assert_eq!((returned.answer, returned.length), (0, again.len()));
                assert_eq!(again, call.input, "{}", shown());
            }
        }
        println!("answers reached: {reached:?}");
        assert!(reached[0] > 5_000 && reached[1] > 500 && reached[12] > 500);
    }
}
