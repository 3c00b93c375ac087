//! A quick set of comparisons from fixed seeds. A failure prints the case.

use differential::explain::ExplainCase;
use differential::step::StepCase;
use differential::work::{self, Work};
use differential::{draw, sweep, Case, Failure, Reached};
use generate::{kinds, Rng};

const SEED: u64 = 20_260_101;

/// Does some work so many times.
fn compare(times: u64, work: Work) -> Reached {
    println!("seed {SEED}");
    let mut reached = Reached::default();
    for number in 0..times {
        let mut rng = Rng::new(SEED + number);
        passed(work(&mut rng, &mut reached));
    }
    println!("{reached}");
    reached
}

fn passed(result: Result<(), Failure>) {
    if let Err(failure) = result {
        let failure = failure.shrink();
        panic!("{}\n\nDIFFERENT: {}", failure.case, failure.why);
    }
}

/// Compares the cases of a sweep over steps, drawn so many times.
fn sweep_steps(times: usize, sweep: fn(&mut Rng) -> Vec<StepCase>) -> Reached {
    println!("seed {SEED}");
    let mut rng = Rng::new(SEED);
    let mut reached = Reached::default();
    for _ in 0..times {
        for case in sweep(&mut rng) {
            passed(Case::Step(case).compare(&mut reached));
        }
    }
    println!("{reached}");
    reached
}

#[test]
fn steps_of_every_answer() {
    let reached = compare(480, work::steps);
    for (width, counts) in reached.both() {
        assert!(counts.steps.iter().all(|count| *count > 1_000));
        assert!(counts.counted.iter().all(|count| *count > 800));
        assert!(counts.rules.iter().all(|count| *count > 200));
        for (answer, count) in counts.instead.iter().enumerate() {
            assert_eq!(*count > 100, !(1..=4).contains(&answer), "answer {answer}");
        }
        assert!(counts.dropping > 1_000);
        for kind in kinds(width) {
            assert!(counts.accepted[usize::from(kind)] > 100, "kind {kind}");
        }
    }
}

#[test]
fn every_event_near_a_bound() {
    let reached = sweep_steps(14, sweep::near_events);
    for (_, counts) in reached.both() {
        for answer in [0, 3, 4] {
            assert!(counts.steps[answer] > 1_000, "answer {answer}");
        }
    }
}

#[test]
fn every_context_near_a_bound() {
    let reached = sweep_steps(14, sweep::near_contexts);
    for (_, counts) in reached.both() {
        assert!(counts.steps[0] > 1_000 && counts.steps[1] > 1_000);
    }
}

#[test]
fn every_kind_in_every_place() {
    let reached = sweep_steps(10, sweep::matrix);
    for (_, counts) in reached.both() {
        for answer in [0, 4, 5, 6, 7, 8, 9, 10, 11] {
            assert!(counts.steps[answer] > 50, "answer {answer}");
        }
    }
}

#[test]
fn new_buffers_of_every_length() {
    let reached = sweep_steps(300, sweep::rooms);
    for (_, counts) in reached.both() {
        assert!(counts.steps[0] > 1_000 && counts.steps[12] > 1_000);
    }
}

/// Each count wrong in turn, lists of another length, and fresh counts.
#[test]
fn tallies_wrong_in_every_way() {
    let reached = compare(160, work::tallies);
    let both = reached.both();
    for (_, counts) in both {
        assert!(counts.counted[13] > 5_000 && counts.counted[0] > 100);
        for answer in [0, 2, 3, 13] {
            assert!(counts.counts[answer] > 50, "answer {answer}");
        }
    }
    for answer in [0, 5, 6, 7, 8, 9, 10, 11, 12] {
        let instead: u64 = both.map(|(_, counts)| counts.instead[answer]).iter().sum();
        assert!(instead > 500, "answer {answer}");
    }
}

#[test]
fn addresses_at_the_ends_of_records() {
    let reached = sweep_steps(300, sweep::edge_events);
    for (_, counts) in reached.both() {
        assert!(counts.steps[0] > 1_000 && counts.dropping > 1_000);
    }
}

#[test]
fn lookups_for_all_k() {
    let reached = compare(200, work::lookups);
    for (_, counts) in reached.both() {
        assert!(counts.lookups.iter().all(|count| *count > 300));
        assert!(counts.found > 5_000);
    }
}

#[test]
fn explanations_of_every_reason() {
    let reached = compare(100, work::explains);
    for (_, counts) in reached.both() {
        assert!(counts.reasons[1..].iter().all(|count| *count > 500));
        assert!(counts.reason_rules.iter().all(|count| *count > 50));
        for (answer, count) in counts.refusals.iter().enumerate() {
            if answer == 2 || answer == 12 {
                assert_eq!(*count, 0);
            } else {
                assert!(*count > 200);
            }
        }
    }
}

/// Any table and event of a step, one record or many, as an explanation.
#[test]
fn explanations_of_whole_tables() {
    let mut rng = Rng::new(SEED);
    let mut reached = Reached::default();
    for _ in 0..20_000 {
        let case = ExplainCase::from(draw::step(&mut rng));
        passed(Case::Explain(case).compare(&mut reached));
    }
    // Most tables are not one record.
    for (_, counts) in reached.both() {
        assert!(counts.refusals[3] > 5_000 && counts.reasons[10] > 50);
    }
}

/// Every judgement, and every refusal with every rule of an EPTP.
#[test]
fn claims_of_every_judgement() {
    let reached = compare(120, work::claims);
    for (_, counts) in reached.both() {
        assert!(counts.claims.iter().all(|count| *count > 1_000));
        assert!(counts.part_matched > 1_000);
        for (answer, count) in counts.claim_answers.iter().enumerate() {
            assert!(*count > 20, "answer {answer}: {count}");
        }
        for (rule, count) in counts.claim_rules.iter().enumerate() {
            assert!(*count > 5, "rule {rule}: {count}");
        }
    }
}

#[test]
fn long_runs_by_the_book() {
    let reached = compare(60, work::runs);
    assert_eq!(reached.runs, 60);
    for (_, counts) in reached.both() {
        assert!(counts.dropped > 1_000);
        assert_eq!(counts.run_steps[13], 0);
        assert_eq!(counts.counts[0], counts.run_steps.iter().sum::<u64>());
    }
}

#[test]
fn replays_of_logs() {
    let reached = compare(60, work::replays);
    assert!(reached.replays > 2_000);
    for (_, counts) in reached.both() {
        assert!(counts.rows[0] > 5_000);
    }
}

/// Whether two tables can have these answers alone, for one context and event.
fn is_possible(one: usize, other: usize) -> bool {
    // What is said of a table or its tally, and what of the context and the event.
    let [small, large] = [one.min(other), one.max(other)];
    match (small, large) {
        (1, _) => large == 1,
        (2 | 3, _) => true,
        (0, _) => matches!(large, 0 | 2 | 3 | 12 | 13),
        (4, _) => large == 4,
        (_, 13) => true,
        _ => small == large,
    }
}

/// Every pair of answers that two tables can have, and lookups at either level.
#[test]
fn two_levels_of_every_pair() {
    let reached = compare(320, work::levels);
    for (width, counts) in reached.both() {
        let levels = &counts.levels;
        for one in 0..14 {
            for other in 0..14 {
                let count = levels.pairs[one][other];
                let possible = is_possible(one, other);
                assert_eq!(count > 4, possible, "{width} bits: {one}, {other}: {count}");
                assert_eq!(count > 0, possible, "{one}, {other}");
            }
        }
        assert!(levels.rules.iter().all(|count| *count > 20));
        assert!(levels.dropped_apart > 500);
        for one in 0..4 {
            for other in 0..4 {
                let count = levels.lookups[one][other];
                let possible = (one == 1) == (other == 1);
                assert_eq!(count > 1, possible, "{width} bits: {one}, {other}: {count}");
            }
        }
        assert!(levels.found.iter().all(|count| *count > 500));
        assert!(levels.behind > 500);
    }
}

/// Runs with records taken out at both levels, by the book.
#[test]
fn runs_of_two_levels() {
    let reached = compare(60, work::level_runs);
    assert_eq!(reached.level_runs, 60);
    for (_, counts) in reached.both() {
        let levels = &counts.levels;
        assert_eq!(levels.run_steps[13], 0);
        assert!(levels.run_steps[0] > 1_000 && levels.run_steps[12] > 10);
        assert!(levels.found[1] > 20 && levels.found[2] > 5);
    }
}

#[test]
fn two_levels_that_fill_the_tables() {
    let mut rng = Rng::new(SEED);
    let mut reached = Reached::default();
    for _ in 0..2 {
        passed(Case::LevelRun(draw::filling_level_run(&mut rng)).compare(&mut reached));
    }
    let filled: u64 = reached
        .both()
        .map(|(_, counts)| counts.levels.run_steps[12])
        .iter()
        .sum();
    assert!(filled > 0);
}

/// Every answer of an event in fragments, every count of bytes held before it, and
/// readers that ignore for every cause.
#[test]
fn fragments_of_every_answer() {
    let reached = compare(160, work::streams);
    assert!(reached.streams > 1_600);
    for (_, counts) in reached.both() {
        let streams = &counts.streams;
        for (answer, count) in streams.takes.iter().enumerate() {
            assert!(*count > 100, "answer {answer}: {count}");
        }
        for (held, count) in streams.before.iter().enumerate() {
            assert!(*count > 10, "{held} held: {count}");
        }
        for answer in 1..=4 {
            assert!(streams.unknown[answer] > 10, "answer {answer}");
            assert!(streams.cut[answer] > 100, "answer {answer}");
        }
        assert!(streams.held > 1_000 && streams.none > 500);
        assert!(streams.too_many > 200 && streams.no_beginning > 200);
        assert!(streams.ignored > 2_000 && streams.finish_ignored > 1_000);
        assert!(streams.not_cut > 1_000 && streams.last_line > 500);
    }
}

/// A log with every kind of event, cut after each of its bytes.
#[test]
fn logs_cut_anywhere() {
    let mut rng = Rng::new(SEED);
    let mut reached = Reached::default();
    for _ in 0..12 {
        for case in sweep::cut_streams(&mut rng) {
            passed(Case::Stream(case).compare(&mut reached));
        }
    }
    println!("{reached}");
    for (_, counts) in reached.both() {
        assert!(counts.streams.takes[0] > 1_000 && counts.streams.takes[12] > 100);
        assert!(counts.streams.cut[4] > 500);
    }
}

/// Logs that fill the table, in fragments.
#[test]
fn fragments_that_fill_the_table() {
    let mut rng = Rng::new(SEED);
    let mut reached = Reached::default();
    for _ in 0..4 {
        passed(Case::Stream(draw::filling_stream(&mut rng)).compare(&mut reached));
    }
    let filled: u64 = reached
        .both()
        .map(|(_, counts)| counts.streams.takes[12])
        .iter()
        .sum();
    assert!(filled > 0);
}

#[test]
fn runs_that_fill_the_table() {
    let mut rng = Rng::new(SEED);
    let mut reached = Reached::default();
    for _ in 0..4 {
        passed(Case::Run(draw::filling_run(&mut rng)).compare(&mut reached));
    }
    for (_, counts) in reached.both() {
        assert!(counts.run_steps[12] > 0);
    }
}

#[test]
fn replays_that_fill_the_table() {
    let mut rng = Rng::new(SEED);
    let mut reached = Reached::default();
    for _ in 0..4 {
        passed(Case::Replay(draw::filling_replay(&mut rng)).compare(&mut reached));
    }
    for (_, counts) in reached.both() {
        assert!(counts.rows[12] > 0);
    }
}

#[test]
fn conversions_of_every_answer() {
    let reached = compare(60, work::widenings);
    for answer in [0, 2, 3, 12] {
        assert!(reached.widened[answer] > 50, "answer {answer}");
    }
}

/// Every answer of both calls, bad lengths, bad rows behind good ones, and buffers that
/// are just long enough.
#[test]
fn fixed_rows_of_every_answer() {
    let reached = compare(120, work::rows);
    for (width, counts) in reached.both() {
        for answer in [0, 2, 3, 12] {
            assert!(counts.exports[answer] > 30, "{answer} at {width} bits");
        }
        for answer in [0, 4, 12] {
            assert!(counts.imports[answer] > 100, "{answer} at {width} bits");
        }
        assert!(counts.bad_lengths > 100 && counts.later_rows > 100);
        assert!(counts.exact.iter().all(|count| *count > 100));
    }
    let others = reached.others();
    assert!(others.exports[1] > 100 && others.imports[1] > 100);
}

/// Every ground at every pair of levels, every pair of page sizes, every count of
/// entries, and images that end in an entry.
#[test]
fn walks_of_every_ending() {
    let reached = compare(120, work::walks);
    for (_, counts) in reached.both() {
        assert!(counts.walks.iter().all(|count| *count > 500));
    }
    let walks = &reached.walks;
    for guest in 0..5 {
        assert!(walks.too_high[guest] > 50, "{guest}");
        for ept in 0..5 {
            let spot = (guest, ept);
            let known = spot != (0, 0);
            assert_eq!(walks.absent[guest][ept] > 20, known, "{spot:?}");
            assert_eq!(walks.outside[guest][ept] > 20, known, "{spot:?}");
        }
    }
    assert!(walks.spans.iter().flatten().all(|count| *count > 50));
    assert!(walks.rules[1..].iter().all(|count| *count > 50));
    assert!(walks.read.iter().all(|count| *count > 50));
    assert!(walks.global > 500 && walks.short > 500);
    assert!(walks.last_bytes > 200 && walks.one_past > 200);
}
