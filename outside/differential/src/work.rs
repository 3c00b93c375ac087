//! What is compared, and how much of each.

use crate::case::{Case, Failure};
use crate::reached::Reached;
use crate::rows::Way;
use crate::{draw, sweep};
use generate::Rng;

/// A sort of work; each draws its own cases and compares them.
pub type Work = fn(&mut Rng, &mut Reached) -> Result<(), Failure>;

fn all<T>(cases: Vec<T>, case: fn(T) -> Case, reached: &mut Reached) -> Result<(), Failure> {
    for one in cases {
        case(one).compare(reached)?;
    }
    Ok(())
}

/// A few hundred single steps.
pub fn steps(rng: &mut Rng, reached: &mut Reached) -> Result<(), Failure> {
    for _ in 0..250 {
        Case::Step(draw::step(rng)).compare(reached)?;
    }
    Ok(())
}

/// Events, contexts, capabilities, rooms and addresses at their bounds.
fn near_steps(rng: &mut Rng, reached: &mut Reached) -> Result<(), Failure> {
    let sweep = rng.pick(&[
        sweep::near_events as fn(&mut Rng) -> _,
        sweep::near_contexts,
        sweep::matrix,
    ]);
    if rng.one_in(2) {
        all(sweep(rng), Case::Step, reached)?;
    }
    for _ in 0..3 {
        all(sweep::rooms(rng), Case::Step, reached)?;
        all(sweep::edge_events(rng), Case::Step, reached)?;
    }
    Ok(())
}

/// Tallies wrong in every way, and fresh counts.
pub fn tallies(rng: &mut Rng, reached: &mut Reached) -> Result<(), Failure> {
    for _ in 0..2 {
        all(sweep::near_counts(rng), Case::Step, reached)?;
    }
    for _ in 0..50 {
        Case::Count(draw::count(rng)).compare(reached)?;
    }
    if rng.one_in(8) {
        all(sweep::near_counted(rng), Case::Count, reached)?;
    }
    Ok(())
}

/// Lookups, random and at the bounds.
pub fn lookups(rng: &mut Rng, reached: &mut Reached) -> Result<(), Failure> {
    for _ in 0..100 {
        Case::Lookup(draw::lookup(rng)).compare(reached)?;
    }
    all(sweep::edge_lookups(rng), Case::Lookup, reached)?;
    all(sweep::near_lookups(rng), Case::Lookup, reached)
}

/// Explanations, random and at the bounds.
pub fn explains(rng: &mut Rng, reached: &mut Reached) -> Result<(), Failure> {
    for _ in 0..800 {
        Case::Explain(draw::explain(rng)).compare(reached)?;
    }
    for _ in 0..2 {
        all(sweep::near_explains(rng), Case::Explain, reached)?;
    }
    for _ in 0..8 {
        all(sweep::edge_explains(rng), Case::Explain, reached)?;
    }
    Ok(())
}

/// Claimed tables, random and one change away from a lawful one.
pub fn claims(rng: &mut Rng, reached: &mut Reached) -> Result<(), Failure> {
    for _ in 0..100 {
        Case::Claim(draw::claim(rng)).compare(reached)?;
    }
    all(sweep::near_claims(rng), Case::Claim, reached)?;
    if rng.one_in(4) {
        all(sweep::near_judgements(rng), Case::Claim, reached)?;
    }
    Ok(())
}

/// A run of some hundreds of events.
pub fn runs(rng: &mut Rng, reached: &mut Reached) -> Result<(), Failure> {
    let count = 100 + rng.below(400);
    Case::Run(draw::run(rng, count)).compare(reached)
}

/// Replays of short logs, and one log cut at every byte.
pub fn replays(rng: &mut Rng, reached: &mut Reached) -> Result<(), Failure> {
    for _ in 0..20 {
        Case::Replay(draw::replay(rng, 3_000)).compare(reached)?;
    }
    all(sweep::cut_logs(rng), Case::Replay, reached)
}

/// Steps and lookups of two levels.
pub fn levels(rng: &mut Rng, reached: &mut Reached) -> Result<(), Failure> {
    for _ in 0..150 {
        Case::Level(draw::level(rng)).compare(reached)?;
    }
    for _ in 0..100 {
        Case::LevelLookup(draw::level_lookup(rng)).compare(reached)?;
    }
    all(sweep::level_rooms(rng), Case::Level, reached)?;
    all(sweep::level_edges(rng), Case::LevelLookup, reached)?;
    if rng.one_in(4) {
        let (steps, lookups) = sweep::near_levels(rng);
        all(steps, Case::Level, reached)?;
        all(lookups, Case::LevelLookup, reached)?;
    }
    Ok(())
}

/// A run of two levels.
pub fn level_runs(rng: &mut Rng, reached: &mut Reached) -> Result<(), Failure> {
    let count = 30 + rng.below(150);
    Case::LevelRun(draw::level_run(rng, count)).compare(reached)
}

/// Calls of a reader, and logs in fragments.
pub fn streams(rng: &mut Rng, reached: &mut Reached) -> Result<(), Failure> {
    for _ in 0..120 {
        Case::Take(draw::take(rng)).compare(reached)?;
    }
    for _ in 0..10 {
        Case::Stream(draw::stream(rng, 1_500)).compare(reached)?;
    }
    if rng.one_in(4) {
        all(sweep::near_readers(rng), Case::Take, reached)?;
        all(sweep::near_takes(rng), Case::Take, reached)?;
    }
    if rng.one_in(16) {
        all(sweep::cut_streams(rng), Case::Stream, reached)?;
    }
    Ok(())
}

/// Conversions, random and at the bounds.
pub fn widenings(rng: &mut Rng, reached: &mut Reached) -> Result<(), Failure> {
    for _ in 0..50 {
        Case::Widen(draw::widen(rng)).compare(reached)?;
    }
    all(sweep::widening_rooms(rng), Case::Widen, reached)?;
    all(sweep::near_widenings(rng), Case::Widen, reached)
}

/// Tables as fixed rows and back, random and at the bounds.
pub fn rows(rng: &mut Rng, reached: &mut Reached) -> Result<(), Failure> {
    for _ in 0..40 {
        Case::Rows(draw::rows(rng, Way::Export)).compare(reached)?;
        Case::Rows(draw::rows(rng, Way::Import)).compare(reached)?;
    }
    all(sweep::rows_rooms(rng), Case::Rows, reached)?;
    if rng.one_in(4) {
        all(sweep::near_exports(rng), Case::Rows, reached)?;
        all(sweep::near_imports(rng), Case::Rows, reached)?;
    }
    Ok(())
}

/// Walks, random and at the bounds.
pub fn walks(rng: &mut Rng, reached: &mut Reached) -> Result<(), Failure> {
    for _ in 0..400 {
        Case::Walk(draw::walk(rng)).compare(reached)?;
    }
    all(sweep::cut_images(rng), Case::Walk, reached)?;
    if rng.one_in(8) {
        all(sweep::near_walks(rng), Case::Walk, reached)?;
    }
    Ok(())
}

/// A run, one of two levels, a replay or a log in fragments that fills the table.
fn filling(rng: &mut Rng, reached: &mut Reached) -> Result<(), Failure> {
    match rng.below(4) {
        0 => Case::Run(draw::filling_run(rng)).compare(reached),
        1 => Case::Replay(draw::filling_replay(rng)).compare(reached),
        2 => Case::LevelRun(draw::filling_level_run(rng)).compare(reached),
        _ => Case::Stream(draw::filling_stream(rng)).compare(reached),
    }
}

/// The work of one round.
const ROUND: [Work; 17] = [
    steps, near_steps, tallies, lookups, claims, steps, runs, replays, steps, lookups, explains,
    rows, widenings, walks, streams, levels, level_runs,
];

/// Once in so many rounds a table is filled.
const FILLING: u64 = 100;

/// One round of work, drawn from a seed and the round's number, so that a
/// round can be drawn again by itself.
pub fn round(seed: u64, number: u64, reached: &mut Reached) -> Result<(), Failure> {
    let mut rng = Rng::new(seed ^ number.wrapping_mul(0xD6E8_FEB8_6659_FD93));
    for work in ROUND {
        work(&mut rng, reached)?;
    }
    if number % FILLING == FILLING / 2 {
        filling(&mut rng, reached)?;
    }
    Ok(())
}
