//! Cases: what is compared, as text that can be replayed.

use crate::claim::ClaimCase;
use crate::count::CountCase;
use crate::explain::ExplainCase;
use crate::level::{LevelCase, LevelLookupCase};
use crate::level_run::LevelRunCase;
use crate::lookup::LookupCase;
use crate::reached::Reached;
use crate::replay::ReplayCase;
use crate::rows::RowsCase;
use crate::run::RunCase;
use crate::step::StepCase;
use crate::stream::StreamCase;
use crate::take::TakeCase;
use crate::walk::WalkCase;
use crate::widen::WidenCase;
use model::LinearWidth;
use std::fmt;
use std::time::{Duration, Instant};

/// Any case.
#[derive(Clone, Debug, PartialEq, Eq)]
pub enum Case {
    Step(StepCase),
    Count(CountCase),
    Lookup(LookupCase),
    Explain(ExplainCase),
    Claim(ClaimCase),
    Run(RunCase),
    Replay(ReplayCase),
    Level(LevelCase),
    LevelLookup(LevelLookupCase),
    LevelRun(LevelRunCase),
    Take(TakeCase),
    Stream(StreamCase),
    Rows(RowsCase),
    Widen(WidenCase),
    Walk(WalkCase),
}

/// A case in which the library differs from the model, and in what.
#[derive(Clone, Debug)]
pub struct Failure {
    pub case: Box<Case>,
    pub why: String,
}

impl Case {
    /// Compares the library with the model.
    pub fn check(&self, reached: &mut Reached) -> Result<(), String> {
        match self {
            Case::Step(case) => case.check(reached),
            Case::Count(case) => case.check(reached),
            Case::Lookup(case) => case.check(reached),
            Case::Explain(case) => case.check(reached),
            Case::Claim(case) => case.check(reached),
            Case::Run(case) => case.check(reached),
            Case::Replay(case) => case.check(reached),
            Case::Level(case) => case.check(reached),
            Case::LevelLookup(case) => case.check(reached),
            Case::LevelRun(case) => case.check(reached),
            Case::Take(case) => case.check(reached),
            Case::Stream(case) => case.check(reached),
            Case::Rows(case) => case.check(reached),
            Case::Widen(case) => case.check(reached),
            Case::Walk(case) => case.check(reached),
        }
    }

    /// The same, with the case itself if they differ.
    pub fn compare(self, reached: &mut Reached) -> Result<(), Failure> {
        match self.check(reached) {
            Ok(()) => Ok(()),
            Err(why) => {
                let case = Box::new(self);
                Err(Failure { case, why })
            }
        }
    }

    /// Cases with a part taken out, larger parts first.
    fn smaller(&self) -> Vec<Case> {
        match self {
            Case::Step(case) => case.smaller().into_iter().map(Case::Step).collect(),
            Case::Count(case) => case.smaller().into_iter().map(Case::Count).collect(),
            Case::Lookup(case) => case.smaller().into_iter().map(Case::Lookup).collect(),
            Case::Explain(case) => case.smaller().into_iter().map(Case::Explain).collect(),
            Case::Claim(case) => case.smaller().into_iter().map(Case::Claim).collect(),
            Case::Run(case) => case.smaller().into_iter().map(Case::Run).collect(),
            Case::Replay(case) => case.smaller().into_iter().map(Case::Replay).collect(),
            Case::Level(case) => case.smaller().into_iter().map(Case::Level).collect(),
            Case::LevelLookup(case) => {
                let smaller = case.smaller().into_iter();
                smaller.map(Case::LevelLookup).collect()
            }
            Case::LevelRun(case) => case.smaller().into_iter().map(Case::LevelRun).collect(),
            Case::Take(case) => case.smaller().into_iter().map(Case::Take).collect(),
            Case::Stream(case) => case.smaller().into_iter().map(Case::Stream).collect(),
            Case::Rows(case) => case.smaller().into_iter().map(Case::Rows).collect(),
            Case::Widen(case) => case.smaller().into_iter().map(Case::Widen).collect(),
            Case::Walk(case) => case.smaller().into_iter().map(Case::Walk).collect(),
        }
    }
}

impl fmt::Display for Case {
    fn fmt(&self, f: &mut fmt::Formatter) -> fmt::Result {
        match self {
            Case::Step(case) => case.fmt(f),
            Case::Count(case) => case.fmt(f),
            Case::Lookup(case) => case.fmt(f),
            Case::Explain(case) => case.fmt(f),
            Case::Claim(case) => case.fmt(f),
            Case::Run(case) => case.fmt(f),
            Case::Replay(case) => case.fmt(f),
            Case::Level(case) => case.fmt(f),
            Case::LevelLookup(case) => case.fmt(f),
            Case::LevelRun(case) => case.fmt(f),
            Case::Take(case) => case.fmt(f),
            Case::Stream(case) => case.fmt(f),
            Case::Rows(case) => case.fmt(f),
            Case::Widen(case) => case.fmt(f),
            Case::Walk(case) => case.fmt(f),
        }
    }
}

impl Failure {
    /// A smaller case that fails too, sought for a few seconds.
    pub fn shrink(mut self) -> Failure {
        let start = Instant::now();
        'again: loop {
            for case in self.case.smaller() {
                if start.elapsed() > Duration::from_secs(5) {
                    return self;
                }
                if let Err(failure) = case.compare(&mut Reached::default()) {
                    self = failure;
                    continue 'again;
                }
            }
            return self;
        }
    }
}

/// The parts that may be taken out of so many things: halves, quarters and
/// so on, down to single ones; of many things no smaller parts than some hundredth,
/// since each is a copy of all the others.
pub fn parts(count: usize) -> Vec<std::ops::Range<usize>> {
    let mut parts = Vec::new();
    let mut size = count;
    while size > count / 128 {
        for start in (0..count).step_by(size) {
            parts.push(start..count.min(start + size));
        }
        size /= 2;
    }
    parts
}

/// Tables with some records taken out; none if it is not a valid table at this
/// linear width.
pub fn smaller_tables(linear_width: u64, table: &[u8]) -> Vec<Vec<u8>> {
    let width = LinearWidth::of(linear_width);
    let records = model::mapping::records(width, table).unwrap_or_default();
    let without = |part: std::ops::Range<usize>| {
        let mut left = Vec::new();
        for (number, (place, _)) in records.iter().enumerate() {
            if !part.contains(&number) {
                left.extend_from_slice(&table[place.clone()]);
            }
        }
        left
    };
    parts(records.len()).into_iter().map(without).collect()
}
