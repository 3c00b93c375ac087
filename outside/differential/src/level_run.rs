//! Whole runs of two levels, through two buffers for each and with a tally for each:
//! one against the model's run and its book, and a second one with records taken out
//! at both levels.

use crate::buffer::{same_counts, Buffer, Lent};
use crate::case::parts;
use crate::difference::{all_same, kinds_differences};
use crate::expected;
use crate::level::{same_level_step, LevelLookupCase, NAMES};
use crate::reached::Reached;
use crate::text::{buffer, bytes, numbers};
use bridge::{FlatContext, LentLevel, LevelAfter, LevelStep};
use common::{PCIDS, TABLE_LIMIT};
use generate::{removal, Rng};
use model::book::Book;
use model::mapping::records;
use model::{Address, Context, LinearWidth, Tally};
use std::fmt;

/// The inputs of a run of both levels and of a second one beside it.
#[derive(Clone, Debug, PartialEq, Eq)]
pub struct LevelRunCase {
    pub capability: u64,
    pub width: u64,
    pub linear_width: u64,
    /// Two buffers of the first run's first level, two of its second, then those of the
    /// second run.
    pub buffers: [Buffer; 8],
    pub moments: Vec<LevelMoment>,
}

/// What happens at one moment: a removal from each table of the second run, then an
/// event. The last moment has none.
#[derive(Clone, Debug, PartialEq, Eq)]
pub struct LevelMoment {
    /// The seeds of the removals.
    pub removals: [u64; 2],
    /// Looked up before and after the removals.
    pub addresses: Vec<u64>,
    pub event: Option<Vec<u8>>,
}

/// One level of a run: the table in force, in one of two buffers, with its tally.
struct Side {
    tally: Tally,
    buffers: [Lent; 2],
    now: usize,
    length: usize,
}

impl Side {
    fn new(buffers: &[Buffer]) -> Side {
        Side {
            tally: Tally::empty(),
            buffers: [buffers[0].lend(), buffers[1].lend()],
            now: 0,
            length: 0,
        }
    }

    fn table(&self) -> &[u8] {
        &self.buffers[self.now].part()[..self.length]
    }

    /// The tally, the table in force and the other buffer.
    fn parts(&mut self) -> (&mut Tally, &[u8], &mut [u8]) {
        let [a, b] = &mut self.buffers;
        let (old, new) = if self.now == 0 { (a, b) } else { (b, a) };
        let table = &old.part()[..self.length];
        (&mut self.tally, table, new.part_mut())
    }

    /// After an accepted step.
    fn accept(&mut self, after: &LevelAfter) {
        self.now = 1 - self.now;
        self.length = after.length;
    }

    /// Takes records out of the table in force, and off its tally.
    fn take_out(&mut self, width: LinearWidth, seed: u64) {
        let left = removal(&mut Rng::new(seed), self.table());
        let mut rest = &left[..];
        let mut taken = Vec::new();
        for (place, mapping) in records(width, self.table()).unwrap_or_default() {
            match rest.strip_prefix(&self.table()[place]) {
                Some(after) => rest = after,
                None => taken.push(mapping),
            }
        }
        for mapping in &taken {
            self.tally.take_off(mapping);
        }
        self.buffers[self.now].part_mut()[..left.len()].copy_from_slice(&left);
        self.length = left.len();
    }
}

/// A run of both levels.
struct Levels {
    context: FlatContext,
    sides: [Side; 2],
}

impl Levels {
    fn new(case: &LevelRunCase, buffers: &[Buffer]) -> Levels {
        Levels {
            context: bridge::flat(&case.start()),
            sides: [Side::new(&buffers[..2]), Side::new(&buffers[2..])],
        }
    }

    fn accept(&mut self, step: &LevelStep) {
        self.context = step.context;
        if step.answer == 0 {
            for (side, after) in self.sides.iter_mut().zip(&step.levels) {
                side.accept(after);
            }
        }
    }

    /// By the library.
    fn feed(&mut self, event: &[u8]) -> LevelStep {
        let [first, second] = &mut self.sides;
        let lent = |(tally, table, new)| {
            let tally: &mut Tally = tally;
            LentLevel {
                kinds: tally.kinds,
                pcids: &mut tally.pcids,
                table,
                new,
            }
        };
        let levels = (lent(first.parts()), lent(second.parts()));
        let step = bridge::step_levels_lent(&self.context, event, levels.0, levels.1);
        for (side, after) in self.sides.iter_mut().zip(&step.levels) {
            side.tally.kinds = after.kinds;
        }
        self.accept(&step);
        step
    }

    /// By the model.
    fn feed_model(&mut self, event: &[u8]) -> LevelStep {
        let [first, second] = &mut self.sides;
        let step = expected::step_levels(&self.context, event, first.parts(), second.parts());
        self.accept(&step);
        step
    }
}

/// A run of the library and the same run of the model.
struct Pair {
    ours: Levels,
    theirs: Levels,
}

impl Pair {
    fn new(case: &LevelRunCase, buffers: &[Buffer]) -> Pair {
        Pair {
            ours: Levels::new(case, buffers),
            theirs: Levels::new(case, buffers),
        }
    }

    fn feed(&mut self, event: &[u8]) -> Result<LevelStep, String> {
        let got = self.ours.feed(event);
        let due = self.theirs.feed_model(event);
        same_level_step(&got, &due)?;
        self.same()?;
        Ok(got)
    }

    /// Every buffer and every count is the same, and the tallies are fresh counts.
    fn same(&self) -> Result<(), String> {
        for (nth, name) in NAMES.into_iter().enumerate() {
            let at = |why| format!("{name}: {why}");
            let (ours, theirs) = (&self.ours.sides[nth], &self.theirs.sides[nth]);
            for (own, due) in ours.buffers.iter().zip(&theirs.buffers) {
                own.same(due, "a buffer").map_err(at)?;
            }
            all_same(kinds_differences(&ours.tally.kinds, &theirs.tally.kinds)).map_err(at)?;
            same_counts(&ours.tally.pcids, &theirs.tally.pcids).map_err(at)?;
            let fresh = expected::count(self.ours.context.linear_width, theirs.table(), PCIDS);
            if fresh.as_ref() != Ok(&theirs.tally) {
                return Err(at("the model's tally is no fresh count".to_string()));
            }
        }
        Ok(())
    }

    fn take_out(&mut self, seeds: [u64; 2]) -> Result<(), String> {
        let width = LinearWidth::of(self.ours.context.linear_width);
        for levels in [&mut self.ours, &mut self.theirs] {
            for (side, seed) in levels.sides.iter_mut().zip(seeds) {
                side.take_out(width, seed);
            }
        }
        self.same()
    }

    /// The usable records of one level by the library.
    fn usable(&self, nth: usize, address: Address) -> Vec<&[u8]> {
        let table = self.ours.sides[nth].table();
        let mut records = Vec::new();
        loop {
            let k = records.len() as u64;
            let part = bridge::lookup_flat(&self.ours.context, table, address, k);
            if part.length == 0 {
                return records;
            }
            records.push(&table[part.start..part.start + part.length]);
        }
    }

    /// The lookup in both levels is the model's.
    fn look_up(&self, address: u64, reached: &mut Reached) -> Result<(), String> {
        let tables = [0, 1].map(|nth: usize| self.ours.sides[nth].table().to_vec());
        let case = LevelLookupCase {
            context: self.ours.context,
            tables,
            address,
        };
        case.check(reached)
    }
}

impl LevelRunCase {
    fn start(&self) -> Context {
        Context::after_reset(self.capability, self.width, self.linear_width)
    }

    pub fn check(&self, reached: &mut Reached) -> Result<(), String> {
        let mut first = Pair::new(self, &self.buffers[..4]);
        let mut second = Pair::new(self, &self.buffers[4..]);
        let mut book = Book::new(&self.start());
        // What demand 3 says is said of buffers that are long enough, and of the second
        // run until the first was refused for room.
        let long = self.buffers.iter().all(|own| own.length >= TABLE_LIMIT);
        let mut room = true;
        for (number, moment) in self.moments.iter().enumerate() {
            let at = |why: String| format!("at event {}: {why}", number + 1);
            if long && room {
                in_order(&first, &second, moment, reached).map_err(at)?;
            }
            if room {
                second.take_out(moment.removals).map_err(at)?;
            }
            if long && room {
                in_order(&first, &second, moment, reached).map_err(at)?;
            }
            let Some(event) = &moment.event else {
                continue;
            };
            let step = first.feed(event).map_err(at)?;
            reached.at(self.linear_width).levels.run_steps[step.answer as usize] += 1;
            if long {
                by_the_book(&mut book, event, &step, &first).map_err(at)?;
            }
            room = room && step.answer != 12;
            if room {
                let other = second.feed(event).map_err(at)?;
                let said = |step: &LevelStep| (step.answer, step.rule, step.context);
                if long && said(&other) != said(&step) {
                    let both = format!("{other:x?}\nand in the first {step:x?}");
                    return Err(at(format!("in the second run {both}")));
                }
            }
        }
        reached.level_runs += 1;
        Ok(())
    }

    pub fn smaller(&self) -> Vec<LevelRunCase> {
        let without = |part: std::ops::Range<usize>| {
            let mut moments = self.moments.clone();
            moments.drain(part);
            LevelRunCase {
                moments,
                ..self.clone()
            }
        };
        parts(self.moments.len()).into_iter().map(without).collect()
    }
}

/// At each level the second run's usable records are an in-order part of the first's.
fn in_order(
    first: &Pair,
    second: &Pair,
    moment: &LevelMoment,
    reached: &mut Reached,
) -> Result<(), String> {
    for wanted in &moment.addresses {
        for pair in [first, second] {
            pair.look_up(*wanted, reached)?;
        }
        for (nth, name) in NAMES.into_iter().enumerate() {
            for address in [Address::Linear(*wanted), Address::GuestPhysical(*wanted)] {
                let all = first.usable(nth, address);
                let mut rest = all.iter();
                for record in second.usable(nth, address) {
                    if !rest.any(|own| *own == record) {
                        return Err(format!(
                            "{name}: {wanted:#x} has a record in the second run only"
                        ));
                    }
                }
            }
        }
    }
    Ok(())
}

/// The book, fed the event alone, says the same of each level.
fn by_the_book(book: &mut Book, event: &[u8], step: &LevelStep, run: &Pair) -> Result<(), String> {
    let verdict = book.feed(event);
    for (nth, name) in NAMES.into_iter().enumerate() {
        let said = (step.answer, step.rule, step.levels[nth].dropped);
        if said != (verdict.answer, verdict.rule, verdict.dropped) {
            return Err(format!("the book says {verdict:?}, {name} {step:x?}"));
        }
        if book.table() != run.ours.sides[nth].table() {
            return Err(format!(
                "the book's standing records are not {name}'s table"
            ));
        }
    }
    if step.context != bridge::flat(book.context()) {
        return Err("the book's context is another".to_string());
    }
    Ok(())
}

impl fmt::Display for LevelRunCase {
    fn fmt(&self, f: &mut fmt::Formatter) -> fmt::Result {
        writeln!(f, "case level-run")?;
        let start = [self.capability, self.width, self.linear_width];
        writeln!(f, "{}", numbers("start", &start))?;
        for lent in &self.buffers {
            writeln!(f, "{}", buffer("buffer", lent))?;
        }
        for moment in &self.moments {
            writeln!(f, "{}", numbers("removals", &moment.removals))?;
            for wanted in &moment.addresses {
                writeln!(f, "{}", numbers("linear", &[*wanted]))?;
            }
            if let Some(event) = &moment.event {
                writeln!(f, "{}", bytes("event", event))?;
            }
        }
        write!(f, "end")
    }
}
