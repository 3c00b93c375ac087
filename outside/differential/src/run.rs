//! Whole runs of the library, through two buffers each and with a tally: one
//! against the model's run and its book, and a second one with records taken
//! out.

use crate::buffer::{same_counts, Buffer, Lent};
use crate::case::parts;
use crate::difference::{all_same, kinds_differences};
use crate::expected;
use crate::lookup::LookupCase;
use crate::reached::Reached;
use crate::step::same_step;
use crate::text::{address, buffer, bytes, numbers};
use bridge::{FlatContext, FlatStep};
use common::PCIDS;
use generate::{removal, Rng};
use model::book::Book;
use model::mapping::records;
use model::{Address, Context, LinearWidth, Tally};
use std::fmt;

/// The inputs of a run and of a second one beside it.
#[derive(Clone, Debug, PartialEq, Eq)]
pub struct RunCase {
    pub capability: u64,
    pub width: u64,
    pub linear_width: u64,
    /// The two buffers of the first run, then those of the second.
    pub buffers: [Buffer; 4],
    pub moments: Vec<Moment>,
}

/// What happens at one moment: a removal from the second run's table, then
/// an event. The last moment has none.
#[derive(Clone, Debug, PartialEq, Eq)]
pub struct Moment {
    /// The seed of the removal.
    pub removal: u64,
    /// Looked up before and after the removal.
    pub addresses: Vec<Address>,
    pub event: Option<Vec<u8>>,
}

/// One run: its context, and the table in force, in one of two buffers, with its
/// tally.
struct Side {
    context: FlatContext,
    tally: Tally,
    buffers: [Lent; 2],
    now: usize,
    length: usize,
}

type Stepper = fn(&FlatContext, &mut Tally, &[u8], &[u8], &mut [u8]) -> FlatStep;

impl Side {
    fn new(case: &RunCase, buffers: &[Buffer]) -> Side {
        Side {
            context: bridge::flat(&case.start()),
            tally: Tally::empty(),
            buffers: [buffers[0].lend(), buffers[1].lend()],
            now: 0,
            length: 0,
        }
    }

    fn table(&self) -> &[u8] {
        &self.buffers[self.now].part()[..self.length]
    }

    fn feed(&mut self, event: &[u8], step: Stepper) -> FlatStep {
        let [a, b] = &mut self.buffers;
        let (old, new) = if self.now == 0 { (a, b) } else { (b, a) };
        let step = step(
            &self.context,
            &mut self.tally,
            &old.part()[..self.length],
            event,
            new.part_mut(),
        );
        self.context = step.context;
        if step.answer == 0 {
            self.now = 1 - self.now;
            self.length = step.length;
        }
        step
    }

    /// Takes records out of the table in force, and off its tally.
    fn take_out(&mut self, seed: u64) {
        let left = removal(&mut Rng::new(seed), self.table());
        let mut rest = &left[..];
        let mut taken = Vec::new();
        let width = LinearWidth::of(self.context.linear_width);
        for (place, mapping) in records(width, self.table()).unwrap_or_default() {
            match rest.strip_prefix(&self.table()[place]) {
                Some(after) => rest = after,
                None => taken.push(mapping),
            }
        }
        for mapping in &taken {
            self.tally.take_off(mapping);
        }
        self.buffers[self.now].part_mut()[..left.len()].copy_from_slice(&left);
        self.length = left.len();
    }
}

/// A run of the library and the same run of the model.
struct Pair {
    ours: Side,
    theirs: Side,
    /// Where the library's step without a tally writes.
    plain: Vec<u8>,
}

impl Pair {
    fn new(case: &RunCase, buffers: &[Buffer]) -> Pair {
        Pair {
            ours: Side::new(case, buffers),
            theirs: Side::new(case, buffers),
            plain: Vec::new(),
        }
    }

    fn feed(&mut self, event: &[u8]) -> Result<FlatStep, String> {
        let plain = self.plain_step(event);
        let got = self.ours.feed(event, bridge::step_flat);
        let due = self.theirs.feed(event, expected::step);
        same_step(&got, &due)?;
        for (nth, name) in [(0, "first buffer"), (1, "second buffer")] {
            self.ours.buffers[nth].same(&self.theirs.buffers[nth], name)?;
        }
        same_step(&plain, &due).map_err(|why| format!("the plain step: {why}"))?;
        if got.answer == 0 && self.plain[..got.length] != *self.ours.table() {
            return Err("the plain step writes another table".to_string());
        }
        self.same_tally()?;
        Ok(got)
    }

    /// The library's step without a tally, on the same table.
    fn plain_step(&mut self, event: &[u8]) -> FlatStep {
        let ours = &self.ours;
        let room = ours.buffers[1 - ours.now].part().len();
        self.plain.resize(room, 0xA5);
        bridge::plain_step_flat(&ours.context, ours.table(), event, &mut self.plain)
    }

    /// The tallies are the same, and fresh counts of the table in force by the
    /// model and by the library.
    fn same_tally(&self) -> Result<(), String> {
        let (linear_width, table) = (self.ours.context.linear_width, self.ours.table());
        let same = |got: &Tally, due: &Tally| {
            all_same(kinds_differences(&got.kinds, &due.kinds))?;
            same_counts(&got.pcids, &due.pcids)
        };
        same(&self.ours.tally, &self.theirs.tally)?;
        let fresh = expected::count(linear_width, table, PCIDS);
        if fresh
            .as_ref()
            .is_ok_and(|fresh| *fresh != self.theirs.tally)
        {
            return Err("the model's tally is no fresh count".to_string());
        }
        match (bridge::count(linear_width, table), fresh) {
            (Ok(got), Ok(due)) => same(&got, &due).map_err(|why| format!("the fresh count: {why}")),
            (Err(got), Err(due)) if got == due => Ok(()),
            (got, due) => {
                let answer = |counted: Result<Tally, u64>| counted.err().unwrap_or(0);
                let (got, due) = (answer(got), answer(due));
                Err(format!(
                    "the fresh count is answered {got} and should be {due}"
                ))
            }
        }
    }

    fn take_out(&mut self, seed: u64) -> Result<(), String> {
        self.ours.take_out(seed);
        self.theirs.take_out(seed);
        self.same_tally()
    }

    /// The usable records by the library, which must be the model's.
    fn usable(&self, address: Address, reached: &mut Reached) -> Result<Vec<&[u8]>, String> {
        let table = self.ours.table();
        let case = LookupCase {
            context: self.ours.context,
            table: table.to_vec(),
            address,
        };
        case.check(reached)?;
        let mut records = Vec::new();
        loop {
            let k = records.len() as u64;
            let part = bridge::lookup_flat(&case.context, table, address, k);
            if part.length == 0 {
                return Ok(records);
            }
            records.push(&table[part.start..part.start + part.length]);
        }
    }
}

impl RunCase {
    fn start(&self) -> Context {
        Context::after_reset(self.capability, self.width, self.linear_width)
    }

    pub fn check(&self, reached: &mut Reached) -> Result<(), String> {
        let mut first = Pair::new(self, &self.buffers[..2]);
        let mut second = Pair::new(self, &self.buffers[2..]);
        let mut book = Book::new(&self.start());
        // Once the first run was refused for room, nothing is claimed of the
        // second.
        let mut room = true;
        for (number, moment) in self.moments.iter().enumerate() {
            let at = |why: String| format!("at event {}: {why}", number + 1);
            if room {
                in_order(&first, &second, moment, reached).map_err(at)?;
                second.take_out(moment.removal).map_err(at)?;
                in_order(&first, &second, moment, reached).map_err(at)?;
            }
            let Some(event) = &moment.event else {
                continue;
            };
            let step = first.feed(event).map_err(at)?;
            let counts = reached.at(self.linear_width);
            counts.run_steps[step.answer as usize] += 1;
            counts.counts[0] += 1;
            counts.rules[step.rule as usize] += 1;
            if step.answer == 0 {
                counts.accept(event, step.dropped);
            }
            by_the_book(&mut book, event, &step, first.ours.table()).map_err(at)?;
            room = room && step.answer != 12;
            if room {
                let other = second.feed(event).map_err(at)?;
                let same = other.answer == step.answer && other.rule == step.rule;
                if !same || other.context != step.context {
                    let both = format!("{other:x?}\nand in the first {step:x?}");
                    return Err(at(format!("in the second run {both}")));
                }
            }
        }
        reached.runs += 1;
        Ok(())
    }

    pub fn smaller(&self) -> Vec<RunCase> {
        let without = |part: std::ops::Range<usize>| {
            let mut moments = self.moments.clone();
            moments.drain(part);
            RunCase {
                moments,
                ..self.clone()
            }
        };
        parts(self.moments.len()).into_iter().map(without).collect()
    }
}

/// The second run's usable records are an in-order part of the first's.
fn in_order(
    first: &Pair,
    second: &Pair,
    moment: &Moment,
    reached: &mut Reached,
) -> Result<(), String> {
    for wanted in &moment.addresses {
        let all = first.usable(*wanted, reached)?;
        let mut rest = all.iter();
        for record in second.usable(*wanted, reached)? {
            if !rest.any(|own| *own == record) {
                let wanted = address(wanted);
                return Err(format!("{wanted}: usable in the second run only"));
            }
        }
    }
    Ok(())
}

/// The book, fed the event alone, says the same.
fn by_the_book(book: &mut Book, event: &[u8], step: &FlatStep, table: &[u8]) -> Result<(), String> {
    let verdict = book.feed(event);
    let said = (step.answer, step.rule, step.dropped);
    if said != (verdict.answer, verdict.rule, verdict.dropped) {
        return Err(format!("the book says {verdict:?}, the library {step:x?}"));
    }
    if step.context != bridge::flat(book.context()) {
        return Err(format!(
            "the book's context is {:x?}\nand the library's {:x?}",
            book.context(),
            step.context
        ));
    }
    if book.table() != table {
        return Err("the book's standing records are not the table".to_string());
    }
    Ok(())
}

impl fmt::Display for RunCase {
    fn fmt(&self, f: &mut fmt::Formatter) -> fmt::Result {
        writeln!(f, "case run")?;
        let start = [self.capability, self.width, self.linear_width];
        writeln!(f, "{}", numbers("start", &start))?;
        for lent in &self.buffers {
            writeln!(f, "{}", buffer("buffer", lent))?;
        }
        for moment in &self.moments {
            writeln!(f, "{}", numbers("removal", &[moment.removal]))?;
            for wanted in &moment.addresses {
                writeln!(f, "{}", address(wanted))?;
            }
            if let Some(event) = &moment.event {
                writeln!(f, "{}", bytes("event", event))?;
            }
        }
        write!(f, "end")
    }
}
