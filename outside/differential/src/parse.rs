//! A case read back from its text.

use crate::buffer::Buffer;
use crate::case::Case;
use crate::claim::ClaimCase;
use crate::count::CountCase;
use crate::explain::ExplainCase;
use crate::level::{LevelCase, LevelInput, LevelLookupCase};
use crate::level_run::{LevelMoment, LevelRunCase};
use crate::lookup::LookupCase;
use crate::replay::ReplayCase;
use crate::rows::{RowsCase, Way};
use crate::run::{Moment, RunCase};
use crate::step::StepCase;
use crate::stream::{Call, StreamCase};
use crate::take::TakeCase;
use crate::walk::WalkCase;
use crate::widen::WidenCase;
use bridge::FlatContext;
use generate::SparseTally;
use model::stream::Reader;
use model::{Address, Kinds};

/// Reads a case back. Lines before the one that starts with `case` are
/// skipped, and so are those after its end.
pub fn parse(text: &str) -> Result<Case, String> {
    let mut lines = Lines::new(text);
    while lines.peek().is_some_and(|(name, _)| name != "case") {
        lines.next += 1;
    }
    match lines.take("case")? {
        "step" => lines.step().map(Case::Step),
        "count" => lines.count().map(Case::Count),
        "lookup" => lines.lookup().map(Case::Lookup),
        "explain" => lines.explain().map(Case::Explain),
        "claim" => lines.claim().map(Case::Claim),
        "run" => lines.run().map(Case::Run),
        "replay" => lines.replay().map(Case::Replay),
        "level" => lines.level().map(Case::Level),
        "level-lookup" => lines.level_lookup().map(Case::LevelLookup),
        "level-run" => lines.level_run().map(Case::LevelRun),
        "take" => lines.take_case().map(Case::Take),
        "stream" => lines.stream().map(Case::Stream),
        "export" => lines.rows(Way::Export).map(Case::Rows),
        "import" => lines.rows(Way::Import).map(Case::Rows),
        "widen" => lines.widen().map(Case::Widen),
        "walk" => lines.walk().map(Case::Walk),
        other => Err(format!("no case '{other}'")),
    }
}

/// The lines of a text, each as its first word and the rest.
struct Lines<'a> {
    lines: Vec<(&'a str, &'a str)>,
    next: usize,
}

impl<'a> Lines<'a> {
    fn new(text: &'a str) -> Lines<'a> {
        let split = |line: &'a str| {
            let line = line.trim();
            match line.split_once(' ') {
                Some((name, rest)) => (name, rest.trim()),
                None => (line, ""),
            }
        };
        let lines = text.lines().map(split);
        Lines {
            lines: lines.filter(|(name, _)| !name.is_empty()).collect(),
            next: 0,
        }
    }

    fn peek(&self) -> Option<(&'a str, &'a str)> {
        self.lines.get(self.next).copied()
    }

    /// The rest of the next line, which must have this name.
    fn take(&mut self, wanted: &str) -> Result<&'a str, String> {
        match self.peek() {
            Some((name, rest)) if name == wanted => {
                self.next += 1;
                Ok(rest)
            }
            Some((name, _)) => Err(format!("'{name}' where '{wanted}' should be")),
            None => Err(format!("no line '{wanted}'")),
        }
    }

    fn bytes(&mut self, name: &str) -> Result<Vec<u8>, String> {
        let byte = |word: &str| {
            u8::from_str_radix(word, 16).map_err(|_| format!("{name}: '{word}' is no byte"))
        };
        self.take(name)?.split_whitespace().map(byte).collect()
    }

    /// A line of any numbers.
    fn any_numbers(&mut self, name: &str) -> Result<Vec<u64>, String> {
        let number = |word: &str| {
            let digits = word.strip_prefix("0x").unwrap_or("");
            u64::from_str_radix(digits, 16)
                .map_err(|_| format!("{name}: '{word}' is no number with 0x"))
        };
        self.take(name)?.split_whitespace().map(number).collect()
    }

    fn numbers<const N: usize>(&mut self, name: &str) -> Result<[u64; N], String> {
        let numbers = self.any_numbers(name)?;
        let count = numbers.len();
        let wrong = |_| format!("{name}: {count} numbers and not {N}");
        numbers.try_into().map_err(wrong)
    }

    fn tally(&mut self) -> Result<SparseTally, String> {
        let count = |number: u64| {
            u16::try_from(number).map_err(|_| format!("{number:#x} is too large for a count"))
        };
        let mut kinds = Kinds::default();
        let numbers: [u64; 30] = self.numbers("kinds")?;
        for (cell, number) in kinds.as_flattened_mut().iter_mut().zip(numbers) {
            *cell = count(number)?;
        }
        let numbers = self.any_numbers("pcids")?;
        let (length, pairs) = numbers.split_first().ok_or("pcids: no length")?;
        if *length > 1 << 32 {
            return Err(format!("pcids: a list of {length:#x}"));
        }
        let mut tally = SparseTally {
            kinds,
            length: *length as usize,
            ..SparseTally::empty()
        };
        for pair in pairs.chunks(2) {
            match pair {
                [pcid, number] if pcid < length => tally.set(*pcid as usize, count(*number)?),
                _ => return Err(format!("pcids: {pair:#x?} is no PCID and its count")),
            }
        }
        Ok(tally)
    }

    fn context(&mut self) -> Result<FlatContext, String> {
        let [capability, width, linear_width, pcid, cpl, place, vpid, ept, ep4ta] =
            self.numbers("context")?;
        Ok(FlatContext {
            capability,
            width,
            linear_width,
            pcid,
            cpl,
            place,
            vpid,
            ept,
            ep4ta,
        })
    }

    fn buffer(&mut self, name: &str) -> Result<Buffer, String> {
        let [length, fill] = self.numbers(name)?;
        if length > 1 << 32 {
            return Err(format!("{name}: a buffer of {length:#x} bytes"));
        }
        let length = length as usize;
        Ok(Buffer { length, fill })
    }

    /// The address on the next line; None if there is another thing.
    fn address(&mut self) -> Result<Option<Address>, String> {
        match self.peek() {
            Some(("linear", _)) => {
                let [number] = self.numbers("linear")?;
                Ok(Some(Address::Linear(number)))
            }
            Some(("guest-physical", _)) => {
                let [number] = self.numbers("guest-physical")?;
                Ok(Some(Address::GuestPhysical(number)))
            }
            _ => Ok(None),
        }
    }

    fn step(&mut self) -> Result<StepCase, String> {
        Ok(StepCase {
            context: self.context()?,
            tally: self.tally()?,
            table: self.bytes("table")?,
            event: self.bytes("event")?,
            new: self.buffer("new")?,
        })
    }

    fn count(&mut self) -> Result<CountCase, String> {
        let [linear_width] = self.numbers("width")?;
        Ok(CountCase {
            linear_width,
            table: self.bytes("table")?,
            pcids: self.buffer("pcids")?,
        })
    }

    fn lookup(&mut self) -> Result<LookupCase, String> {
        Ok(LookupCase {
            context: self.context()?,
            table: self.bytes("table")?,
            address: self
                .address()?
                .ok_or("no line 'linear' or 'guest-physical'")?,
        })
    }

    fn explain(&mut self) -> Result<ExplainCase, String> {
        Ok(ExplainCase {
            context: self.context()?,
            record: self.bytes("record")?,
            event: self.bytes("event")?,
        })
    }

    fn claim(&mut self) -> Result<ClaimCase, String> {
        Ok(ClaimCase {
            context: self.context()?,
            table: self.bytes("table")?,
            event: self.bytes("event")?,
            claim: self.bytes("claim")?,
        })
    }

    fn run(&mut self) -> Result<RunCase, String> {
        let [capability, width, linear_width] = self.numbers("start")?;
        let mut buffer = || self.buffer("buffer");
        let buffers = [buffer()?, buffer()?, buffer()?, buffer()?];
        let mut moments = Vec::new();
        while self.peek().is_some_and(|(name, _)| name == "removal") {
            moments.push(self.moment()?);
        }
        self.take("end")?;
        Ok(RunCase {
            capability,
            width,
            linear_width,
            buffers,
            moments,
        })
    }

    fn moment(&mut self) -> Result<Moment, String> {
        let [removal] = self.numbers("removal")?;
        let mut addresses = Vec::new();
        while let Some(address) = self.address()? {
            addresses.push(address);
        }
        let event = match self.peek() {
            Some(("event", _)) => Some(self.bytes("event")?),
            _ => None,
        };
        Ok(Moment {
            removal,
            addresses,
            event,
        })
    }

    fn replay(&mut self) -> Result<ReplayCase, String> {
        let [capability, width, linear_width] = self.numbers("start")?;
        Ok(ReplayCase {
            capability,
            width,
            linear_width,
            log: self.bytes("log")?,
            first: self.buffer("first")?,
            second: self.buffer("second")?,
            rows: self.buffer("rows")?,
        })
    }

    fn level_input(&mut self) -> Result<LevelInput, String> {
        Ok(LevelInput {
            tally: self.tally()?,
            table: self.bytes("table")?,
            new: self.buffer("new")?,
        })
    }

    fn level(&mut self) -> Result<LevelCase, String> {
        Ok(LevelCase {
            context: self.context()?,
            event: self.bytes("event")?,
            levels: [self.level_input()?, self.level_input()?],
        })
    }

    fn level_lookup(&mut self) -> Result<LevelLookupCase, String> {
        let context = self.context()?;
        let tables = [self.bytes("table")?, self.bytes("table")?];
        let [address] = self.numbers("linear")?;
        Ok(LevelLookupCase {
            context,
            tables,
            address,
        })
    }

    fn level_run(&mut self) -> Result<LevelRunCase, String> {
        let [capability, width, linear_width] = self.numbers("start")?;
        let mut buffers = [Buffer { length: 0, fill: 0 }; 8];
        for own in &mut buffers {
            *own = self.buffer("buffer")?;
        }
        let mut moments = Vec::new();
        while self.peek().is_some_and(|(name, _)| name == "removals") {
            let removals = self.numbers("removals")?;
            let mut addresses = Vec::new();
            while self.peek().is_some_and(|(name, _)| name == "linear") {
                let [address] = self.numbers("linear")?;
                addresses.push(address);
            }
            let event = match self.peek() {
                Some(("event", _)) => Some(self.bytes("event")?),
                _ => None,
            };
            moments.push(LevelMoment {
                removals,
                addresses,
                event,
            });
        }
        self.take("end")?;
        Ok(LevelRunCase {
            capability,
            width,
            linear_width,
            buffers,
            moments,
        })
    }

    fn reader(&mut self) -> Result<Reader, String> {
        let [line, ignoring, length] = self.numbers("reader")?;
        let held = self.bytes("held")?;
        let count = held.len();
        Ok(Reader {
            line,
            ignoring,
            length,
            held: held
                .try_into()
                .map_err(|_| format!("held: {count} bytes and not 24"))?,
        })
    }

    fn take_case(&mut self) -> Result<TakeCase, String> {
        Ok(TakeCase {
            reader: self.reader()?,
            context: self.context()?,
            tally: self.tally()?,
            table: self.bytes("table")?,
            fragment: self.bytes("fragment")?,
            new: self.buffer("new")?,
        })
    }

    fn stream(&mut self) -> Result<StreamCase, String> {
        let [capability, width, linear_width] = self.numbers("start")?;
        let [line] = self.numbers("line")?;
        let first = self.buffer("first")?;
        let second = self.buffer("second")?;
        let mut calls = Vec::new();
        loop {
            calls.push(match self.peek() {
                Some(("fragment", _)) => Call::Fragment(self.bytes("fragment")?),
                Some(("finish", _)) => self.take("finish").map(|_| Call::Finish)?,
                Some(("reset", _)) => self.take("reset").map(|_| Call::Reset)?,
                _ => break,
            });
        }
        self.take("end")?;
        Ok(StreamCase {
            capability,
            width,
            linear_width,
            line,
            first,
            second,
            calls,
        })
    }

    fn rows(&mut self, way: Way) -> Result<RowsCase, String> {
        let [_, read, written] = way.names();
        let [linear_width] = self.numbers("width")?;
        Ok(RowsCase {
            way,
            linear_width,
            input: self.bytes(read)?,
            output: self.buffer(written)?,
        })
    }

    fn widen(&mut self) -> Result<WidenCase, String> {
        Ok(WidenCase {
            table: self.bytes("table")?,
            new: self.buffer("new")?,
        })
    }

    fn image(&mut self) -> Result<Vec<u8>, String> {
        let numbers = self.any_numbers("image")?;
        let (length, entries) = numbers.split_first().ok_or("image: no length")?;
        if *length > 1 << 24 {
            return Err(format!("image: {length:#x} bytes"));
        }
        let mut image = vec![0; *length as usize];
        for pair in entries.chunks(2) {
            let [at, entry] = pair else {
                return Err("image: an address without its entry".to_string());
            };
            let bytes = entry.to_le_bytes();
            let start = usize::try_from(*at).unwrap_or(usize::MAX);
            let place = image.get_mut(start..).unwrap_or_default();
            let fit = place.len().min(8);
            place[..fit].copy_from_slice(&bytes[..fit]);
            if bytes[fit..].iter().any(|byte| *byte != 0) {
                return Err(format!("image: the entry at {at:#x} ends outside"));
            }
        }
        Ok(image)
    }

    fn walk(&mut self) -> Result<WalkCase, String> {
        let context = self.context()?;
        let image = self.image()?;
        let [root] = self.numbers("root")?;
        let [eptp] = self.numbers("eptp")?;
        let [vpid] = self.numbers("vpid")?;
        let [address] = self.numbers("address")?;
        Ok(WalkCase {
            context,
            image,
            root,
            eptp,
            vpid: u16::try_from(vpid).map_err(|_| format!("vpid: {vpid:#x} is too large"))?,
            address,
        })
    }
}
