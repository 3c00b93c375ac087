//! How often what was reached.

use crate::rows::Way;
use crate::walk::number;
use bridge::{Finished, Taken};
use model::stream::Reader;
use model::walk::{Ending, Spot};
use model::{Converted, Walk};
use std::fmt;

/// Counts over all that was compared.
#[derive(Clone, Debug, Default)]
pub struct Reached {
    /// At linear width 48, at 57, and at any other number.
    widths: [Counts; 3],
    /// Conversions by their answer.
    pub widened: [u64; 13],
    pub walks: Walks,
    pub runs: u64,
    pub replays: u64,
    /// Logs in fragments.
    pub streams: u64,
    /// Runs of two levels.
    pub level_runs: u64,
}

/// Counts of two levels.
#[derive(Clone, Debug, Default)]
pub struct Levels {
    /// Single steps by the answers that the two tables have alone.
    pub pairs: [[u64; 14]; 14],
    /// Single steps by their EPTP rule.
    pub rules: [u64; 6],
    /// Single steps that dropped another count of records at each level.
    pub dropped_apart: u64,
    /// Lookups by the answers that the two tables have alone.
    pub lookups: [[u64; 4]; 4],
    /// Accepted lookups: those that found nothing, and at which level.
    pub found: [u64; 3],
    /// Lookups that found a record behind others.
    pub behind: u64,
    /// Steps of runs by their answer.
    pub run_steps: [u64; 14],
}

impl Levels {
    fn calls(&self) -> u64 {
        let pairs = self.pairs.as_flattened().iter();
        let lookups = self.lookups.as_flattened().iter();
        pairs.chain(lookups).chain(&self.run_steps).sum()
    }
}

impl fmt::Display for Levels {
    fn fmt(&self, f: &mut fmt::Formatter) -> fmt::Result {
        write!(f, "two levels, by the answers alone:")?;
        for (first, row) in self.pairs.iter().enumerate() {
            if row.iter().any(|count| *count > 0) {
                write!(f, " {first} with ({})", numbered(row))?;
            }
        }
        let [none, first, second] = self.found;
        writeln!(
            f,
            "; rules {}; {} dropped another count at each",
            numbered(&self.rules),
            self.dropped_apart
        )?;
        write!(
            f,
            "lookups in two levels by answers {:?}: {none} found none, {first} at the first, \
             {second} at the second, {} behind others; in runs {}",
            self.lookups,
            self.behind,
            numbered(&self.run_steps)
        )
    }
}

/// Counts of the calls of a reader.
#[derive(Clone, Debug, Default)]
pub struct Streams {
    /// Events that were finished, by their answer.
    pub takes: [u64; 14],
    /// Unknown kinds by their answer, 1 to 4; they are among the events.
    pub unknown: [u64; 5],
    /// Fragments that finished no event: held, with some bytes or none, and ignored.
    pub held: u64,
    pub none: u64,
    pub ignored: u64,
    /// Of the fragments ignored, those of a reader without the flag: with too many
    /// bytes, and with bytes that begin no event or complete one.
    pub too_many: u64,
    pub no_beginning: u64,
    /// Events by how many of their bytes were held before.
    pub before: [u64; 25],
    /// Cut records by their answer, 1 to 4; finish calls that reported nothing, and
    /// those that were ignored.
    pub cut: [u64; 5],
    pub not_cut: u64,
    pub finish_ignored: u64,
    /// Events at the last line number.
    pub last_line: u64,
}

impl Streams {
    /// A call with a fragment, with the reader before it, and whether its event is of
    /// an unknown kind.
    pub fn take(&mut self, before: &Reader, unknown: bool, got: &Taken, ignored: bool) {
        if ignored {
            self.ignored += 1;
            if before.ignoring == 0 {
                self.too_many += u64::from(before.length > 24);
                self.no_beginning += u64::from(before.length <= 24);
            }
        } else if got.finished == 0 {
            self.held += u64::from(got.taken > 0);
            self.none += u64::from(got.taken == 0);
        } else {
            let answer = got.step.answer;
            self.takes[answer as usize] += 1;
            self.before[before.length as usize] += 1;
            if unknown {
                self.unknown[answer as usize] += 1;
            }
            self.last_line += u64::from(before.line == u64::MAX);
        }
    }

    /// A finish call.
    pub fn finish(&mut self, got: &Finished, ignored: bool) {
        match (ignored, got.finished) {
            (true, _) => self.finish_ignored += 1,
            (false, 0) => self.not_cut += 1,
            _ => self.cut[got.answer as usize] += 1,
        }
    }

    /// The calls.
    fn calls(&self) -> u64 {
        let events: u64 = self.takes.iter().chain(&self.cut).sum();
        events + self.held + self.none + self.ignored + self.not_cut + self.finish_ignored
    }
}

impl fmt::Display for Streams {
    fn fmt(&self, f: &mut fmt::Formatter) -> fmt::Result {
        writeln!(
            f,
            "unknown kinds in fragments: {}; cut records at a finish: {}; nothing cut {}, \
             ignored {}",
            numbered(&self.unknown),
            numbered(&self.cut),
            self.not_cut,
            self.finish_ignored
        )?;
        writeln!(
            f,
            "fragments held {}, empty {}, ignored {} ({} with too many bytes held, {} with such \
             as begin nothing or are whole); {} events at the last line",
            self.held, self.none, self.ignored, self.too_many, self.no_beginning, self.last_line
        )?;
        write!(
            f,
            "events by the bytes held before: {}",
            numbered(&self.before)
        )
    }
}

/// Counts of walks at all linear widths.
#[derive(Clone, Debug, Default)]
pub struct Walks {
    /// Absent entries, and entries outside the image, by the guest level and the
    /// EPT level, each from 0.
    pub absent: [[u64; 5]; 5],
    pub outside: [[u64; 5]; 5],
    /// Addresses of 2^48 or more by the guest level.
    pub too_high: [u64; 5],
    /// EPTPs by the rule that they break.
    pub rules: [u64; 6],
    /// Translations by the guest's span and EPT's.
    pub spans: [[u64; 3]; 3],
    /// Global translations.
    pub global: u64,
    /// Walks by the entries read.
    pub read: [u64; 25],
    /// Absent entries in the last eight bytes of the image, and entries of which
    /// only the last byte is outside.
    pub last_bytes: u64,
    pub one_past: u64,
    /// Images of less than 16 bytes.
    pub short: u64,
}

/// Counts at one linear width.
#[derive(Clone, Debug, Default)]
pub struct Counts {
    /// Single steps without a tally by their answer.
    pub steps: [u64; 13],
    /// Single counted steps by their answer.
    pub counted: [u64; 14],
    /// Counted steps that 13 was given to, by the answer that they would have
    /// with a matching tally.
    pub instead: [u64; 13],
    /// Counted steps of runs by their answer.
    pub run_steps: [u64; 14],
    /// Fresh counts by their answer.
    pub counts: [u64; 14],
    pub streams: Streams,
    pub levels: Levels,
    /// Rows of replays by their answer.
    pub rows: [u64; 13],
    /// Lookups by their answer.
    pub lookups: [u64; 4],
    /// Lookups that found a record.
    pub found: u64,
    /// Explanations by their reason, from 1.
    pub reasons: [u64; 11],
    /// Explanations by the step's answer.
    pub refusals: [u64; 13],
    /// Claims that were accepted, refused, malformed and unmatched.
    pub claims: [u64; 4],
    /// Claims by the step's answer.
    pub claim_answers: [u64; 13],
    /// Claims by the step's EPTP rule.
    pub claim_rules: [u64; 6],
    /// Claims of which not the first record is the first unmatched one.
    pub part_matched: u64,
    /// Tables as fixed rows, and rows as tables, by their answer.
    pub exports: [u64; 13],
    pub imports: [u64; 13],
    /// Imports refused for their length, and for a row behind a good one.
    pub bad_lengths: u64,
    pub later_rows: u64,
    /// Exports and imports into just the room that they need.
    pub exact: [u64; 2],
    /// Walks by their ending.
    pub walks: [u64; 7],
    /// Steps, single and plain or in runs, by their EPTP rule.
    pub rules: [u64; 6],
    /// Explanations by the step's EPTP rule.
    pub reason_rules: [u64; 6],
    /// Accepted events by their kind.
    pub accepted: [u64; 28],
    /// Accepted events that dropped something.
    pub dropping: u64,
    /// Records dropped.
    pub dropped: u64,
}

impl Reached {
    /// The counts of a linear width.
    pub fn at(&mut self, linear_width: u64) -> &mut Counts {
        let place = match linear_width {
            48 => 0,
            57 => 1,
            _ => 2,
        };
        &mut self.widths[place]
    }

    /// The counts of the two linear widths that are in range, with the widths.
    pub fn both(&self) -> [(u64, &Counts); 2] {
        [(48, &self.widths[0]), (57, &self.widths[1])]
    }

    /// The counts of all other linear widths.
    pub fn others(&self) -> &Counts {
        &self.widths[2]
    }

    /// A walk in an image of so many bytes, and the spans of a translation.
    pub fn walk(&mut self, linear_width: u64, length: usize, walk: &Walk, spans: Option<[u64; 2]>) {
        self.at(linear_width).walks[number(&walk.ending)] += 1;
        let counts = &mut self.walks;
        let place = |at: Spot| (at.guest_level as usize, at.ept_level as usize);
        match walk.ending {
            Ending::Translated(record) => counts.global += u64::from(record[5] == 1),
            Ending::BadEptp(rule) => counts.rules[rule as usize] += 1,
            Ending::Absent(at) => {
                let (guest, ept) = place(at);
                counts.absent[guest][ept] += 1;
                counts.last_bytes += u64::from(at.address + 8 == length as u64);
            }
            Ending::TooHigh(at) => counts.too_high[at.guest_level as usize] += 1,
            Ending::Outside(at) => {
                let (guest, ept) = place(at);
                counts.outside[guest][ept] += 1;
                counts.one_past += u64::from(at.address + 8 == length as u64 + 1);
            }
            Ending::ContextOutOfRange | Ending::NotCanonical => {}
        }
        if let Some([guest, ept]) = spans {
            counts.spans[guest as usize][ept as usize] += 1;
        }
        counts.read[walk.read as usize] += 1;
        counts.short += u64::from(length < 16);
    }

    /// Calls of the library that were compared; a replay counts its rows.
    pub fn calls(&self) -> u64 {
        let widened: u64 = self.widened.iter().sum();
        widened + self.widths.iter().map(Counts::calls).sum::<u64>()
    }
}

impl Counts {
    /// The kind of an accepted event and the records it dropped.
    pub fn accept(&mut self, event: &[u8], dropped: usize) {
        if let Some(count) = event.first().and_then(|kind| {
            let kind = usize::from(*kind);
            self.accepted.get_mut(kind)
        }) {
            *count += 1;
        }
        self.dropping += u64::from(dropped > 0);
        self.dropped += dropped as u64;
    }

    /// A table as fixed rows, or rows as a table, into a buffer of so many bytes.
    pub fn converted(&mut self, way: Way, converted: &Converted, room: usize) {
        let counts = match way {
            Way::Export => &mut self.exports,
            Way::Import => &mut self.imports,
        };
        counts[converted.answer as usize] += 1;
        self.bad_lengths += u64::from(converted.answer == 4 && converted.row == 0);
        self.later_rows += u64::from(converted.row > 1);
        let exact = converted.length == room && room > 0;
        self.exact[way as usize] += u64::from(exact);
    }

    fn calls(&self) -> u64 {
        let all: [&[u64]; 11] = [
            &self.steps,
            &self.counted,
            &self.run_steps,
            &self.counts,
            &self.rows,
            &self.lookups,
            &self.reasons,
            &self.claims,
            &self.exports,
            &self.imports,
            &self.walks,
        ];
        all.into_iter().flatten().sum::<u64>() + self.streams.calls() + self.levels.calls()
    }
}

impl fmt::Display for Counts {
    fn fmt(&self, f: &mut fmt::Formatter) -> fmt::Result {
        writeln!(
            f,
            "{:<8}{:>12}{:>12}{:>12}{:>12}{:>12}{:>12}{:>12}{:>12}{:>12}",
            "answer",
            "plain steps",
            "counted",
            "in runs",
            "counts",
            "in replays",
            "fragments",
            "in reasons",
            "of claims",
            "lookups"
        )?;
        for answer in 0..14 {
            write!(f, "{answer:<8}")?;
            let columns: [&[u64]; 9] = [
                &self.steps,
                &self.counted,
                &self.run_steps,
                &self.counts,
                &self.rows,
                &self.streams.takes,
                &self.refusals,
                &self.claim_answers,
                &self.lookups,
            ];
            for column in columns {
                match column.get(answer) {
                    Some(count) => write!(f, "{count:>12}")?,
                    None => write!(f, "{:>12}", "")?,
                }
            }
            writeln!(f)?;
        }
        writeln!(f, "13 instead of: {}", numbered(&self.instead))?;
        writeln!(f, "accepted by kind: {}", numbered(&self.accepted))?;
        writeln!(f, "reasons: {}", numbered(&self.reasons))?;
        writeln!(f, "exports by answer: {}", numbered(&self.exports))?;
        writeln!(
            f,
            "imports by answer: {}; {} of a bad length, {} bad behind a good row",
            numbered(&self.imports),
            self.bad_lengths,
            self.later_rows
        )?;
        let [rows, tables] = self.exact;
        writeln!(f, "into just enough room: {rows} exports, {tables} imports")?;
        writeln!(f, "walks by ending: {}", numbered(&self.walks))?;
        writeln!(f, "{}", self.streams)?;
        writeln!(f, "{}", self.levels)?;
        writeln!(
            f,
            "EPTP rules: {}; in reasons: {}; of claims: {}",
            numbered(&self.rules),
            numbered(&self.reason_rules),
            numbered(&self.claim_rules)
        )?;
        let [accepted, refused, malformed, unmatched] = self.claims;
        writeln!(
            f,
            "claims: {accepted} accepted, {refused} refused, {malformed} malformed, {unmatched} \
             unmatched, {} of these behind a matched record",
            self.part_matched
        )?;
        writeln!(
            f,
            "{} events dropped {} records; {} lookups found one",
            self.dropping, self.dropped, self.found
        )
    }
}

impl fmt::Display for Reached {
    fn fmt(&self, f: &mut fmt::Formatter) -> fmt::Result {
        for (width, counts) in self.both() {
            writeln!(f, "linear width {width}")?;
            writeln!(f, "{counts}")?;
        }
        writeln!(f, "other linear widths: {} answers", self.widths[2].calls())?;
        writeln!(f, "conversions by answer: {}", numbered(&self.widened))?;
        writeln!(f, "{}", self.walks)?;
        writeln!(
            f,
            "{} runs, {} replays, {} logs in fragments, {} runs of two levels",
            self.runs, self.replays, self.streams, self.level_runs
        )?;
        write!(f, "{} answers compared", self.calls())
    }
}

impl fmt::Display for Walks {
    fn fmt(&self, f: &mut fmt::Formatter) -> fmt::Result {
        writeln!(f, "walks by spans: {:?}", self.spans)?;
        writeln!(f, "absent by guest and EPT level: {:?}", self.absent)?;
        writeln!(f, "outside by guest and EPT level: {:?}", self.outside)?;
        writeln!(f, "too high by guest level: {:?}", self.too_high)?;
        writeln!(f, "walks by EPTP rule: {}", numbered(&self.rules))?;
        writeln!(f, "walks by entries read: {}", numbered(&self.read))?;
        write!(
            f,
            "{} global; {} absent at the image's end, {} outside by a byte; {} short images",
            self.global, self.last_bytes, self.one_past, self.short
        )
    }
}

/// The counts that are not 0, each with its number.
fn numbered(counts: &[u64]) -> String {
    let numbered = counts.iter().enumerate();
    let words: Vec<String> = numbered
        .filter(|(_, count)| **count > 0)
        .map(|(number, count)| format!("{number}: {count}"))
        .collect();
    words.join(", ")
}
