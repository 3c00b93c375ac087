//! A card as the test program reads it, and the line that it prints.
//!
//! A card in `stdin` is the name's length (1 byte), the table's (2), a mode (0 step, 1 linear and 2
//! guest-physical lookup, 3 reason, 4 converter, 5 step beside a tally, 6 fresh count), the context
//! as nine 8-byte numbers (capability, N, linear width, PCID, CPL, place, VPID, EPT, EP4TA; all 0 for
//! the converter, and all but the linear width for a fresh count), the length of what follows the
//! table (2), then name, table, and the event. A lookup has the address and k (8 bytes each) in its
//! place. A step beside a tally has before the event the thirty counts by kind and span, row by row,
//! and four times a PCID and its count (2 bytes each); a fresh count has four PCIDs and of how many
//! the counts are lent (2 bytes each). All numbers are little-endian.

use crate::cards::{self, Context, Step, Tally};
use common::{fields, put};
use std::fmt::Write;

/// The room of a card's new buffer, and what it is full of.
const ROOM: usize = 64;
const FILL: u8 = 0xEE;

/// The PCIDs that have a count, and the count of each that a fresh count is lent.
const PCID_COUNT: u64 = 4096;
const LENT: u64 = 7;

/// The test program's input, and what it prints on it.
pub struct Files {
    pub stdin: Vec<u8>,
    pub stdout: String,
}

/// All cards.
pub fn files() -> Files {
    let mut stdin = Vec::new();
    let mut stdout = String::new();
    for step in cards::steps() {
        card(
            &mut stdin,
            step.name,
            0,
            &step.context,
            &step.table,
            &step.event,
        );
        let _ = writeln!(stdout, "{} {}", reported(&step), buffer(&step.new));
    }
    for counted in cards::counted_steps() {
        let step = &counted.step;
        card(
            &mut stdin,
            step.name,
            5,
            &step.context,
            &step.table,
            &[given(&counted.given), step.event.clone()].concat(),
        );
        let _ = writeln!(
            stdout,
            "{} {} {}",
            reported(step),
            counts(&counted.left, 0),
            buffer(&step.new)
        );
    }
    for count in cards::counts() {
        let mut context = [0; 9];
        context[2] = count.linear_width;
        let [p, q, r, s] = count.counts.pcids.map(|(pcid, _)| (pcid, 2));
        card(
            &mut stdin,
            count.name,
            6,
            &context,
            &count.table,
            &fields(&[p, q, r, s, (count.lent, 2)]),
        );
        // A refusal leaves the other counts too.
        let others = match count.answer {
            0 => 0,
            _ => LENT * (PCID_COUNT - 4),
        };
        let _ = writeln!(
            stdout,
            "{}: {} {} ",
            count.name,
            count.answer,
            counts(&count.counts, others)
        );
    }
    for lookup in cards::lookups() {
        let question = fields(&[(lookup.address, 8), (lookup.k, 8)]);
        card(
            &mut stdin,
            lookup.name,
            lookup.mode,
            &lookup.context,
            &lookup.table,
            &question,
        );
        let _ = writeln!(
            stdout,
            "{}: {} {} {} {}",
            lookup.name,
            lookup.answer,
            lookup.start,
            lookup.part.len(),
            digits(&lookup.part)
        );
    }
    for reason in cards::reasons() {
        card(
            &mut stdin,
            reason.name,
            3,
            &reason.context,
            &reason.record,
            &reason.event,
        );
        let _ = writeln!(
            stdout,
            "{}: {} {} {} ",
            reason.name, reason.reason, reason.answer, reason.rule
        );
    }
    for widening in cards::widenings() {
        card(&mut stdin, widening.name, 4, &[0; 9], &widening.table, &[]);
        let _ = writeln!(
            stdout,
            "{}: {} {} {}",
            widening.name,
            widening.answer,
            widening.new.len(),
            buffer(&widening.new)
        );
    }
    Files { stdin, stdout }
}

/// A step's name and what it reports.
fn reported(step: &Step) -> String {
    format!(
        "{}: {} {} {} {} {}",
        step.name,
        step.answer,
        step.rule,
        step.dropped,
        step.new.len(),
        numbers(&step.after)
    )
}

/// A tally as a card has it.
fn given(tally: &Tally) -> Vec<u8> {
    let mut bytes = Vec::new();
    for count in tally.kinds.as_flattened() {
        put(&mut bytes, *count, 2);
    }
    for (pcid, count) in tally.pcids {
        put(&mut bytes, pcid, 2);
        put(&mut bytes, count, 2);
    }
    bytes
}

/// A tally as it is printed: the counts by kind and span, those of the four PCIDs, and the sum of
/// all, the counts of the other PCIDs among them.
fn counts(tally: &Tally, others: u64) -> String {
    let pcids = tally.pcids.map(|(_, count)| count);
    format!(
        "{} {} {}",
        numbers(tally.kinds.as_flattened()),
        numbers(&pcids),
        pcids.iter().sum::<u64>() + others
    )
}

/// Numbers with a space between them.
fn numbers(numbers: &[u64]) -> String {
    let words: Vec<String> = numbers.iter().map(u64::to_string).collect();
    words.join(" ")
}

/// The new buffer behind a table, in hexadecimal digits.
fn buffer(new: &[u8]) -> String {
    let mut buffer = new.to_vec();
    buffer.resize(ROOM, FILL);
    digits(&buffer)
}

/// Appends a card.
fn card(out: &mut Vec<u8>, name: &str, mode: u8, context: &Context, table: &[u8], extra: &[u8]) {
    put(out, name.len() as u64, 1);
    put(out, table.len() as u64, 2);
    out.push(mode);
    for number in context {
        put(out, *number, 8);
    }
    put(out, extra.len() as u64, 2);
    out.extend_from_slice(name.as_bytes());
    out.extend_from_slice(table);
    out.extend_from_slice(extra);
}

/// Bytes as pairs of hexadecimal digits, with nothing between them.
fn digits(bytes: &[u8]) -> String {
    bytes.iter().map(|byte| format!("{byte:02x}")).collect()
}
