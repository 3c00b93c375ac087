//! Logs in fragments, and readers of them (document 02, Ask 3).

use crate::case::{case, Case};
use crate::event::{event_of_kind, good_eptp, good_invept, good_invpcid, good_invvpid};
use crate::fitting::fitting;
use crate::pool;
use crate::record::{current, tagged};
use crate::Rng;
use common::{encode, kinds, length, sibling};
use model::stream::{Reader, HELD};
use model::{Context, Place};

/// The inputs of one call with a fragment: those of a step, in which the event is
/// held in part and arrives in part.
#[derive(Clone, Debug)]
pub struct Taking {
    pub case: Case,
    pub reader: Reader,
    pub fragment: Vec<u8>,
}

/// The inputs of one call with a fragment, mostly one that finishes an event. One
/// reader in four is damaged in some way.
pub fn taking(rng: &mut Rng) -> Taking {
    let case = case(rng);
    let event = &case.event;
    // What can be held: less than the event, and at most 24 bytes.
    let most = event.len().min(HELD + 1);
    let held = match rng.below(4) {
        0 => 0,
        1 => most.saturating_sub(1),
        _ => rng.below(most.max(1)),
    };
    let mut fragment = event[held..].to_vec();
    match rng.below(8) {
        0 => fragment.truncate(rng.below(fragment.len() + 1)),
        1 => fragment.clear(),
        2..=4 => {
            let (next, _) = fitting(rng, &case.context);
            fragment.extend(next);
        }
        5 => {
            let count = rng.below(60);
            fragment.extend(rng.bytes(count));
        }
        _ => {}
    }
    let mut reader = reader(rng, &event[..held]);
    if rng.one_in(4) {
        damage_reader(rng, &case.context, &mut reader);
    }
    Taking {
        case,
        reader,
        fragment,
    }
}

/// A reader that holds these bytes, at most 24, with anything behind them.
pub fn reader(rng: &mut Rng, held: &[u8]) -> Reader {
    let any = rng.number();
    let mut reader = Reader {
        line: rng.pick(&[0, 1, any, u64::MAX - 1, u64::MAX]),
        length: held.len() as u64,
        ..Reader::new()
    };
    reader.held.copy_from_slice(&rng.bytes(HELD));
    reader.held[..held.len()].copy_from_slice(held);
    reader
}

/// Lengths that no reader can hold.
const BAD_LENGTHS: [u64; 7] = [25, 26, 48, 1 << 32, (1 << 32) + 1, 1 << 63, u64::MAX];

/// Makes a reader one that counts as ignoring, or nearly so.
pub fn damage_reader(rng: &mut Rng, context: &Context, reader: &mut Reader) {
    match rng.below(8) {
        0 | 1 => reader.ignoring = rng.pick(&[1, 2, 256, 1 << 32, 1 << 63, u64::MAX]),
        2 => reader.length = rng.pick(&BAD_LENGTHS),
        3 => reader.length = rng.below(HELD + 2) as u64,
        4 => {
            // A kind that is unknown, that of the other width among them.
            let other = if context.linear_width == 57 { 48 } else { 57 };
            let foreign = kinds(other)[rng.pick(&[0, 2, 3, 5])];
            reader.held[0] = rng.pick(&[0, 11, 15, 28, 255, foreign, foreign]);
            reader.length = reader.length.max(1);
        }
        5 | 6 => {
            // A whole event, one byte less or one more.
            let kind = kinds(context.linear_width)[rng.below(18)];
            let event = event_of_kind(rng, context, kind);
            let fit = event.len().min(HELD);
            reader.held[..fit].copy_from_slice(&event[..fit]);
            reader.length = (event.len() + rng.below(3)) as u64 - 1;
        }
        _ => {
            reader.held.copy_from_slice(&rng.bytes(HELD));
            reader.length = rng.below(HELD + 1) as u64;
        }
    }
}

/// Every reader with held bytes of each length, from 0 to 26, that start with a
/// kind: known at the width, of the other width, or none.
pub fn readers(rng: &mut Rng, context: &Context) -> Vec<Reader> {
    let mut readers = Vec::new();
    for kind in 0..=30 {
        let mut bytes = match length(kind) {
            Some(_) => event_of_kind(rng, context, kind),
            None => vec![kind],
        };
        bytes.extend(rng.bytes(HELD));
        for length in 0..=26 {
            let mut reader = reader(rng, &bytes[..HELD]);
            reader.length = length;
            readers.push(reader);
        }
    }
    readers
}

/// A log cut into fragments, some of them empty: of a byte each (but of a long log),
/// of a few bytes, or of any length.
pub fn fragments<'a>(rng: &mut Rng, log: &'a [u8]) -> Vec<&'a [u8]> {
    let few = if log.len() > 5_000 { 24 } else { 1 };
    let most = rng.pick(&[few, 2 * few, 24, 60, 1_000, log.len().max(1)]);
    let mut fragments = Vec::new();
    let mut rest = log;
    while !rest.is_empty() {
        let length = if rng.one_in(8) {
            0
        } else {
            1 + rng.below(most)
        };
        let (fragment, after) = rest.split_at(length.min(rest.len()));
        fragments.push(fragment);
        rest = after;
    }
    fragments
}

/// A log with an event of every kind that is known at a linear width, all of them
/// accepted with the program's capability and width.
pub fn log_of_every_kind(rng: &mut Rng, linear_width: u64) -> Vec<u8> {
    let start = Context {
        linear_width,
        ..Context::program()
    };
    let ept = pool::ep4ta(rng);
    let vpid = pool::vpid_not_zero(rng);
    let pcid = pool::pcid(rng);
    let guest = Context {
        pcid,
        place: Place::Guest {
            vpid,
            ept: Some(ept),
        },
        ..start
    };
    let mut log = vec![22];
    for kind in [1, 4] {
        let kind = sibling(linear_width, kind);
        log.extend(tagged(rng, kind, &current(&start)));
    }
    let eptp = good_eptp(rng) & 0xFFF | ept << 12;
    log.extend(encode(20, &[1, vpid, 1, eptp, pcid, 0]));
    for kind in [2, 3, 5, 6] {
        let kind = sibling(linear_width, kind);
        log.extend(tagged(rng, kind, &current(&guest)));
    }
    for kind in [19, 24, 18] {
        log.extend(match kind {
            24 => encode(24, &[pcid, 0]),
            _ => event_of_kind(rng, &guest, kind),
        });
    }
    log.extend(good_invpcid(rng, &guest));
    log.extend(encode(27, &[pool::pcid(rng)]));
    log.extend(encode(21, &[pool::pcid(rng)]));
    log.extend(good_invvpid(rng, &start));
    log.extend(good_invept(rng));
    log.extend([23, 25]);
    log
}
