//! Whole runs and logs.

use crate::bounds::near;
use crate::context::{capability, BAD_LINEAR_WIDTHS};
use crate::damage::{any_event, damage};
use crate::event::event_of_kind;
use crate::fitting::fitting;
use crate::record::{record, record_of_kind};
use crate::table::filling_kind;
use crate::Rng;
use common::{kinds, set_field, sibling, LINEAR_WIDTHS, LOG_LIMIT, TABLE_LIMIT};
use common::{PROGRAM_CAPABILITY, PROGRAM_WIDTH};
use model::{Context, Place};

/// The context with which a run starts, after a reset: mostly with the
/// program's capability and width, and either linear width.
pub fn start(rng: &mut Rng) -> Context {
    let (capability, width) = match rng.below(6) {
        0 => (capability(rng), PROGRAM_WIDTH),
        1 => (PROGRAM_CAPABILITY, 35 + rng.below(19) as u64),
        _ => (PROGRAM_CAPABILITY, PROGRAM_WIDTH),
    };
    let linear_width = if rng.one_in(12) {
        rng.pick(&BAD_LINEAR_WIDTHS)
    } else {
        rng.pick(&LINEAR_WIDTHS)
    };
    Context::after_reset(capability, width, linear_width)
}

/// The program's context, at a linear width.
fn program(linear_width: u64) -> Context {
    Context {
        linear_width,
        ..Context::program()
    }
}

/// The events of a run at a linear width: most are accepted with the program's
/// capability and width, others are refused, damaged or random bytes.
pub fn events(rng: &mut Rng, linear_width: u64, count: usize) -> Vec<Vec<u8>> {
    let mut context = program(linear_width);
    let mut events = Vec::new();
    while events.len() < count {
        let event = match rng.below(40) {
            0 => any_event(rng, &context),
            1 => {
                let mut event = record(rng, &context);
                damage(rng, &mut event);
                event
            }
            _ => whole(rng, &mut context),
        };
        events.push(event);
    }
    events
}

/// An event of a known kind and its whole length. The context is the one
/// after it, so far as it is one that should be accepted.
fn whole(rng: &mut Rng, context: &mut Context) -> Vec<u8> {
    match rng.below(16) {
        // These change no context, whether they are accepted or not.
        0 => record(rng, context),
        1 => {
            let kind = rng.pick(&[1, 2, 3, 4, 5, 6, 16, 17, 18, 19, 26]);
            let kind = sibling(context.linear_width, kind);
            let event = event_of_kind(rng, context, kind);
            near(rng, &event)
        }
        2 => {
            let kind = rng.pick(&[16, 17, 18, 19, 26]);
            event_of_kind(rng, context, kind)
        }
        3 => refused(rng, context),
        _ => {
            let (event, after) = fitting(rng, context);
            *context = after;
            event
        }
    }
}

/// An event of kinds 20 to 24 or 27 that is refused in this context.
fn refused(rng: &mut Rng, context: &Context) -> Vec<u8> {
    match (rng.below(4), context.place) {
        (0, _) => {
            // PCID 4,096.
            let kind = rng.pick(&[24, 27]);
            let mut event = event_of_kind(rng, context, kind);
            set_field(&mut event, 0, 4_096);
            event
        }
        (1, Place::Outside) => vec![23],
        (_, Place::Outside) | (2, Place::Guest { .. }) => event_of_kind(rng, context, 20),
        (1, Place::Root) => vec![22],
        (2, Place::Root) => {
            // VPIDs enabled with VPID 0.
            let mut event = event_of_kind(rng, context, 20);
            set_field(&mut event, 0, 1);
            set_field(&mut event, 1, 0);
            event
        }
        (_, Place::Root) => event_of_kind(rng, context, 21),
        (1, Place::Guest { .. }) => vec![22],
        (_, Place::Guest { .. }) => vec![23],
    }
}

/// A log of about so many bytes at a linear width. Most are whole; some are
/// cut, or have an unknown kind somewhere, perhaps one of the other width.
pub fn log(rng: &mut Rng, linear_width: u64, length: usize) -> Vec<u8> {
    let mut context = program(linear_width);
    let mut log = Vec::new();
    while log.len() < length {
        let event = whole(rng, &mut context);
        log.extend_from_slice(&event);
    }
    match rng.below(8) {
        0 => log.truncate(length),
        1 => unknown_kind(rng, &context, &mut log),
        2 if !log.is_empty() => {
            let at = rng.below(log.len());
            log[at] = rng.number() as u8;
        }
        _ => {}
    }
    log
}

/// Adds an unknown kind to a log: a byte alone, or a whole record of the other
/// width, and more behind it.
fn unknown_kind(rng: &mut Rng, context: &Context, log: &mut Vec<u8>) {
    if rng.one_in(2) {
        log.push(rng.pick(&[0, 11, 15, 28, 255]));
        return;
    }
    let other = if context.linear_width == 57 { 48 } else { 57 };
    let kind = rng.pick(&[0, 2, 3, 5].map(|place| kinds(other)[place]));
    log.extend(record_of_kind(rng, context, kind));
    log.extend_from_slice(&[22, 25]);
}

/// A record of kind 1 or 4 (7 or 9) that can be created outside VMX after a
/// reset: VPID 0, PCID 0.
fn own_record(rng: &mut Rng, context: &Context, kind: u8) -> Vec<u8> {
    let mut record = record_of_kind(rng, context, kind);
    set_field(&mut record, 0, 0);
    set_field(&mut record, 1, 0);
    record
}

/// A log of at most the limit that fills the table to its last byte or
/// nearly, is refused creations, and goes on with drops and creations.
pub fn filling_log(rng: &mut Rng, linear_width: u64) -> Vec<u8> {
    let mut context = program(linear_width);
    let mut log = Vec::new();
    let mut filled = 0;
    let free = rng.pick(&[0, 0, 0, 1, 16]);
    while filled < TABLE_LIMIT - free {
        let left = TABLE_LIMIT - free - filled;
        let kind = if left >= 300 {
            sibling(linear_width, rng.pick(&[1, 4]))
        } else {
            filling_kind(&context, left)
        };
        let record = own_record(rng, &context, kind);
        filled += record.len();
        log.extend_from_slice(&record);
    }
    // 17 bytes (18) where there is room for 16 at most.
    let more = sibling(linear_width, 1);
    log.extend_from_slice(&own_record(rng, &context, more));
    loop {
        let event = if rng.one_in(3) {
            record(rng, &context)
        } else {
            whole(rng, &mut context)
        };
        if log.len() + event.len() > LOG_LIMIT {
            return log;
        }
        log.extend_from_slice(&event);
    }
}
