//! Contexts and events aimed at an answer.

use crate::bounds::{near, near_field};
use crate::context::{any_context, context};
use crate::damage::any_event;
use crate::event::{event, event_of_kind, good_eptp};
use crate::fitting::fitting;
use crate::pool;
use crate::record::mapping_kind;
use crate::Rng;
use common::{encode, set_field, PROGRAM_CAPABILITY, PROGRAM_WIDTH};
use model::{Context, Place};

/// A context and a valid event on which the answer aimed at is likely.
pub fn aimed(rng: &mut Rng, aim: usize) -> (Context, Vec<u8>) {
    match aim {
        5 => undefined(rng),
        6 => {
            let context = guest(rng);
            let kind = rng.pick(&[16, 17, 20, 22, 23]);
            let event = event_of_kind(rng, &context, kind);
            (context, event)
        }
        7 if rng.one_in(3) => {
            let mut context = context(rng);
            context.cpl = 0;
            let event = bad_invpcid(rng, &context);
            (context, event)
        }
        7 => {
            let mut context = context(rng);
            context.cpl = 1 + rng.below(3) as u64;
            let kind = rng.pick(&[16, 17, 18, 18, 20, 22, 23, 26, 27]);
            let event = event_of_kind(rng, &context, kind);
            (context, event)
        }
        8 if rng.one_in(3) => {
            let (context, eptp) = bad_eptp(rng);
            let kind = rng.pick(&[1, 1, 1, 1, 1, 1, 2, 3]);
            let high = rng.pick(&[0, 0, 0, 0, 0, 0, 0, 1]);
            (context, encode(17, &[kind, eptp, high]))
        }
        8 => {
            let context = root(rng);
            let kind = rng.pick(&[16, 17]);
            let event = event_of_kind(rng, &context, kind);
            (context, near(rng, &event))
        }
        9 => {
            let mut context = context(rng);
            context.cpl = 0;
            let kind = rng.pick(&[19, 21, 22]);
            let event = event_of_kind(rng, &context, kind);
            (context, event)
        }
        10 if rng.one_in(3) => {
            let (context, eptp) = bad_eptp(rng);
            let mut event = event_of_kind(rng, &context, 20);
            set_field(&mut event, 2, 1);
            set_field(&mut event, 3, eptp);
            (context, event)
        }
        10 => {
            let context = root(rng);
            let event = bad_entry(rng, &context);
            (context, event)
        }
        11 => {
            let context = context(rng);
            let kind = mapping_kind(rng, context.linear_width);
            let event = event_of_kind(rng, &context, kind);
            (context, event)
        }
        13 => {
            let context = any_context(rng);
            let event = any_event(rng, &context);
            (context, event)
        }
        14 => {
            let context = context(rng);
            let event = event(rng, &context);
            (context, event)
        }
        15 | 16 => dropping(rng),
        _ => fitted(rng),
    }
}

/// An INVPCID with some operand at a bound, or of type 0 with an address that
/// is not canonical.
fn bad_invpcid(rng: &mut Rng, context: &Context) -> Vec<u8> {
    let mut event = event_of_kind(rng, context, 26);
    if rng.one_in(2) {
        return near(rng, &event);
    }
    let width = context.linear_width;
    let address = pool::canonical(rng, width) ^ pool::not_canonical(rng, width);
    set_field(&mut event, 0, 0);
    set_field(&mut event, 2, address);
    event
}

/// An entry with its VPID or its EPTP at a bound, or any field.
fn bad_entry(rng: &mut Rng, context: &Context) -> Vec<u8> {
    let mut event = event_of_kind(rng, context, 20);
    match rng.below(6) {
        0 => near(rng, &event),
        1 | 2 => {
            set_field(&mut event, 0, 1);
            near_field(rng, &event, 1)
        }
        _ => {
            set_field(&mut event, 2, 1);
            near_field(rng, &event, 3)
        }
    }
}

/// A context in root, and an EPTP that breaks none of its rules there, one or
/// two.
fn bad_eptp(rng: &mut Rng) -> (Context, u64) {
    let mut context = root(rng);
    if !rng.one_in(8) {
        context.capability = PROGRAM_CAPABILITY;
    }
    let mut eptp = good_eptp(rng);
    for _ in 0..rng.pick(&[0, 1, 1, 1, 2]) {
        match rng.below(7) {
            0 => eptp ^= 1 << rng.below(3),
            1 => eptp ^= 1 << (3 + rng.below(3)),
            2 | 3 => {
                eptp |= 1 << 6;
                context.capability &= !(1 << 21);
            }
            4 => eptp |= 1 << (7 + rng.below(5)),
            5 => eptp |= 1 << (context.width as usize + rng.below(12)),
            _ => context.capability &= !(1 << rng.pick(&[6, 8, 14])),
        }
    }
    (context, eptp)
}

/// An event that has a scope, in a context in which it should be accepted.
pub fn dropping(rng: &mut Rng) -> (Context, Vec<u8>) {
    let kind = rng.pick(&[
        16, 16, 17, 17, 18, 18, 19, 19, 20, 21, 25, 26, 26, 26, 27, 27,
    ]);
    let mut context = match kind {
        16 | 17 | 20 => root(rng),
        18 | 25 | 26 | 27 => context(rng),
        _ => guest(rng),
    };
    if kind == 19 {
        let vpid = pool::vpid(rng);
        let ept = Some(pool::ep4ta(rng));
        context.place = Place::Guest { vpid, ept };
    }
    context.cpl = 0;
    if !rng.one_in(8) {
        context.capability = PROGRAM_CAPABILITY;
        context.width = PROGRAM_WIDTH;
    }
    let event = event_of_kind(rng, &context, kind);
    (context, event)
}

/// A context and an event that should be accepted in it.
fn fitted(rng: &mut Rng) -> (Context, Vec<u8>) {
    let mut context = context(rng);
    if !rng.one_in(8) {
        context.capability = PROGRAM_CAPABILITY;
        context.width = PROGRAM_WIDTH;
    }
    let (event, _) = fitting(rng, &context);
    (context, event)
}

fn undefined(rng: &mut Rng) -> (Context, Vec<u8>) {
    let mut context = context(rng);
    let kind = rng.pick(&[16, 17, 20, 23]);
    if kind >= 20 || rng.one_in(2) {
        context.place = Place::Outside;
    } else {
        context.capability &= !(1 << 32 | 1 << 20);
    }
    let event = event_of_kind(rng, &context, kind);
    (context, event)
}

fn root(rng: &mut Rng) -> Context {
    Context {
        cpl: 0,
        place: Place::Root,
        ..context(rng)
    }
}

fn guest(rng: &mut Rng) -> Context {
    let vpid = pool::vpid(rng);
    let ept = rng.pick(&[None, Some(0x123_4567)]);
    Context {
        place: Place::Guest { vpid, ept },
        ..context(rng)
    }
}
