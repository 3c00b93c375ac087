//! Contexts.

use crate::pool;
use crate::Rng;
use common::{CAPABILITY_BITS, LINEAR_WIDTHS, PROGRAM_CAPABILITY, PROGRAM_WIDTH};
use model::{Context, Place};

/// The program's capability, often with one bit changed.
pub fn capability(rng: &mut Rng) -> u64 {
    match rng.below(16) {
        0..=9 => PROGRAM_CAPABILITY,
        10..=12 => PROGRAM_CAPABILITY ^ 1 << rng.pick(&CAPABILITY_BITS),
        13 => rng.number(),
        14 => u64::MAX ^ 1 << rng.pick(&CAPABILITY_BITS),
        _ => 1 << rng.pick(&CAPABILITY_BITS),
    }
}

fn width(rng: &mut Rng) -> u64 {
    rng.pick(&[
        PROGRAM_WIDTH,
        PROGRAM_WIDTH,
        PROGRAM_WIDTH,
        36,
        37,
        51,
        40,
        46,
    ])
}

fn ept(rng: &mut Rng) -> Option<u64> {
    (!rng.one_in(3)).then(|| pool::ep4ta(rng))
}

/// A context in range.
pub fn context(rng: &mut Rng) -> Context {
    Context {
        capability: capability(rng),
        width: width(rng),
        linear_width: rng.pick(&LINEAR_WIDTHS),
        pcid: pool::pcid(rng),
        cpl: rng.pick(&[0, 0, 0, 0, 0, 1, 2, 3]),
        place: match rng.below(6) {
            0 => Place::Outside,
            1 | 2 => Place::Root,
            _ => Place::Guest {
                vpid: pool::vpid(rng),
                ept: ept(rng),
            },
        },
    }
}

/// Linear widths that are out of range.
pub const BAD_LINEAR_WIDTHS: [u64; 9] = [
    0,
    47,
    49,
    56,
    58,
    (1 << 32) + 48,
    (1 << 32) + 57,
    1 << 63,
    u64::MAX,
];

/// Every context that differs from a given one in one field, at that field's
/// bounds or one past them. Some are in range and some are not.
pub fn near_contexts(context: &Context) -> Vec<Context> {
    let mut near = Vec::new();
    for width in [0, 35, 36, 52, 53, 36 + (1 << 32), u64::MAX] {
        near.push(Context { width, ..*context });
    }
    for linear_width in LINEAR_WIDTHS.into_iter().chain(BAD_LINEAR_WIDTHS) {
        near.push(Context {
            linear_width,
            ..*context
        });
    }
    for pcid in [0, 4_095, 4_096, 1 << 16, 1 << 32, u64::MAX] {
        near.push(Context { pcid, ..*context });
    }
    for cpl in [0, 3, 4, 1 << 8, 1 << 32, u64::MAX] {
        near.push(Context { cpl, ..*context });
    }
    let (vpid, ept) = match context.place {
        Place::Guest { vpid, ept } => (vpid, ept),
        _ => (5, None),
    };
    for vpid in [0, 65_535, 65_536, 65_541, 1 << 32, u64::MAX] {
        let place = Place::Guest { vpid, ept };
        near.push(Context { place, ..*context });
    }
    for ept in [
        None,
        Some(0),
        Some((1 << 40) - 1),
        Some(1 << 40),
        Some(1 << 63),
        Some(u64::MAX),
    ] {
        let place = Place::Guest { vpid, ept };
        near.push(Context { place, ..*context });
    }
    near
}

/// One of these.
pub fn near_context(rng: &mut Rng, context: &Context) -> Context {
    let near = near_contexts(context);
    near[rng.below(near.len())]
}

/// A context that need not be in range, with random numbers now and then.
pub fn any_context(rng: &mut Rng) -> Context {
    let context = context(rng);
    match rng.below(24) {
        0 => near_context(rng, &context),
        1 => Context {
            capability: rng.number(),
            width: rng.number() % 64,
            linear_width: rng.number() % 64,
            pcid: rng.number() % 8192,
            cpl: rng.number() % 8,
            ..context
        },
        _ => context,
    }
}
