//! Events that should be accepted.

use crate::event::{
    entry_with, good_eptp, good_invept, good_invpcid, good_invvpid, invlpg, violation,
};
use crate::pool;
use crate::record::{current, tagged};
use crate::Rng;
use common::{encode, sibling};
use model::{Context, Place};

/// An event that should be accepted in this context, with the program's
/// capability and width and enough room, and the context after it.
pub fn fitting(rng: &mut Rng, context: &Context) -> (Vec<u8>, Context) {
    let same = *context;
    if context.cpl > 0 && rng.one_in(3) {
        // Else nothing privileged would be seen for long.
        return switch(rng, context, 0);
    }
    match rng.below(22) {
        0..=10 => (creation(rng, context), same),
        11 if context.cpl == 0 => (invlpg(rng, context), same),
        12 => {
            let cpl = rng.pick(&[0, 0, 3]);
            switch(rng, context, cpl)
        }
        13 if rng.one_in(12) => (
            vec![25],
            Context {
                pcid: 0,
                cpl: 0,
                place: Place::Outside,
                ..*context
            },
        ),
        14 if context.cpl == 0 => (good_invpcid(rng, context), same),
        15 if context.cpl == 0 => {
            let pcid = pool::pcid(rng);
            (encode(27, &[pcid]), Context { pcid, ..*context })
        }
        _ => match context.place {
            Place::Outside if context.cpl == 0 => (
                vec![22],
                Context {
                    place: Place::Root,
                    ..*context
                },
            ),
            Place::Outside => switch(rng, context, 0),
            Place::Root if context.cpl == 0 => from_root(rng, context),
            Place::Root => switch(rng, context, 0),
            Place::Guest { ept, .. } => from_guest(rng, context, ept.is_some()),
        },
    }
}

fn creation(rng: &mut Rng, context: &Context) -> Vec<u8> {
    let tags = current(context);
    let kind = if tags.ept.is_some() {
        rng.pick(&[2, 3, 3, 5, 6])
    } else {
        rng.pick(&[1, 1, 4])
    };
    tagged(rng, sibling(context.linear_width, kind), &tags)
}

fn switch(rng: &mut Rng, context: &Context, cpl: u64) -> (Vec<u8>, Context) {
    let pcid = pool::pcid(rng);
    let after = Context {
        pcid,
        cpl,
        ..*context
    };
    (encode(24, &[pcid, cpl]), after)
}

fn from_root(rng: &mut Rng, context: &Context) -> (Vec<u8>, Context) {
    match rng.below(16) {
        0..=3 => (good_invvpid(rng, context), *context),
        4..=6 => (good_invept(rng), *context),
        7 | 8 => (
            vec![23],
            Context {
                place: Place::Outside,
                ..*context
            },
        ),
        _ => {
            let vpid = pool::vpid_not_zero(rng);
            let eptp = good_eptp(rng);
            let numbers = entry_with(rng, vpid, eptp);
            let [vpids, _, ept, _, pcid, cpl] = numbers;
            let after = Context {
                pcid,
                cpl,
                place: Place::Guest {
                    vpid: if vpids == 1 { vpid } else { 0 },
                    ept: (ept == 1).then_some(eptp >> 12),
                },
                ..*context
            };
            (encode(20, &numbers), after)
        }
    }
}

fn from_guest(rng: &mut Rng, context: &Context, ept: bool) -> (Vec<u8>, Context) {
    if ept && rng.one_in(2) {
        return (violation(rng, context), *context);
    }
    let pcid = pool::pcid(rng);
    let after = Context {
        pcid,
        cpl: 0,
        place: Place::Root,
        ..*context
    };
    (encode(21, &[pcid]), after)
}
