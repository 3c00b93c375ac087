//! Valid events.

use crate::pool;
use crate::record::{mapping_kind, record_of_kind};
use crate::Rng;
use common::encode;
use model::Context;

/// A valid event of any kind. It may well be refused in this context.
pub fn event(rng: &mut Rng, context: &Context) -> Vec<u8> {
    let kind = match rng.below(10) {
        0..=3 => mapping_kind(rng, context.linear_width),
        4 => 16,
        5 => 17,
        _ => 16 + rng.below(12) as u8,
    };
    event_of_kind(rng, context, kind)
}

/// The same, of one kind that is known at either width.
pub fn event_of_kind(rng: &mut Rng, context: &Context, kind: u8) -> Vec<u8> {
    match kind {
        1..=10 => record_of_kind(rng, context, kind),
        16 => invvpid(rng, context),
        17 => invept(rng),
        18 => invlpg(rng, context),
        19 => violation(rng, context),
        20 => entry(rng),
        21 => encode(21, &[pool::pcid(rng)]),
        24 => encode(24, &[pool::pcid(rng), rng.pick(&[0, 0, 0, 1, 3])]),
        26 => invpcid(rng, context),
        27 => encode(27, &[pool::pcid(rng)]),
        _ => encode(kind, &[]),
    }
}

/// An INVVPID whose operands are mostly good.
fn invvpid(rng: &mut Rng, context: &Context) -> Vec<u8> {
    let kind = if rng.one_in(12) {
        rng.pick(&[4, 0x100, (1 << 32) + 1, 1 << 63, u64::MAX])
    } else {
        rng.below(4) as u64
    };
    let mut low = if rng.one_in(6) {
        0
    } else {
        pool::vpid_not_zero(rng)
    };
    if rng.one_in(10) {
        low |= 1 << (16 + rng.below(48));
    }
    encode(16, &[kind, low, pool::linear(rng, context.linear_width)])
}

/// An INVVPID that is accepted in root with the program's capability.
pub fn good_invvpid(rng: &mut Rng, context: &Context) -> Vec<u8> {
    let kind = rng.pick(&[0, 0, 0, 0, 1, 2, 3, 3]);
    let vpid = pool::vpid_not_zero(rng);
    encode(
        16,
        &[kind, vpid, pool::canonical(rng, context.linear_width)],
    )
}

/// An INVEPT whose operands are mostly good.
fn invept(rng: &mut Rng) -> Vec<u8> {
    let kind = if rng.one_in(12) {
        rng.pick(&[0, 3, 0x101, (1 << 32) + 1, 1 << 63, u64::MAX])
    } else {
        rng.pick(&[1, 1, 1, 2])
    };
    let high = if rng.one_in(10) {
        1 << rng.below(64)
    } else {
        0
    };
    encode(17, &[kind, eptp(rng), high])
}

/// An INVEPT that is accepted in root with the program's capability.
pub fn good_invept(rng: &mut Rng) -> Vec<u8> {
    let kind = if rng.one_in(8) { 2 } else { 1 };
    encode(17, &[kind, good_eptp(rng), 0])
}

/// An EPTP, good with the program's capability but for one in eight; at a
/// width below 52 it may be too wide.
fn eptp(rng: &mut Rng) -> u64 {
    let good = good_eptp(rng);
    match rng.below(16) {
        0 => good ^ 1 << rng.below(12),
        1 => good ^ 1 << (52 + rng.below(12)),
        _ => good,
    }
}

/// An EPTP that is good with the program's capability and width.
pub fn good_eptp(rng: &mut Rng) -> u64 {
    pool::ep4ta(rng) << 12 | rng.pick(&[0x1E, 0x1E, 0x5E, 0x18, 0x58])
}

/// An INVPCID whose operands are mostly good.
fn invpcid(rng: &mut Rng, context: &Context) -> Vec<u8> {
    let kind = if rng.one_in(12) {
        rng.pick(&[4, 0x100, (1 << 32) + 1, 1 << 63, u64::MAX])
    } else {
        rng.below(4) as u64
    };
    let mut low = named_pcid(rng, context);
    if rng.one_in(10) {
        low |= 1 << (12 + rng.below(52));
    }
    encode(26, &[kind, low, pool::linear(rng, context.linear_width)])
}

/// An INVPCID that is accepted at CPL 0.
pub fn good_invpcid(rng: &mut Rng, context: &Context) -> Vec<u8> {
    let kind = rng.pick(&[0, 0, 0, 0, 1, 1, 2, 3]);
    let pcid = named_pcid(rng, context);
    encode(
        26,
        &[kind, pcid, pool::canonical(rng, context.linear_width)],
    )
}

/// The current PCID, or any.
fn named_pcid(rng: &mut Rng, context: &Context) -> u64 {
    let pcid = pool::pcid(rng);
    rng.pick(&[context.pcid % 4_096, pcid])
}

pub fn invlpg(rng: &mut Rng, context: &Context) -> Vec<u8> {
    encode(18, &[pool::linear(rng, context.linear_width)])
}

/// An EPT violation, with a linear address or without.
pub fn violation(rng: &mut Rng, context: &Context) -> Vec<u8> {
    let width = context.linear_width;
    let physical = pool::guest_physical(rng);
    let (flag, linear) = if rng.one_in(3) {
        (0, pool::linear(rng, width))
    } else {
        (1, pool::canonical(rng, width))
    };
    encode(19, &[physical, flag, linear])
}

/// A valid VM entry. VPID 0 or a bad EPTP come now and then, and disabled
/// fields hold anything.
fn entry(rng: &mut Rng) -> Vec<u8> {
    let vpid = pool::vpid(rng);
    let eptp = eptp(rng);
    encode(20, &entry_with(rng, vpid, eptp))
}

/// The fields of a VM entry with this VPID and EPTP, enabled or not.
pub fn entry_with(rng: &mut Rng, vpid: u64, eptp: u64) -> [u64; 6] {
    let vpids = rng.pick(&[0, 1, 1]);
    let ept = rng.pick(&[0, 1, 1]);
    [
        vpids,
        vpid,
        ept,
        eptp,
        pool::pcid(rng),
        rng.pick(&[0, 0, 0, 3]),
    ]
}
