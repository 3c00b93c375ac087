//! The small pools from which tags, pages and addresses come.

use crate::Rng;
use common::is_wide_kind;
use model::Address;

/// VPIDs; some share a byte.
const VPIDS: [u64; 8] = [0, 0, 5, 5, 6, 0x0105, 0x0500, 65_535];

/// PCIDs; some share a byte.
const PCIDS: [u64; 7] = [0, 0, 1, 1, 2, 0x101, 4_095];

/// EP4TAs: some need a width above 36, one needs 52.
const EP4TAS: [u64; 8] = [
    0x123_4567,
    0x123_4567,
    0x123_4567,
    0x123_4568,
    0x023_4567,
    0,
    1,
    (1 << 40) - 1,
];

/// Pages close to each other and to the ends of every span.
const PAGES: [u64; 20] = [
    0x12345,
    0x12345,
    0x12345,
    0x12345,
    0x12344,
    0x12346,
    0x12200,
    0x123FF,
    0x12400,
    0x3FFFF,
    0x40000,
    0x7FF_FFFF,
    0x800_0000,
    0,
    1,
    (1 << 35) - 1,
    1 << 35,
    (1 << 36) - 1,
    (1 << 36) - (1 << 27),
    0xFED_CBA9_8765 >> 8,
];

/// Pages of 57-bit addresses: those above, those near 2^35 and 2^36, where the
/// pages of 48-bit addresses end, those near 2^44 and 2^45, and what 2^35 and
/// more become at 57 bits.
const WIDE_PAGES: [u64; 24] = [
    0x12345,
    0x12345,
    0x12345,
    0x12345,
    0x12346,
    0x12200,
    0x12400,
    0x40000,
    0x800_0000,
    0,
    (1 << 35) - 1,
    1 << 35,
    (1 << 36) - 1,
    1 << 36,
    (1 << 36) + 0x12345,
    (1 << 36) + 0x12345,
    (1 << 44) - 1,
    1 << 44,
    (1 << 44) + 0x12345,
    (1 << 45) - (1 << 36) - 1,
    (1 << 45) - (1 << 36),
    (1 << 45) - (1 << 35),
    (1 << 45) - 1,
    0xFED_CBA9_8765 << 1,
];

pub fn vpid(rng: &mut Rng) -> u64 {
    rng.pick(&VPIDS)
}

pub fn vpid_not_zero(rng: &mut Rng) -> u64 {
    rng.pick(&VPIDS[2..])
}

pub fn pcid(rng: &mut Rng) -> u64 {
    rng.pick(&PCIDS)
}

pub fn ep4ta(rng: &mut Rng) -> u64 {
    rng.pick(&EP4TAS)
}

/// A page of a guest-physical address.
fn page(rng: &mut Rng) -> u64 {
    if rng.one_in(40) {
        rng.number() >> 28
    } else {
        rng.pick(&PAGES)
    }
}

fn wide_page(rng: &mut Rng) -> u64 {
    if rng.one_in(40) {
        rng.number() >> 19
    } else {
        rng.pick(&WIDE_PAGES)
    }
}

/// A page of a linear address.
fn linear_page(rng: &mut Rng, linear_width: u64) -> u64 {
    match linear_width {
        57 => wide_page(rng),
        _ => page(rng),
    }
}

/// A page for a record of a kind.
pub fn page_of_kind(rng: &mut Rng, kind: u8) -> u64 {
    if is_wide_kind(kind) {
        wide_page(rng)
    } else {
        page(rng)
    }
}

/// A linear address, canonical at this width but for one in sixteen.
pub fn linear(rng: &mut Rng, linear_width: u64) -> u64 {
    let address = canonical(rng, linear_width);
    if rng.one_in(16) {
        return address ^ not_canonical(rng, linear_width);
    }
    address
}

/// One of the bits that must be equal, or all of them but one.
pub fn not_canonical(rng: &mut Rng, linear_width: u64) -> u64 {
    match linear_width {
        57 => rng.pick(&[1 << 56, 1 << 57, 1 << 62, 1 << 63, 0x7F << 57]),
        _ => rng.pick(&[1 << 47, 1 << 48, 1 << 62, 1 << 63, 0xFFFF << 48]),
    }
}

/// A canonical linear address.
pub fn canonical(rng: &mut Rng, linear_width: u64) -> u64 {
    let offset = rng.pick(&[0, 0x678, 0xFFF]);
    let page = linear_page(rng, linear_width);
    canonical_of(linear_width, page, offset)
}

/// The canonical address at an offset in a page.
pub fn canonical_of(linear_width: u64, page: u64, offset: u64) -> u64 {
    common::canonical(linear_width, page << 12 | offset)
}

/// A guest-physical address below 2^48.
pub fn guest_physical(rng: &mut Rng) -> u64 {
    page(rng) << 12 | rng.pick(&[0, 0x678, 0xFFF])
}

/// An address to look up at this width, of either sort.
pub fn address(rng: &mut Rng, linear_width: u64) -> Address {
    match rng.below(20) {
        0 => Address::Linear(rng.number()),
        1 => Address::GuestPhysical(rng.number()),
        2 => Address::GuestPhysical(guest_physical(rng) | 1 << rng.pick(&[48, 49, 63])),
        3..=8 => Address::GuestPhysical(guest_physical(rng)),
        _ => Address::Linear(linear(rng, linear_width)),
    }
}
