//! The inputs of one walk of a guest's tables through EPT (document 02, Ask 13).
//!
//! The tables are laid out along one walk: what it needs next and is not there
//! yet is drawn, and what is there stays, whatever it was drawn for. So tables
//! share pages and point at themselves.

use crate::context::{any_context, context};
use crate::pool;
use crate::Rng;
use common::canonical;
use model::Context;
use std::collections::BTreeMap;
use std::fmt;

/// The inputs of one walk.
#[derive(Clone, Debug)]
pub struct Walk {
    pub context: Context,
    /// Memory from physical address 0 on.
    pub image: Vec<u8>,
    pub root: u64,
    pub eptp: u64,
    pub vpid: u16,
    pub address: u64,
}

impl fmt::Display for Walk {
    fn fmt(&self, f: &mut fmt::Formatter) -> fmt::Result {
        writeln!(f, "context: {:x?}", self.context)?;
        write!(f, "image of {:#x} bytes:", self.image.len())?;
        for (at, entry) in image_entries(&self.image) {
            write!(f, " {at:#x}: {entry:#x}")?;
        }
        writeln!(f)?;
        let (root, eptp, address) = (self.root, self.eptp, self.address);
        write!(f, "root {root:#x}, EPTP {eptp:#x}, VPID {}, ", self.vpid)?;
        write!(f, "address {address:#x}")
    }
}

/// The entries of an image that are not 0, with their addresses. At the end of
/// an odd length an entry may be cut.
pub fn image_entries(image: &[u8]) -> Vec<(usize, u64)> {
    let entries = image.chunks(8).enumerate();
    let numbers = entries.map(|(nth, bytes)| (8 * nth, common::number(bytes)));
    numbers.filter(|(_, entry)| *entry != 0).collect()
}

/// What a walk shall end with.
#[derive(Clone, Copy, PartialEq)]
enum Ground {
    None,
    Absent,
    TooHigh,
    Outside,
}

/// Where: a guest level, 4 to 1 and 0 for the final address, and an EPT level, 4
/// to 1 and 0 for the guest entry.
type Spot = (u64, u64);

/// The inputs of one walk, aimed at a translation with any two page sizes or at
/// a ground at any level. Some carry a defect in the context, the EPTP or the
/// address, and some are quite random.
pub fn walk(rng: &mut Rng) -> Walk {
    let mut walk = laid_out(rng);
    match rng.below(24) {
        0 => walk.context = any_context(rng),
        1 => walk.context = crate::context::near_context(rng, &walk.context),
        2..=4 => spoil_eptp(rng, &mut walk),
        5 => walk.address ^= pool::not_canonical(rng, 48),
        6 => walk.address = pool::linear(rng, 57),
        7 => walk.address = rng.number(),
        8 => walk.image = short_image(rng),
        _ => {}
    }
    walk
}

/// An EPTP that breaks one of its rules or two, or is random.
fn spoil_eptp(rng: &mut Rng, walk: &mut Walk) {
    for _ in 0..1 + rng.below(2) {
        let above = (64 - walk.context.width) as usize;
        match rng.below(8) {
            0 => walk.eptp ^= 1 << rng.below(3),
            1 => walk.eptp ^= 1 << (3 + rng.below(3)),
            2 => walk.eptp |= 1 << (7 + rng.below(5)),
            3 => walk.eptp |= 1 << (walk.context.width as usize + rng.below(above)),
            4 | 5 => {
                walk.eptp |= 1 << 6;
                walk.context.capability &= !(1 << 21);
            }
            6 => walk.context.capability ^= 1 << rng.pick(&[6, 8, 14, 21]),
            _ => walk.eptp = rng.number(),
        }
    }
}

/// So few bytes that there is an entry at 0, at 8 or none.
fn short_image(rng: &mut Rng) -> Vec<u8> {
    let length = rng.below(20);
    let mut image = rng.bytes(length);
    if let Some(first) = image.first_mut() {
        *first |= 1;
    }
    image
}

/// Tables for one address, in an image that mostly ends behind the last entry or
/// within it.
fn laid_out(rng: &mut Rng) -> Walk {
    let context = Context {
        capability: match rng.below(8) {
            0 => crate::capability(rng),
            _ => common::PROGRAM_CAPABILITY,
        },
        ..context(rng)
    };
    let mut tables = Tables::new(rng);
    let root = tables.root();
    let ep4ta = tables.page((4, 4));
    let address = tables.linear();
    tables.guest(root, ep4ta << 12, address);
    let length = tables.length();
    let image = tables.image(length);
    Walk {
        context,
        image,
        root: root | rng.pick(&[0, 0, 1, 0x18, 0xFFF]),
        eptp: ep4ta << 12 | rng.pick(&[0x1E, 0x1E, 0x5E, 0x18, 0x58]),
        vpid: match rng.below(4) {
            0 => rng.number() as u16,
            _ => pool::vpid(rng) as u16,
        },
        address,
    }
}

/// The tables of one walk while they are laid out.
struct Tables<'a> {
    rng: &'a mut Rng,
    ground: Ground,
    spot: Spot,
    /// The page sizes aimed at, 0 to 2: the guest's, and EPT's for the final
    /// address and for the entry of each guest level.
    guest_span: u64,
    ept_spans: [u64; 5],
    /// The pages of the image; the last is kept for the entry that is aimed at.
    pages: u64,
    /// Whether the tables' guest-physical addresses are all low.
    low: bool,
    entries: BTreeMap<u64, u64>,
    /// The address of the entry that is aimed at, once it is known.
    aimed: Option<u64>,
}

/// Which entry of a table an address takes at a level, as an offset.
fn offset(level: u64, address: u64) -> u64 {
    (address >> (9 * level + 3) & 511) * 8
}

/// The address that an entry holds.
fn held(entry: u64) -> u64 {
    entry & 0x000F_FFFF_FFFF_F000
}

/// Whether an entry of a level ends the walk, and with which page.
fn in_page(level: u64, entry: u64, address: u64) -> Option<u64> {
    let large = (level == 2 || level == 3) && entry & 0x80 != 0;
    let below = (1 << (9 * level + 3)) - 1;
    (level == 1 || large).then_some(held(entry) & !below | address & below)
}

impl Tables<'_> {
    fn new(rng: &mut Rng) -> Tables<'_> {
        let ground = rng.pick(&[
            Ground::None,
            Ground::None,
            Ground::None,
            Ground::Absent,
            Ground::TooHigh,
            Ground::Outside,
        ]);
        let spot = match ground {
            Ground::TooHigh => (rng.below(5) as u64, 0),
            _ if rng.one_in(6) => (0, 1 + rng.below(4) as u64),
            _ => (1 + rng.below(4) as u64, rng.below(5) as u64),
        };
        let mut span = |seldom: usize| match rng.below(seldom) {
            0 => 1,
            1 => 2,
            _ => 0,
        };
        let guest_span = if ground == Ground::None || spot.0 == 0 {
            span(3)
        } else {
            0
        };
        let mut ept_spans = [0; 5];
        if ground == Ground::None {
            ept_spans = [span(3), span(8), span(8), span(8), span(8)];
        }
        let mut tables = Tables {
            ground,
            spot,
            guest_span,
            ept_spans,
            pages: rng.pick(&[1, 2, 2, 3, 4, 4, 6, 8]),
            // All in one EPT page table, so that no ground can be aimed at in it.
            low: rng.one_in(if ground == Ground::None { 2 } else { 8 }),
            entries: BTreeMap::new(),
            aimed: None,
            rng,
        };
        if tables.rng.one_in(12) {
            tables.fill();
        }
        tables
    }

    /// Every entry of every page points at one of the pages.
    fn fill(&mut self) {
        self.pages = self.pages.min(3);
        for nth in 0..512 * self.pages {
            let page = self.rng.below(self.pages as usize) as u64;
            let mut entry = self.noise() | page << 12 | 7;
            if !self.rng.one_in(6) {
                entry &= !0x80;
            }
            if self.rng.one_in(40) {
                entry &= !self.rng.pick(&[1, 7]);
            }
            self.entries.insert(8 * nth, entry);
        }
    }

    /// Bits that nothing reads, and bits 8 to 0.
    fn noise(&mut self) -> u64 {
        let number = self.rng.number() & 0xFFF0_0000_0000_0FFF;
        self.rng.pick(&[number, number, 0x07, 0x107])
    }

    /// The page of the entry of a spot.
    fn page(&mut self, spot: Spot) -> u64 {
        if self.ground == Ground::Outside {
            if spot.1 == self.spot.1 && (spot.0 == self.spot.0 || spot.1 == 4) {
                return if self.rng.one_in(6) {
                    self.pages + (self.rng.number() >> (24 + self.rng.below(40)))
                } else {
                    self.pages - 1
                };
            }
            return self.rng.below(1.max(self.pages as usize - 1)) as u64;
        }
        self.rng.below(self.pages as usize) as u64
    }

    /// A guest-physical address of a table: low in its GByte, so that it lies in
    /// the image by a large EPT page too.
    fn guest_table(&mut self) -> u64 {
        let page = self.rng.below(self.pages as usize) as u64;
        let above = match self.rng.below(8) {
            _ if self.low => 0,
            0 => 0x3_FFFF,
            _ => self.rng.number() >> 46,
        };
        above << 30 | page << 12
    }

    /// An address of 2^48 or more instead, if that is aimed at for this guest level.
    fn maybe_too_high(&mut self, guest: u64, address: u64) -> u64 {
        if self.ground != Ground::TooHigh || self.spot.0 != guest {
            return address;
        }
        let high = (1 + self.rng.below(15) as u64) << 48;
        if self.rng.one_in(8) {
            high
        } else {
            high | address
        }
    }

    fn root(&mut self) -> u64 {
        let root = self.guest_table();
        let root = self.maybe_too_high(4, root);
        let above = self.rng.below(64);
        if above > 51 && self.ground == Ground::TooHigh && self.spot.0 == 4 {
            return root & 0x0000_FFFF_FFFF_FFFF | 1 << above;
        }
        root
    }

    /// A canonical linear address of 48 bits.
    fn linear(&mut self) -> u64 {
        match self.rng.below(4) {
            0 => pool::canonical(self.rng, 48),
            1 if self.low => self.rng.number() >> 40,
            _ => canonical(48, self.rng.number()),
        }
    }

    /// Lays out the guest's tables from a root, and EPT's on the way.
    fn guest(&mut self, root: u64, ept: u64, address: u64) {
        let mut table = root;
        for level in (1..=4).rev() {
            let Some(at) = self.ept(ept, level, table + offset(level, address)) else {
                return;
            };
            let entry = self.entry((level, 0), at);
            if entry & 1 == 0 {
                return;
            }
            if let Some(last) = in_page(level, entry, address) {
                self.ept(ept, 0, last);
                return;
            }
            table = held(entry);
        }
    }

    /// Lays out EPT's tables for a guest-physical address; where it leads to.
    fn ept(&mut self, root: u64, guest: u64, address: u64) -> Option<u64> {
        if address >> 48 != 0 {
            return None;
        }
        let mut table = root;
        for level in (1..=4).rev() {
            let entry = self.entry((guest, level), table + offset(level, address));
            if entry & 7 == 0 {
                return None;
            }
            if let Some(physical) = in_page(level, entry, address) {
                return Some(physical);
            }
            table = held(entry);
        }
        None
    }

    /// The entry at an address; drawn for its spot if there is none yet, and 0
    /// past the image.
    fn entry(&mut self, spot: Spot, at: u64) -> u64 {
        if spot == self.spot {
            self.aimed = Some(at);
        }
        if let Some(entry) = self.entries.get(&at) {
            return *entry;
        }
        if at >= self.pages << 12 {
            return 0;
        }
        let entry = match spot {
            (level, 0) => self.guest_entry(level),
            _ => self.ept_entry(spot),
        };
        self.entries.insert(at, entry);
        entry
    }

    /// Bit 7 set or not where it means a large page.
    fn with_size(&mut self, level: u64, last: bool) -> u64 {
        let noise = self.noise() & !0x80;
        match level {
            2 | 3 if last => noise | 0x80,
            2 | 3 => noise,
            _ => noise | self.rng.pick(&[0, 0x80]),
        }
    }

    fn guest_entry(&mut self, level: u64) -> u64 {
        let last = level == self.guest_span + 1;
        let bits = self.with_size(level, last) & !1;
        let address = if last {
            let page = self.rng.number() >> 28;
            let address = self.guest_table();
            self.rng.pick(&[page << 12, address])
        } else {
            self.guest_table()
        };
        let address = self.maybe_too_high(if last { 0 } else { level - 1 }, address);
        bits | address | u64::from(!self.is_absent((level, 0)))
    }

    fn ept_entry(&mut self, spot: Spot) -> u64 {
        let (guest, level) = spot;
        let last = level == self.ept_spans[guest as usize] + 1;
        let bits = self.with_size(level, last) & !7;
        let page = if !last {
            self.page((guest, level - 1))
        } else if guest == 0 {
            self.rng.number() >> 24
        } else if level == 1 {
            self.page((guest, 0))
        } else {
            // Rounded down it is mostly 0, and then in the image.
            self.rng.number() >> self.rng.pick(&[24, 55, 55, 55])
        };
        let rights = if self.is_absent(spot) {
            0
        } else {
            self.rng.pick(&[1, 2, 3, 4, 5, 6, 7, 7])
        };
        bits | page << 12 | rights
    }

    fn is_absent(&self, spot: Spot) -> bool {
        self.ground == Ground::Absent && self.spot == spot
    }

    /// The length of the image.
    fn length(&mut self) -> u64 {
        let all = self.pages << 12;
        let last = self.entries.keys().last().map_or(0, |at| at + 8);
        let aimed = self.aimed.filter(|at| *at < all);
        match (self.ground, aimed) {
            (Ground::Outside, Some(at)) => at + self.rng.pick(&[0, 1, 4, 7, 7, 7, 8]),
            (Ground::Outside, None) => self.rng.below(all as usize) as u64,
            (Ground::Absent, Some(at)) if self.rng.one_in(3) => at + 8,
            _ => self
                .rng
                .pick(&[all, all, last, last, last + 1, last + 7, last + 8]),
        }
    }

    fn image(&self, length: u64) -> Vec<u8> {
        let mut image = vec![0; length as usize];
        for (at, entry) in &self.entries {
            let start = image.len().min(*at as usize);
            let place = image[start..].iter_mut();
            place
                .zip(entry.to_le_bytes())
                .for_each(|(to, byte)| *to = byte);
        }
        image
    }
}
