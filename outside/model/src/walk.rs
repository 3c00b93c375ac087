//! The walk of a guest's tables through EPT (document 02, Ask 13).

use crate::address::LinearWidth;
use crate::context::Context;
use crate::judge::failed_rule;

/// What a walk answers, and how many entries it read.
#[derive(Clone, Copy, Debug, PartialEq, Eq)]
pub struct Walk {
    pub ending: Ending,
    pub read: u64,
}

/// The combined translation, or the first ground met.
#[derive(Clone, Copy, Debug, PartialEq, Eq)]
pub enum Ending {
    /// A record of kind 3.
    Translated([u8; 22]),
    ContextOutOfRange,
    /// The first rule that the EPTP breaks (Ask 6).
    BadEptp(u64),
    /// Not canonical at 48 bits, whatever the context's linear width is.
    NotCanonical,
    /// The entry is not present.
    Absent(Spot),
    /// A guest-physical address of 2^48 or more.
    TooHigh(Spot),
    /// The entry does not lie in the image with all of its bytes.
    Outside(Spot),
}

/// Where a walk ended.
#[derive(Clone, Copy, Debug, PartialEq, Eq)]
pub struct Spot {
    /// The guest level whose entry was on the way, 4 to 1; 0 for the final
    /// address.
    pub guest_level: u64,
    /// The level of the EPT entry, 4 to 1; 0 for the guest entry itself and for
    /// a guest-physical address that is too high.
    pub ept_level: u64,
    /// The entry's physical address, or the guest-physical address.
    pub address: u64,
}

/// Walks the guest's four levels from a root table, each guest-physical address
/// through the EPT of the EPTP.
pub fn walk(
    context: &Context,
    image: &[u8],
    root: u64,
    eptp: u64,
    vpid: u16,
    address: u64,
) -> Walk {
    walk_with_spans(context, image, root, eptp, vpid, address).0
}

/// The same; with a translation also the spans of the guest's page and of EPT's,
/// of which its record has the smaller.
pub fn walk_with_spans(
    context: &Context,
    image: &[u8],
    root: u64,
    eptp: u64,
    vpid: u16,
    address: u64,
) -> (Walk, Option<[u64; 2]>) {
    let ground = if !context.in_range() {
        Some(Ending::ContextOutOfRange)
    } else if failed_rule(context, eptp) != 0 {
        Some(Ending::BadEptp(failed_rule(context, eptp)))
    } else if !LinearWidth::Bits48.canonical(address) {
        Some(Ending::NotCanonical)
    } else {
        None
    };
    if let Some(ending) = ground {
        return (Walk { ending, read: 0 }, None);
    }
    let mut memory = Memory {
        image,
        ep4ta: field(eptp, 51, 12),
        read: 0,
    };
    let (ending, spans) = match memory.translate(root, address) {
        Ok(found) => (
            Ending::Translated(found.record(context, vpid, memory.ep4ta, address)),
            Some([found.guest_level - 1, found.ept_level - 1]),
        ),
        Err(ending) => (ending, None),
    };
    let read = memory.read;
    (Walk { ending, read }, spans)
}

/// Bits high to low of a number.
fn field(number: u64, high: u32, low: u32) -> u64 {
    number >> low & (u64::MAX >> (63 - (high - low)))
}

/// How many bytes a page has that an entry of a level maps: 4 KBytes at level 1,
/// 512 times as many with each level more.
fn page_size(level: u64) -> u64 {
    4096 << (9 * (level - 1))
}

/// The offset of the entry for an address in a table of a level.
fn entry_offset(level: u64, address: u64) -> u64 {
    8 * (address / page_size(level) % 512)
}

/// Whether an entry maps a page: always at level 1, by bit 7 at levels 2 and 3.
fn maps_a_page(level: u64, entry: u64) -> bool {
    match level {
        1 => true,
        2 | 3 => field(entry, 7, 7) == 1,
        _ => false,
    }
}

/// The address that an entry holds.
fn held(entry: u64) -> u64 {
    field(entry, 51, 12) * 4096
}

/// The address in the page of a level that an entry holds.
fn in_page(level: u64, entry: u64, address: u64) -> u64 {
    let size = page_size(level);
    held(entry) / size * size + address % size
}

struct Memory<'a> {
    image: &'a [u8],
    ep4ta: u64,
    read: u64,
}

/// The physical address, the level of the guest's and of the EPT's last entry,
/// and the last guest entry.
struct Found {
    physical: u64,
    guest_level: u64,
    ept_level: u64,
    entry: u64,
}

impl Memory<'_> {
    /// The eight bytes at a physical address.
    fn entry(&mut self, spot: Spot) -> Result<u64, Ending> {
        let start = usize::try_from(spot.address).map_err(|_| Ending::Outside(spot))?;
        let bytes = start
            .checked_add(8)
            .and_then(|end| self.image.get(start..end))
            .ok_or(Ending::Outside(spot))?;
        self.read += 1;
        let mut entry = [0; 8];
        entry.copy_from_slice(bytes);
        Ok(u64::from_le_bytes(entry))
    }

    /// A guest-physical address through EPT: the physical address, and the level
    /// of the entry that maps it.
    fn through_ept(&mut self, guest_level: u64, address: u64) -> Result<(u64, u64), Ending> {
        if address >= 1 << 48 {
            return Err(Ending::TooHigh(Spot {
                guest_level,
                ept_level: 0,
                address,
            }));
        }
        let mut table = self.ep4ta * 4096;
        let mut level = 4;
        loop {
            let spot = Spot {
                guest_level,
                ept_level: level,
                address: table + entry_offset(level, address),
            };
            let entry = self.entry(spot)?;
            if field(entry, 2, 0) == 0 {
                return Err(Ending::Absent(spot));
            }
            if maps_a_page(level, entry) {
                return Ok((in_page(level, entry, address), level));
            }
            table = held(entry);
            level -= 1;
        }
    }

    /// The whole walk.
    fn translate(&mut self, root: u64, linear: u64) -> Result<Found, Ending> {
        let mut table = root / 4096 * 4096;
        let mut level = 4;
        loop {
            let (place, _) = self.through_ept(level, table + entry_offset(level, linear))?;
            let spot = Spot {
                guest_level: level,
                ept_level: 0,
                address: place,
            };
            let entry = self.entry(spot)?;
            if field(entry, 0, 0) == 0 {
                return Err(Ending::Absent(spot));
            }
            if maps_a_page(level, entry) {
                let (physical, ept_level) = self.through_ept(0, in_page(level, entry, linear))?;
                return Ok(Found {
                    physical,
                    guest_level: level,
                    ept_level,
                    entry,
                });
            }
            table = held(entry);
            level -= 1;
        }
    }
}

impl Found {
    /// The record: kind 3 with the smaller of the two sizes.
    fn record(&self, context: &Context, vpid: u16, ep4ta: u64, linear: u64) -> [u8; 22] {
        let level = self.guest_level.min(self.ept_level);
        let pages = page_size(level) / 4096;
        let page = LinearWidth::Bits48.page(linear) / pages * pages;
        let frame = self.physical / 4096 / pages * pages;
        let fields = [
            (3, 1),
            (u64::from(vpid), 2),
            (context.pcid, 2),
            (field(self.entry, 8, 8), 1),
            (level - 1, 1),
            (page, 5),
            (frame, 5),
            (ep4ta, 5),
        ];
        let mut record = [0; 22];
        let mut place = 0;
        for (number, bytes) in fields {
            record[place..place + bytes].copy_from_slice(&number.to_le_bytes()[..bytes]);
            place += bytes;
        }
        record
    }
}
