//! The walk of a guest's tables through EPT.

use crate::context::Context;
use crate::raw::{self, FlatContext, FlatWalk};

/// What a walk answers, and how many entries it read, at most 24. A read outside
/// the image does not count.
#[derive(Clone, Copy, Debug, PartialEq, Eq)]
pub struct Walk {
    pub ending: Ending,
    pub read: u64,
}

/// The combined translation, or the first ground met.
#[derive(Clone, Copy, Debug, PartialEq, Eq)]
pub enum Ending {
    /// The translation as a record of kind 3.
    Translated([u8; 22]),
    /// A context field is out of its range.
    ContextOutOfRange,
    /// The first rule that the EPTP breaks, as [`crate::Step`] has it.
    BadEptp(u64),
    /// The linear address is not canonical at 48 bits.
    NotCanonical,
    /// The entry is not present.
    Absent(Spot),
    /// A guest-physical address of 2^48 or more.
    TooHigh(Spot),
    /// The entry does not lie in the image with all of its eight bytes.
    Outside(Spot),
}

/// Where a ground was met.
#[derive(Clone, Copy, Debug, PartialEq, Eq)]
pub struct Spot {
    /// The level of the guest entry that was on the way, 4 (PML4) to 1; 0 for the
    /// final address.
    pub guest_level: u64,
    /// The level of the EPT entry, 4 to 1; 0 for the guest entry itself, and for
    /// a guest-physical address that is too high.
    pub ept_level: u64,
    /// The entry's physical address, or the guest-physical address.
    pub address: u64,
}

impl From<Walk> for FlatWalk {
    fn from(walk: Walk) -> FlatWalk {
        let nowhere = Spot {
            guest_level: 0,
            ept_level: 0,
            address: 0,
        };
        let (ending, rule, spot, record) = match walk.ending {
            Ending::Translated(record) => (0, 0, nowhere, record),
            Ending::ContextOutOfRange => (1, 0, nowhere, [0; 22]),
            Ending::BadEptp(rule) => (2, rule, nowhere, [0; 22]),
            Ending::NotCanonical => (3, 0, nowhere, [0; 22]),
            Ending::Absent(spot) => (4, 0, spot, [0; 22]),
            Ending::TooHigh(spot) => (5, 0, spot, [0; 22]),
            Ending::Outside(spot) => (6, 0, spot, [0; 22]),
        };
        FlatWalk {
            ending,
            rule,
            guest_level: spot.guest_level,
            ept_level: spot.ept_level,
            address: spot.address,
            read: walk.read,
            record,
        }
    }
}

impl FlatWalk {
    /// The walk; None for numbers that stand for none.
    pub fn walk(&self) -> Option<Walk> {
        let spot = Spot {
            guest_level: self.guest_level,
            ept_level: self.ept_level,
            address: self.address,
        };
        let ending = match self.ending {
            0 => Ending::Translated(self.record),
            1 => Ending::ContextOutOfRange,
            2 => Ending::BadEptp(self.rule),
            3 => Ending::NotCanonical,
            4 => Ending::Absent(spot),
            5 => Ending::TooHigh(spot),
            6 => Ending::Outside(spot),
            _ => return None,
        };
        let walk = Walk {
            ending,
            read: self.read,
        };
        (FlatWalk::from(walk) == *self).then_some(walk)
    }
}

/// Walks the guest's four levels for a linear address, from a root table (a
/// guest-physical address, bits 11:0 ignored), each guest-physical address
/// through the EPT of the EPTP. The image is memory from physical address 0 on;
/// nothing past it is read. The context gives capability, width and PCID; all of it
/// must be in range.
///
/// The record is one for tables of linear width 48; at 57 a step refuses it. It has
/// the smaller of the two page sizes, page and frame rounded down to it, and the
/// global mark of the last guest entry. Reserved bits and access rights are not
/// looked at, and the frame may lie outside the image.
///
/// # Panics
/// If the library hands back what its contract rules out.
pub fn walk(
    context: &Context,
    image: &[u8],
    root: u64,
    eptp: u64,
    vpid: u16,
    address: u64,
) -> Walk {
    let flat = walk_flat(&context.into(), image, root, eptp, vpid, address);
    match flat.walk() {
        Some(walk) => walk,
        None => panic!("the library handed back {flat:?}"),
    }
}

/// The walk on a flat context.
pub fn walk_flat(
    context: &FlatContext,
    image: &[u8],
    root: u64,
    eptp: u64,
    vpid: u16,
    address: u64,
) -> FlatWalk {
    // SAFETY: the image is good for its length during the call, and the library
    // keeps nothing.
    unsafe {
        raw::skuldrefn_walk(
            *context,
            image.as_ptr(),
            image.len(),
            root,
            eptp,
            vpid,
            address,
        )
    }
}
