//! The context: what of the processor matters besides the table.

use crate::address::LinearWidth;

/// A context. Every field may be any 64-bit number; what is out of its range
/// gets answer 1 and is never cut.
#[derive(Clone, Copy, Debug, PartialEq, Eq)]
pub struct Context {
    /// IA32_VMX_EPT_VPID_CAP.
    pub capability: u64,
    /// The physical width N.
    pub width: u64,
    /// The width of linear addresses, 48 or 57 (document 02, Ask 12).
    pub linear_width: u64,
    pub pcid: u64,
    pub cpl: u64,
    pub place: Place,
}

/// Where the processor is.
#[derive(Clone, Copy, Debug, PartialEq, Eq)]
pub enum Place {
    Outside,
    Root,
    /// The VPID is 0 exactly if VPIDs are not enabled. `ept` is the EP4TA, or
    /// None with EPT off.
    Guest {
        vpid: u64,
        ept: Option<u64>,
    },
}

impl Context {
    /// The context after a reset.
    pub fn after_reset(capability: u64, width: u64, linear_width: u64) -> Context {
        Context {
            capability,
            width,
            linear_width,
            pcid: 0,
            cpl: 0,
            place: Place::Outside,
        }
    }

    /// The context from which the replay program starts.
    pub fn program() -> Context {
        Context::after_reset(
            crate::PROGRAM_CAPABILITY,
            crate::PROGRAM_WIDTH,
            crate::PROGRAM_LINEAR_WIDTH,
        )
    }

    /// Every field is in its range. (There is no other condition: a guest
    /// with EPT needs no capability bit here, nor an EP4TA below 2^(N-12).)
    pub fn in_range(&self) -> bool {
        let place = match self.place {
            Place::Outside | Place::Root => true,
            Place::Guest { vpid, ept } => vpid <= 65_535 && ept.is_none_or(|a| a < 1 << 40),
        };
        (36..=52).contains(&self.width)
            && matches!(self.linear_width, 48 | 57)
            && self.pcid <= 4_095
            && self.cpl <= 3
            && place
    }

    /// The width at which linear addresses, records and events are read.
    pub fn linear(&self) -> LinearWidth {
        LinearWidth::of(self.linear_width)
    }

    /// The current VPID: 0 outside VMX and in root.
    pub fn vpid(&self) -> u64 {
        match self.place {
            Place::Outside | Place::Root => 0,
            Place::Guest { vpid, .. } => vpid,
        }
    }

    /// The current EP4TA; None if EPT is not in use.
    pub fn ep4ta(&self) -> Option<u64> {
        match self.place {
            Place::Outside | Place::Root => None,
            Place::Guest { ept, .. } => ept,
        }
    }

    pub fn in_guest(&self) -> bool {
        matches!(self.place, Place::Guest { .. })
    }

    /// Whether a bit of the capability is set.
    pub fn has(&self, bit: u32) -> bool {
        self.capability >> bit & 1 == 1
    }
}
