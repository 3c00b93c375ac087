//! Addresses: linear ones at a width (document 02, Ask 12), and guest-physical
//! ones, which have none.

/// How many bits a linear address has.
#[derive(Clone, Copy, Debug, PartialEq, Eq)]
pub enum LinearWidth {
    Bits48,
    Bits57,
}

impl LinearWidth {
    /// The width that a number stands for. Any but 57 is read as 48: so the
    /// papers cut a log, and a context with another number is answered 1
    /// whatever else is read.
    pub fn of(number: u64) -> LinearWidth {
        if number == 57 {
            LinearWidth::Bits57
        } else {
            LinearWidth::Bits48
        }
    }

    /// The width that a number stands for; None for any but 48 and 57.
    pub fn exactly(number: u64) -> Option<LinearWidth> {
        match number {
            48 => Some(LinearWidth::Bits48),
            57 => Some(LinearWidth::Bits57),
            _ => None,
        }
    }

    fn bits(self) -> u32 {
        match self {
            LinearWidth::Bits48 => 48,
            LinearWidth::Bits57 => 57,
        }
    }

    /// Bits 63 to 47, or 63 to 56, all equal.
    pub fn canonical(self, address: u64) -> bool {
        let first = self.bits() - 1;
        let top = address >> first;
        top == 0 || top == u64::MAX >> first
    }

    /// The page of a linear address: its bits 47 to 12, or 56 to 12.
    pub fn page(self, address: u64) -> u64 {
        address >> 12 & ((1 << (self.bits() - 12)) - 1)
    }
}

/// The page of a guest-physical address at either width: its bits 47 to 12.
pub fn guest_physical_page(address: u64) -> u64 {
    address >> 12 & ((1 << 36) - 1)
}
