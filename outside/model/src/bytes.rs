//! Reading little-endian fields one after another.

/// What is left to read of some bytes.
pub struct Fields<'a>(pub &'a [u8]);

impl Fields<'_> {
    /// The next field, of one to eight bytes. None if it is cut.
    pub fn take(&mut self, count: usize) -> Option<u64> {
        let (field, rest) = self.0.split_at_checked(count)?;
        self.0 = rest;
        let mut number = 0;
        for (place, byte) in field.iter().enumerate() {
            number |= u64::from(*byte) << (8 * place);
        }
        Some(number)
    }

    /// A flag: one byte, 0 or 1.
    pub fn take_flag(&mut self) -> Option<bool> {
        match self.take(1)? {
            0 => Some(false),
            1 => Some(true),
            _ => None,
        }
    }

    /// Some exactly if all bytes are read.
    pub fn end(&self) -> Option<()> {
        self.0.is_empty().then_some(())
    }
}
