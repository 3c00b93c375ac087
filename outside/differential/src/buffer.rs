//! Buffers that are lent to a call: filled with a pattern, and with more of
//! it on either side, so that a byte or a count written too many shows.

/// The bytes on either side, or the counts.
const GUARD: usize = 64;

/// A buffer by its length and the number that its pattern starts from.
#[derive(Clone, Copy, Debug, PartialEq, Eq)]
pub struct Buffer {
    pub length: usize,
    pub fill: u64,
}

impl Buffer {
    /// So many bytes.
    pub fn lend(&self) -> Lent {
        let count = GUARD + self.length + GUARD;
        let mut bytes = Vec::with_capacity(count + 8);
        let mut word = self.fill;
        while bytes.len() < count {
            word = word.wrapping_add(0x9E37_79B9_7F4A_7C15);
            let mixed = (word ^ word >> 29).wrapping_mul(0xBF58_476D_1CE4_E5B9);
            bytes.extend_from_slice(&mixed.to_be_bytes());
        }
        bytes.truncate(count);
        Lent { bytes }
    }

    /// So many counts.
    pub fn lend_counts(&self) -> LentCounts {
        let mut lent = LentCounts::new(&vec![0; self.length]);
        let mut number = self.fill as u16;
        for count in lent.part_mut() {
            number = number.wrapping_mul(25_173).wrapping_add(13_849);
            *count = number;
        }
        lent
    }
}

/// The bytes of a buffer.
#[derive(Clone, Debug)]
pub struct Lent {
    bytes: Vec<u8>,
}

impl Lent {
    fn end(&self) -> usize {
        self.bytes.len() - GUARD
    }

    /// The part that a call gets.
    pub fn part(&self) -> &[u8] {
        &self.bytes[GUARD..self.end()]
    }

    pub fn part_mut(&mut self) -> &mut [u8] {
        let end = self.end();
        &mut self.bytes[GUARD..end]
    }

    /// Compares all bytes, those on either side too.
    pub fn same(&self, expected: &Lent, name: &str) -> Result<(), String> {
        if self.bytes == expected.bytes {
            return Ok(());
        }
        let both = || self.bytes.iter().zip(&expected.bytes);
        let count = both().filter(|(got, due)| got != due).count();
        let at = both().position(|(got, due)| got != due).unwrap_or(0);
        Err(format!(
            "{name}: byte {} is {:02x} and should be {:02x} ({count} of {} bytes differ)",
            at as i64 - GUARD as i64,
            self.bytes[at],
            expected.bytes[at],
            self.part().len(),
        ))
    }
}

/// What stands on either side of counts.
const BESIDE: u16 = 0xA5C3;

/// A list of counts.
#[derive(Clone, Debug)]
pub struct LentCounts {
    counts: Vec<u16>,
}

impl LentCounts {
    /// These counts, and others on either side.
    pub fn new(counts: &[u16]) -> LentCounts {
        let guard = [BESIDE; GUARD];
        let counts = [&guard, counts, &guard].concat();
        LentCounts { counts }
    }

    /// The part that a call gets.
    pub fn part_mut(&mut self) -> &mut [u16] {
        let end = self.counts.len() - GUARD;
        &mut self.counts[GUARD..end]
    }

    /// Compares all counts with those due, and what stands on either side.
    pub fn same(&self, due: &[u16]) -> Result<(), String> {
        let (before, rest) = self.counts.split_at(GUARD);
        let (part, after) = rest.split_at(rest.len() - GUARD);
        if before.iter().chain(after).any(|beside| *beside != BESIDE) {
            return Err("a count beside those of the PCIDs was written".to_string());
        }
        same_counts(part, due)
    }
}

/// Compares the counts of all PCIDs.
pub fn same_counts(got: &[u16], due: &[u16]) -> Result<(), String> {
    if got == due {
        return Ok(());
    }
    if got.len() != due.len() {
        let lengths = (got.len(), due.len());
        return Err(format!("{} counts and not {}", lengths.0, lengths.1));
    }
    let differ = |pcid: &usize| got[*pcid] != due[*pcid];
    let count = (0..due.len()).filter(differ).count();
    let first = (0..due.len()).find(differ).unwrap_or(0);
    Err(format!(
        "the count of PCID {first} is {} and should be {} ({count} counts differ)",
        got[first], due[first]
    ))
}
