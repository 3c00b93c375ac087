//! What is said of one event, as the words and numbers of its line.

use std::fmt;

/// What is said of the table that is claimed after an event.
#[derive(Debug, PartialEq, Eq)]
pub enum Verdict {
    /// It has so many of the records that the library's step leaves.
    Accepted { kept: usize, left: usize },
    /// The event is refused, and the table is the one before it.
    Refused { answer: u64, rule: u64 },
    /// The event is refused, and the table is another from this byte on.
    Changed { byte: usize, answer: u64, rule: u64 },
    /// It is no table, from this byte on.
    Malformed { byte: usize, why: String },
    /// The first record that the step does not leave starts at this byte.
    Unmatched { byte: usize, record: String },
}

impl Verdict {
    /// Whether a simulator may do so.
    pub fn is_lawful(&self) -> bool {
        matches!(self, Verdict::Accepted { .. } | Verdict::Refused { .. })
    }
}

impl fmt::Display for Verdict {
    fn fmt(&self, f: &mut fmt::Formatter) -> fmt::Result {
        match self {
            Verdict::Accepted { kept, left } => {
                write!(f, "lawful accepted {kept} of {left} records")
            }
            Verdict::Refused { answer, rule } => {
                write!(f, "lawful refused {answer} {rule} unchanged")
            }
            Verdict::Changed { byte, answer, rule } => {
                write!(f, "found changed {byte} refused {answer} {rule}")
            }
            Verdict::Malformed { byte, why } => write!(f, "found malformed {byte} {why}"),
            Verdict::Unmatched { byte, record } => write!(f, "found unmatched {byte} {record}"),
        }
    }
}
