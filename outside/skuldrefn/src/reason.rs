//! Reasons, and the numbers that the C interface has for them.

use crate::raw::FlatReason;

/// Why an event drops a mapping or leaves it: the first that holds, in this
/// order.
#[derive(Clone, Copy, Debug, PartialEq, Eq)]
pub enum Reason {
    /// The step is refused, with this answer and this rule of the EPTP, as
    /// [`crate::Step`] has them.
    Refused {
        answer: u64,
        rule: u64,
    },
    /// The event has no scope.
    NoScope,
    /// INVLPG of an address that is not canonical.
    NotCanonical,
    /// The event touches no record of this kind.
    WrongKind,
    WrongVpid,
    WrongPcid,
    WrongEp4ta,
    /// The record does not cover the address.
    NotCovering,
    SparedAsGlobal,
    /// The step drops the record.
    InScope,
}

impl Reason {
    /// A refusal on another ground than an EPTP.
    pub fn refused(answer: u64) -> Reason {
        Reason::Refused { answer, rule: 0 }
    }
}

impl From<Reason> for FlatReason {
    fn from(reason: Reason) -> FlatReason {
        let (reason, answer, rule) = match reason {
            Reason::Refused { answer, rule } => (1, answer, rule),
            Reason::NoScope => (2, 0, 0),
            Reason::NotCanonical => (3, 0, 0),
            Reason::WrongKind => (4, 0, 0),
            Reason::WrongVpid => (5, 0, 0),
            Reason::WrongPcid => (6, 0, 0),
            Reason::WrongEp4ta => (7, 0, 0),
            Reason::NotCovering => (8, 0, 0),
            Reason::SparedAsGlobal => (9, 0, 0),
            Reason::InScope => (10, 0, 0),
        };
        FlatReason {
            reason,
            answer,
            rule,
        }
    }
}

impl FlatReason {
    /// The reason that the numbers stand for; None if they stand for nothing.
    pub fn reason(&self) -> Option<Reason> {
        let (answer, rule) = (self.answer, self.rule);
        Some(match (self.reason, answer, rule) {
            (1, 8 | 10, 1..=5) | (1, 1.., 0) => Reason::Refused { answer, rule },
            (2, 0, 0) => Reason::NoScope,
            (3, 0, 0) => Reason::NotCanonical,
            (4, 0, 0) => Reason::WrongKind,
            (5, 0, 0) => Reason::WrongVpid,
            (6, 0, 0) => Reason::WrongPcid,
            (7, 0, 0) => Reason::WrongEp4ta,
            (8, 0, 0) => Reason::NotCovering,
            (9, 0, 0) => Reason::SparedAsGlobal,
            (10, 0, 0) => Reason::InScope,
            _ => return None,
        })
    }
}
