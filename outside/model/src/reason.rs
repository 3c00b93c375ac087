//! Why a mapping went or stayed (document 02, Ask 1; with Asks 2, 5, 6 and 12).
//!
//! The reasons are tried in the paper's order, and the first that holds is
//! given. Each is written down from the papers by itself, and not from
//! [`crate::scope`], so that the two can be compared.

use crate::address::guest_physical_page;
use crate::context::Context;
use crate::event::{ep4ta, Event};
use crate::judge;
use crate::mapping::Mapping;
use crate::TABLE_LIMIT;

/// The reasons, in the paper's order.
#[derive(Clone, Copy, Debug, PartialEq, Eq)]
pub enum Reason {
    /// The step is refused, with its number and its EPTP rule (Ask 6).
    Refused {
        answer: u64,
        rule: u64,
    },
    /// The event has no scope.
    NoScope,
    /// INVLPG of an address that is not canonical.
    NotCanonical,
    WrongKind,
    WrongVpid,
    WrongPcid,
    WrongEp4ta,
    /// The record does not cover the address.
    NotCovering,
    SparedAsGlobal,
    InScope,
}

impl Reason {
    /// A refusal on another ground than an EPTP.
    pub fn refused(answer: u64) -> Reason {
        Reason::Refused { answer, rule: 0 }
    }

    /// The reason's number, from 1.
    pub fn number(self) -> u64 {
        match self {
            Reason::Refused { .. } => 1,
            Reason::NoScope => 2,
            Reason::NotCanonical => 3,
            Reason::WrongKind => 4,
            Reason::WrongVpid => 5,
            Reason::WrongPcid => 6,
            Reason::WrongEp4ta => 7,
            Reason::NotCovering => 8,
            Reason::SparedAsGlobal => 9,
            Reason::InScope => 10,
        }
    }

    /// The step's answer: 0 but for a refusal.
    pub fn answer(self) -> u64 {
        match self {
            Reason::Refused { answer, .. } => answer,
            _ => 0,
        }
    }

    /// The step's EPTP rule: 0 but for a refusal on that ground.
    pub fn rule(self) -> u64 {
        match self {
            Reason::Refused { rule, .. } => rule,
            _ => 0,
        }
    }
}

/// Why an event takes a record or leaves it: any context and any bytes.
pub fn explain(context: &Context, record: &[u8], event: &[u8]) -> Reason {
    let answer = answer(context, record, event);
    let width = context.linear();
    let decoded = Event::decode(width, event);
    let (0, Some(mapping), Some(decoded)) = (answer, Mapping::decode(width, record), decoded)
    else {
        return Reason::Refused {
            answer,
            rule: decoded.map_or(0, |event| judge::rule(context, &event, answer)),
        };
    };
    of_accepted(context, &mapping, &decoded)
}

/// The step's answer, with a table of that record alone and a new buffer of
/// 47,104 bytes. Bytes that are not exactly one valid record at the context's
/// width are 3, however many they are.
fn answer(context: &Context, record: &[u8], event: &[u8]) -> u64 {
    if !context.in_range() {
        1
    } else if Mapping::decode(context.linear(), record).is_none() {
        3
    } else {
        judge::answer(context, record, event, TABLE_LIMIT)
    }
}

/// The first reason that holds.
fn of_accepted(context: &Context, mapping: &Mapping, event: &Event) -> Reason {
    if without_scope(context, event) {
        Reason::NoScope
    } else if not_canonical(context, event) {
        Reason::NotCanonical
    } else if wrong_kind(event, mapping) {
        Reason::WrongKind
    } else if wrong_vpid(context, event, mapping) {
        Reason::WrongVpid
    } else if wrong_pcid(context, event, mapping) {
        Reason::WrongPcid
    } else if wrong_ep4ta(context, event, mapping) {
        Reason::WrongEp4ta
    } else if not_covered(context, event, mapping) {
        Reason::NotCovering
    } else if spared(event, mapping) {
        Reason::SparedAsGlobal
    } else {
        Reason::InScope
    }
}

/// Whether an accepted event can drop a record at all.
pub fn has_scope(context: &Context, event: &Event) -> bool {
    !without_scope(context, event) && !not_canonical(context, event)
}

/// Creations, kinds 22 to 24, entry or exit with VPIDs enabled.
fn without_scope(context: &Context, event: &Event) -> bool {
    match event {
        Event::Creation(_) | Event::Vmxon | Event::Vmxoff | Event::Switch { .. } => true,
        Event::Entry { vpid, .. } => vpid.is_some(),
        Event::Exit { .. } => context.vpid() != 0,
        _ => false,
    }
}

fn not_canonical(context: &Context, event: &Event) -> bool {
    match event {
        Event::Invlpg { address } => !context.linear().canonical(*address),
        _ => false,
    }
}

/// Reset touches every kind. An EPT violation touches kinds 3 and 6 with
/// linear flag 1 only. A kind from 7 on is as its sibling.
fn wrong_kind(event: &Event, mapping: &Mapping) -> bool {
    let touched: &[u64] = match event {
        Event::Invvpid { .. } | Event::Invlpg { .. } => &[1, 3, 4, 6],
        Event::Entry { .. } | Event::Exit { .. } => &[1, 3, 4, 6],
        Event::Invpcid { .. } | Event::MovToCr3 { .. } => &[1, 3, 4, 6],
        Event::Invept { .. } => &[2, 3, 5, 6],
        Event::EptViolation {
            linear: Some(_), ..
        } => &[2, 3, 5, 6],
        Event::EptViolation { linear: None, .. } => &[2, 5],
        Event::Reset => &[1, 2, 3, 4, 5, 6],
        Event::Creation(_) | Event::Vmxon | Event::Vmxoff | Event::Switch { .. } => &[],
    };
    !touched.contains(&mapping.sibling())
}

/// Tested of kinds 1, 3, 4, 6, but not by INVEPT and reset.
fn wrong_vpid(context: &Context, event: &Event, mapping: &Mapping) -> bool {
    let Some(own) = mapping.vpid else {
        return false;
    };
    match event {
        Event::Invvpid { kind: 2, .. } => own == 0,
        Event::Invvpid { low, .. } => own != low & 0xFFFF,
        Event::Invlpg { .. } | Event::EptViolation { .. } => own != context.vpid(),
        Event::Invpcid { .. } | Event::MovToCr3 { .. } => own != context.vpid(),
        Event::Entry { .. } | Event::Exit { .. } => own != 0,
        _ => false,
    }
}

/// Tested of kinds 1, 3, 4, 6 by INVLPG, but for a global mapping, and by an
/// EPT violation, INVPCID types 0 and 1 and MOV to CR3, global or not.
fn wrong_pcid(context: &Context, event: &Event, mapping: &Mapping) -> bool {
    let Some(own) = mapping.pcid else {
        return false;
    };
    match event {
        Event::Invlpg { .. } => own != context.pcid && !mapping.global,
        Event::EptViolation { .. } => own != context.pcid,
        Event::Invpcid {
            kind: 0 | 1, low, ..
        } => own != low & 0xFFF,
        Event::MovToCr3 { pcid } => own != *pcid,
        _ => false,
    }
}

/// Tested of kinds 2, 3, 5, 6 by INVEPT type 1 and by an EPT violation.
fn wrong_ep4ta(context: &Context, event: &Event, mapping: &Mapping) -> bool {
    let Some(own) = mapping.ep4ta else {
        return false;
    };
    match event {
        Event::Invept { kind: 1, low, .. } => own != ep4ta(*low),
        Event::EptViolation { .. } => Some(own) != context.ep4ta(),
        _ => false,
    }
}

/// Tested by INVVPID and INVPCID type 0, by INVLPG of kinds 1 and 3 only (Ask
/// 2), and by an EPT violation, of kinds 2 and 5 by the guest-physical address.
fn not_covered(context: &Context, event: &Event, mapping: &Mapping) -> bool {
    let linear_page = |address| context.linear().page(address);
    let page = match *event {
        Event::Invvpid { kind: 0, high, .. } => Some(linear_page(high)),
        Event::Invpcid { kind: 0, high, .. } => Some(linear_page(high)),
        Event::Invlpg { address } if mapping.is_translation() => Some(linear_page(address)),
        Event::EptViolation {
            guest_physical,
            linear,
        } => match mapping.kind {
            2 | 5 => Some(guest_physical_page(guest_physical)),
            _ => linear.map(linear_page),
        },
        _ => None,
    };
    page.is_some_and(|page| !mapping.covers(page))
}

/// By INVVPID type 3, INVPCID types 0, 1 and 3 and MOV to CR3: kinds 1 and 3
/// with global 1.
fn spared(event: &Event, mapping: &Mapping) -> bool {
    let sparing = matches!(
        event,
        Event::Invvpid { kind: 3, .. }
            | Event::Invpcid {
                kind: 0 | 1 | 3,
                ..
            }
            | Event::MovToCr3 { .. }
    );
    sparing && mapping.global
}
