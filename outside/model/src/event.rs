//! Events, and the context after one.

use crate::address::LinearWidth;
use crate::bytes::Fields;
use crate::context::{Context, Place};
use crate::mapping::{self, Mapping};

/// A valid event.
#[derive(Clone, Copy, Debug, PartialEq, Eq)]
pub enum Event {
    /// Kinds 1 to 10: this mapping was created.
    Creation(Mapping),
    /// Kind 16, with the descriptor's two quadwords, the low one first.
    Invvpid { kind: u64, low: u64, high: u64 },
    /// Kind 17, likewise.
    Invept { kind: u64, low: u64, high: u64 },
    /// Kind 18.
    Invlpg { address: u64 },
    /// Kind 19. The linear address is there with flag 1 only.
    EptViolation {
        guest_physical: u64,
        linear: Option<u64>,
    },
    /// Kind 20. A disabled VPID or EPT field is None.
    Entry {
        vpid: Option<u64>,
        eptp: Option<u64>,
        pcid: u64,
        cpl: u64,
    },
    /// Kind 21, with the host's PCID.
    Exit { pcid: u64 },
    /// Kind 22.
    Vmxon,
    /// Kind 23.
    Vmxoff,
    /// Kind 24.
    Switch { pcid: u64, cpl: u64 },
    /// Kind 25.
    Reset,
    /// Kind 26 (document 02, Ask 5), with the descriptor as in kind 16.
    Invpcid { kind: u64, low: u64, high: u64 },
    /// Kind 27 (Ask 5): MOV to CR3 without bit 63.
    MovToCr3 { pcid: u64 },
}

/// The length of an event with its kind byte; None for an unknown kind, and
/// for a mapping of the other width.
pub fn length(width: LinearWidth, kind: u8) -> Option<usize> {
    let body = match kind {
        1..=10 => return mapping::length(width, kind),
        16 | 17 | 26 => 8 + 16,
        18 => 8,
        19 => 8 + 1 + 8,
        20 => 1 + 2 + 1 + 8 + 2 + 1,
        21 | 27 => 2,
        22 | 23 | 25 => 0,
        24 => 2 + 1,
        _ => return None,
    };
    Some(1 + body)
}

/// The EP4TA of an EPTP: its bits 51 to 12.
pub fn ep4ta(eptp: u64) -> u64 {
    eptp >> 12 & ((1 << 40) - 1)
}

fn take_pcid(fields: &mut Fields) -> Option<u64> {
    fields.take(2).filter(|pcid| *pcid <= 4_095)
}

fn take_cpl(fields: &mut Fields) -> Option<u64> {
    fields.take(1).filter(|cpl| *cpl <= 3)
}

impl Event {
    /// Reads bytes that are exactly one valid event at a width.
    pub fn decode(width: LinearWidth, bytes: &[u8]) -> Option<Event> {
        let mut fields = Fields(bytes);
        let event = match fields.take(1)? {
            1..=10 => return Mapping::decode(width, bytes).map(Event::Creation),
            16 => Event::Invvpid {
                kind: fields.take(8)?,
                low: fields.take(8)?,
                high: fields.take(8)?,
            },
            17 => Event::Invept {
                kind: fields.take(8)?,
                low: fields.take(8)?,
                high: fields.take(8)?,
            },
            18 => Event::Invlpg {
                address: fields.take(8)?,
            },
            19 => take_violation(width, &mut fields)?,
            20 => take_entry(&mut fields)?,
            21 => Event::Exit {
                pcid: take_pcid(&mut fields)?,
            },
            22 => Event::Vmxon,
            23 => Event::Vmxoff,
            24 => Event::Switch {
                pcid: take_pcid(&mut fields)?,
                cpl: take_cpl(&mut fields)?,
            },
            25 => Event::Reset,
            26 => Event::Invpcid {
                kind: fields.take(8)?,
                low: fields.take(8)?,
                high: fields.take(8)?,
            },
            27 => Event::MovToCr3 {
                pcid: take_pcid(&mut fields)?,
            },
            _ => return None,
        };
        fields.end()?;
        Some(event)
    }

    /// The context after this event is accepted.
    pub fn after(&self, context: &Context) -> Context {
        match *self {
            Event::Entry {
                vpid,
                eptp,
                pcid,
                cpl,
            } => Context {
                pcid,
                cpl,
                place: Place::Guest {
                    vpid: vpid.unwrap_or(0),
                    ept: eptp.map(ep4ta),
                },
                ..*context
            },
            Event::Exit { pcid } => Context {
                pcid,
                cpl: 0,
                place: Place::Root,
                ..*context
            },
            Event::Vmxon => Context {
                place: Place::Root,
                ..*context
            },
            Event::Vmxoff => Context {
                place: Place::Outside,
                ..*context
            },
            Event::Switch { pcid, cpl } => Context {
                pcid,
                cpl,
                ..*context
            },
            Event::Reset => {
                Context::after_reset(context.capability, context.width, context.linear_width)
            }
            Event::MovToCr3 { pcid } => Context { pcid, ..*context },
            Event::Creation(_)
            | Event::Invvpid { .. }
            | Event::Invept { .. }
            | Event::Invlpg { .. }
            | Event::EptViolation { .. }
            | Event::Invpcid { .. } => *context,
        }
    }
}

fn take_violation(width: LinearWidth, fields: &mut Fields) -> Option<Event> {
    let guest_physical = fields.take(8).filter(|address| *address < 1 << 48)?;
    let flag = fields.take_flag()?;
    let address = fields.take(8)?;
    if flag && !width.canonical(address) {
        return None;
    }
    Some(Event::EptViolation {
        guest_physical,
        linear: flag.then_some(address),
    })
}

fn take_entry(fields: &mut Fields) -> Option<Event> {
    let vpid_flag = fields.take_flag()?;
    let vpid = fields.take(2)?;
    let ept_flag = fields.take_flag()?;
    let eptp = fields.take(8)?;
    Some(Event::Entry {
        vpid: vpid_flag.then_some(vpid),
        eptp: ept_flag.then_some(eptp),
        pcid: take_pcid(fields)?,
        cpl: take_cpl(fields)?,
    })
}
