//! The required scopes. Kinds 7 to 10 are dropped as their siblings, kinds 1, 3,
//! 4 and 6 (document 02, Ask 12), and a comment here names those alone.

use crate::address::guest_physical_page;
use crate::context::Context;
use crate::event::{ep4ta, Event};
use crate::mapping::Mapping;

/// Whether a mapping is in the required scope of an accepted event, judged
/// in the context before that event.
pub fn in_scope(context: &Context, event: &Event, mapping: &Mapping) -> bool {
    match *event {
        Event::Creation(_) | Event::Vmxon | Event::Vmxoff | Event::Switch { .. } => false,
        Event::Reset => true,
        Event::Invvpid { kind, low, high } => invvpid(context, kind, low & 0xFFFF, high, mapping),
        Event::Invept { kind, low, .. } => invept(kind, low, mapping),
        Event::Invlpg { address } => invlpg(context, address, mapping),
        Event::EptViolation {
            guest_physical,
            linear,
        } => violation(context, guest_physical, linear, mapping),
        Event::Entry { vpid, .. } => vpid.is_none() && mapping.vpid == Some(0),
        Event::Exit { .. } => context.vpid() == 0 && mapping.vpid == Some(0),
        Event::Invpcid { kind, low, high } => invpcid(context, kind, low & 0xFFF, high, mapping),
        Event::MovToCr3 { pcid } => invpcid(context, 1, pcid, 0, mapping),
    }
}

/// Kinds 1, 3, 4, 6 only: those that have a VPID.
fn invvpid(context: &Context, kind: u64, vpid: u64, address: u64, mapping: &Mapping) -> bool {
    let Some(own) = mapping.vpid else {
        return false;
    };
    match kind {
        0 => own == vpid && mapping.covers(context.linear().page(address)),
        1 => own == vpid,
        2 => own != 0,
        3 => own == vpid && !mapping.global,
        _ => false,
    }
}

/// Kinds 2, 3, 5, 6 only: those that have an EP4TA.
fn invept(kind: u64, eptp: u64, mapping: &Mapping) -> bool {
    let Some(own) = mapping.ep4ta else {
        return false;
    };
    match kind {
        1 => own == ep4ta(eptp),
        2 => true,
        _ => false,
    }
}

/// Kinds 1, 3, 4, 6 of the current VPID, with any EP4TA or none. Structure
/// caches go whatever they cover (document 02, Ask 2).
fn invlpg(context: &Context, address: u64, mapping: &Mapping) -> bool {
    let width = context.linear();
    width.canonical(address)
        && mapping.vpid == Some(context.vpid())
        && (mapping.pcid == Some(context.pcid) || mapping.global)
        && (!mapping.is_translation() || mapping.covers(width.page(address)))
}

/// Kinds 2 and 5 by the guest-physical page; kinds 3 and 6 by the linear
/// page, if there is one. A global mark does not stand in for the PCID.
fn violation(
    context: &Context,
    guest_physical: u64,
    linear: Option<u64>,
    mapping: &Mapping,
) -> bool {
    let Some(current) = context.ep4ta() else {
        return false;
    };
    if mapping.ep4ta != Some(current) {
        return false;
    }
    if mapping.vpid.is_none() {
        return mapping.covers(guest_physical_page(guest_physical));
    }
    mapping.vpid == Some(context.vpid())
        && mapping.pcid == Some(context.pcid)
        && linear.is_some_and(|address| mapping.covers(context.linear().page(address)))
}

/// Kinds 1, 3, 4, 6 of the current VPID, with any EP4TA or none. Structure
/// caches count as not global. MOV to CR3 does type 1's work (document 02,
/// Ask 5).
fn invpcid(context: &Context, kind: u64, pcid: u64, address: u64, mapping: &Mapping) -> bool {
    if mapping.vpid != Some(context.vpid()) {
        return false;
    }
    let named = mapping.pcid == Some(pcid);
    match kind {
        0 => named && mapping.covers(context.linear().page(address)) && !mapping.global,
        1 => named && !mapping.global,
        2 => true,
        3 => !mapping.global,
        _ => false,
    }
}
