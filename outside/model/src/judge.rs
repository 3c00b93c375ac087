//! The numbered answers. The lowest number that applies is given.

use crate::context::{Context, Place};
use crate::event::Event;
use crate::mapping::{self, Mapping};
use crate::TABLE_LIMIT;

/// The answer to any step. `room` is the length of the new buffer.
pub fn answer(context: &Context, table: &[u8], event: &[u8], room: usize) -> u64 {
    if !context.in_range() {
        return 1;
    }
    if table.len() > TABLE_LIMIT {
        return 2;
    }
    if mapping::records(context.linear(), table).is_none() {
        return 3;
    }
    let Some(decoded) = Event::decode(context.linear(), event) else {
        return 4;
    };
    let grounds = grounds(context, &decoded);
    if grounds != 0 {
        return grounds;
    }
    if room.min(TABLE_LIMIT) < needed(table, event, &decoded) {
        return 12;
    }
    0
}

/// Answers 5 to 11 for a valid event; 0 if none of them applies.
pub fn grounds(context: &Context, event: &Event) -> u64 {
    if undefined(context, event) {
        5
    } else if exits(context, event) {
        6
    } else if protected(context, event) {
        7
    } else if invalid_operand(context, event) {
        8
    } else if out_of_place(context, event) {
        9
    } else if bad_entry(context, event) {
        10
    } else if cannot_be_created(context, event) {
        11
    } else {
        0
    }
}

/// The room that answer 12 asks for: the old table's length, plus the
/// record's for a creation. Room that this event frees does not count.
pub fn needed(table: &[u8], event: &[u8], decoded: &Event) -> usize {
    match decoded {
        Event::Creation(_) => table.len() + event.len(),
        _ => table.len(),
    }
}

/// 5: #UD.
fn undefined(context: &Context, event: &Event) -> bool {
    let outside = context.place == Place::Outside;
    match event {
        Event::Invvpid { .. } => outside || !context.has(32),
        Event::Invept { .. } => outside || !context.has(20),
        Event::Entry { .. } | Event::Vmxoff => outside,
        _ => false,
    }
}

/// 6: VM exit.
fn exits(context: &Context, event: &Event) -> bool {
    let one_that_exits = matches!(
        event,
        Event::Invvpid { .. }
            | Event::Invept { .. }
            | Event::Entry { .. }
            | Event::Vmxon
            | Event::Vmxoff
    );
    one_that_exits && context.in_guest()
}

/// 7: #GP(0). All grounds of INVPCID are here (document 02, Ask 5).
fn protected(context: &Context, event: &Event) -> bool {
    let privileged = matches!(
        event,
        Event::Invvpid { .. }
            | Event::Invept { .. }
            | Event::Invlpg { .. }
            | Event::Entry { .. }
            | Event::Vmxon
            | Event::Vmxoff
            | Event::Invpcid { .. }
            | Event::MovToCr3 { .. }
    );
    privileged && context.cpl > 0 || bad_invpcid(context, event)
}

/// A type above 3, descriptor bits 63:12 not zero, for every type, or type 0
/// with a non-canonical address.
fn bad_invpcid(context: &Context, event: &Event) -> bool {
    let Event::Invpcid { kind, low, high } = *event else {
        return false;
    };
    let reserved = low >> 12;
    let address = high;
    kind > 3 || reserved != 0 || kind == 0 && !context.linear().canonical(address)
}

/// 8: VMfail, invalid operand.
fn invalid_operand(context: &Context, event: &Event) -> bool {
    match *event {
        Event::Invvpid { kind, low, high } => bad_invvpid(context, kind, low, high),
        Event::Invept { kind, low, high } => bad_invept(context, kind, low, high),
        _ => false,
    }
}

fn bad_invvpid(context: &Context, kind: u64, low: u64, high: u64) -> bool {
    let supported = match kind {
        0 => context.has(40),
        1 => context.has(41),
        2 => context.has(42),
        3 => context.has(43),
        _ => false,
    };
    let vpid = low & 0xFFFF;
    let reserved = low >> 16;
    let address = high;
    !supported
        || reserved != 0
        || (kind == 0 || kind == 1 || kind == 3) && vpid == 0
        || kind == 0 && !context.linear().canonical(address)
}

fn bad_invept(context: &Context, kind: u64, low: u64, high: u64) -> bool {
    let supported = match kind {
        1 => context.has(25),
        2 => context.has(26),
        _ => false,
    };
    let eptp = low;
    let reserved = high;
    !supported || reserved != 0 || kind == 1 && !good_eptp(context, eptp)
}

/// Whether an EPTP is good.
pub fn good_eptp(context: &Context, eptp: u64) -> bool {
    failed_rule(context, eptp) == 0
}

/// The first rule that an EPTP breaks (document 02, Ask 6): 1 memory type, 2
/// walk length, 3 accessed and dirty, 4 bits 11:7, 5 bits above the width. 0 if
/// it is good.
pub fn failed_rule(context: &Context, eptp: u64) -> u64 {
    let memory_type = match eptp & 7 {
        0 => context.has(8),
        6 => context.has(14),
        _ => false,
    };
    let walk_length = eptp >> 3 & 7 == 3 && context.has(6);
    let accessed_and_dirty = eptp >> 6 & 1 == 0 || context.has(21);
    if !memory_type {
        1
    } else if !walk_length {
        2
    } else if !accessed_and_dirty {
        3
    } else if eptp >> 7 & 31 != 0 {
        4
    } else if eptp >> context.width != 0 {
        5
    } else {
        0
    }
}

/// The EPTP's failed rule if the EPTP was the ground for this answer to the
/// event, else 0 (Ask 6). INVEPT tests its type and descriptor bits 127:64
/// before the EPTP, and an entry its VPID.
pub fn rule(context: &Context, event: &Event, answer: u64) -> u64 {
    let ground = match *event {
        Event::Invept { kind, low, high } if answer == 8 => {
            let reached = kind == 1 && context.has(25) && high == 0;
            reached.then_some(low)
        }
        Event::Entry { vpid, eptp, .. } if answer == 10 => eptp.filter(|_| vpid != Some(0)),
        _ => None,
    };
    ground.map_or(0, |eptp| failed_rule(context, eptp))
}

/// 9: VMXON in root; VM exit not in a guest; EPT violation not in a guest
/// with EPT.
fn out_of_place(context: &Context, event: &Event) -> bool {
    match event {
        Event::Vmxon => context.place == Place::Root,
        Event::Exit { .. } => !context.in_guest(),
        Event::EptViolation { .. } => context.ep4ta().is_none(),
        _ => false,
    }
}

/// 10: VM entry with VPIDs enabled and VPID 0, or EPT enabled and a bad EPTP.
fn bad_entry(context: &Context, event: &Event) -> bool {
    match *event {
        Event::Entry { vpid, eptp, .. } => {
            vpid == Some(0) || eptp.is_some_and(|eptp| !good_eptp(context, eptp))
        }
        _ => false,
    }
}

/// 11: a mapping that cannot be created here.
fn cannot_be_created(context: &Context, event: &Event) -> bool {
    match event {
        Event::Creation(mapping) => !can_be_created(context, mapping),
        _ => false,
    }
}

fn can_be_created(context: &Context, mapping: &Mapping) -> bool {
    let ept = context.ep4ta().is_some();
    let vpid = mapping.vpid == Some(context.vpid());
    let pcid = mapping.pcid == Some(context.pcid);
    let ep4ta = mapping.ep4ta == context.ep4ta();
    match mapping.sibling() {
        1 | 4 => !ept && vpid && pcid,
        2 | 5 => ept && ep4ta,
        _ => ept && vpid && pcid && ep4ta,
    }
}
