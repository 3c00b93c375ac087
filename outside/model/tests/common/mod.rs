//! What the tests of the papers share: records and events put together from
//! document 01's tables, and short ways to ask.
#![allow(dead_code)]

use model::{count, counted_step, step, tuned};
use model::{Context, Place, Step, Tally, PROGRAM_CAPABILITY, TABLE_LIMIT};

/// A: linear translation, VPID 5, PCID 1, span 0, page 12345h, frame ABCDEh.
pub const A: [u8; 17] = [
    0x01, 0x05, 0x00, 0x01, 0x00, 0x00, 0x00, 0x45, 0x23, 0x01, 0x00, 0x00, 0xDE, 0xBC, 0x0A, 0x00,
    0x00,
];

/// G: guest-physical translation, EP4TA 1234567h, span 0, page 10h, frame 20h.
pub const G: [u8; 17] = [
    0x02, 0x67, 0x45, 0x23, 0x01, 0x00, 0x00, 0x10, 0x00, 0x00, 0x00, 0x00, 0x20, 0x00, 0x00, 0x00,
    0x00,
];

pub const EP4TA: u64 = 0x123_4567;

/// A good EPTP with this EP4TA.
pub const EPTP: u64 = EP4TA << 12 | 0x1E;

/// An address that is not canonical.
pub const ODD: u64 = 0x0000_8000_0000_0000;

/// Fields end to end, each a number and its bytes.
pub fn bytes(fields: &[(u64, usize)]) -> Vec<u8> {
    let mut bytes = Vec::new();
    for (number, count) in fields {
        bytes.extend_from_slice(&number.to_le_bytes()[..*count]);
    }
    bytes
}

/// A mapping to be encoded; fields that its kind lacks are left out.
#[derive(Clone, Copy)]
pub struct M {
    pub kind: u64,
    pub vpid: u64,
    pub pcid: u64,
    pub global: u64,
    pub span: u64,
    pub page: u64,
    pub ep4ta: u64,
}

/// VPID 5, PCID 1, not global, page 0 with the kind's least span, EP4TA
/// 1234567h.
pub fn m(kind: u64) -> M {
    M {
        kind,
        vpid: 5,
        pcid: 1,
        global: 0,
        span: match kind {
            1..=3 | 7 | 8 => 0,
            _ => 1,
        },
        page: 0,
        ep4ta: EP4TA,
    }
}

impl M {
    pub fn bytes(&self) -> Vec<u8> {
        let kind = (self.kind, 1);
        let vpid = (self.vpid, 2);
        let pcid = (self.pcid, 2);
        let global = (self.global, 1);
        let span = (self.span, 1);
        let page = (self.page, if self.kind >= 7 { 6 } else { 5 });
        let frame = (0x77, 5);
        let ep4ta = (self.ep4ta, 5);
        match self.kind {
            1 | 7 => bytes(&[kind, vpid, pcid, global, span, page, frame]),
            3 | 8 => bytes(&[kind, vpid, pcid, global, span, page, frame, ep4ta]),
            4 | 9 => bytes(&[kind, vpid, pcid, span, page, frame]),
            6 | 10 => bytes(&[kind, vpid, pcid, span, page, frame, ep4ta]),
            _ => bytes(&[kind, ep4ta, span, page, frame]),
        }
    }
}

/// A record that can be created outside VMX.
pub fn m_outside(kind: u64) -> Vec<u8> {
    M {
        vpid: 0,
        pcid: 0,
        ..m(kind)
    }
    .bytes()
}

pub fn invvpid(kind: u64, low: u64, address: u64) -> Vec<u8> {
    bytes(&[(16, 1), (kind, 8), (low, 8), (address, 8)])
}

pub fn invept(kind: u64, eptp: u64, high: u64) -> Vec<u8> {
    bytes(&[(17, 1), (kind, 8), (eptp, 8), (high, 8)])
}

pub fn invlpg(address: u64) -> Vec<u8> {
    bytes(&[(18, 1), (address, 8)])
}

pub fn violation(guest_physical: u64, flag: u64, linear: u64) -> Vec<u8> {
    bytes(&[(19, 1), (guest_physical, 8), (flag, 1), (linear, 8)])
}

/// VPID flag, VPID, EPT flag, EPTP, PCID, CPL.
pub fn entry(flag: u64, vpid: u64, ept: u64, eptp: u64, pcid: u64, cpl: u64) -> Vec<u8> {
    bytes(&[
        (20, 1),
        (flag, 1),
        (vpid, 2),
        (ept, 1),
        (eptp, 8),
        (pcid, 2),
        (cpl, 1),
    ])
}

pub fn exit(pcid: u64) -> Vec<u8> {
    bytes(&[(21, 1), (pcid, 2)])
}

pub fn switch(pcid: u64, cpl: u64) -> Vec<u8> {
    bytes(&[(24, 1), (pcid, 2), (cpl, 1)])
}

pub fn invpcid(kind: u64, low: u64, address: u64) -> Vec<u8> {
    bytes(&[(26, 1), (kind, 8), (low, 8), (address, 8)])
}

pub fn mov_to_cr3(pcid: u64) -> Vec<u8> {
    bytes(&[(27, 1), (pcid, 2)])
}

pub const VMXON: [u8; 1] = [22];
pub const VMXOFF: [u8; 1] = [23];
pub const RESET: [u8; 1] = [25];

/// The cards' context: root, CPL 0, the program's capability and width.
pub fn root() -> Context {
    Context {
        place: Place::Root,
        ..Context::program()
    }
}

pub fn outside() -> Context {
    Context::program()
}

/// PCID 1, CPL 0.
pub fn guest(vpid: u64, ept: Option<u64>) -> Context {
    Context {
        pcid: 1,
        place: Place::Guest { vpid, ept },
        ..Context::program()
    }
}

/// VPID 5, with EPT on.
pub fn ept_guest() -> Context {
    guest(5, Some(EP4TA))
}

pub fn with_cpl(context: Context, cpl: u64) -> Context {
    Context { cpl, ..context }
}

pub fn with_width(context: Context, width: u64) -> Context {
    Context { width, ..context }
}

/// The same at another linear width.
pub fn at_width(context: Context, linear_width: u64) -> Context {
    Context {
        linear_width,
        ..context
    }
}

/// The six kinds of a table at the context's linear width, by their siblings 1
/// to 6.
pub fn kinds_of(context: &Context) -> [u64; 6] {
    if context.linear_width == 57 {
        [7, 2, 8, 9, 5, 10]
    } else {
        [1, 2, 3, 4, 5, 6]
    }
}

/// The program's capability without one bit.
pub fn without(context: Context, bit: u32) -> Context {
    Context {
        capability: PROGRAM_CAPABILITY & !(1 << bit),
        ..context
    }
}

/// A step into a buffer of the limit: the plain one, which must agree with
/// the tuned one, and with the counted ones given a tally that matches.
pub fn run(context: &Context, table: &[u8], event: &[u8]) -> (Step, Vec<u8>) {
    run_into(context, table, event, TABLE_LIMIT)
}

/// The same into a buffer of any length. Hands back the new table; the rest
/// of the buffer must stay, and all of it on a refusal.
pub fn run_into(context: &Context, table: &[u8], event: &[u8], room: usize) -> (Step, Vec<u8>) {
    let mut new = vec![0xA5; room];
    let mut other = new.clone();
    let step = step(context, table, event, &mut new);
    assert_eq!(step, tuned::step(context, table, event, &mut other));
    assert_eq!(new, other);
    assert!(new[step.length..].iter().all(|byte| *byte == 0xA5));
    let rule = step.rule;
    if step.answer != 0 {
        let refused = Step::refused(step.answer, context);
        assert_eq!(step, Step { rule, ..refused });
    }
    assert!(rule == 0 || step.answer == 8 || step.answer == 10);
    new.truncate(step.length);
    let tally = matching(context, table);
    // More room than any event needs would only take time.
    let room = room.min(table.len() + event.len() + 64);
    let (counted, after, kept) = counted_into(context, &tally, table, event, room);
    assert_eq!((counted, &kept), (step, &new));
    if step.answer == 0 {
        assert_eq!(after, matching(&step.context, &new));
    }
    (step, new)
}

/// The fresh count of a table; all 0 for bytes that are no table.
pub fn matching(context: &Context, table: &[u8]) -> Tally {
    count(context.linear(), table).unwrap_or(Tally::empty())
}

/// A counted step into a buffer of any length: the plain one, which must agree
/// with the tuned one. Hands back the tally after it and the new table; a
/// refusal must leave the tally and all of the buffer.
pub fn counted_into(
    context: &Context,
    tally: &Tally,
    table: &[u8],
    event: &[u8],
    room: usize,
) -> (Step, Tally, Vec<u8>) {
    let mut new = vec![0xA5; room];
    let mut other = new.clone();
    let (mut after, mut pcids) = (tally.clone(), tally.pcids.clone());
    let step = counted_step(context, &mut after, table, event, &mut new);
    let fast = tuned::counted_step(context, tally.kinds, &mut pcids, table, event, &mut other);
    assert_eq!((step, after.kinds), fast);
    assert!(after.pcids == pcids && new == other);
    assert!(new[step.length..].iter().all(|byte| *byte == 0xA5));
    if step.answer != 0 {
        let refused = Step::refused(step.answer, context);
        let rule = step.rule;
        assert_eq!(step, Step { rule, ..refused });
        assert_eq!(&after, tally);
    }
    new.truncate(step.length);
    (step, after, new)
}

/// The answer alone.
pub fn answer(context: &Context, table: &[u8], event: &[u8]) -> u64 {
    run(context, table, event).0.answer
}

/// Whether an accepted event drops the one record that stands.
pub fn drops(context: &Context, record: &[u8], event: &[u8]) -> bool {
    let (step, new) = run(context, record, event);
    assert_eq!(step.answer, 0);
    if step.dropped == 1 {
        assert_eq!(step.length, 0);
        return true;
    }
    assert_eq!(step.dropped, 0);
    assert_eq!(new, record);
    false
}

/// Which of the six kinds go, with `m`'s fields changed by `f`.
pub fn kinds_dropped(context: &Context, event: &[u8], f: impl Fn(&mut M)) -> Vec<u64> {
    kinds_of(context)
        .into_iter()
        .filter(|kind| {
            let mut mapping = m(*kind);
            f(&mut mapping);
            drops(context, &mapping.bytes(), event)
        })
        .collect()
}
