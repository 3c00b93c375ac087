//! The cards of documents 01 and 02, and what they say of each.
//!
//! The answers, counts, tables and reasons below were written by hand from the documents; no model
//! worked them out.

use common::{encode, set_field, PROGRAM_CAPABILITY, PROGRAM_LINEAR_WIDTH, PROGRAM_WIDTH};

/// A context as its nine numbers: capability, N, linear width, PCID, CPL, place, VPID, EPT, EP4TA.
pub type Context = [u64; 9];

/// A step: what is given, the answer, the rule of the EPTP (document 02, Ask 6), the count of dropped
/// records, the new table, and the context after it.
pub struct Step {
    pub name: &'static str,
    pub context: Context,
    pub table: Vec<u8>,
    pub event: Vec<u8>,
    pub answer: u64,
    pub rule: u64,
    pub dropped: u64,
    pub new: Vec<u8>,
    pub after: Context,
}

/// A lookup, linear (mode 1) or guest-physical (mode 2): what is given, the answer, where the part
/// starts, and its bytes.
pub struct Lookup {
    pub name: &'static str,
    pub context: Context,
    pub table: Vec<u8>,
    pub mode: u8,
    pub address: u64,
    pub k: u64,
    pub answer: u64,
    pub start: u64,
    pub part: Vec<u8>,
}

/// A reason: what is given, its number in Ask 1's order from 1, the step's answer, and its rule.
pub struct Reason {
    pub name: &'static str,
    pub context: Context,
    pub record: Vec<u8>,
    pub event: Vec<u8>,
    pub reason: u64,
    pub answer: u64,
    pub rule: u64,
}

/// A table for the converter of document 02, Ask 12: the answer, and the 57-bit table, with none for a
/// refusal.
pub struct Widening {
    pub name: &'static str,
    pub table: Vec<u8>,
    pub answer: u64,
    pub new: Vec<u8>,
}

/// The counts of a table (document 02, Ask 7): six rows, of kinds 1 to 6, by span, 0 to 4; and four PCIDs, each with its
/// count. The count of every other PCID is 0.
#[derive(Clone, Copy)]
pub struct Tally {
    pub kinds: [[u64; 5]; 6],
    pub pcids: [(u64, u64); 4],
}

/// A step beside a tally: the step, the tally that is given, and the one after it.
pub struct CountedStep {
    pub step: Step,
    pub given: Tally,
    pub left: Tally,
}

/// A fresh count: the linear width, the table, and of how many PCIDs the counts are lent, from PCID 0 on; the answer, and
/// the counts. A refusal leaves the lent counts, 7 each, as they are.
pub struct Count {
    pub name: &'static str,
    pub linear_width: u64,
    pub table: Vec<u8>,
    pub lent: u64,
    pub answer: u64,
    pub counts: Tally,
}

/// A: linear translation, VPID 5, PCID 1, span 0, page 12345h, frame ABCDEh.
const A: [u8; 17] = [
    0x01, 0x05, 0x00, 0x01, 0x00, 0x00, 0x00, 0x45, 0x23, 0x01, 0x00, 0x00, 0xDE, 0xBC, 0x0A, 0x00,
    0x00,
];

/// G: guest-physical translation, EP4TA 1234567h, span 0, page 10h, frame 20h.
const G: [u8; 17] = [
    0x02, 0x67, 0x45, 0x23, 0x01, 0x00, 0x00, 0x10, 0x00, 0x00, 0x00, 0x00, 0x20, 0x00, 0x00, 0x00,
    0x00,
];

const EP4TA: u64 = 0x1234567;
const NONE: [u8; 0] = [];
const RESET: [u8; 1] = [25];

/// A byte more than a table may have.
static LONG: [u8; 47_105] = [0; 47_105];

// Records: VPID, PCID, global, span, page, where they have them.

fn linear(vpid: u64, pcid: u64, global: u64, span: u64, page: u64) -> Vec<u8> {
    encode(1, &[vpid, pcid, global, span, page, 0xABCDE])
}

fn combined(vpid: u64, pcid: u64, global: u64, span: u64, page: u64) -> Vec<u8> {
    encode(3, &[vpid, pcid, global, span, page, 7, EP4TA])
}

fn linear_structure(vpid: u64, pcid: u64, span: u64, page: u64) -> Vec<u8> {
    encode(4, &[vpid, pcid, span, page, 9])
}

fn combined_structure(vpid: u64, pcid: u64, span: u64, page: u64) -> Vec<u8> {
    encode(6, &[vpid, pcid, span, page, 9, EP4TA])
}

fn guest_physical_structure(span: u64, page: u64) -> Vec<u8> {
    encode(5, &[EP4TA, span, page, 9])
}

fn linear_57(vpid: u64, pcid: u64, global: u64, span: u64, page: u64) -> Vec<u8> {
    encode(7, &[vpid, pcid, global, span, page, 0xABCDE])
}

fn combined_57(vpid: u64, pcid: u64, global: u64, span: u64, page: u64) -> Vec<u8> {
    encode(8, &[vpid, pcid, global, span, page, 7, EP4TA])
}

fn linear_structure_57(vpid: u64, pcid: u64, span: u64, page: u64) -> Vec<u8> {
    encode(9, &[vpid, pcid, span, page, 9])
}

fn combined_structure_57(vpid: u64, pcid: u64, span: u64, page: u64) -> Vec<u8> {
    encode(10, &[vpid, pcid, span, page, 9, EP4TA])
}

/// A record of kind 3 with another EP4TA.
fn other_ep4ta(mut record: Vec<u8>) -> Vec<u8> {
    set_field(&mut record, 6, EP4TA + 1);
    record
}

// Events.

fn invvpid(kind: u64, low: u64, high: u64) -> Vec<u8> {
    encode(16, &[kind, low, high])
}

fn invept(kind: u64, low: u64, high: u64) -> Vec<u8> {
    encode(17, &[kind, low, high])
}

fn invlpg(address: u64) -> Vec<u8> {
    encode(18, &[address])
}

fn violation(physical: u64, flag: u64, address: u64) -> Vec<u8> {
    encode(19, &[physical, flag, address])
}

fn entry(vpids: u64, vpid: u64, ept: u64, eptp: u64, pcid: u64, cpl: u64) -> Vec<u8> {
    encode(20, &[vpids, vpid, ept, eptp, pcid, cpl])
}

fn exit(pcid: u64) -> Vec<u8> {
    encode(21, &[pcid])
}

fn invpcid(kind: u64, low: u64, high: u64) -> Vec<u8> {
    encode(26, &[kind, low, high])
}

fn mov_to_cr3(pcid: u64) -> Vec<u8> {
    encode(27, &[pcid])
}

// Contexts.

/// A context with the program's numbers. Places: 0 outside, 1 root, 2 guest.
const fn at(pcid: u64, cpl: u64, place: u64, vpid: u64, ept: u64, ep4ta: u64) -> Context {
    [
        PROGRAM_CAPABILITY,
        PROGRAM_WIDTH,
        PROGRAM_LINEAR_WIDTH,
        pcid,
        cpl,
        place,
        vpid,
        ept,
        ep4ta,
    ]
}

const OUTSIDE: Context = at(0, 0, 0, 0, 0, 0);
const ROOT: Context = at(0, 0, 1, 0, 0, 0);
const GUEST: Context = at(1, 0, 2, 5, 0, 0);
const EPT_GUEST: Context = at(1, 0, 2, 5, 1, EP4TA);
const UNTAGGED: Context = at(1, 0, 2, 0, 1, EP4TA);

/// Root with another width.
fn root_of_width(width: u64) -> Context {
    let mut context = ROOT;
    context[1] = width;
    context
}

/// Root without capability bit 21.
fn root_without_21() -> Context {
    let mut context = ROOT;
    context[0] &= !(1 << 21);
    context
}

/// A context at a linear width.
fn wide(linear_width: u64, mut context: Context) -> Context {
    context[2] = linear_width;
    context
}

// Tallies.

/// The PCIDs whose counts are named in the cards.
const PCIDS: [u64; 4] = [0, 1, 2, 4095];

/// Counts by kind, 1 to 6, and span, and the counts of PCIDs 0, 1, 2 and 4,095. All others are 0.
fn tally(kinds: &[(usize, usize, u64)], pcids: [u64; 4]) -> Tally {
    let mut rows = [[0; 5]; 6];
    for (kind, span, count) in kinds {
        rows[kind - 1][*span] = *count;
    }
    let [none, first, second, last] = pcids;
    let [p, q, r, s] = PCIDS;
    Tally {
        kinds: rows,
        pcids: [(p, none), (q, first), (r, second), (s, last)],
    }
}

// Rows.

/// A step that is accepted and leaves the context as it is.
fn accepts(
    name: &'static str,
    context: Context,
    table: impl AsRef<[u8]>,
    event: impl AsRef<[u8]>,
    dropped: u64,
    new: impl AsRef<[u8]>,
) -> Step {
    Step {
        name,
        context,
        table: table.as_ref().to_vec(),
        event: event.as_ref().to_vec(),
        answer: 0,
        rule: 0,
        dropped,
        new: new.as_ref().to_vec(),
        after: context,
    }
}

impl Step {
    /// The same with another context after it.
    fn then(self, after: Context) -> Step {
        Step { after, ..self }
    }

    /// The same with a rule of the EPTP.
    fn by(self, rule: u64) -> Step {
        Step { rule, ..self }
    }

    /// The same beside a tally, with the one after it.
    fn counts(self, given: Tally, left: Tally) -> CountedStep {
        CountedStep {
            step: self,
            given,
            left,
        }
    }

    /// The same beside a tally that stays as it is, right or wrong.
    fn leaves(self, given: Tally) -> CountedStep {
        self.counts(given, given)
    }
}

/// A step that is refused: it drops nothing, and changes neither the buffer nor the context.
fn refuses(
    name: &'static str,
    context: Context,
    table: impl AsRef<[u8]>,
    event: impl AsRef<[u8]>,
    answer: u64,
) -> Step {
    Step {
        answer,
        ..accepts(name, context, table, event, 0, NONE)
    }
}

/// A lookup that finds the part at a start, or with no bytes none.
fn finds(
    name: &'static str,
    context: Context,
    table: impl AsRef<[u8]>,
    (mode, address, k): (u8, u64, u64),
    (answer, start): (u64, u64),
    part: impl AsRef<[u8]>,
) -> Lookup {
    Lookup {
        name,
        context,
        table: table.as_ref().to_vec(),
        mode,
        address,
        k,
        answer,
        start,
        part: part.as_ref().to_vec(),
    }
}

/// A record and an event, with the reason that the event gives.
fn gives(
    name: &'static str,
    context: Context,
    record: impl AsRef<[u8]>,
    event: impl AsRef<[u8]>,
    reason: u64,
    answer: u64,
) -> Reason {
    Reason {
        name,
        context,
        record: record.as_ref().to_vec(),
        event: event.as_ref().to_vec(),
        reason,
        answer,
        rule: 0,
    }
}

impl Reason {
    /// The same with a rule of the EPTP.
    fn by(self, rule: u64) -> Reason {
        Reason { rule, ..self }
    }
}

/// The steps, into a buffer of 64 bytes; a row for each.
#[rustfmt::skip]
pub fn steps() -> Vec<Step> {
    vec![
        accepts("A, G; INVVPID 1, VPID 5", ROOT, [A, G].concat(), invvpid(1, 5, 0), 1, G),
        accepts("A; type 0, address 12345678h", ROOT, A, invvpid(0, 5, 0x12345678), 1, NONE),
        accepts("A; type 0, address 12346000h", ROOT, A, invvpid(0, 5, 0x12346000), 0, A),
        accepts("type 0, address 00007FFFFFFFF000h", ROOT, A, invvpid(0, 5, 0x7FFFFFFFF000), 0, A),
        accepts("type 0, address FFFF800000000000h", ROOT, A, invvpid(0, 5, 0xFFFF800000000000), 0, A),
        refuses("type 0, address 0000800000000000h", ROOT, A, invvpid(0, 5, 0x800000000000), 8),
        accepts("type 1, address 0000800000000000h", ROOT, A, invvpid(1, 5, 0x800000000000), 1, NONE),
        refuses("type 0, VPID 0", ROOT, A, invvpid(0, 0, 0), 8),
        accepts("type 2, VPID 0", ROOT, A, invvpid(2, 0, 0), 1, NONE),
        refuses("type 2, descriptor bit 16 set (mistake 5)", ROOT, A, invvpid(2, 5 + (1 << 16), 0), 8),
        refuses("type 4", ROOT, A, invvpid(4, 5, 0), 8),
        accepts("span 1, page 12200h covers page 12345h", ROOT, linear(5, 1, 0, 1, 0x12200), invvpid(0, 5, 0x12345000), 1, NONE),
        accepts("span 1, page 12200h does not cover page 12400h", ROOT, linear(5, 1, 0, 1, 0x12200), invvpid(0, 5, 0x12400000), 0, linear(5, 1, 0, 1, 0x12200)),
        refuses("span 1, page 12201h", ROOT, linear(5, 1, 0, 1, 0x12201), invvpid(0, 5, 0x12345000), 3),
        accepts("A with global 1 under type 3", ROOT, linear(5, 1, 1, 0, 0x12345), invvpid(3, 5, 0), 0, linear(5, 1, 1, 0, 0x12345)),
        accepts("G; INVEPT 1, EPTP 123456701Eh, N = 37", root_of_width(37), G, invept(1, 0x123456701E, 0), 1, NONE),
        refuses("G; INVEPT 1, EPTP 123456701Eh, N = 36", root_of_width(36), G, invept(1, 0x123456701E, 0), 8).by(5),
        accepts("G; INVEPT 1, EPTP 123456705Eh (mistake 1)", ROOT, G, invept(1, 0x123456705E, 0), 1, NONE),
        refuses("the same without capability bit 21", root_without_21(), G, invept(1, 0x123456705E, 0), 8).by(3),
        accepts("PCID 4,095 in a record", ROOT, linear(5, 4095, 0, 0, 0), invvpid(1, 5, 0), 1, NONE),
        refuses("PCID 4,096 in a record", ROOT, linear(5, 4096, 0, 0, 0), invvpid(1, 5, 0), 3),
        accepts("PCID 4,095 in an event", GUEST, A, exit(4095), 0, A).then(at(4095, 0, 1, 0, 0, 0)),
        refuses("PCID 4,096 in an event", GUEST, A, exit(4096), 4),
        accepts("empty table, reset", ROOT, NONE, RESET, 0, NONE).then(OUTSIDE),
        accepts("mistake 2: INVVPID 2 leaves G", ROOT, G, invvpid(2, 0, 0), 0, G),
        accepts("mistake 2: INVEPT 2 leaves A", ROOT, A, invept(2, 0, 0), 0, A),
        accepts("mistake 3: EPT violation, global of another PCID", EPT_GUEST, combined(5, 2, 1, 0, 0x12345), violation(0, 1, 0x12345000), 0, combined(5, 2, 1, 0, 0x12345)),
        accepts("mistake 3: EPT violation, global of the current PCID", EPT_GUEST, combined(5, 1, 1, 0, 0x12345), violation(0, 1, 0x12345000), 1, NONE),
        accepts("mistake 4: type 3 takes structure caches", ROOT, [&linear_structure(5, 1, 1, 0x12200)[..], &combined_structure(5, 1, 1, 0)].concat(), invvpid(3, 5, 0), 2, NONE),
        accepts("mistake 4: INVLPG, global of another PCID", EPT_GUEST, combined(5, 2, 1, 0, 0x12345), invlpg(0x12345000), 1, NONE),
        accepts("Ask 2: INVLPG takes a structure cache at another page", GUEST, linear_structure(5, 1, 1, 0x12400), invlpg(0x12345000), 1, NONE),
        accepts("Ask 2: type 0 leaves it", ROOT, linear_structure(5, 1, 1, 0x12400), invvpid(0, 5, 0x12345000), 0, linear_structure(5, 1, 1, 0x12400)),
        accepts("INVLPG at a non-canonical address", GUEST, A, invlpg(1 << 47), 0, A),
        accepts("entry without VPIDs takes VPID 0", ROOT, [&linear(0, 9, 1, 0, 0)[..], &A].concat(), entry(0, 9, 0, 0, 1, 0), 1, A).then(at(1, 0, 2, 0, 0, 0)),
        accepts("entry with VPIDs takes nothing", ROOT, linear(0, 9, 1, 0, 0), entry(1, 5, 0, 0, 1, 0), 0, linear(0, 9, 1, 0, 0)).then(GUEST),
        accepts("exit of a guest without VPIDs takes VPID 0", UNTAGGED, [&combined_structure(0, 1, 1, 0)[..], &A].concat(), exit(0), 1, A).then(ROOT),
        accepts("creation of A in its guest", GUEST, G, A, 0, [G, A].concat()),
        refuses("creation of A in root", ROOT, NONE, A, 11),
        refuses("no room for the old table", ROOT, [A, A, A, A].concat(), RESET, 12),
        refuses("no room for a creation", GUEST, [A, A, A].concat(), A, 12),
        refuses("N = 53", root_of_width(53), [0x63], NONE, 1),
        refuses("a table of 47,105 bytes", ROOT, LONG, RESET, 2),
        refuses("a cut record", ROOT, &A[..16], RESET, 3),
        refuses("an empty event", ROOT, A, NONE, 4),
        refuses("VMXOFF outside VMX", OUTSIDE, A, [23], 5),
        refuses("INVVPID in a guest", GUEST, A, invvpid(9, 0, 0), 6),
        refuses("INVLPG at CPL 3", at(1, 3, 2, 5, 0, 0), A, invlpg(0), 7),
        refuses("VMXON in root", ROOT, A, [22], 9),
        refuses("entry with VPID 0 enabled", ROOT, A, entry(1, 0, 0, 0, 1, 0), 10),
        accepts("Ask 5: INVPCID 0, A", GUEST, A, invpcid(0, 1, 0x12345678), 1, NONE),
        accepts("Ask 5: INVPCID 0, another page", GUEST, A, invpcid(0, 1, 0x12346000), 0, A),
        accepts("Ask 5: INVPCID 0, another PCID", GUEST, A, invpcid(0, 2, 0x12345678), 0, A),
        accepts("Ask 5: INVPCID 0, a global", GUEST, linear(5, 1, 1, 0, 0x12345), invpcid(0, 1, 0x12345678), 0, linear(5, 1, 1, 0, 0x12345)),
        accepts("Ask 5: INVPCID 1, combined, EPT off", GUEST, combined(5, 1, 0, 0, 7), invpcid(1, 1, 1 << 47), 1, NONE),
        accepts("Ask 5: INVPCID 1, a global", GUEST, linear(5, 1, 1, 0, 0), invpcid(1, 1, 0), 0, linear(5, 1, 1, 0, 0)),
        accepts("Ask 5: INVPCID 2, a global of another PCID", GUEST, [linear(5, 9, 1, 0, 0), linear(6, 1, 0, 0, 0)].concat(), invpcid(2, 0, 0), 1, linear(6, 1, 0, 0, 0)),
        accepts("Ask 5: INVPCID 3 takes structure caches", EPT_GUEST, [combined(5, 9, 1, 0, 0), combined_structure(5, 9, 1, 0)].concat(), invpcid(3, 0, 0), 1, combined(5, 9, 1, 0, 0)),
        accepts("Ask 5: INVPCID outside VMX", OUTSIDE, linear(0, 1, 0, 0, 0), invpcid(1, 1, 0), 1, NONE),
        refuses("Ask 5: INVPCID 4", GUEST, A, invpcid(4, 1, 0), 7),
        refuses("Ask 5: INVPCID 2^32 + 1", GUEST, A, invpcid((1 << 32) + 1, 1, 0), 7),
        refuses("Ask 5: INVPCID 2, descriptor bit 12 set", GUEST, A, invpcid(2, 1 << 12, 0), 7),
        refuses("Ask 5: INVPCID 0 at a non-canonical address", GUEST, A, invpcid(0, 1, 1 << 47), 7),
        refuses("Ask 5: INVPCID at CPL 3", at(1, 3, 2, 5, 0, 0), A, invpcid(1, 1, 0), 7),
        accepts("Ask 5: MOV to CR3, the new PCID's alone", GUEST, [&A[..], &linear(5, 2, 0, 0, 0), &linear(5, 2, 1, 0, 0)].concat(), mov_to_cr3(2), 1, [&A[..], &linear(5, 2, 1, 0, 0)].concat()).then(at(2, 0, 2, 5, 0, 0)),
        refuses("Ask 5: MOV to CR3, PCID 4,096", GUEST, A, mov_to_cr3(4096), 4),
        refuses("Ask 5: MOV to CR3 at CPL 1", at(1, 1, 1, 0, 0, 0), A, mov_to_cr3(1), 7),
        refuses("Ask 6: INVEPT 1, memory type 1", ROOT, G, invept(1, 0x1234567019, 0), 8).by(1),
        refuses("Ask 6: INVEPT 1, walk length 2", ROOT, G, invept(1, 0x1234567016, 0), 8).by(2),
        refuses("Ask 6: INVEPT 1, bit 7", ROOT, G, invept(1, 0x123456709E, 0), 8).by(4),
        refuses("Ask 6: INVEPT 1, bit 52", ROOT, G, invept(1, 0x123456701E + (1 << 52), 0), 8).by(5),
        refuses("Ask 6: INVEPT 1, all five", root_without_21(), G, invept(1, u64::MAX, 0), 8).by(1),
        refuses("Ask 6: INVEPT 3, a bad EPTP", ROOT, G, invept(3, 0x1234567019, 0), 8),
        refuses("Ask 6: INVEPT 1, a bad EPTP and bit 64", ROOT, G, invept(1, 0x1234567019, 1), 8),
        refuses("Ask 6: INVEPT 1 at CPL 1, a bad EPTP", at(0, 1, 1, 0, 0, 0), G, invept(1, 0x1234567019, 0), 7),
        accepts("Ask 6: INVEPT 2, a bad EPTP", ROOT, G, invept(2, 0x1234567019, 0), 1, NONE),
        refuses("Ask 6: entry, bit 7 of the EPTP", ROOT, A, entry(0, 0, 1, 0x123456709E, 1, 0), 10).by(4),
        refuses("Ask 6: entry with VPID 0 and a bad EPTP", ROOT, A, entry(1, 0, 1, 0x123456709E, 1, 0), 10),
        refuses("Ask 12: linear width 56", wide(56, ROOT), NONE, RESET, 1),
        refuses("Ask 12: kind 7 in a table at 48", ROOT, linear_57(5, 1, 0, 0, 0), RESET, 3),
        refuses("Ask 12: A in a table at 57", wide(57, ROOT), A, RESET, 3),
        refuses("Ask 12: kind 9 as an event at 48", GUEST, NONE, linear_structure_57(5, 1, 1, 0), 4),
        refuses("Ask 12: A as an event at 57", wide(57, GUEST), NONE, A, 4),
        accepts("Ask 12: creation of kind 8", wide(57, EPT_GUEST), G, combined_57(5, 1, 1, 2, 0), 0, [&G[..], &combined_57(5, 1, 1, 2, 0)].concat()),
        accepts("Ask 12: creation of kind 9, span 4", wide(57, GUEST), NONE, linear_structure_57(5, 1, 4, 1 << 36), 0, linear_structure_57(5, 1, 4, 1 << 36)),
        refuses("Ask 12: kind 10, span 5", wide(57, ROOT), combined_structure_57(5, 1, 5, 0), RESET, 3),
        refuses("Ask 12: kind 7, page 2^45", wide(57, ROOT), linear_57(5, 1, 0, 0, 1 << 45), RESET, 3),
        refuses("Ask 12: kind 5, span 4", wide(57, ROOT), encode(5, &[EP4TA, 4, 0, 9]), RESET, 3),
        accepts("Ask 12: type 0, address 0000800000000000h at 57", wide(57, ROOT), linear_57(5, 1, 0, 0, 1 << 35), invvpid(0, 5, 0x800000000000), 1, NONE),
        refuses("Ask 12: type 0, address 0100000000000000h", wide(57, ROOT), NONE, invvpid(0, 5, 1 << 56), 8),
        accepts("Ask 12: type 0, the last page", wide(57, ROOT), combined_57(5, 1, 0, 0, (1 << 45) - 1), invvpid(0, 5, u64::MAX), 1, NONE),
        accepts("Ask 12: type 3 spares a global of kind 7", wide(57, ROOT), [linear_57(5, 1, 1, 0, 0), combined_structure_57(5, 1, 1, 0)].concat(), invvpid(3, 5, 0), 1, linear_57(5, 1, 1, 0, 0)),
        accepts("Ask 12: INVLPG takes structure caches of kind 9", wide(57, GUEST), linear_structure_57(5, 1, 1, 0), invlpg(1 << 48), 1, NONE),
        accepts("Ask 12: EPT violation at 57", wide(57, EPT_GUEST), [&combined_57(5, 1, 0, 0, 1 << 44)[..], &G].concat(), violation(0x10000, 1, 0xFF00_0000_0000_0000), 2, NONE),
        refuses("Ask 12: EPT violation, flag 1 and 2^56", wide(57, EPT_GUEST), NONE, violation(0, 1, 1 << 56), 4),
        accepts("Ask 12: reset keeps the linear width", wide(57, ROOT), G, RESET, 1, NONE).then(wide(57, OUTSIDE)),
    ]
}

/// Ask 7's steps beside a tally, into a buffer of 64 bytes; a row for each.
#[rustfmt::skip]
pub fn counted_steps() -> Vec<CountedStep> {
    let none = tally(&[], [0, 0, 0, 0]);
    let a = tally(&[(1, 0, 1)], [0, 1, 0, 0]);
    let a_a = tally(&[(1, 0, 2)], [0, 2, 0, 0]);
    let a_a_a = tally(&[(1, 0, 3)], [0, 3, 0, 0]);
    let g = tally(&[(2, 0, 1)], [0, 0, 0, 0]);
    let a_g = tally(&[(1, 0, 1), (2, 0, 1)], [0, 1, 0, 0]);
    let a_a_g = tally(&[(1, 0, 2), (2, 0, 1)], [0, 2, 0, 0]);
    vec![
        // What is dropped is taken off.
        accepts("tally: A, G; INVVPID 1, VPID 5", ROOT, [A, G].concat(), invvpid(1, 5, 0), 1, G).counts(a_g, g),
        accepts("tally: A, G; INVEPT 2", ROOT, [A, G].concat(), invept(2, 0, 0), 1, A).counts(a_g, a),
        accepts("tally: A twice; INVVPID 1, VPID 5", ROOT, [A, A].concat(), invvpid(1, 5, 0), 2, NONE).counts(a_a, none),
        accepts("tally: A; type 0, address 12346000h", ROOT, A, invvpid(0, 5, 0x12346000), 0, A).leaves(a),
        accepts("tally: INVEPT 2, kind 6, span 3", ROOT, combined_structure(5, 4095, 3, 0), invept(2, 0, 0), 1, NONE).counts(tally(&[(6, 3, 1)], [0, 0, 0, 1]), none),
        accepts("tally: EPT violation, kind 5, span 3, and G", EPT_GUEST, [&guest_physical_structure(3, 0)[..], &G].concat(), violation(0x11000, 0, 0), 1, G).counts(tally(&[(2, 0, 1), (5, 3, 1)], [0, 0, 0, 0]), g),
        accepts("tally: MOV to CR3, the new PCID's alone", GUEST, [&A[..], &linear(5, 2, 0, 1, 0), &linear_structure(5, 2, 1, 0)].concat(), mov_to_cr3(2), 2, A).then(at(2, 0, 2, 5, 0, 0)).counts(tally(&[(1, 0, 1), (1, 1, 1), (4, 1, 1)], [0, 1, 2, 0]), a),
        accepts("tally: reset", ROOT, [&A[..], &G, &combined(5, 2, 1, 2, 0)].concat(), RESET, 3, NONE).then(OUTSIDE).counts(tally(&[(1, 0, 1), (2, 0, 1), (3, 2, 1)], [0, 1, 1, 0]), none),
        accepts("tally: reset, an empty table", ROOT, NONE, RESET, 0, NONE).then(OUTSIDE).leaves(none),
        // What is created is added.
        accepts("tally: creation of A", GUEST, A, A, 0, [A, A].concat()).counts(a, a_a),
        accepts("tally: creation of G", EPT_GUEST, A, G, 0, [A, G].concat()).counts(a, a_g),
        accepts("tally: creation of kind 3, span 2", EPT_GUEST, G, combined(5, 1, 0, 2, 0), 0, [&G[..], &combined(5, 1, 0, 2, 0)].concat()).counts(g, tally(&[(2, 0, 1), (3, 2, 1)], [0, 1, 0, 0])),
        accepts("tally: creation of kind 4, span 3", GUEST, NONE, linear_structure(5, 1, 3, 0), 0, linear_structure(5, 1, 3, 0)).counts(none, tally(&[(4, 3, 1)], [0, 1, 0, 0])),
        accepts("tally: creation of kind 5, span 3", EPT_GUEST, G, guest_physical_structure(3, 0), 0, [&G[..], &guest_physical_structure(3, 0)].concat()).counts(g, tally(&[(2, 0, 1), (5, 3, 1)], [0, 0, 0, 0])),
        accepts("tally: creation of kind 6, span 1", EPT_GUEST, NONE, combined_structure(5, 1, 1, 0), 0, combined_structure(5, 1, 1, 0)).counts(none, tally(&[(6, 1, 1)], [0, 1, 0, 0])),
        // A global record counts under its own PCID, and not under the current one.
        accepts("tally: creation of a global", GUEST, NONE, linear(5, 1, 1, 0, 7), 0, linear(5, 1, 1, 0, 7)).counts(none, tally(&[(1, 0, 1)], [0, 1, 0, 0])),
        accepts("tally: INVLPG, a global of another PCID", GUEST, [&linear(5, 2, 1, 0, 0x12345)[..], &linear(5, 1, 0, 0, 7)].concat(), invlpg(0x12345678), 1, linear(5, 1, 0, 0, 7)).counts(tally(&[(1, 0, 2)], [0, 1, 1, 0]), a),
        refuses("tally: a global under the current PCID", GUEST, linear(5, 2, 1, 0, 0x12345), invlpg(0), 13).leaves(a),
        refuses("tally: a global under no PCID", GUEST, linear(5, 2, 1, 0, 0x12345), invlpg(0), 13).leaves(tally(&[(1, 0, 1)], [0, 0, 0, 0])),
        // Kinds 2 and 5 count under no PCID.
        refuses("tally: G under PCID 0", ROOT, G, invvpid(1, 5, 0), 13).leaves(tally(&[(2, 0, 1)], [1, 0, 0, 0])),
        refuses("tally: kind 5 under PCID 0", ROOT, guest_physical_structure(1, 0), invvpid(1, 5, 0), 13).leaves(tally(&[(5, 1, 1)], [1, 0, 0, 0])),
        // Kinds 7 to 10 have the rows of kinds 1, 3, 4 and 6 (Ask 12).
        accepts("tally: kinds 7 and 8; INVVPID 3", wide(57, ROOT), [linear_57(5, 1, 1, 1, 0), combined_57(5, 2, 0, 2, 0)].concat(), invvpid(3, 5, 0), 1, linear_57(5, 1, 1, 1, 0)).counts(tally(&[(1, 1, 1), (3, 2, 1)], [0, 1, 1, 0]), tally(&[(1, 1, 1)], [0, 1, 0, 0])),
        accepts("tally: kinds 9 and 10, span 4; INVEPT 2", wide(57, ROOT), [linear_structure_57(5, 1, 4, 0), combined_structure_57(5, 2, 4, 1 << 36)].concat(), invept(2, 0, 0), 1, linear_structure_57(5, 1, 4, 0)).counts(tally(&[(4, 4, 1), (6, 4, 1)], [0, 1, 1, 0]), tally(&[(4, 4, 1)], [0, 1, 0, 0])),
        accepts("tally: creation of kind 7", wide(57, GUEST), G, linear_57(5, 1, 0, 0, 1 << 44), 0, [&G[..], &linear_57(5, 1, 0, 0, 1 << 44)].concat()).counts(g, a_g),
        accepts("tally: creation of kind 8", wide(57, EPT_GUEST), NONE, combined_57(5, 1, 1, 1, 0), 0, combined_57(5, 1, 1, 1, 0)).counts(none, tally(&[(3, 1, 1)], [0, 1, 0, 0])),
        accepts("tally: creation of kind 9, span 4", wide(57, GUEST), NONE, linear_structure_57(5, 1, 4, 0), 0, linear_structure_57(5, 1, 4, 0)).counts(none, tally(&[(4, 4, 1)], [0, 1, 0, 0])),
        accepts("tally: creation of kind 10, span 4", wide(57, EPT_GUEST), NONE, combined_structure_57(5, 1, 4, 0), 0, combined_structure_57(5, 1, 4, 0)).counts(none, tally(&[(6, 4, 1)], [0, 1, 0, 0])),
        refuses("tally: kind 8 in the row of kind 2", wide(57, ROOT), combined_57(5, 1, 0, 0, 0), RESET, 13).leaves(tally(&[(2, 0, 1)], [0, 1, 0, 0])),
        refuses("tally: kind 9, span 4, under span 3", wide(57, ROOT), linear_structure_57(5, 1, 4, 0), RESET, 13).leaves(tally(&[(4, 3, 1)], [0, 1, 0, 0])),
        // 13: every count is looked at.
        refuses("tally: one more of kind 1", ROOT, [A, G].concat(), invvpid(1, 5, 0), 13).leaves(tally(&[(1, 0, 2), (2, 0, 1)], [0, 1, 0, 0])),
        refuses("tally: one less of kind 2", ROOT, [A, G].concat(), invvpid(1, 5, 0), 13).leaves(a),
        refuses("tally: one more of PCID 1", ROOT, [A, G].concat(), invvpid(1, 5, 0), 13).leaves(tally(&[(1, 0, 1), (2, 0, 1)], [0, 2, 0, 0])),
        refuses("tally: one less of PCID 1", ROOT, [A, G].concat(), invvpid(1, 5, 0), 13).leaves(tally(&[(1, 0, 1), (2, 0, 1)], [0, 0, 0, 0])),
        refuses("tally: one more of PCID 4,095", ROOT, [A, G].concat(), invvpid(1, 5, 0), 13).leaves(tally(&[(1, 0, 1), (2, 0, 1)], [0, 1, 0, 1])),
        refuses("tally: a count moved between PCIDs", ROOT, A, invvpid(1, 5, 0), 13).leaves(tally(&[(1, 0, 1)], [0, 0, 1, 0])),
        refuses("tally: a count under another span", ROOT, A, invvpid(1, 5, 0), 13).leaves(tally(&[(1, 1, 1)], [0, 1, 0, 0])),
        refuses("tally: two rows swapped", ROOT, [A, A, G].concat(), invvpid(1, 5, 0), 13).leaves(tally(&[(1, 0, 1), (2, 0, 2)], [0, 2, 0, 0])),
        refuses("tally: kind 1, span 3", ROOT, A, invvpid(1, 5, 0), 13).leaves(tally(&[(1, 0, 1), (1, 3, 1)], [0, 1, 0, 0])),
        refuses("tally: kind 4, span 0", ROOT, A, invvpid(1, 5, 0), 13).leaves(tally(&[(1, 0, 1), (4, 0, 1)], [0, 1, 0, 0])),
        refuses("tally: kind 6, span 4, at 48", ROOT, A, invvpid(1, 5, 0), 13).leaves(tally(&[(1, 0, 1), (6, 4, 1)], [0, 1, 0, 0])),
        refuses("tally: 65,535 of kind 1", ROOT, A, invvpid(1, 5, 0), 13).leaves(tally(&[(1, 0, 65_535)], [0, 1, 0, 0])),
        refuses("tally: 65,535 of PCID 1", ROOT, A, invvpid(1, 5, 0), 13).leaves(tally(&[(1, 0, 1)], [0, 65_535, 0, 0])),
        refuses("tally: 65,535 of kind 1 and a creation", GUEST, NONE, A, 13).leaves(tally(&[(1, 0, 65_535)], [0, 65_535, 0, 0])),
        refuses("tally: the counts of the new table", GUEST, G, A, 13).leaves(a_g),
        refuses("tally: a count and an empty table", ROOT, NONE, RESET, 13).leaves(a),
        refuses("tally: no counts", ROOT, A, RESET, 13).leaves(none),
        // 1 to 4 go before 13.
        refuses("tally: N = 53 before 13", root_of_width(53), A, RESET, 1).leaves(none),
        refuses("tally: place 3 before 13", at(0, 0, 3, 0, 0, 0), A, RESET, 1).leaves(none),
        refuses("tally: 47,105 bytes before 13", ROOT, LONG, RESET, 2).leaves(a),
        refuses("tally: a cut record before 13", ROOT, &A[..16], RESET, 3).leaves(a),
        refuses("tally: an empty event before 13", ROOT, A, NONE, 4).leaves(none),
        refuses("tally: PCID 4,096 in an event before 13", GUEST, A, exit(4096), 4).leaves(a_g),
        // 13 goes before 5 to 12, each of which leaves a tally that matches.
        refuses("tally: 13 before 5", OUTSIDE, A, invvpid(1, 5, 0), 13).leaves(none),
        refuses("tally: INVVPID outside VMX", OUTSIDE, A, invvpid(1, 5, 0), 5).leaves(a),
        refuses("tally: 13 before 6", GUEST, A, invvpid(1, 5, 0), 13).leaves(none),
        refuses("tally: INVVPID in a guest", GUEST, A, invvpid(1, 5, 0), 6).leaves(a),
        refuses("tally: 13 before 7", at(1, 3, 2, 5, 0, 0), A, invlpg(0), 13).leaves(none),
        refuses("tally: INVLPG at CPL 3", at(1, 3, 2, 5, 0, 0), A, invlpg(0), 7).leaves(a),
        refuses("tally: 13 before 8", ROOT, A, invvpid(4, 5, 0), 13).leaves(none),
        refuses("tally: type 4", ROOT, A, invvpid(4, 5, 0), 8).leaves(a),
        refuses("tally: 13 with no rule of the EPTP", ROOT, G, invept(1, 0x123456709E, 0), 13).leaves(none),
        refuses("tally: INVEPT 1, bit 7", ROOT, G, invept(1, 0x123456709E, 0), 8).by(4).leaves(g),
        refuses("tally: 13 before 9", ROOT, A, [22], 13).leaves(none),
        refuses("tally: VMXON in root", ROOT, A, [22], 9).leaves(a),
        refuses("tally: 13 before 10", ROOT, A, entry(1, 0, 0, 0, 1, 0), 13).leaves(none),
        refuses("tally: entry with VPID 0 enabled", ROOT, A, entry(1, 0, 0, 0, 1, 0), 10).leaves(a),
        refuses("tally: 13 before 11", ROOT, A, A, 13).leaves(a_a),
        refuses("tally: creation of A in root", ROOT, A, A, 11).leaves(a),
        refuses("tally: 13 before 12", GUEST, [A, A, A].concat(), A, 13).leaves(a_a_g),
        refuses("tally: no room for a creation", GUEST, [A, A, A].concat(), A, 12).leaves(a_a_a),
    ]
}

/// Ask 7's fresh counts, a row for each.
pub fn counts() -> Vec<Count> {
    let row = |name, linear_width, table: &[u8], lent, answer, counts| Count {
        name,
        linear_width,
        table: table.to_vec(),
        lent,
        answer,
        counts,
    };
    let none = tally(&[], [0, 0, 0, 0]);
    let untouched = tally(&[], [7, 7, 7, 7]);
    let a = tally(&[(1, 0, 1)], [0, 1, 0, 0]);
    let six = [
        &A[..],
        &G,
        &combined(5, 2, 1, 2, 0),
        &linear_structure(6, 4095, 3, 0),
        &guest_physical_structure(3, 0),
        &combined_structure(7, 1, 1, 0),
    ];
    let six_counts = tally(
        &[
            (1, 0, 1),
            (2, 0, 1),
            (3, 2, 1),
            (4, 3, 1),
            (5, 3, 1),
            (6, 1, 1),
        ],
        [0, 2, 1, 1],
    );
    let wide_six = [
        &linear_57(5, 4095, 1, 0, 1 << 44)[..],
        &G,
        &combined_57(5, 2, 0, 1, 0),
        &linear_structure_57(6, 0, 4, 0),
        &guest_physical_structure(2, 0),
        &combined_structure_57(7, 2, 4, 1 << 36),
    ];
    let wide_six_counts = tally(
        &[
            (1, 0, 1),
            (2, 0, 1),
            (3, 1, 1),
            (4, 4, 1),
            (5, 2, 1),
            (6, 4, 1),
        ],
        [1, 0, 2, 1],
    );
    vec![
        row("count: all kinds", 48, &six.concat(), 4096, 0, six_counts),
        row(
            "count: A twice",
            48,
            &[A, A].concat(),
            4096,
            0,
            tally(&[(1, 0, 2)], [0, 2, 0, 0]),
        ),
        row("count: nothing", 48, &NONE, 4096, 0, none),
        row(
            "count: all kinds at 57",
            57,
            &wide_six.concat(),
            4096,
            0,
            wide_six_counts,
        ),
        row("count: nothing at 57", 57, &NONE, 4096, 0, none),
        row("count: width 56 is 48", 56, &A, 4096, 0, a),
        row("count: A at 57", 57, &A, 4096, 3, untouched),
        row(
            "count: kind 7 at 48",
            48,
            &linear_57(5, 1, 0, 0, 0),
            4096,
            3,
            untouched,
        ),
        row("count: a cut record", 48, &A[..16], 4096, 3, untouched),
        row(
            "count: a cut record behind A",
            48,
            &[&A[..], &G[..16]].concat(),
            4096,
            3,
            untouched,
        ),
        row("count: 47,105 bytes", 48, &LONG, 4096, 2, untouched),
        row("count: 4,095 lent", 48, &A, 4095, 13, untouched),
        row("count: none lent", 48, &NONE, 0, 13, untouched),
        row("count: 3 before 13", 48, &A[..16], 4095, 3, untouched),
    ]
}

/// Ask 12's converter, into a buffer of 64 bytes, a row for each.
pub fn widenings() -> Vec<Widening> {
    let row = |name, table: Vec<u8>, answer, new| Widening {
        name,
        table,
        answer,
        new,
    };
    let half = 1 << 35;
    let gain = (1 << 45) - (1 << 36);
    vec![
        row("widen: nothing", vec![], 0, vec![]),
        row(
            "widen: A and G",
            [A, G].concat(),
            0,
            [&linear_57(5, 1, 0, 0, 0x12345)[..], &G].concat(),
        ),
        row(
            "widen: kind 3, page 2^35 - 1",
            combined(5, 1, 1, 0, half - 1),
            0,
            combined_57(5, 1, 1, 0, half - 1),
        ),
        row(
            "widen: kind 4, page 2^35",
            linear_structure(5, 1, 3, half),
            0,
            linear_structure_57(5, 1, 3, half + gain),
        ),
        row(
            "widen: kind 6, page 2^36 - 2^9",
            combined_structure(5, 1, 1, (1 << 36) - (1 << 9)),
            0,
            combined_structure_57(5, 1, 1, (1 << 45) - (1 << 9)),
        ),
        row("widen: 47,105 bytes", LONG.to_vec(), 2, vec![]),
        row("widen: a cut record", A[..16].to_vec(), 3, vec![]),
        row("widen: kind 7", linear_57(5, 1, 0, 0, 0), 3, vec![]),
        row("widen: no room", [A, G, G, A].concat(), 12, vec![]),
    ]
}

/// The lookups, a row for each.
#[rustfmt::skip]
pub fn lookups() -> Vec<Lookup> {
    vec![
        finds("A at 12345678h", GUEST, [A, G].concat(), (1, 0x12345678, 0), (0, 0), A),
        finds("nothing more at 12345678h", GUEST, [A, G].concat(), (1, 0x12345678, 1), (0, 0), NONE),
        finds("a structure cache counts too", GUEST, [&A[..], &linear_structure(5, 1, 1, 0x12200)].concat(), (1, 0x12345678, 1), (0, 17), linear_structure(5, 1, 1, 0x12200)),
        finds("G at guest-physical 10000h", EPT_GUEST, [A, G].concat(), (2, 0x10000, 0), (0, 17), G),
        finds("G with EPT off", GUEST, [A, G].concat(), (2, 0x10000, 0), (0, 0), NONE),
        finds("an invalid table", GUEST, &A[..16], (1, 0x12345678, 0), (3, 0), NONE),
        finds("Ask 12: kind 7 at FF00000000000000h", wide(57, GUEST), linear_57(5, 1, 0, 0, 1 << 44), (1, 0xFF00_0000_0000_0000, 0), (0, 0), linear_57(5, 1, 0, 0, 1 << 44)),
        finds("Ask 12: nothing at 2^56", wide(57, GUEST), linear_57(5, 1, 0, 0, 1 << 44), (1, 1 << 56, 0), (0, 0), NONE),
        finds("Ask 12: kind 10 behind kind 8", wide(57, EPT_GUEST), [combined_57(5, 1, 0, 0, 0), combined_structure_57(5, 1, 4, 0)].concat(), (1, 0, 1), (0, 23), combined_structure_57(5, 1, 4, 0)),
        finds("Ask 12: G at 57", wide(57, EPT_GUEST), G, (2, 0x10000, 0), (0, 0), G),
    ]
}

/// Ask 1's reasons, a row for each.
#[rustfmt::skip]
pub fn reasons() -> Vec<Reason> {
    vec![
        gives("why: N = 53", root_of_width(53), A, invvpid(1, 5, 0), 1, 1),
        gives("why: no bytes", ROOT, NONE, invvpid(1, 5, 0), 1, 3),
        gives("why: two records", ROOT, [A, A].concat(), invvpid(1, 5, 0), 1, 3),
        gives("why: 47,105 bytes", ROOT, LONG, invvpid(1, 5, 0), 1, 3),
        gives("why: an empty event", ROOT, A, NONE, 1, 4),
        gives("why: type 4", ROOT, A, invvpid(4, 5, 0), 1, 8),
        gives("why: exit outside a guest", ROOT, A, exit(0), 1, 9),
        gives("why: creation of A", GUEST, A, A, 2, 0),
        gives("why: VMXOFF", ROOT, A, [23], 2, 0),
        gives("why: entry with VPIDs", ROOT, A, entry(1, 5, 0, 0, 1, 0), 2, 0),
        gives("why: exit with VPIDs", GUEST, A, exit(0), 2, 0),
        gives("why: INVLPG of a non-canonical address, kind 2", EPT_GUEST, G, invlpg(1 << 47), 3, 0),
        gives("why: INVVPID 1, kind 2", ROOT, G, invvpid(1, 5, 0), 4, 0),
        gives("why: INVEPT 2, kind 1", ROOT, A, invept(2, 0, 0), 4, 0),
        gives("why: EPT violation with flag 0, kind 3", EPT_GUEST, combined(9, 9, 0, 0, 0), violation(0, 0, 0), 4, 0),
        gives("why: EPT violation, kind 1", EPT_GUEST, linear(5, 1, 0, 0, 0), violation(0, 1, 0), 4, 0),
        gives("why: INVVPID 3, global of another VPID", ROOT, linear(6, 1, 1, 0, 0), invvpid(3, 5, 0), 5, 0),
        gives("why: INVVPID 1 of another VPID", ROOT, A, invvpid(1, 6, 0), 5, 0),
        gives("why: INVVPID 2 of VPID 0", ROOT, linear(0, 1, 0, 0, 0), invvpid(2, 0, 0), 5, 0),
        gives("why: entry without VPIDs, VPID 5", ROOT, A, entry(0, 0, 0, 0, 1, 0), 5, 0),
        gives("why: EPT violation, kind 3 of another VPID and PCID", EPT_GUEST, combined(9, 9, 0, 0, 0), violation(0, 1, 0), 5, 0),
        gives("why: INVLPG, PCID 2 and another page", GUEST, linear(5, 2, 0, 0, 0x12345), invlpg(0), 6, 0),
        gives("why: INVLPG, structure cache of PCID 2", GUEST, linear_structure(5, 2, 1, 0), invlpg(0), 6, 0),
        gives("why: EPT violation, global of another PCID", EPT_GUEST, combined(5, 2, 1, 0, 0), violation(0, 1, 0), 6, 0),
        gives("why: EPT violation, kind 3 of another PCID and EP4TA", EPT_GUEST, other_ep4ta(combined(5, 2, 0, 0, 0)), violation(0, 1, 0), 6, 0),
        gives("why: EPT violation, kind 3 of another EP4TA and page", EPT_GUEST, other_ep4ta(combined(5, 1, 0, 0, 1)), violation(0, 1, 0), 7, 0),
        gives("why: INVEPT 1 of another EP4TA", ROOT, G, invept(1, 0x1E, 0), 7, 0),
        gives("why: type 0, address 12346000h", ROOT, A, invvpid(0, 5, 0x12346000), 8, 0),
        gives("why: INVLPG, global of PCID 2 and another page", GUEST, linear(5, 2, 1, 0, 0x12345), invlpg(0), 8, 0),
        gives("why: EPT violation, kind 3 at the guest-physical page alone", EPT_GUEST, combined(5, 1, 0, 0, 0), violation(0, 1, 0x1000), 8, 0),
        gives("why: EPT violation, G and another page", EPT_GUEST, G, violation(0, 0, 0), 8, 0),
        gives("why: A with global 1 under type 3", ROOT, linear(5, 1, 1, 0, 0x12345), invvpid(3, 5, 0), 9, 0),
        gives("why: A under type 3", ROOT, A, invvpid(3, 5, 0), 10, 0),
        gives("why: INVLPG, global of PCID 2", GUEST, linear(5, 2, 1, 0, 0x12345), invlpg(0x12345678), 10, 0),
        gives("why: INVLPG, structure cache at another page", GUEST, linear_structure(5, 1, 1, 0x12400), invlpg(0x12345000), 10, 0),
        gives("why: EPT violation, G", EPT_GUEST, G, violation(0x10000, 0, 0), 10, 0),
        gives("why: reset", ROOT, G, RESET, 10, 0),
        gives("why: INVPCID 4", GUEST, A, invpcid(4, 1, 0), 1, 7),
        gives("why: INVPCID 2, kind 2", GUEST, G, invpcid(2, 0, 0), 4, 0),
        gives("why: INVPCID 2, another VPID", GUEST, linear(6, 1, 0, 0, 0), invpcid(2, 0, 0), 5, 0),
        gives("why: INVPCID 1, global of another PCID", GUEST, linear(5, 2, 1, 0, 0), invpcid(1, 1, 0), 6, 0),
        gives("why: INVPCID 0, global at another page", GUEST, linear(5, 1, 1, 0, 0x12345), invpcid(0, 1, 0), 8, 0),
        gives("why: INVPCID 3, global of another PCID", GUEST, linear(5, 2, 1, 0, 0), invpcid(3, 1, 0), 9, 0),
        gives("why: INVPCID 2, a global", GUEST, linear(5, 2, 1, 0, 0), invpcid(2, 1, 0), 10, 0),
        gives("why: MOV to CR3, the old PCID", GUEST, A, mov_to_cr3(2), 6, 0),
        gives("why: MOV to CR3, a global of the new PCID", GUEST, linear(5, 2, 1, 0, 0), mov_to_cr3(2), 9, 0),
        gives("why: INVEPT 1, a bad EPTP", ROOT, G, invept(1, 0x123456709E, 0), 1, 8).by(4),
        gives("why: entry with VPID 0 and a bad EPTP", ROOT, A, entry(1, 0, 1, 0x123456709E, 1, 0), 1, 10),
        gives("why: kind 7 at 48", ROOT, linear_57(5, 1, 0, 0, 0), RESET, 1, 3),
        gives("why: INVVPID 3, a global of kind 8", wide(57, ROOT), combined_57(5, 1, 1, 0, 0), invvpid(3, 5, 0), 9, 0),
        gives("why: INVVPID 0, kind 9 at another page", wide(57, ROOT), linear_structure_57(5, 1, 4, 0), invvpid(0, 5, 1 << 48), 8, 0),
        gives("why: INVLPG of 2^56, kind 2", wide(57, GUEST), G, invlpg(1 << 56), 3, 0),
        gives("why: MOV to CR3, a structure cache of the new PCID", GUEST, linear_structure(5, 2, 1, 0), mov_to_cr3(2), 10, 0),
    ]
}
