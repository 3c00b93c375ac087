//! The static library as it is, field by field as in `skuldrefn.h`, which says
//! what each function does.
//!
//! These functions are unsafe to call: every pointer must be good for the
//! length that comes with it (null is allowed with length 0), one to counts is
//! aligned as they are, and a buffer that is written may overlap no other.

/// A context as numbers. `place`: 0 outside, 1 root, 2 guest. `vpid`, `ept`
/// and `ep4ta` are looked at in a guest only, and `ep4ta` with `ept` 1 only.
/// `ept`: 0 off, 1 on. Any other place or EPT number is answered 1.
#[repr(C)]
#[derive(Clone, Copy, Debug, Default, PartialEq, Eq)]
pub struct FlatContext {
    pub capability: u64,
    pub width: u64,
    pub linear_width: u64,
    pub pcid: u64,
    pub cpl: u64,
    pub place: u64,
    pub vpid: u64,
    pub ept: u64,
    pub ep4ta: u64,
}

/// What a plain step reports. A refusal hands back the context as it came, 0 and 0.
/// `rule` is 1 to 5 if a bad EPTP is its ground, else 0.
#[repr(C)]
#[derive(Clone, Copy, Debug, PartialEq, Eq)]
pub struct FlatStep {
    pub answer: u64,
    pub rule: u64,
    pub context: FlatContext,
    pub length: usize,
    pub dropped: usize,
}

/// How many records of one kind there are, by span, 0 to 4.
#[repr(C)]
#[derive(Clone, Copy, Debug, Default, PartialEq, Eq)]
pub struct Row {
    pub spans: [u16; 5],
}

/// A row for each of kinds 1 to 6, in this order. Kinds 7, 8, 9 and 10 are
/// counted in the rows of 1, 3, 4 and 6.
#[repr(C)]
#[derive(Clone, Copy, Debug, Default, PartialEq, Eq)]
pub struct Kinds {
    pub rows: [Row; 6],
}

/// What a step with a tally reports: as [`FlatStep`], and the counts by kind
/// and span after the event. A refusal hands these back as they came too.
#[repr(C)]
#[derive(Clone, Copy, Debug, PartialEq, Eq)]
pub struct CountedStep {
    pub answer: u64,
    pub rule: u64,
    pub context: FlatContext,
    pub length: usize,
    pub dropped: usize,
    pub kinds: Kinds,
}

/// What a fresh count reports: 0, 2, 3 or 13, and the counts by kind and span,
/// all 0 on a refusal.
#[repr(C)]
#[derive(Clone, Copy, Debug, PartialEq, Eq)]
pub struct Counted {
    pub answer: u64,
    pub kinds: Kinds,
}

/// What a lookup reports: a part of the table, or 0 and 0.
#[repr(C)]
#[derive(Clone, Copy, Debug, PartialEq, Eq)]
pub struct Part {
    pub answer: u64,
    pub start: usize,
    pub length: usize,
}

/// Why a mapping went or stayed: the reason's number, 1 to 10, and with reason
/// 1 the step's answer and rule, else 0 and 0.
#[repr(C)]
#[derive(Clone, Copy, Debug, PartialEq, Eq)]
pub struct FlatReason {
    pub reason: u64,
    pub answer: u64,
    pub rule: u64,
}

/// What a replay reports: the context and the length of the table in force,
/// 1 if the first buffer holds it, and the number of rows written.
#[repr(C)]
#[derive(Clone, Copy, Debug, PartialEq, Eq)]
pub struct FlatReplayed {
    pub context: FlatContext,
    pub length: usize,
    pub first: u64,
    pub count: usize,
}

/// What the converter reports: 0, 2, 3 or 12, and the new table's length, 0 on a
/// refusal.
#[repr(C)]
#[derive(Clone, Copy, Debug, PartialEq, Eq)]
pub struct Widened {
    pub answer: u64,
    pub length: usize,
}

/// What export and import of fixed rows report. Export answers 0, 1, 2, 3 or 12,
/// import 0, 1, 4 or 12. `row` is the number, from 1, of the first bad row, with
/// import's answer 4, and 0 for a bad length; else 0. `length` is that of what was
/// written, 0 on a refusal.
#[repr(C)]
#[derive(Clone, Copy, Debug, PartialEq, Eq)]
pub struct Converted {
    pub answer: u64,
    pub row: u64,
    pub length: usize,
}

/// What a claimed table is judged as: 0 accepted, 1 refused event, 2 malformed
/// claim, 3 unmatched record. `answer` and `rule` are the refused step's, and
/// `position` is that of the unmatched record; else 0.
#[repr(C)]
#[derive(Clone, Copy, Debug, PartialEq, Eq)]
pub struct FlatJudgement {
    pub number: u64,
    pub answer: u64,
    pub rule: u64,
    pub position: usize,
}

/// A reader of a log that arrives in fragments. `line` is the number of the last
/// event reported; `ignoring` is 0 for no, any other number for yes; `length` bytes
/// of an unfinished event, at most 24, are held at the front of `held`.
#[repr(C)]
#[derive(Clone, Copy, Debug, Default, PartialEq, Eq)]
pub struct Reader {
    pub line: u64,
    pub ignoring: u64,
    pub length: u64,
    pub held: [u8; 24],
}

/// What a call with a fragment reports: the reader after it, the bytes taken, 1 if an
/// event was finished, and what its step reports. With `finished` 0 the numbers of
/// the step are 0, and context and kinds as they came.
#[repr(C)]
#[derive(Clone, Copy, Debug, PartialEq, Eq)]
pub struct FlatTaken {
    pub reader: Reader,
    pub taken: usize,
    pub finished: u64,
    pub step: FlatStep,
    pub kinds: Kinds,
}

/// What a finish call reports: the reader after it, 1 if a cut record was reported,
/// and its answer, else 0.
#[repr(C)]
#[derive(Clone, Copy, Debug, PartialEq, Eq)]
pub struct FlatFinished {
    pub reader: Reader,
    pub finished: u64,
    pub answer: u64,
}

/// What a step of both levels reports of one: the new table's length, the dropped
/// count, and the counts by kind and span. On a refusal 0, 0 and the counts as they
/// came.
#[repr(C)]
#[derive(Clone, Copy, Debug, PartialEq, Eq)]
pub struct FlatLevel {
    pub length: usize,
    pub dropped: usize,
    pub kinds: Kinds,
}

/// What a step of both levels reports. The answer is the first's, or the second's
/// where that is 0.
#[repr(C)]
#[derive(Clone, Copy, Debug, PartialEq, Eq)]
pub struct FlatLevelStep {
    pub answer: u64,
    pub rule: u64,
    pub context: FlatContext,
    pub first: FlatLevel,
    pub second: FlatLevel,
}

/// What a lookup in both levels reports: the level that has the translation, 1 or 2,
/// and its part of that table; or 0, 0 and 0.
#[repr(C)]
#[derive(Clone, Copy, Debug, PartialEq, Eq)]
pub struct LevelPart {
    pub answer: u64,
    pub level: u64,
    pub start: usize,
    pub length: usize,
}

/// What a walk reports: how it ended, 0 to 6; the rule of a bad EPTP; the place
/// where a ground was met; the entries read; and the record, all 0 where there
/// is none.
#[repr(C)]
#[derive(Clone, Copy, Debug, PartialEq, Eq)]
pub struct FlatWalk {
    pub ending: u64,
    pub rule: u64,
    pub guest_level: u64,
    pub ept_level: u64,
    pub address: u64,
    pub read: u64,
    pub record: [u8; 22],
}

extern "C" {
    pub fn skuldrefn_step(
        context: FlatContext,
        kinds: Kinds,
        pcids: *mut u16,
        pcids_length: usize,
        table: *const u8,
        table_length: usize,
        event: *const u8,
        event_length: usize,
        new_table: *mut u8,
        new_length: usize,
    ) -> CountedStep;

    pub fn skuldrefn_plain_step(
        context: FlatContext,
        table: *const u8,
        table_length: usize,
        event: *const u8,
        event_length: usize,
        new_table: *mut u8,
        new_length: usize,
    ) -> FlatStep;

    pub fn skuldrefn_count(
        linear_width: u64,
        table: *const u8,
        table_length: usize,
        pcids: *mut u16,
        pcids_length: usize,
    ) -> Counted;

    pub fn skuldrefn_lookup_linear(
        context: FlatContext,
        table: *const u8,
        table_length: usize,
        address: u64,
        k: u64,
    ) -> Part;

    pub fn skuldrefn_lookup_guest_physical(
        context: FlatContext,
        table: *const u8,
        table_length: usize,
        address: u64,
        k: u64,
    ) -> Part;

    pub fn skuldrefn_explain(
        context: FlatContext,
        record: *const u8,
        record_length: usize,
        event: *const u8,
        event_length: usize,
    ) -> FlatReason;

    pub fn skuldrefn_event_length(linear_width: u64, log: *const u8, log_length: usize) -> usize;

    pub fn skuldrefn_replay(
        capability: u64,
        width: u64,
        linear_width: u64,
        log: *const u8,
        log_length: usize,
        first: *mut u8,
        first_length: usize,
        second: *mut u8,
        second_length: usize,
        rows: *mut u8,
        rows_length: usize,
    ) -> FlatReplayed;

    pub fn skuldrefn_widen(
        table: *const u8,
        table_length: usize,
        new_table: *mut u8,
        new_length: usize,
    ) -> Widened;

    pub fn skuldrefn_export(
        linear_width: u64,
        table: *const u8,
        table_length: usize,
        rows: *mut u8,
        rows_length: usize,
    ) -> Converted;

    pub fn skuldrefn_import(
        linear_width: u64,
        rows: *const u8,
        rows_length: usize,
        table: *mut u8,
        table_length: usize,
    ) -> Converted;

    pub fn skuldrefn_judge(
        context: FlatContext,
        table: *const u8,
        table_length: usize,
        event: *const u8,
        event_length: usize,
        claim: *const u8,
        claim_length: usize,
    ) -> FlatJudgement;

    pub fn skuldrefn_take(
        reader: Reader,
        context: FlatContext,
        kinds: Kinds,
        pcids: *mut u16,
        pcids_length: usize,
        table: *const u8,
        table_length: usize,
        fragment: *const u8,
        fragment_length: usize,
        new_table: *mut u8,
        new_length: usize,
    ) -> FlatTaken;

    pub fn skuldrefn_finish(
        reader: Reader,
        context: FlatContext,
        table: *const u8,
        table_length: usize,
    ) -> FlatFinished;

    pub fn skuldrefn_reset_reader(reader: Reader) -> Reader;

    pub fn skuldrefn_step_levels(
        context: FlatContext,
        event: *const u8,
        event_length: usize,
        kinds: Kinds,
        pcids: *mut u16,
        pcids_length: usize,
        table: *const u8,
        table_length: usize,
        new_table: *mut u8,
        new_length: usize,
        second_kinds: Kinds,
        second_pcids: *mut u16,
        second_pcids_length: usize,
        second_table: *const u8,
        second_table_length: usize,
        second_new: *mut u8,
        second_new_length: usize,
    ) -> FlatLevelStep;

    pub fn skuldrefn_lookup_levels(
        context: FlatContext,
        first: *const u8,
        first_length: usize,
        second: *const u8,
        second_length: usize,
        address: u64,
    ) -> LevelPart;

    pub fn skuldrefn_walk(
        context: FlatContext,
        image: *const u8,
        image_length: usize,
        root: u64,
        eptp: u64,
        vpid: u16,
        address: u64,
    ) -> FlatWalk;
}
