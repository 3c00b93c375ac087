//! The wrapper itself: document 01's example, flat contexts, claims, 57-bit
//! addresses, fixed rows, tallies, empty slices and null.

use skuldrefn::{raw, Address, Context, FlatContext, FlatReason, FlatStep, Kinds, Place, Reason};
use skuldrefn::{Converted, Tally, Widened, FIXED_ROW, PCIDS, TABLE_LIMIT};
use skuldrefn::{FlatJudgement, Judgement};
use skuldrefn::{PROGRAM_CAPABILITY, PROGRAM_LINEAR_WIDTH, PROGRAM_WIDTH};
use std::ptr::{null, null_mut};

const A: [u8; 17] = [
    0x01, 0x05, 0x00, 0x01, 0x00, 0x00, 0x00, 0x45, 0x23, 0x01, 0x00, 0x00, 0xDE, 0xBC, 0x0A, 0x00,
    0x00,
];
/// The same at 57 bits: kind 7, page 100000012345h.
const W: [u8; 18] = [
    0x07, 0x05, 0x00, 0x01, 0x00, 0x00, 0x00, 0x45, 0x23, 0x01, 0x00, 0x00, 0x10, 0xDE, 0xBC, 0x0A,
    0x00, 0x00,
];
const VMXON: [u8; 1] = [22];
const RESET: [u8; 1] = [25];

fn guest() -> Context {
    Context {
        pcid: 1,
        place: Place::Guest { vpid: 5, ept: None },
        ..Context::program()
    }
}

fn start() -> FlatContext {
    FlatContext::from(&Context::program())
}

fn refused(answer: u64, context: FlatContext) -> FlatStep {
    FlatStep {
        answer,
        rule: 0,
        context,
        length: 0,
        dropped: 0,
    }
}

#[test]
fn a_creation_and_a_reset() {
    let mut new = [0xA5; 40];
    let step = skuldrefn::plain_step(&guest(), &A, &A, &mut new);
    assert_eq!((step.answer, step.length, step.dropped), (0, 34, 0));
    assert_eq!(step.context, guest());
    assert_eq!(new[..34], [A, A].concat());
    assert_eq!(new[34..], [0xA5; 6]);
    let step = skuldrefn::plain_step(&guest(), &A, &RESET, &mut new);
    assert_eq!((step.answer, step.length, step.dropped), (0, 0, 1));
    assert_eq!(step.context, Context::program());
}

/// A goes, and a global mapping of the same PCID stays.
#[test]
fn invpcid_and_mov_to_cr3() {
    let mut global = A;
    global[5] = 1;
    let table = [A, global].concat();
    // INVPCID type 1, PCID 1.
    let invpcid = [&[26, 1], &[0; 7][..], &[1], &[0; 15]].concat();
    let mov_to_cr3 = |pcid| [27, pcid, 0];
    for event in [&invpcid[..], &mov_to_cr3(1)] {
        let mut new = [0xA5; 34];
        let step = skuldrefn::plain_step(&guest(), &table, event, &mut new);
        assert_eq!((step.answer, step.length, step.dropped), (0, 17, 1));
        assert_eq!(step.context, guest());
        assert_eq!(new[..17], global);
        let explain = |record| skuldrefn::explain(&guest(), record, event);
        assert_eq!(explain(&A), Reason::InScope);
        assert_eq!(explain(&global), Reason::SparedAsGlobal);
    }
    // Another PCID becomes current, and PCID 1's mappings stay.
    let mut new = [0xA5; 34];
    let step = skuldrefn::plain_step(&guest(), &table, &mov_to_cr3(2), &mut new);
    assert_eq!((step.answer, step.length, step.dropped), (0, 34, 0));
    assert_eq!(step.context, Context { pcid: 2, ..guest() });
    assert_eq!(new[..], table);
}

#[test]
fn contexts_there_and_back() {
    let guest_with_ept = Context {
        place: Place::Guest {
            vpid: 6,
            ept: Some(0x123_4567),
        },
        ..guest()
    };
    let root = Context {
        place: Place::Root,
        ..guest()
    };
    let wide = Context {
        linear_width: 57,
        ..guest_with_ept
    };
    for context in [Context::program(), root, guest(), guest_with_ept, wide] {
        assert_eq!(FlatContext::from(&context).context(), Some(context));
    }
}

#[test]
fn numbers_that_stand_for_nothing_are_answered_1() {
    let mut new = [0xA5; 40];
    for (place, ept) in [(3, 0), (2, 2), (1 << 32, 0), (u64::MAX, 1), (2, u64::MAX)] {
        let context = FlatContext {
            place,
            ept,
            vpid: 7,
            ep4ta: 8,
            ..start()
        };
        assert_eq!(context.context(), None);
        let step = skuldrefn::plain_step_flat(&context, &A, &RESET, &mut new);
        assert_eq!(step, refused(1, context));
        assert_eq!(new, [0xA5; 40]);
        let reason = skuldrefn::explain_flat(&context, &A, &RESET);
        assert_eq!((reason.reason, reason.answer, reason.rule), (1, 1, 0));
    }
}

#[test]
fn reasons() {
    let explain = |event: &[u8]| skuldrefn::explain(&guest(), &A, event);
    assert_eq!(explain(&RESET), Reason::InScope);
    assert_eq!(explain(&VMXON), Reason::refused(6));
    assert_eq!(explain(&A), Reason::NoScope);
    let invlpg = |address: u64| [&[18], &address.to_le_bytes()[..]].concat();
    assert_eq!(explain(&invlpg(0x1234_5678)), Reason::InScope);
    assert_eq!(explain(&invlpg(0x1234_6000)), Reason::NotCovering);
    assert_eq!(explain(&invlpg(1 << 47)), Reason::NotCanonical);
    let elsewhere = skuldrefn::explain(&Context::program(), &A, &invlpg(0x1234_5678));
    assert_eq!(elsewhere, Reason::WrongVpid);
}

#[test]
fn reasons_there_and_back() {
    for number in 0..20 {
        for answer in 0..20 {
            for rule in 0..8 {
                let flat = FlatReason {
                    reason: number,
                    answer,
                    rule,
                };
                let ruled = answer == 8 || answer == 10;
                let stands = match number {
                    1 => answer > 0 && (rule == 0 || rule <= 5 && ruled),
                    2..=10 => answer == 0 && rule == 0,
                    _ => false,
                };
                let reason = flat.reason();
                assert_eq!(reason.is_some(), stands, "{flat:?}");
                assert!(reason.is_none_or(|own| FlatReason::from(own) == flat));
            }
        }
    }
}

/// The rule is handed on: an EPTP with bit 7, and one whose type is bad too.
#[test]
fn rules() {
    let root = Context {
        place: Place::Root,
        ..Context::program()
    };
    for (eptp, rule) in [
        (0x12_3456_701E_u64, 0),
        (0x12_3456_709E, 4),
        (0x12_3456_709F, 1),
    ] {
        // INVEPT type 1; VM entry with VPID 5 and EPT.
        let invept = [&[17, 1], &[0; 7][..], &eptp.to_le_bytes(), &[0; 8]].concat();
        let entry = [&[20, 1, 5, 0, 1], &eptp.to_le_bytes()[..], &[0; 3]].concat();
        for (event, refusal, accepted) in
            [(invept, 8, Reason::WrongKind), (entry, 10, Reason::NoScope)]
        {
            let answer = if rule == 0 { 0 } else { refusal };
            let step = skuldrefn::plain_step(&root, &[], &event, &mut []);
            assert_eq!((step.answer, step.rule), (answer, rule));
            let due = match rule {
                0 => accepted,
                _ => Reason::Refused { answer, rule },
            };
            assert_eq!(skuldrefn::explain(&root, &A, &event), due);
        }
    }
}

/// A creation, of which a claim may have the record or not, and a reset, which
/// leaves nothing.
#[test]
fn claims() {
    let mut other = A;
    other[7] = 0x46;
    let (both, swapped) = ([A, other].concat(), [other, A].concat());
    let unmatched = |position| Judgement::Unmatched { position };
    let refused = |answer| Judgement::Refused { answer, rule: 0 };
    let judge = |event: &[u8], claim: &[u8]| skuldrefn::judge(&guest(), &A, event, claim);
    for (claim, due) in [
        (&both[..], Judgement::Accepted),
        (&A, Judgement::Accepted),
        (&other, Judgement::Accepted),
        (&[], Judgement::Accepted),
        (&swapped, unmatched(17)),
        (&[A, A].concat(), unmatched(17)),
        (&[both.clone(), A.to_vec()].concat(), unmatched(34)),
        (&both[..33], Judgement::Malformed),
        (&W, Judgement::Malformed),
        (&A.repeat(2_771), Judgement::Malformed),
    ] {
        assert_eq!(judge(&other, claim), due, "{claim:x?}");
    }
    assert_eq!(judge(&RESET, &[]), Judgement::Accepted);
    assert_eq!(judge(&RESET, &A), unmatched(0));
    // Where the event is refused, nothing is said of the claim.
    for claim in [&A[..], &[], &[0]] {
        assert_eq!(judge(&VMXON, claim), refused(6));
        assert_eq!(judge(&[], claim), refused(4));
        let before = |table: &[u8]| skuldrefn::judge(&guest(), table, &RESET, claim);
        assert_eq!(before(&A[..16]), refused(3));
        assert_eq!(before(&A.repeat(2_771)), refused(2));
        // 2,770 records have 47,090 bytes: there is no room for another.
        let full = skuldrefn::judge(&guest(), &A.repeat(2_770), &A, claim);
        assert_eq!(full, refused(12));
    }
    // The rule of an EPTP with bit 7.
    let root = Context {
        place: Place::Root,
        ..Context::program()
    };
    let eptp = 0x12_3456_709E_u64.to_le_bytes();
    let entry = [&[20, 1, 5, 0, 1], &eptp[..], &[0; 3]].concat();
    let due = Judgement::Refused {
        answer: 10,
        rule: 4,
    };
    assert_eq!(skuldrefn::judge(&root, &[], &entry, &[]), due);
    // At 57 bits.
    let wide = Context {
        linear_width: 57,
        ..guest()
    };
    let judge = |claim: &[u8]| skuldrefn::judge(&wide, &W, &W, claim);
    assert_eq!(judge(&[W, W].concat()), Judgement::Accepted);
    assert_eq!(judge(&[W, W, W].concat()), unmatched(36));
    assert_eq!(judge(&A), Judgement::Malformed);
}

#[test]
fn claims_as_numbers() {
    let numbers = |number, answer, rule, position| FlatJudgement {
        number,
        answer,
        rule,
        position,
    };
    for (flat, due) in [
        (numbers(0, 0, 0, 0), Some(Judgement::Accepted)),
        (
            numbers(1, 10, 4, 0),
            Some(Judgement::Refused {
                answer: 10,
                rule: 4,
            }),
        ),
        (numbers(2, 0, 0, 0), Some(Judgement::Malformed)),
        (
            numbers(3, 0, 0, 17),
            Some(Judgement::Unmatched { position: 17 }),
        ),
        // These stand for nothing.
        (numbers(0, 0, 0, 1), None),
        (numbers(0, 1, 0, 0), None),
        (numbers(1, 4, 0, 1), None),
        (numbers(2, 0, 0, 17), None),
        (numbers(3, 0, 1, 17), None),
        (numbers(4, 0, 0, 0), None),
        (numbers(1 << 32, 0, 0, 0), None),
    ] {
        assert_eq!(flat.judgement(), due, "{flat:?}");
    }
    let odd = FlatContext {
        place: 3,
        ..start()
    };
    let judged = skuldrefn::judge_flat(&odd, &A, &RESET, &[]);
    assert_eq!(judged, numbers(1, 1, 0, 0));
    // SAFETY: null goes with length 0, which the header allows.
    unsafe {
        let reset = RESET.as_ptr();
        let judged = raw::skuldrefn_judge(start(), null(), 0, reset, 1, null(), 0);
        assert_eq!(judged, numbers(0, 0, 0, 0));
        let judged = raw::skuldrefn_judge(start(), null(), 0, null(), 0, null(), 0);
        assert_eq!(judged, numbers(1, 4, 0, 0));
        let judged = raw::skuldrefn_judge(start(), null(), 0, reset, 1, A.as_ptr(), 17);
        assert_eq!(judged, numbers(3, 0, 0, 0));
    }
}

#[test]
fn empty_slices() {
    let step = skuldrefn::plain_step_flat(&start(), &[], &RESET, &mut []);
    let accepted = FlatStep {
        answer: 0,
        ..refused(0, start())
    };
    assert_eq!(step, accepted);
    let step = skuldrefn::plain_step_flat(&start(), &[], &[], &mut []);
    assert_eq!(step, refused(4, start()));
    let step = skuldrefn::plain_step_flat(&start(), &A, &VMXON, &mut []);
    assert_eq!(step, refused(12, start()));
    let explain = |record, event| skuldrefn::explain(&Context::program(), record, event);
    assert_eq!(explain(&[], &RESET), Reason::refused(3));
    assert_eq!(explain(&A, &[]), Reason::refused(4));
    assert_eq!(explain(&[], &[]), Reason::refused(3));
}

#[test]
fn null_with_length_0() {
    let mut new = [0xA5; 1];
    // SAFETY: null goes with length 0, which the header allows.
    let (without_buffers, without_event, without_new) = unsafe {
        (
            raw::skuldrefn_plain_step(start(), null(), 0, RESET.as_ptr(), 1, null_mut(), 0),
            raw::skuldrefn_plain_step(start(), null(), 0, null(), 0, new.as_mut_ptr(), 1),
            raw::skuldrefn_plain_step(start(), A.as_ptr(), 17, VMXON.as_ptr(), 1, null_mut(), 0),
        )
    };
    assert_eq!(without_buffers, refused(0, start()));
    assert_eq!(without_event, refused(4, start()));
    assert_eq!(without_new, refused(12, start()));
    assert_eq!(new, [0xA5]);
}

#[test]
fn null_with_length_0_elsewhere() {
    // SAFETY: as above.
    unsafe {
        for (reason, answer) in [
            (
                raw::skuldrefn_explain(start(), null(), 0, RESET.as_ptr(), 1),
                3,
            ),
            (
                raw::skuldrefn_explain(start(), A.as_ptr(), 17, null(), 0),
                4,
            ),
            (raw::skuldrefn_explain(start(), null(), 0, null(), 0), 3),
        ] {
            assert_eq!((reason.reason, reason.answer, reason.rule), (1, answer, 0));
        }
        for part in [
            raw::skuldrefn_lookup_linear(start(), null(), 0, 0, 0),
            raw::skuldrefn_lookup_guest_physical(start(), null(), 0, 0, 0),
        ] {
            assert_eq!((part.answer, part.start, part.length), (0, 0, 0));
        }
        let end = raw::skuldrefn_replay(
            PROGRAM_CAPABILITY,
            PROGRAM_WIDTH,
            PROGRAM_LINEAR_WIDTH,
            null(),
            0,
            null_mut(),
            0,
            null_mut(),
            0,
            null_mut(),
            0,
        );
        assert_eq!(end.context, start());
        assert_eq!((end.length, end.count), (0, 0));
    }
}

#[test]
fn the_events_of_a_log() {
    let exit = [21, 1, 0];
    let log = [&VMXON[..], &exit, &A, &RESET].concat();
    let events: Vec<&[u8]> = skuldrefn::events(48, &log).collect();
    assert_eq!(events, [&VMXON[..], &exit, &A, &RESET]);
    // A cut record and an unknown kind take all that is left.
    let cut: Vec<&[u8]> = skuldrefn::events(48, &log[..20]).collect();
    assert_eq!(cut, [&VMXON[..], &exit, &A[..16]]);
    let unknown: Vec<&[u8]> = skuldrefn::events(48, &[22, 0, 22, 22]).collect();
    assert_eq!(unknown, [&[22][..], &[0, 22, 22]]);
    assert_eq!(skuldrefn::events(48, &[]).count(), 0);
    // At 57 bits kind 1 is unknown, and kind 7 is not.
    let log = [&VMXON[..], &W, &A].concat();
    let wide: Vec<&[u8]> = skuldrefn::events(57, &log).collect();
    assert_eq!(wide, [&VMXON[..], &W, &A]);
    let narrow: Vec<&[u8]> = skuldrefn::events(48, &log).collect();
    assert_eq!(narrow, [&VMXON[..], &log[1..]]);
}

#[test]
fn the_length_of_an_event() {
    for width in [48, 57, 0] {
        assert_eq!(skuldrefn::event_length(width, &[]), 0);
        assert_eq!(skuldrefn::event_length(width, &[0, 1, 2]), 0);
        assert_eq!(skuldrefn::event_length(width, &[22, 0]), 1);
        // SAFETY: null goes with length 0, which the header allows.
        let length = unsafe { raw::skuldrefn_event_length(width, null(), 0) };
        assert_eq!(length, 0);
    }
    assert_eq!(skuldrefn::event_length(48, &A), 17);
    // What the kind says, though the record is cut.
    assert_eq!(skuldrefn::event_length(48, &A[..1]), 17);
    assert_eq!(skuldrefn::event_length(57, &W[..1]), 18);
    // Of the other width.
    assert_eq!(skuldrefn::event_length(57, &A), 0);
    assert_eq!(skuldrefn::event_length(48, &W), 0);
    assert_eq!(skuldrefn::event_length(56, &A), 17);
}

#[test]
fn a_replay() {
    let replay = |width, log: &[u8]| {
        let replay = skuldrefn::replay(PROGRAM_CAPABILITY, PROGRAM_WIDTH, width, log);
        let answers: Vec<u64> = replay.lines.iter().map(|line| line.answer).collect();
        (replay, answers)
    };
    let (end, answers) = replay(48, &[&VMXON[..], &[21, 0, 0], &[9, 9]].concat());
    assert_eq!(answers, [0, 9, 4]);
    assert_eq!((end.context.place, end.table.len()), (Place::Root, 0));
    // At 57 bits, with VPID 0 and PCID 0.
    let mut own = W;
    own[1..5].fill(0);
    let (end, answers) = replay(57, &[&own[..], &VMXON, &A, &VMXON].concat());
    assert_eq!((answers, end.table), (vec![0, 0, 4], own.to_vec()));
    assert_eq!(end.context.linear_width, 57);
    let (end, answers) = replay(56, &[&A[..], &VMXON, &W, &VMXON].concat());
    assert_eq!((answers, end.table.len()), (vec![1, 1, 1], 0));
}

/// A record of the other width is 3 in a table and 4 as an event.
#[test]
fn the_linear_width() {
    let at = |linear_width| Context {
        linear_width,
        ..guest()
    };
    let mut new = [0xA5; 40];
    for (width, event, answer) in [
        (48, &A[..], 0),
        (48, &W, 4),
        (57, &W, 0),
        (57, &A, 4),
        (56, &A, 1),
    ] {
        let step = skuldrefn::plain_step(&at(width), &[], event, &mut new);
        assert_eq!(step.answer, answer);
        assert_eq!(step.context, at(width));
    }
    let step =
        |width, table: &[u8]| skuldrefn::plain_step(&at(width), table, &RESET, &mut [0; 40]).answer;
    assert_eq!(
        [step(48, &A), step(48, &W), step(57, &W), step(57, &A)],
        [0, 3, 0, 3]
    );
    // An address that is canonical at 57 bits alone.
    let address = Address::Linear(0xFF00_0000_1234_5678);
    assert_eq!(skuldrefn::lookup(&at(57), &W, address, 0), (0, Some(0..18)));
    assert_eq!(skuldrefn::lookup(&at(48), &A, address, 0), (0, None));
    let invlpg = [&[18], &0xFF00_0000_1234_5678_u64.to_le_bytes()[..]].concat();
    let explain = |width, record: &[u8]| skuldrefn::explain(&at(width), record, &invlpg);
    assert_eq!(explain(57, &W), Reason::InScope);
    assert_eq!(explain(48, &A), Reason::NotCanonical);
    assert_eq!(explain(48, &W), Reason::refused(3));
}

#[test]
fn the_converter() {
    let refused = |answer| Widened { answer, length: 0 };
    let mut new = [0xA5; 40];
    let widened = skuldrefn::widen(&A, &mut new);
    assert_eq!((widened.answer, widened.length), (0, 18));
    // Kind 7, and a sixth byte of the page.
    assert_eq!(new[..18], [&[7], &A[1..12], &[0], &A[12..]].concat());
    assert_eq!(new[18..], [0xA5; 22]);
    let mut new = [0xA5; 17];
    assert_eq!(skuldrefn::widen(&A, &mut new), refused(12));
    assert_eq!(skuldrefn::widen(&W, &mut new), refused(3));
    assert_eq!(skuldrefn::widen(&A[..16], &mut new), refused(3));
    let long = vec![0; TABLE_LIMIT + 1];
    assert_eq!(skuldrefn::widen(&long, &mut new), refused(2));
    assert_eq!(new, [0xA5; 17]);
    assert_eq!(skuldrefn::widen(&[], &mut []), refused(0));
    // SAFETY: null goes with length 0, which the header allows.
    unsafe {
        let empty = raw::skuldrefn_widen(null(), 0, null_mut(), 0);
        assert_eq!(empty, refused(0));
        let no_room = raw::skuldrefn_widen(A.as_ptr(), 17, null_mut(), 0);
        assert_eq!(no_room, refused(12));
    }
}

/// A and W as fixed rows.
const ROWS: [[u8; 32]; 2] = [
    [
        1, 0, 0, 0, 5, 0, 1, 0, 0x45, 0x23, 0x01, 0, 0, 0, 0, 0, 0xDE, 0xBC, 0x0A, 0, 0, 0, 0, 0,
        0, 0, 0, 0, 0, 0, 0, 0,
    ],
    [
        7, 0, 0, 0, 5, 0, 1, 0, 0x45, 0x23, 0x01, 0, 0, 0x10, 0, 0, 0xDE, 0xBC, 0x0A, 0, 0, 0, 0,
        0, 0, 0, 0, 0, 0, 0, 0, 0,
    ],
];

#[test]
fn fixed_rows() {
    let [a, w] = ROWS;
    for (width, record, row) in [(48, &A[..], a), (57, &W, w)] {
        let table = record.repeat(2);
        let mut rows = [0xA5; 70];
        let exported = skuldrefn::export_rows(width, &table, &mut rows);
        let due = Converted {
            answer: 0,
            row: 0,
            length: 2 * FIXED_ROW,
        };
        assert_eq!(exported, due);
        assert_eq!(rows[..64], row.repeat(2));
        assert_eq!(rows[64..], [0xA5; 6]);
        let mut again = [0xA5; 40];
        let imported = skuldrefn::import_rows(width, &rows[..64], &mut again);
        let length = table.len();
        assert_eq!(imported, Converted { length, ..due });
        assert_eq!(again[..length], table);
        assert!(again[length..].iter().all(|byte| *byte == 0xA5));
    }
}

/// Each refusal, in its order; nothing is written.
#[test]
fn fixed_rows_that_are_refused() {
    let [a, w] = ROWS;
    let refused = |answer, row| Converted {
        answer,
        row,
        length: 0,
    };
    let mut out = [0xA5; 33];
    let long = vec![0; TABLE_LIMIT + 1];
    for (width, table, answer) in [
        (0, &long[..], 1),
        (56, &A, 1),
        (48, &long, 2),
        (48, &W, 3),
        (57, &A, 3),
        (48, &A[..16], 3),
        (48, &A.repeat(2), 12),
    ] {
        let exported = skuldrefn::export_rows(width, table, &mut out);
        assert_eq!(exported, refused(answer, 0));
    }
    let mut set = a;
    set[31] = 1;
    for (width, rows, answer, row) in [
        (49, a[..31].to_vec(), 1, 0),
        (48, a[..31].to_vec(), 4, 0),
        (48, [a, set, w].concat(), 4, 2),
        (48, [a, a, w].concat(), 4, 3),
        (57, a.to_vec(), 4, 1),
        (48, [a, a].concat(), 12, 0),
    ] {
        let imported = skuldrefn::import_rows(width, &rows, &mut out);
        assert_eq!(imported, refused(answer, row));
    }
    assert_eq!(out, [0xA5; 33]);
    assert_eq!(skuldrefn::export_rows(48, &[], &mut []), refused(0, 0));
    assert_eq!(skuldrefn::import_rows(57, &[], &mut []), refused(0, 0));
    // SAFETY: null goes with length 0, which the header allows.
    unsafe {
        let empty = raw::skuldrefn_export(48, null(), 0, null_mut(), 0);
        assert_eq!(empty, refused(0, 0));
        let no_room = raw::skuldrefn_export(48, A.as_ptr(), 17, null_mut(), 0);
        assert_eq!(no_room, refused(12, 0));
        let empty = raw::skuldrefn_import(57, null(), 0, null_mut(), 0);
        assert_eq!(empty, refused(0, 0));
        let no_room = raw::skuldrefn_import(48, a.as_ptr(), 32, null_mut(), 0);
        assert_eq!(no_room, refused(12, 0));
    }
}

/// A valid record of a kind: page and frame are 0, and the VPID is 5 where it
/// has one.
fn record(kind: u8, pcid: u16, global: u8, span: u8) -> Vec<u8> {
    let [low, high] = pcid.to_le_bytes();
    let tags = match kind {
        2 | 5 => vec![0; 5],
        1 | 3 | 7 | 8 => vec![5, 0, low, high, global],
        _ => vec![5, 0, low, high],
    };
    let rest = match kind {
        1 | 2 | 4 | 5 => 10,
        7 | 9 => 11,
        3 | 6 => 15,
        _ => 16,
    };
    [&[kind], &tags[..], &[span], &vec![0; rest]].concat()
}

/// A tally of counts by row, span and count, and by PCID and count; the others
/// are 0.
fn tally(cells: &[(usize, usize, u16)], pcids: &[(usize, u16)]) -> Tally {
    let mut tally = Tally::new();
    for (row, span, count) in cells {
        tally.kinds.rows[*row].spans[*span] = *count;
    }
    for (pcid, count) in pcids {
        tally.pcids[*pcid] = *count;
    }
    tally
}

/// Each kind in its row, by each span that it may have.
#[test]
fn the_count_of_one_record() {
    for (width, kind, row, spans) in [
        (48, 1, 0, 0..=2),
        (48, 2, 1, 0..=2),
        (48, 3, 2, 0..=2),
        (48, 4, 3, 1..=3),
        (48, 5, 4, 1..=3),
        (48, 6, 5, 1..=3),
        (57, 7, 0, 0..=2),
        (57, 2, 1, 0..=2),
        (57, 8, 2, 0..=2),
        (57, 9, 3, 1..=4),
        (57, 5, 4, 1..=3),
        (57, 10, 5, 1..=4),
    ] {
        for span in spans {
            let cells = [(row, usize::from(span), 1)];
            for (pcid, global) in [(0, 0), (7, 0), (7, 1), (4_095, 1)] {
                let due = match kind {
                    2 | 5 => tally(&cells, &[]),
                    _ => tally(&cells, &[(usize::from(pcid), 1)]),
                };
                let table = record(kind, pcid, global, span);
                assert_eq!(skuldrefn::count(width, &table), Ok(due), "{table:?}");
            }
        }
    }
}

#[test]
fn the_count_of_a_table() {
    assert_eq!(skuldrefn::count(48, &[]), Ok(Tally::new()));
    let table = [
        record(1, 1, 0, 0),
        record(1, 2, 1, 0),
        record(1, 1, 0, 2),
        record(2, 0, 0, 1),
        record(4, 1, 0, 3),
        record(5, 0, 0, 1),
        record(6, 4_095, 0, 1),
        record(1, 1, 0, 0),
    ];
    let due = tally(
        &[
            (0, 0, 3),
            (0, 2, 1),
            (1, 1, 1),
            (3, 3, 1),
            (4, 1, 1),
            (5, 1, 1),
        ],
        &[(1, 4), (2, 1), (4_095, 1)],
    );
    assert_eq!(skuldrefn::count(48, &table.concat()), Ok(due.clone()));
    // At 57 bits it has the same counts.
    let mut wide = [0; 200];
    let widened = skuldrefn::widen(&table.concat(), &mut wide);
    assert_eq!(skuldrefn::count(57, &wide[..widened.length]), Ok(due));
    // 2,944 records of 16 bytes are 47,104: no table has more.
    let full = record(4, 3, 0, 1).repeat(2_944);
    let due = tally(&[(3, 1, 2_944)], &[(3, 2_944)]);
    assert_eq!(skuldrefn::count(48, &full), Ok(due));
}

#[test]
fn a_table_that_is_not_counted() {
    for (width, table, answer) in [
        (48, vec![0; TABLE_LIMIT + 1], 2),
        (57, A.repeat(2_771), 2),
        (48, A[..16].to_vec(), 3),
        (48, VMXON.to_vec(), 3),
        (48, W.to_vec(), 3),
        (57, A.to_vec(), 3),
        (56, W.to_vec(), 3),
    ] {
        assert_eq!(skuldrefn::count(width, &table), Err(answer));
        // Nothing is written.
        let mut pcids = vec![0xA5A5; PCIDS];
        let (start, length) = (table.as_ptr(), table.len());
        // SAFETY: each pointer is good for its length.
        let counted =
            unsafe { raw::skuldrefn_count(width, start, length, pcids.as_mut_ptr(), PCIDS) };
        assert_eq!((counted.answer, counted.kinds), (answer, Kinds::default()));
        assert_eq!(pcids, [0xA5A5; PCIDS]);
    }
    // Any linear width but 57 is read as 48.
    assert_eq!(skuldrefn::count(56, &A), skuldrefn::count(48, &A));
}

/// A count has room for 4,096 PCIDs, no fewer and no more. The table is judged
/// first.
#[test]
fn the_room_of_a_count() {
    let mut pcids = vec![0xA5A5; PCIDS + 1];
    for length in [0, 1, PCIDS - 1, PCIDS + 1] {
        for (table, answer) in [(&A[..], 13), (&[], 13), (&A[..16], 3)] {
            // SAFETY: each pointer is good for its length.
            let counted = unsafe {
                raw::skuldrefn_count(48, table.as_ptr(), table.len(), pcids.as_mut_ptr(), length)
            };
            assert_eq!((counted.answer, counted.kinds), (answer, Kinds::default()));
        }
    }
    assert_eq!(pcids, [0xA5A5; PCIDS + 1]);
    // SAFETY: as above; null goes with length 0, which the header allows.
    let (without_pcids, without_table) = unsafe {
        (
            raw::skuldrefn_count(48, null(), 0, null_mut(), 0),
            raw::skuldrefn_count(48, null(), 0, pcids.as_mut_ptr(), PCIDS),
        )
    };
    assert_eq!(without_pcids.answer, 13);
    assert_eq!(without_table.answer, 0);
    assert_eq!(pcids[..PCIDS], [0; PCIDS]);
    assert_eq!(pcids[PCIDS], 0xA5A5);
}

/// What is created is added, and what is dropped is taken off.
#[test]
fn a_tally_from_step_to_step() {
    let mut own = Tally::new();
    assert_eq!(own, Tally::default());
    let mut tables = [vec![0; 100], vec![0; 100]];
    let mut length = 0;
    let [old, new] = &mut tables;
    let mut global = A;
    global[5] = 1;
    let structure = record(4, 1, 0, 2);
    // INVLPG of A's page takes it, global or not, and the structure cache.
    let invlpg = [&[18], &0x1234_5000_u64.to_le_bytes()[..]].concat();
    // INVVPID is refused in a guest.
    let invvpid = [&[16, 1], &[0; 7][..], &[5], &[0; 15]].concat();
    for (event, answer, dropped, cells, pcid_1) in [
        (&A[..], 0, 0, &[(0, 0, 1)][..], 1),
        (&A[..], 0, 0, &[(0, 0, 2)], 2),
        (&structure, 0, 0, &[(0, 0, 2), (3, 2, 1)], 3),
        (&invvpid, 6, 0, &[(0, 0, 2), (3, 2, 1)], 3),
        (&global, 0, 0, &[(0, 0, 3), (3, 2, 1)], 4),
        // MOV to CR3 with PCID 1 takes all that is not global.
        (&[27, 1, 0], 0, 3, &[(0, 0, 1)], 1),
        (&structure, 0, 0, &[(0, 0, 1), (3, 2, 1)], 2),
        (&invlpg, 0, 2, &[], 0),
        (&A[..], 0, 0, &[(0, 0, 1)], 1),
        (&RESET, 0, 1, &[], 0),
    ] {
        let step = skuldrefn::step(&guest(), &mut own, &old[..length], event, new);
        assert_eq!((step.answer, step.dropped), (answer, dropped), "{event:?}");
        assert_eq!(own, tally(cells, &[(1, pcid_1)]), "{event:?}");
        if answer == 0 {
            length = step.length;
            std::mem::swap(old, new);
        }
    }
}

/// Each count has a number of its own: ten times its row, and its span.
#[test]
fn the_counts_of_a_tally() {
    let mut own = Tally::new();
    assert_eq!(own.records(), 0);
    for row in 0..6 {
        for span in 0..5 {
            let count = 10 * (row + 1) + span;
            own.kinds.rows[usize::from(row)].spans[usize::from(span)] = count;
        }
    }
    // The rows have 60, 110, 160, 210, 260 and 310. PCIDs are not added.
    own.pcids[7] = 1;
    assert_eq!(own.records(), 1_110);
    for (kind, counts) in [
        (1, [10, 11, 12, 13, 14]),
        (2, [20, 21, 22, 23, 24]),
        (3, [30, 31, 32, 33, 34]),
        (4, [40, 41, 42, 43, 44]),
        (5, [50, 51, 52, 53, 54]),
        (6, [60, 61, 62, 63, 64]),
        (7, [10, 11, 12, 13, 14]),
        (8, [30, 31, 32, 33, 34]),
        (9, [40, 41, 42, 43, 44]),
        (10, [60, 61, 62, 63, 64]),
    ] {
        for (span, count) in (0..).zip(counts) {
            assert_eq!(own.count_of(kind, span), Some(count), "{kind} {span}");
        }
        for span in 5..=u8::MAX {
            assert_eq!(own.count_of(kind, span), None, "{kind} {span}");
        }
    }
    for kind in (0..=0).chain(11..=u8::MAX) {
        for span in 0..=u8::MAX {
            assert_eq!(own.count_of(kind, span), None, "{kind} {span}");
        }
    }
    // The largest counts are no overflow.
    for row in &mut own.kinds.rows {
        row.spans = [u16::MAX; 5];
    }
    assert_eq!(own.records(), 1_966_050);
}

/// At 57 bits, in the rows of kinds 1 and 4, with span 4.
#[test]
fn a_tally_at_57_bits() {
    let wide = Context {
        linear_width: 57,
        ..guest()
    };
    let structure = record(9, 1, 0, 4);
    let table = [&W[..], &structure].concat();
    let mut own = skuldrefn::count(57, &table).expect("a valid table");
    assert_eq!(own, tally(&[(0, 0, 1), (3, 4, 1)], &[(1, 2)]));
    let mut new = vec![0; 100];
    let step = skuldrefn::step(&wide, &mut own, &table, &structure, &mut new);
    assert_eq!((step.answer, step.length), (0, 52));
    assert_eq!(own, tally(&[(0, 0, 1), (3, 4, 2)], &[(1, 3)]));
}

/// Every count is compared, those that no record has among them; and the
/// number of PCIDs.
#[test]
fn a_tally_that_does_not_match() {
    let right = tally(&[(0, 0, 1)], &[(1, 1)]);
    let mut wrong = Vec::new();
    for row in 0..6 {
        for span in 0..5 {
            let cell = right.kinds.rows[row].spans[span];
            for count in [cell ^ 1, cell + 2, cell + 256, u16::MAX] {
                let mut tally = right.clone();
                tally.kinds.rows[row].spans[span] = count;
                wrong.push(tally);
            }
        }
    }
    for pcid in [0, 1, 2, 5, 4_095] {
        for count in [right.pcids[pcid] ^ 1, right.pcids[pcid] + 256, u16::MAX] {
            let mut tally = right.clone();
            tally.pcids[pcid] = count;
            wrong.push(tally);
        }
    }
    for length in [0, 1, 2, PCIDS - 1, PCIDS + 1] {
        let mut tally = right.clone();
        tally.pcids.resize(length, 0);
        wrong.push(tally);
    }
    wrong.push(Tally::new());
    assert_eq!(wrong.len(), 6 * 5 * 4 + 5 * 3 + 5 + 1);
    for came in wrong {
        let mut own = came.clone();
        let mut new = [0xA5; 40];
        let context = FlatContext::from(&guest());
        let step = skuldrefn::step_flat(&context, &mut own, &A, &RESET, &mut new);
        assert_eq!(step, refused(13, context));
        assert!(own == came && new == [0xA5; 40]);
    }
    let mut own = right;
    let step = skuldrefn::step(&guest(), &mut own, &A, &RESET, &mut [0; 40]);
    assert_eq!((step.answer, own), (0, Tally::new()));
}

/// 13 goes after 4 and before 5. With any refusal the tally stays, right or
/// wrong.
#[test]
fn the_place_of_13() {
    let root = Context {
        place: Place::Root,
        ..Context::program()
    };
    let user = Context { cpl: 3, ..guest() };
    let outside = Context::program();
    let narrow = Context {
        width: 35,
        ..outside
    };
    let long = A.repeat(2_771);
    let invvpid_4 = [&[16, 4], &[0; 23][..]].concat();
    let invlpg = [18, 0, 0, 0, 0, 0, 0, 0, 0];
    // VPIDs are enabled, with VPID 0.
    let entry = [&[20, 1], &[0; 14][..]].concat();
    for (context, table, event, room, answer) in [
        (narrow, &long[..], &[][..], 0, 1),
        (outside, &long, &[], 0, 2),
        (outside, &A[..16], &[], 0, 3),
        (outside, &A, &[], 0, 4),
        (outside, &A, &invvpid_4, 0, 5),
        (guest(), &A, &VMXON, 0, 6),
        (user, &A, &invlpg, 0, 7),
        (root, &A, &invvpid_4, 0, 8),
        (root, &A, &VMXON, 0, 9),
        (root, &A, &entry, 0, 10),
        (root, &A, &A, 0, 11),
        (guest(), &A, &A, 33, 12),
        (guest(), &A, &A, 34, 0),
    ] {
        let right = tally(&[(0, 0, 1)], &[(1, 1)]);
        let mut short = right.clone();
        short.pcids.truncate(4_095);
        let unmatched = match answer {
            1..=4 => answer,
            _ => 13,
        };
        for (came, answer) in [
            (right, answer),
            (tally(&[(0, 0, 2)], &[(1, 1)]), unmatched),
            (short, unmatched),
        ] {
            let mut own = came.clone();
            let mut new = vec![0xA5; room];
            let step = skuldrefn::step(&context, &mut own, table, event, &mut new);
            assert_eq!(step.answer, answer, "{context:?} {event:?}");
            if answer == 0 {
                assert_eq!(own, tally(&[(0, 0, 2)], &[(1, 2)]));
                continue;
            }
            assert_eq!((step.length, step.dropped, step.rule), (0, 0, 0));
            assert_eq!(step.context, context);
            assert!(own == came && new == vec![0xA5; room]);
        }
    }
}

/// Where 13 goes before a bad EPTP, there is no rule.
#[test]
fn a_rule_and_13() {
    let root = Context {
        place: Place::Root,
        ..Context::program()
    };
    // VPID 5, and an EPTP with bit 7.
    let eptp = 0x12_3456_709E_u64;
    let entry = [&[20, 1, 5, 0, 1], &eptp.to_le_bytes()[..], &[0; 3]].concat();
    for (mut own, due) in [
        (Tally::new(), (10, 4)),
        (tally(&[], &[(4_095, 1)]), (13, 0)),
    ] {
        let step = skuldrefn::step(&root, &mut own, &[], &entry, &mut []);
        assert_eq!((step.answer, step.rule), due);
    }
}

#[test]
fn null_with_length_0_and_a_tally() {
    let none = Kinds::default();
    let mut pcids = vec![0; PCIDS];
    let counts = pcids.as_mut_ptr();
    let (reset, one) = (RESET.as_ptr(), RESET.len());
    // SAFETY: null goes with length 0, which the header allows; the other
    // pointers are good for their lengths.
    unsafe {
        let step = raw::skuldrefn_step(
            start(),
            none,
            counts,
            PCIDS,
            null(),
            0,
            reset,
            one,
            null_mut(),
            0,
        );
        assert_eq!((step.answer, step.context, step.kinds), (0, start(), none));
        let step = raw::skuldrefn_step(
            start(),
            none,
            null_mut(),
            0,
            null(),
            0,
            reset,
            one,
            null_mut(),
            0,
        );
        assert_eq!((step.answer, step.context, step.kinds), (13, start(), none));
        let step = raw::skuldrefn_step(
            start(),
            none,
            null_mut(),
            0,
            null(),
            0,
            null(),
            0,
            null_mut(),
            0,
        );
        assert_eq!((step.answer, step.context, step.kinds), (4, start(), none));
    }
    assert_eq!(pcids, [0; PCIDS]);
}
