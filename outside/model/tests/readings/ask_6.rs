//! Document 02, Ask 6: which rule of the EPTP broke.

use crate::common::*;
use model::book::Book;
use model::judge::failed_rule;
use model::{explain, print, replay, Context, Reason};

/// Answer and rule of a step on an empty table.
fn ask(context: &Context, event: &[u8]) -> (u64, u64) {
    let step = run_into(context, &[], event, 0).0;
    (step.answer, step.rule)
}

/// A VM entry with VPID 5 and this EPTP.
fn enter(eptp: u64) -> Vec<u8> {
    entry(1, 5, 1, eptp, 0, 0)
}

/// The rule by INVEPT type 1 and by VM entry, with VPIDs and without, which
/// must agree.
fn rule(context: &Context, eptp: u64) -> u64 {
    let (answer, rule) = ask(context, &invept(1, eptp, 0));
    assert_eq!(answer, if rule == 0 { 0 } else { 8 });
    let refused = if rule == 0 { 0 } else { 10 };
    assert_eq!(ask(context, &enter(eptp)), (refused, rule));
    let without = entry(0, 0, 1, eptp, 0, 0);
    assert_eq!(ask(context, &without), (refused, rule));
    assert_eq!(failed_rule(context, eptp), rule);
    rule
}

// Each rule alone

#[test]
fn r13_2_rule_1_memory_type() {
    for kind in 0..8 {
        let eptp = EPTP & !7 | kind;
        let good = kind == 0 || kind == 6;
        assert_eq!(rule(&root(), eptp), if good { 0 } else { 1 });
        let without_0 = if kind == 6 { 0 } else { 1 };
        assert_eq!(rule(&without(root(), 8), eptp), without_0);
        let without_6 = if kind == 0 { 0 } else { 1 };
        assert_eq!(rule(&without(root(), 14), eptp), without_6);
    }
}

#[test]
fn r13_2_rule_2_walk_length() {
    for length in 0..8 {
        let eptp = EPTP & !0x38 | length << 3;
        assert_eq!(rule(&root(), eptp), if length == 3 { 0 } else { 2 });
        assert_eq!(rule(&without(root(), 6), eptp), 2);
    }
}

#[test]
fn r13_2_rule_3_accessed_and_dirty() {
    assert_eq!(rule(&root(), EPTP | 0x40), 0);
    assert_eq!(rule(&without(root(), 21), EPTP | 0x40), 3);
    assert_eq!(rule(&without(root(), 21), EPTP), 0);
}

#[test]
fn r13_2_rule_4_bits_11_to_7() {
    for bit in 7..12 {
        assert_eq!(rule(&root(), EPTP | 1 << bit), 4);
    }
}

#[test]
fn r13_2_rule_5_bits_above_the_width() {
    for width in 36..=52 {
        let context = with_width(root(), width);
        for bit in 12..64 {
            let expected = if bit < width { 0 } else { 5 };
            assert_eq!(rule(&context, 0x1E | 1 << bit), expected);
        }
    }
}

/// The low 12 bits whole, as document 01 has them good.
#[test]
fn rule_0_exactly_if_the_eptp_is_good() {
    let base = EPTP & !0xFFF;
    let goods = |context: Context| -> Vec<u64> {
        (0..0x1000)
            .filter(|low| rule(&context, base | low) == 0)
            .collect()
    };
    assert_eq!(goods(root()), [0x18, 0x1E, 0x58, 0x5E]);
    assert_eq!(goods(without(root(), 8)), [0x1E, 0x5E]);
    assert_eq!(goods(without(root(), 14)), [0x18, 0x58]);
    assert_eq!(goods(without(root(), 6)), []);
    assert_eq!(goods(without(root(), 21)), [0x18, 0x1E]);
}

/// Every set of broken rules: the first of them is named.
#[test]
fn r13_2_the_first_failed_rule() {
    let context = with_width(without(root(), 21), 40);
    for broken in 0..32u64 {
        let breaks = |rule: u64| broken >> (rule - 1) & 1 == 1;
        let mut eptp = EPTP;
        if breaks(1) {
            eptp ^= 1;
        }
        if breaks(2) {
            eptp ^= 0x20;
        }
        if breaks(3) {
            eptp |= 0x40;
        }
        if breaks(4) {
            eptp |= 0x800;
        }
        if breaks(5) {
            eptp |= 1 << 40;
        }
        let first = (1..=5).find(|rule| breaks(*rule));
        assert_eq!(rule(&context, eptp), first.unwrap_or(0));
    }
    // By the capability alone: with none, the memory type is the first.
    let bare = Context {
        capability: 1 << 20 | 1 << 25,
        ..root()
    };
    assert_eq!(rule(&bare, EPTP), 1);
    let typed = Context {
        capability: bare.capability | 1 << 14,
        ..root()
    };
    assert_eq!(rule(&typed, EPTP | 0x40), 2);
}

// Where the EPTP was not the ground

#[test]
fn r13_1_invept_tests_the_type_and_bits_127_to_64_first() {
    for bad in [0, EPTP ^ 1, EPTP | 0x80, u64::MAX] {
        assert_ne!(rule(&root(), bad), 0);
        for kind in [0, 3, 4, 0x101, (1 << 32) + 1, 1 << 63] {
            assert_eq!(ask(&root(), &invept(kind, bad, 0)), (8, 0));
        }
        assert_eq!(ask(&without(root(), 25), &invept(1, bad, 0)), (8, 0));
        for bit in 0..64 {
            assert_eq!(ask(&root(), &invept(1, bad, 1 << bit)), (8, 0));
        }
    }
    // Nor with a good EPTP.
    assert_eq!(ask(&root(), &invept(1, EPTP, 1)), (8, 0));
    assert_eq!(ask(&root(), &invept(0, EPTP, 0)), (8, 0));
    assert_eq!(ask(&without(root(), 25), &invept(1, EPTP, 0)), (8, 0));
}

#[test]
fn r13_1_invept_type_2_is_always_0() {
    for eptp in [EPTP, 0, EPTP ^ 1, u64::MAX] {
        assert_eq!(ask(&root(), &invept(2, eptp, 0)), (0, 0));
        assert_eq!(ask(&root(), &invept(2, eptp, 1)), (8, 0));
        assert_eq!(ask(&without(root(), 26), &invept(2, eptp, 0)), (8, 0));
    }
}

#[test]
fn r13_1_an_entry_refused_for_its_vpid() {
    for eptp in [EPTP, 0, EPTP ^ 1, u64::MAX] {
        assert_eq!(ask(&root(), &entry(1, 0, 1, eptp, 0, 0)), (10, 0));
        assert_eq!(ask(&root(), &entry(1, 0, 0, eptp, 0, 0)), (10, 0));
        // A disabled EPTP is not looked at.
        assert_eq!(ask(&root(), &entry(1, 5, 0, eptp, 0, 0)), (0, 0));
        assert_eq!(ask(&root(), &entry(0, 0, 0, eptp, 0, 0)), (0, 0));
    }
}

#[test]
fn r13_1_answers_other_than_8_and_10() {
    let bad = EPTP ^ 1;
    for event in [invept(1, bad, 0), enter(bad)] {
        assert_eq!(ask(&with_width(root(), 35), &event), (1, 0));
        assert_eq!(ask(&with_width(root(), 200), &event), (1, 0));
        assert_eq!(ask(&outside(), &event), (5, 0));
        assert_eq!(ask(&guest(5, None), &event), (6, 0));
        assert_eq!(ask(&with_cpl(root(), 1), &event), (7, 0));
        let short = &event[..event.len() - 1];
        assert_eq!(ask(&root(), short), (4, 0));
        let step = run(&root(), &[0], &event).0;
        assert_eq!((step.answer, step.rule), (3, 0));
    }
    assert_eq!(ask(&without(root(), 20), &invept(1, bad, 0)), (5, 0));
    // PCID 4,096.
    assert_eq!(ask(&root(), &entry(1, 5, 1, bad, 4_096, 0)), (4, 0));
    // Answer 8 of INVVPID.
    assert_eq!(ask(&root(), &invvpid(4, 5, 0)), (8, 0));
    assert_eq!(ask(&root(), &invvpid(0, 5, ODD)), (8, 0));
}

/// 8 and 10 go before 12, and so does their rule.
#[test]
fn a_short_buffer_does_not_matter() {
    for (event, answer) in [(invept(1, EPTP ^ 1, 0), 8), (enter(EPTP ^ 1), 10)] {
        let step = run_into(&root(), &A, &event, 0).0;
        assert_eq!((step.answer, step.rule), (answer, 1));
    }
}

// Explainer, book and replay

#[test]
fn the_explainer_adds_the_number() {
    let refused = |answer, rule| Reason::Refused { answer, rule };
    for (event, due) in [
        (invept(1, EPTP ^ 1, 0), refused(8, 1)),
        (invept(1, EPTP ^ 0x20, 0), refused(8, 2)),
        (invept(1, EPTP | 0x80, 0), refused(8, 4)),
        (invept(1, EPTP | 1 << 52, 0), refused(8, 5)),
        (invept(1, EPTP ^ 1, 1), refused(8, 0)),
        (invept(0, EPTP ^ 1, 0), refused(8, 0)),
        (enter(EPTP ^ 1), refused(10, 1)),
        (enter(EPTP | 1 << 63), refused(10, 5)),
        (entry(1, 0, 1, EPTP ^ 1, 0, 0), refused(10, 0)),
    ] {
        for kind in 1..=6 {
            assert_eq!(explain(&root(), &m(kind).bytes(), &event), due);
        }
        // Bytes that are no record are 3, with no rule.
        assert_eq!(explain(&root(), &[], &event), refused(3, 0));
        let narrow = with_width(root(), 35);
        assert_eq!(explain(&narrow, &A, &event), refused(1, 0));
    }
    let flagged = invept(1, EPTP | 0x40, 0);
    assert_eq!(explain(&without(root(), 21), &G, &flagged), refused(8, 3));
    assert_eq!(explain(&root(), &G, &flagged), Reason::InScope);
    assert_eq!(explain(&root(), &G, &enter(EPTP)), Reason::NoScope);
}

#[test]
fn the_books_verdict_carries_it() {
    let mut book = Book::new(&outside());
    for (event, due) in [
        (enter(EPTP ^ 1), (5, 0)),
        (VMXON.to_vec(), (0, 0)),
        (enter(EPTP ^ 1), (10, 1)),
        (invept(1, EPTP | 0x80, 0), (8, 4)),
        (enter(EPTP), (0, 0)),
    ] {
        let verdict = book.feed(&event);
        assert_eq!((verdict.answer, verdict.rule), due);
    }
}

#[test]
fn printed_lines_stay() {
    let log = [VMXON.to_vec(), invept(1, EPTP ^ 1, 0), enter(EPTP | 0x80)].concat();
    assert_eq!(
        print(replay(&log).as_deref()),
        "1 0 0 0\n2 8 0 0\n3 10 0 0\n"
    );
}
