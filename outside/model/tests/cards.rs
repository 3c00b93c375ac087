//! Document 01's bench cards, its mistakes, and its replay example.

mod common;

use common::*;
use model::{print, replay, Context};

#[test]
fn type_1_drops_a_and_keeps_g() {
    let table = [A, G].concat();
    let (step, new) = run(&root(), &table, &invvpid(1, 5, 0));
    assert_eq!((step.answer, step.dropped, step.length), (0, 1, 17));
    assert_eq!(step.context, root());
    assert_eq!(new, G);
}

#[test]
fn type_0_drops_by_address() {
    assert!(drops(&root(), &A, &invvpid(0, 5, 0x1234_5678)));
    assert!(!drops(&root(), &A, &invvpid(0, 5, 0x1234_6000)));
}

#[test]
fn type_0_needs_a_canonical_address() {
    let ask = |kind, address| answer(&root(), &[], &invvpid(kind, 5, address));
    assert_eq!(ask(0, 0x0000_7FFF_FFFF_F000), 0);
    assert_eq!(ask(0, 0xFFFF_8000_0000_0000), 0);
    assert_eq!(ask(0, 0x0000_8000_0000_0000), 8);
    assert_eq!(ask(1, 0x0000_8000_0000_0000), 0);
}

#[test]
fn invvpid_operands() {
    let ask = |kind, low| answer(&root(), &[], &invvpid(kind, low, 0));
    assert_eq!(ask(0, 0), 8);
    assert_eq!(ask(2, 0), 0);
    assert_eq!(ask(2, 1 << 16), 8);
    assert_eq!(ask(2, 5 | 1 << 16), 8);
    assert_eq!(ask(4, 5), 8);
}

#[test]
fn a_span_covers_and_must_be_aligned() {
    let mut wide = A;
    wide[6] = 1;
    wide[7..12].copy_from_slice(&[0x00, 0x22, 0x01, 0, 0]);
    assert!(drops(&root(), &wide, &invvpid(0, 5, 0x12345 << 12)));
    let mut bad = wide;
    bad[7] = 1;
    assert_eq!(answer(&root(), &bad, &invvpid(0, 5, 0x12345 << 12)), 3);
}

#[test]
fn global_stays_under_type_3() {
    let mut global = A;
    global[5] = 1;
    assert!(!drops(&root(), &global, &invvpid(3, 5, 0)));
    assert!(drops(&root(), &A, &invvpid(3, 5, 0)));
}

#[test]
fn invept_by_eptp() {
    let event = invept(1, 0x12_3456_701E, 0);
    assert!(drops(&with_width(root(), 37), &G, &event));
    assert_eq!(answer(&with_width(root(), 36), &G, &event), 8);
    let flagged = invept(1, 0x12_3456_705E, 0);
    assert!(drops(&root(), &G, &flagged));
    assert_eq!(answer(&without(root(), 21), &G, &flagged), 8);
    assert!(drops(&without(root(), 21), &G, &event));
}

#[test]
fn pcid_bounds() {
    for (pcid, valid) in [(4_095, true), (4_096, false)] {
        let context = Context { pcid, ..outside() };
        assert_eq!(answer(&context, &[], &RESET), if valid { 0 } else { 1 });
        let refused = if valid { 0 } else { 4 };
        assert_eq!(answer(&root(), &[], &switch(pcid, 0)), refused);
        let record = M { pcid, ..m(1) }.bytes();
        let refused = if valid { 0 } else { 3 };
        assert_eq!(answer(&root(), &record, &RESET), refused);
    }
}

#[test]
fn reset_of_an_empty_table() {
    let (step, _) = run(&root(), &[], &RESET);
    assert_eq!((step.answer, step.dropped, step.length), (0, 0, 0));
    assert_eq!(step.context, outside());
}

#[test]
fn mistake_1_tagging_by_whole_eptp() {
    // Made under the EPTP without bit 6, used and dropped under the one with.
    let enter = entry(1, 5, 1, 0x12_3456_705E, 1, 0);
    let (step, _) = run(&root(), &[], &enter);
    assert_eq!(step.context, guest(5, Some(0x123_4567)));
    let address = model::Address::GuestPhysical(0x10 << 12);
    assert_eq!(model::usable(&step.context, &G, address), vec![0..17]);
    assert!(drops(&root(), &G, &invept(1, 0x12_3456_705E, 0)));
    assert!(drops(&root(), &G, &invept(1, 0x12_3456_7018, 0)));
}

#[test]
fn mistake_2_the_wrong_kinds() {
    let context = root();
    for kind in 0..=3 {
        let event = invvpid(kind, 5, 0);
        assert_eq!(kinds_dropped(&context, &event, |_| ()), [1, 3, 4, 6]);
    }
    for kind in 1..=2 {
        let event = invept(kind, 0x12_3456_701E, 0);
        assert_eq!(kinds_dropped(&context, &event, |_| ()), [2, 3, 5, 6]);
    }
}

#[test]
fn mistake_3_ept_violation_and_another_pcid() {
    let context = guest(5, Some(0x123_4567));
    let event = violation(0x5_0000, 1, 0);
    let global = |pcid| {
        M {
            pcid,
            global: 1,
            ..m(3)
        }
        .bytes()
    };
    assert!(!drops(&context, &global(2), &event));
    assert!(drops(&context, &global(1), &event));
}

#[test]
fn mistake_4_structure_caches_and_globals() {
    let spared = |mapping: &mut M| mapping.global = 1;
    assert_eq!(
        kinds_dropped(&root(), &invvpid(3, 5, 0), spared),
        [4, 6],
        "type 3 spares global translations only"
    );
    let other = |mapping: &mut M| {
        mapping.global = 1;
        mapping.pcid = 2;
    };
    assert_eq!(
        kinds_dropped(&guest(5, None), &invlpg(0), other),
        [1, 3],
        "INVLPG takes globals of another PCID"
    );
}

#[test]
fn mistake_5_reserved_bits_of_type_2() {
    for bit in 16..64 {
        for kind in 0..=3 {
            let event = invvpid(kind, 5 | 1 << bit, 0);
            assert_eq!(answer(&root(), &A, &event), 8);
        }
    }
}

#[test]
fn the_papers_replay() {
    let log = [
        VMXON.to_vec(),
        entry(1, 5, 0, 0, 1, 0),
        A.to_vec(),
        exit(0),
        invvpid(1, 5, 0),
    ]
    .concat();
    let printed = print(replay(&log).as_deref());
    assert_eq!(printed, "1 0 0 0\n2 0 0 0\n3 0 0 17\n4 0 0 17\n5 0 1 0\n");
}
