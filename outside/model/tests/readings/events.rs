//! Events.

use crate::common::*;
use model::LinearWidth::Bits48;

/// One valid event of each kind.
fn one_of_each() -> Vec<Vec<u8>> {
    let mut events: Vec<Vec<u8>> = (1..=6).map(|kind| m(kind).bytes()).collect();
    events.extend([
        invvpid(1, 5, 0),
        invept(1, EPTP, 0),
        invlpg(0),
        violation(0, 1, 0),
        entry(1, 5, 1, EPTP, 1, 0),
        exit(0),
        VMXON.to_vec(),
        VMXOFF.to_vec(),
        switch(1, 0),
        RESET.to_vec(),
        invpcid(1, 1, 0),
        mov_to_cr3(1),
    ]);
    events
}

#[test]
fn r3_1_lengths() {
    let lengths: Vec<(u8, usize)> = one_of_each().iter().map(|e| (e[0], e.len())).collect();
    assert_eq!(
        lengths[6..],
        [
            (16, 25),
            (17, 25),
            (18, 9),
            (19, 18),
            (20, 16),
            (21, 3),
            (22, 1),
            (23, 1),
            (24, 4),
            (25, 1),
            (26, 25),
            (27, 3)
        ]
    );
    for kind in 0..=255 {
        let known = lengths.iter().find(|(own, _)| *own == kind);
        assert_eq!(
            model::event::length(Bits48, kind),
            known.map(|(_, length)| *length)
        );
    }
}

#[test]
fn r3_2_exactly_one_valid_record() {
    assert_eq!(answer(&root(), &[], &[]), 4);
    for event in one_of_each() {
        assert_ne!(answer(&root(), &[], &event), 4);
        assert_eq!(answer(&root(), &[], &event[..event.len() - 1]), 4);
        assert_eq!(answer(&root(), &[], &[&event[..], &[0]].concat()), 4);
        assert_eq!(answer(&root(), &[], &event.repeat(2)), 4);
    }
    for kind in [0, 7, 8, 9, 10, 15, 28, 255] {
        for length in [1, 3, 16, 17, 18, 22, 23, 25] {
            assert_eq!(answer(&root(), &[], &vec![kind; length]), 4);
        }
    }
}

#[test]
fn r3_3_disabled_fields_are_not_looked_at() {
    let (step, _) = run(&root(), &[], &entry(0, 0xFFFF, 0, u64::MAX, 1, 2));
    assert_eq!(step.answer, 0);
    assert_eq!(step.context, with_cpl(guest(0, None), 2));
    assert_eq!(answer(&root(), &[], &entry(0, 0, 0, 0, 1, 0)), 0);
    assert_eq!(answer(&root(), &[], &entry(2, 5, 0, 0, 1, 0)), 4);
    assert_eq!(answer(&root(), &[], &entry(1, 5, 2, EPTP, 1, 0)), 4);
    assert_eq!(answer(&root(), &[], &entry(1, 5, 0, 0, 4_096, 0)), 4);
    assert_eq!(answer(&root(), &[], &entry(1, 5, 0, 0, 0, 4)), 4);
    assert_eq!(answer(&root(), &[], &entry(1, 5, 0, 0, 4_095, 3)), 0);
}

#[test]
fn r3_4_addresses_of_an_ept_violation() {
    let context = ept_guest();
    assert_eq!(answer(&context, &[], &violation(0, 0, ODD)), 0);
    assert_eq!(answer(&context, &[], &violation(0, 1, ODD)), 4);
    assert_eq!(answer(&context, &[], &violation(0, 2, 0)), 4);
    assert_eq!(answer(&context, &[], &violation((1 << 48) - 1, 0, 0)), 0);
    assert_eq!(answer(&context, &[], &violation(1 << 48, 0, 0)), 4);
    assert_eq!(answer(&context, &[], &violation(1 << 63, 0, 0)), 4);
    assert_eq!(answer(&outside(), &[], &violation(1 << 48, 0, 0)), 4);
    assert_eq!(answer(&outside(), &[], &violation(0, 0, 0)), 9);
}

#[test]
fn r3_5_canonical_matters_by_kind() {
    assert_eq!(answer(&ept_guest(), &[], &violation(0, 1, ODD)), 4);
    assert_eq!(answer(&root(), &[], &invvpid(0, 5, ODD)), 8);
    assert_eq!(answer(&root(), &[], &invpcid(0, 5, ODD)), 7);
    assert_eq!(answer(&root(), &[], &invlpg(ODD)), 0);
}

#[test]
fn r3_5_canonical() {
    for (address, expected) in [
        (0, true),
        (0x0000_7FFF_FFFF_FFFF, true),
        (0x0000_8000_0000_0000, false),
        (0x0001_0000_0000_0000, false),
        (0x8000_0000_0000_0000, false),
        (0x7FFF_8000_0000_0000, false),
        (0xFFFF_7FFF_FFFF_FFFF, false),
        (0xFFFE_8000_0000_0000, false),
        (0xFFFF_8000_0000_0000, true),
        (u64::MAX, true),
    ] {
        assert_eq!(Bits48.canonical(address), expected);
    }
}

#[test]
fn r3_6_types_are_64_bit_numbers() {
    for bit in 2..64 {
        for low in 0..4 {
            let kind = low | 1 << bit;
            assert_eq!(answer(&root(), &[], &invvpid(kind, 5, 0)), 8);
            assert_eq!(answer(&root(), &[], &invept(kind, EPTP, 0)), 8);
            assert_eq!(answer(&root(), &[], &invpcid(kind, 5, 0)), 7);
        }
    }
    assert_eq!(answer(&root(), &[], &invvpid(u64::MAX, 5, 0)), 8);
    assert_eq!(answer(&root(), &[], &invpcid(u64::MAX, 5, 0)), 7);
}

#[test]
fn r3_7_descriptors() {
    // INVVPID's reserved bits are in the low quadword, as INVPCID's are, and
    // INVEPT's are the high.
    assert_eq!(answer(&root(), &[], &invvpid(1, 5, u64::MAX)), 0);
    assert_eq!(answer(&root(), &[], &invvpid(1, 5 | 1 << 16, 0)), 8);
    assert_eq!(answer(&root(), &[], &invpcid(1, 5, u64::MAX)), 0);
    assert_eq!(answer(&root(), &[], &invpcid(1, 5 | 1 << 12, 0)), 7);
    for bit in 0..64 {
        for kind in 1..=2 {
            assert_eq!(answer(&root(), &[], &invept(kind, EPTP, 1 << bit)), 8);
        }
    }
}

#[test]
fn r3_8_pages_are_not_sign_extended() {
    assert_eq!(Bits48.page(0xFFFF_FFFF_FFFF_F000), 0xF_FFFF_FFFF);
    assert_eq!(Bits48.page(0xFFFF_8000_0000_0FFF), 0x8_0000_0000);
    let record = M {
        page: 0xF_FFFF_FFFF,
        ..m(1)
    }
    .bytes();
    assert!(drops(&root(), &record, &invvpid(0, 5, u64::MAX)));
}
