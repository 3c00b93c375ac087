//! Contexts.

use crate::common::*;
use model::{lookup, Address, Context, Place};

#[test]
fn r1_1_ep4ta_is_bounded_by_2_to_the_40_alone() {
    for (ept, expected) in [((1 << 40) - 1, 0), (1 << 40, 1), (u64::MAX, 1)] {
        for width in [36, 52] {
            let context = with_width(guest(5, Some(ept)), width);
            assert_eq!(answer(&context, &[], &RESET), expected);
        }
    }
}

#[test]
fn r1_2_no_other_relation() {
    let bare = Context {
        capability: 0,
        ..ept_guest()
    };
    assert_eq!(answer(&bare, &[], &RESET), 0);
    assert_eq!(answer(&with_cpl(root(), 3), &[], &RESET), 0);
}

#[test]
fn r1_3_every_field_is_checked_and_none_is_cut() {
    let big = [1 << 16, 1 << 32, 1 << 63, u64::MAX];
    for number in [65_536].into_iter().chain(big) {
        assert_eq!(answer(&guest(number, None), &[], &RESET), 1);
    }
    for pcid in [4_096].into_iter().chain(big) {
        let context = Context { pcid, ..root() };
        assert_eq!(answer(&context, &[], &RESET), 1);
    }
    for cpl in [4, 256].into_iter().chain(big) {
        assert_eq!(answer(&with_cpl(root(), cpl), &[], &RESET), 1);
    }
    for width in [0, 35, 53, 36 + (1 << 8), 36 + (1 << 32), u64::MAX] {
        assert_eq!(answer(&with_width(root(), width), &[], &RESET), 1);
    }
    for width in 36..=52 {
        assert_eq!(answer(&with_width(root(), width), &[], &RESET), 0);
    }
    assert_eq!(answer(&guest(65_535, None), &[], &RESET), 0);
    assert_eq!(answer(&with_cpl(root(), 3), &[], &RESET), 0);
}

#[test]
fn r1_4_exit_asks_the_current_vpid() {
    let zero = M { vpid: 0, ..m(1) }.bytes();
    assert!(drops(&guest(0, None), &zero, &exit(0)));
    assert!(!drops(&guest(5, None), &zero, &exit(0)));
}

#[test]
fn r1_5_reset_keeps_capability_and_width() {
    let context = Context {
        capability: 77,
        width: 40,
        linear_width: 48,
        pcid: 9,
        cpl: 3,
        place: Place::Guest {
            vpid: 5,
            ept: Some(1),
        },
    };
    let (step, _) = run(&context, &A, &RESET);
    assert_eq!(step.context, Context::after_reset(77, 40, 48));
    assert_eq!((step.dropped, step.length), (1, 0));
}

#[test]
fn r1_6_answer_1_goes_first() {
    let context = with_width(root(), 53);
    let rubbish = vec![0xFF; 100_000];
    assert_eq!(answer(&context, &rubbish, &[]), 1);
    assert_eq!(lookup(&context, &rubbish, Address::Linear(0), 0), (1, None));
}
