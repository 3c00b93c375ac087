//! Answers.

use crate::common::*;
use model::{print, replay, Context, PROGRAM_CAPABILITY, TABLE_LIMIT};

#[test]
fn r5_1_the_number_decides() {
    let bare = without(guest(5, None), 32);
    assert_eq!(answer(&bare, &[], &invvpid(1, 5, 0)), 5);
    assert_eq!(answer(&with_cpl(outside(), 3), &[], &VMXOFF), 5);
    assert_eq!(answer(&with_cpl(outside(), 3), &[], &VMXON), 7);
    let user = with_cpl(guest(5, None), 3);
    for event in [
        invvpid(1, 5, 0),
        invept(1, EPTP, 0),
        entry(1, 5, 0, 0, 0, 0),
        VMXON.to_vec(),
        VMXOFF.to_vec(),
    ] {
        assert_eq!(answer(&user, &[], &event), 6);
    }
    assert_eq!(answer(&user, &[], &invlpg(0)), 7);
    assert_eq!(answer(&with_cpl(root(), 3), &[], &VMXON), 7);
    assert_eq!(answer(&root(), &[], &VMXON), 9);
    assert_eq!(answer(&outside(), &[], &invvpid(1, 5, 0)), 5);
    assert_eq!(answer(&outside(), &[], &entry(1, 0, 0, 0, 0, 0)), 5);
}

#[test]
fn r5_2_capability_bits() {
    for context in [outside(), root(), guest(5, None), with_cpl(root(), 3)] {
        assert_eq!(answer(&without(context, 32), &[], &invvpid(1, 5, 0)), 5);
        assert_eq!(answer(&without(context, 20), &[], &invept(1, EPTP, 0)), 5);
    }
    for kind in 0..=3 {
        for bit in 40..=43 {
            let expected = if bit == 40 + kind as u32 { 8 } else { 0 };
            let context = without(root(), bit);
            assert_eq!(answer(&context, &[], &invvpid(kind, 5, 0)), expected);
        }
        let context = without(with_cpl(root(), 1), 40 + kind as u32);
        assert_eq!(answer(&context, &[], &invvpid(kind, 5, 0)), 7);
    }
    for kind in 1..=2 {
        for bit in 25..=26 {
            let expected = if bit == 24 + kind as u32 { 8 } else { 0 };
            let context = without(root(), bit);
            assert_eq!(answer(&context, &[], &invept(kind, EPTP, 0)), expected);
        }
    }
}

#[test]
fn r5_3_what_needs_cpl_0() {
    for cpl in 1..=3 {
        let ask = |context, event: &[u8]| answer(&with_cpl(context, cpl), &[], event);
        assert_eq!(ask(root(), &invvpid(1, 5, 0)), 7);
        assert_eq!(ask(root(), &invept(1, EPTP, 0)), 7);
        assert_eq!(ask(root(), &invlpg(0)), 7);
        assert_eq!(ask(outside(), &invlpg(0)), 7);
        assert_eq!(ask(root(), &entry(1, 5, 0, 0, 0, 0)), 7);
        assert_eq!(ask(outside(), &VMXON), 7);
        assert_eq!(ask(root(), &VMXOFF), 7);
        assert_eq!(ask(ept_guest(), &violation(0, 1, 0)), 0);
        assert_eq!(ask(ept_guest(), &exit(0)), 0);
        assert_eq!(ask(root(), &switch(0, 0)), 0);
        assert_eq!(ask(root(), &RESET), 0);
        assert_eq!(ask(guest(5, None), &A), 0);
    }
}

#[test]
fn r5_4_out_of_place() {
    for context in [outside(), root()] {
        assert_eq!(answer(&context, &[], &exit(0)), 9);
        assert_eq!(answer(&context, &[], &violation(0, 0, 0)), 9);
    }
    assert_eq!(answer(&guest(5, None), &[], &violation(0, 0, 0)), 9);
    let bare = Context {
        capability: 0,
        ..outside()
    };
    assert_eq!(answer(&bare, &[], &VMXON), 0);
}

#[test]
fn r5_5_invvpid_operands() {
    for (kind, expected) in [(0, 8), (1, 8), (2, 0), (3, 8)] {
        assert_eq!(answer(&root(), &[], &invvpid(kind, 0, 0)), expected);
    }
    for (kind, expected) in [(0, 8), (1, 0), (2, 0), (3, 0)] {
        assert_eq!(answer(&root(), &[], &invvpid(kind, 5, ODD)), expected);
    }
}

#[test]
fn r5_6_invept_operands() {
    assert_eq!(answer(&root(), &[], &invept(0, EPTP, 0)), 8);
    assert_eq!(answer(&root(), &[], &invept(3, EPTP, 0)), 8);
    assert_eq!(answer(&root(), &[], &invept(2, u64::MAX, 0)), 0);
    assert_eq!(answer(&root(), &[], &invept(1, u64::MAX, 0)), 8);
    assert_eq!(answer(&root(), &[], &invept(2, EPTP, 1)), 8);
}

#[test]
fn r5_7_good_eptps() {
    // INVEPT and entry must agree; the low 12 bits are tried whole.
    let good = |context: &Context, eptp| {
        let by_invept = answer(context, &[], &invept(1, eptp, 0));
        let by_entry = answer(context, &[], &entry(0, 0, 1, eptp, 0, 0));
        assert!(matches!((by_invept, by_entry), (0, 0) | (8, 10)));
        by_invept == 0
    };
    let base = EPTP & !0xFFF;
    let goods = |context: Context| -> Vec<u64> {
        (0..0x1000)
            .filter(|low| good(&context, base | low))
            .collect()
    };
    assert_eq!(goods(root()), [0x18, 0x1E, 0x58, 0x5E]);
    assert_eq!(goods(without(root(), 8)), [0x1E, 0x5E]);
    assert_eq!(goods(without(root(), 14)), [0x18, 0x58]);
    assert_eq!(goods(without(root(), 6)), []);
    assert_eq!(goods(without(root(), 21)), [0x18, 0x1E]);
    let neither = Context {
        capability: PROGRAM_CAPABILITY & !(1 << 8 | 1 << 14),
        ..root()
    };
    assert_eq!(goods(neither), []);
}

#[test]
fn r5_8_bits_from_n_on_are_zero() {
    for width in 36..=52 {
        for bit in 12..64 {
            let event = invept(1, 0x1E | 1 << bit, 0);
            let expected = if bit < width { 0 } else { 8 };
            assert_eq!(answer(&with_width(root(), width), &[], &event), expected);
        }
    }
    let top = invept(1, 0x1E | 1 << 51, 0);
    let taken = kinds_dropped(&root(), &top, |mapping| mapping.ep4ta = 1 << 39);
    assert_eq!(taken, [2, 3, 5, 6]);
}

#[test]
fn r5_9_what_entry_looks_at() {
    assert_eq!(answer(&root(), &[], &entry(1, 0, 0, 0, 0, 0)), 10);
    assert_eq!(answer(&root(), &[], &entry(1, 5, 1, 0, 0, 0)), 10);
    assert_eq!(answer(&root(), &[], &entry(0, 0, 0, 1, 0, 0)), 0);
    let bare = Context {
        capability: 0,
        ..root()
    };
    assert_eq!(answer(&bare, &[], &entry(1, 5, 0, 0, 0, 0)), 0);
    let ept_alone = Context {
        capability: 1 << 6 | 1 << 14,
        ..root()
    };
    assert_eq!(answer(&ept_alone, &[], &entry(0, 0, 1, EPTP, 0, 0)), 0);
}

#[test]
fn r5_10_what_can_be_created() {
    let can = |context: &Context, f: &dyn Fn(&mut M)| -> Vec<u64> {
        (1..=6)
            .filter(|kind| {
                let mut mapping = m(*kind);
                f(&mut mapping);
                let event = mapping.bytes();
                let (step, new) = run(context, &G, &event);
                assert!(step.answer == 0 || step.answer == 11);
                if step.answer == 0 {
                    assert_eq!(new, [&G[..], &event].concat());
                    assert_eq!((step.dropped, step.context), (0, *context));
                }
                step.answer == 0
            })
            .collect()
    };
    let ept = ept_guest();
    assert_eq!(can(&ept, &|_| ()), [2, 3, 5, 6]);
    assert_eq!(can(&ept, &|m| m.vpid = 6), [2, 5]);
    assert_eq!(can(&ept, &|m| m.pcid = 2), [2, 5]);
    assert_eq!(can(&ept, &|m| m.ep4ta = 9), []);
    assert_eq!(can(&ept, &|m| m.global = 1), [2, 3, 5, 6]);
    let off = guest(5, None);
    assert_eq!(can(&off, &|_| ()), [1, 4]);
    assert_eq!(can(&off, &|m| m.vpid = 0), []);
    let global_of_another = |m: &mut M| {
        m.pcid = 2;
        m.global = 1;
    };
    assert_eq!(can(&off, &global_of_another), []);
    assert_eq!(can(&ept, &global_of_another), [2, 5]);
    for context in [root(), outside()] {
        let own = |m: &mut M| {
            m.vpid = 0;
            m.pcid = 0;
        };
        assert_eq!(can(&context, &own), [1, 4]);
        assert_eq!(can(&context, &|_| ()), []);
    }
}

#[test]
fn r5_11_room_is_for_the_old_table() {
    let table = [A, G].concat();
    for (room, expected) in [(34, 0), (33, 12), (0, 12)] {
        let (step, _) = run_into(&root(), &table, &RESET, room);
        assert_eq!(step.answer, expected);
        let (step, _) = run_into(&root(), &table, &invvpid(1, 5, 0), room);
        assert_eq!(step.answer, expected);
    }
    assert_eq!(run_into(&root(), &[], &RESET, 0).0.answer, 0);
}

#[test]
fn r5_12_a_creation_needs_its_record_too() {
    let context = guest(5, None);
    for (room, expected) in [(34, 0), (33, 12), (17, 12), (0, 12)] {
        assert_eq!(run_into(&context, &G, &A, room).0.answer, expected);
    }
    assert_eq!(run_into(&context, &[], &A, 17).0.answer, 0);
    assert_eq!(run_into(&context, &[], &A, 16).0.answer, 12);
}

#[test]
fn r5_13_the_limit_binds_creations() {
    let context = guest(5, None);
    let full = m(4).bytes().repeat(2_944);
    let less = &full[16..];
    for room in [TABLE_LIMIT, TABLE_LIMIT + 1, 100_000] {
        let (step, _) = run_into(&context, less, &m(4).bytes(), room);
        assert_eq!((step.answer, step.length), (0, TABLE_LIMIT));
        // 47,105 bytes.
        assert_eq!(run_into(&context, less, &A, room).0.answer, 12);
        let (step, _) = run_into(&context, &full, &m(4).bytes(), room);
        assert_eq!(step.answer, 12);
        // Not a creation: the full table fits.
        assert_eq!(run_into(&context, &full, &exit(0), room).0.answer, 0);
    }
    assert_eq!(
        run_into(&context, &full, &exit(0), TABLE_LIMIT - 1)
            .0
            .answer,
        12
    );
}

#[test]
fn r5_14_11_goes_before_12() {
    let full = m(4).bytes().repeat(2_944);
    assert_eq!(answer(&root(), &full, &A), 11);
    assert_eq!(run_into(&root(), &[], &A, 0).0.answer, 11);
    assert_eq!(
        run_into(&root(), &A, &entry(1, 0, 0, 0, 0, 0), 0).0.answer,
        10
    );
}

#[test]
fn r5_15_replay_prints_the_length_in_force() {
    let log = [
        m_outside(1),
        A.to_vec(), // 11: VPID 5 is not current
        VMXOFF.to_vec(),
    ]
    .concat();
    assert_eq!(
        print(replay(&log).as_deref()),
        "1 0 0 17\n2 11 0 17\n3 5 0 17\n"
    );
}

#[test]
fn r5_16_the_tail_stays() {
    // run() compares the tail of every buffer; here with a full one.
    let full = m(4).bytes().repeat(2_944);
    let (step, _) = run(&root(), &full, &invvpid(1, 5, 0));
    assert_eq!((step.dropped, step.length), (2_944, 0));
}
