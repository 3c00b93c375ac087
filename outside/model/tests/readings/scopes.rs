//! Required scopes.

use crate::common::*;
use model::{Context, Place};

#[test]
fn r4_1_types_2_and_0() {
    for named in [0, 5, 6, 0xFFFF] {
        let event = invvpid(2, named, 0);
        let taken = |vpid| {
            kinds_dropped(&root(), &event, |mapping| {
                mapping.vpid = vpid;
                mapping.global = 1;
            })
        };
        assert_eq!(taken(5), [1, 3, 4, 6]);
        assert_eq!(taken(0xFFFF), [1, 3, 4, 6]);
        assert_eq!(taken(0), []);
    }
    let globals = kinds_dropped(&root(), &invvpid(0, 5, 0), |mapping| mapping.global = 1);
    assert_eq!(globals, [1, 3, 4, 6]);
}

#[test]
fn r4_1_other_vpids_stay() {
    for kind in [0, 1, 3] {
        for vpid in [0, 4, 6, 0x0105, 0x0500] {
            let event = invvpid(kind, 5, 0);
            assert_eq!(kinds_dropped(&root(), &event, |m| m.vpid = vpid), []);
        }
    }
}

#[test]
fn r4_3_invept_takes_all_vpids() {
    for kind in 1..=2 {
        let taken = kinds_dropped(&root(), &invept(kind, EPTP, 0), |mapping| {
            mapping.vpid = 0;
            mapping.pcid = 9;
            mapping.global = 1;
        });
        assert_eq!(taken, [2, 3, 5, 6]);
    }
}

#[test]
fn r4_4_invept_compares_the_ep4ta() {
    for eptp in [EPTP, EPTP ^ 0x40, EPTP ^ 6] {
        let event = invept(1, eptp, 0);
        assert_eq!(kinds_dropped(&root(), &event, |_| ()), [2, 3, 5, 6]);
        for bit in 0..40 {
            let other = |mapping: &mut M| mapping.ep4ta ^= 1 << bit;
            assert_eq!(kinds_dropped(&root(), &event, other), []);
        }
    }
    // Type 2 takes them all, whatever the EPTP says.
    let other = |mapping: &mut M| mapping.ep4ta = 9;
    let all = kinds_dropped(&root(), &invept(2, u64::MAX, 0), other);
    assert_eq!(all, [2, 3, 5, 6]);
}

#[test]
fn r4_5_invlpg_uses_the_current_vpid() {
    for (context, vpid) in [
        (outside(), 0),
        (root(), 0),
        (guest(0, None), 0),
        (guest(5, None), 5),
        (ept_guest(), 5),
        (guest(5, Some(9)), 5),
    ] {
        let taken = |vpid| {
            kinds_dropped(&context, &invlpg(0), |mapping| {
                mapping.vpid = vpid;
                mapping.pcid = context.pcid;
            })
        };
        assert_eq!(taken(vpid), [1, 3, 4, 6]);
        assert_eq!(taken(5 - vpid), []);
    }
}

#[test]
fn r4_6_invlpg_and_pcids() {
    let context = guest(5, None);
    let other = |global| {
        move |mapping: &mut M| {
            mapping.pcid = 2;
            mapping.global = global;
        }
    };
    assert_eq!(kinds_dropped(&context, &invlpg(0), other(0)), []);
    assert_eq!(kinds_dropped(&context, &invlpg(0), other(1)), [1, 3]);
    // A global translation must cover the page too.
    let far = 1 << 30;
    let taken = kinds_dropped(&context, &invlpg(far), |mapping| mapping.global = 1);
    assert_eq!(taken, [4, 6]);
}

#[test]
fn r4_7_invlpg_at_a_bad_address() {
    let table: Vec<u8> = (1..=6).flat_map(|kind| m(kind).bytes()).collect();
    for context in [outside(), root(), guest(5, None), ept_guest()] {
        let (step, new) = run(&context, &table, &invlpg(ODD));
        assert_eq!((step.answer, step.dropped), (0, 0));
        assert_eq!(new, table);
        assert_eq!(answer(&with_cpl(context, 1), &table, &invlpg(ODD)), 7);
    }
    // Even where the cut page would be covered.
    let record = M {
        page: 1 << 35,
        ..m(1)
    }
    .bytes();
    assert!(!drops(&guest(5, None), &record, &invlpg(ODD)));
}

#[test]
fn r4_8_ept_violation() {
    let context = ept_guest();
    let both = violation(0, 1, 0);
    assert_eq!(kinds_dropped(&context, &both, |_| ()), [2, 3, 5, 6]);
    assert_eq!(
        kinds_dropped(&context, &violation(0, 0, 0), |_| ()),
        [2, 5],
        "flag 0 takes no combined mapping"
    );
    let linear_elsewhere = violation(0, 1, 1 << 30);
    assert_eq!(
        kinds_dropped(&context, &linear_elsewhere, |_| ()),
        [2, 5],
        "combined mappings go by the linear page"
    );
    let guest_elsewhere = violation(1 << 30, 1, 0);
    assert_eq!(
        kinds_dropped(&context, &guest_elsewhere, |_| ()),
        [3, 6],
        "guest-physical mappings go by the guest-physical page"
    );
    assert_eq!(kinds_dropped(&context, &both, |m| m.vpid = 0), [2, 5]);
    assert_eq!(kinds_dropped(&context, &both, |m| m.pcid = 2), [2, 5]);
    assert_eq!(kinds_dropped(&context, &both, |m| m.ep4ta = 9), []);
    assert_eq!(
        kinds_dropped(&context, &both, |m| m.global = 1),
        [2, 3, 5, 6],
        "a global mapping of the current PCID goes"
    );
}

#[test]
fn r4_9_entry_and_exit_without_vpids() {
    let zero = |mapping: &mut M| {
        mapping.vpid = 0;
        mapping.pcid = 77;
        mapping.global = 1;
        mapping.ep4ta = 99;
    };
    let all = [1, 3, 4, 6];
    for ept in [0, 1] {
        let without = entry(0, 5, ept, EPTP, 1, 0);
        assert_eq!(kinds_dropped(&root(), &without, zero), all);
        assert_eq!(kinds_dropped(&root(), &without, |_| ()), []);
        let with = entry(1, 5, ept, EPTP, 1, 0);
        assert_eq!(kinds_dropped(&root(), &with, zero), []);
        assert_eq!(kinds_dropped(&root(), &with, |_| ()), []);
    }
    for ept in [None, Some(EP4TA)] {
        assert_eq!(kinds_dropped(&guest(0, ept), &exit(0), zero), all);
        assert_eq!(kinds_dropped(&guest(0, ept), &exit(0), |_| ()), []);
        assert_eq!(kinds_dropped(&guest(5, ept), &exit(0), zero), []);
        assert_eq!(kinds_dropped(&guest(5, ept), &exit(0), |_| ()), []);
    }
}

#[test]
fn r4_10_a_refused_event_changes_nothing() {
    let zero = M { vpid: 0, ..m(1) }.bytes();
    // run() checks that context and buffer stay.
    assert_eq!(answer(&root(), &zero, &entry(0, 0, 1, 0, 0, 0)), 10);
    assert_eq!(answer(&guest(0, None), &zero, &VMXOFF), 6);
    assert_eq!(answer(&guest(0, None), &zero, &invvpid(2, 0, 0)), 6);
}

#[test]
fn r4_11_scopes_are_judged_in_the_context_before() {
    // Left with VPID 0, so taken, although root's VPID would be 0 as well.
    let (step, _) = run(&guest(5, None), &M { vpid: 0, ..m(1) }.bytes(), &exit(9));
    assert_eq!(step.dropped, 0);
    assert_eq!((step.context.pcid, step.context.cpl), (9, 0));
    assert_eq!(step.context.place, Place::Root);
}

#[test]
fn r4_12_vmxon_vmxoff_and_kind_24_drop_nothing() {
    let table: Vec<u8> = (1..=6)
        .flat_map(|kind| M { vpid: 0, ..m(kind) }.bytes())
        .collect();
    for (context, event) in [
        (outside(), VMXON.to_vec()),
        (root(), VMXOFF.to_vec()),
        (root(), switch(3, 2)),
        (guest(0, None), switch(3, 2)),
    ] {
        let (step, new) = run(&context, &table, &event);
        assert_eq!((step.answer, step.dropped), (0, 0));
        assert_eq!(new, table);
    }
}

#[test]
fn r4_13_contexts_after() {
    let after = |context: Context, event: &[u8]| run(&context, &[], event).0.context;
    let root_7 = Context { pcid: 7, ..root() };
    let outside_7 = Context {
        pcid: 7,
        ..outside()
    };
    assert_eq!(after(outside_7, &VMXON), root_7);
    assert_eq!(after(root_7, &VMXOFF), outside_7);
    let user = with_cpl(ept_guest(), 3);
    assert_eq!(after(user, &exit(7)), root_7);
    for context in [outside(), root(), guest(5, None), user] {
        for cpl in 0..=3 {
            let expected = Context {
                pcid: 4,
                cpl,
                ..context
            };
            assert_eq!(after(with_cpl(context, 3), &switch(4, cpl)), expected);
        }
    }
    assert_eq!(
        after(root_7, &entry(1, 6, 1, EPTP ^ 0x40, 3, 2)),
        Context {
            pcid: 3,
            cpl: 2,
            place: Place::Guest {
                vpid: 6,
                ept: Some(EP4TA)
            },
            ..root()
        }
    );
}
