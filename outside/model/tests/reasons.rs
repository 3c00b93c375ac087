//! Why a mapping went or stayed (document 02, Asks 1, 2, 5 and 6):
//! rows worked out from the papers by hand, then random inputs.

mod common;

use common::*;
use generate::Rng;
use model::mapping::Mapping;
use model::{explain, step, Context, Reason, TABLE_LIMIT};
use Reason::*;

const SEED: u64 = 20_260_101;

/// A page that no record here covers, as an address.
const FAR: u64 = 1 << 30;

/// The reasons for the kinds 1 to 6, with `m`'s fields changed by `f`.
fn kinds(context: &Context, event: &[u8], f: impl Fn(&mut M)) -> [Reason; 6] {
    let mut kind = 0;
    [(); 6].map(|()| {
        kind += 1;
        let mut mapping = m(kind);
        f(&mut mapping);
        explain(context, &mapping.bytes(), event)
    })
}

/// The reason for one kind.
fn of(context: &Context, event: &[u8], kind: u64, f: impl Fn(&mut M)) -> Reason {
    kinds(context, event, f)[kind as usize - 1]
}

/// Wrong in everything that an event can name.
fn all_wrong(m: &mut M) {
    m.vpid = 6;
    m.pcid = 2;
    m.ep4ta = 9;
    m.page = FAR >> 12;
}

#[test]
fn the_numbers_are_the_papers_order() {
    let order = [
        Reason::refused(5),
        NoScope,
        NotCanonical,
        WrongKind,
        WrongVpid,
        WrongPcid,
        WrongEp4ta,
        NotCovering,
        SparedAsGlobal,
        InScope,
    ];
    for (number, reason) in (1..).zip(order) {
        assert_eq!(reason.number(), number);
        assert_eq!(reason.answer(), if number == 1 { 5 } else { 0 });
    }
}

// Refused

#[test]
fn refused_with_the_steps_number() {
    let user = with_cpl(root(), 3);
    for (context, event, number) in [
        (with_width(root(), 53), RESET.to_vec(), 1),
        (root(), vec![], 4),
        (root(), vec![26], 4),
        (root(), vec![28], 4),
        (root(), RESET.repeat(2), 4),
        (root(), switch(4_096, 0), 4),
        (outside(), invvpid(1, 5, 0), 5),
        (without(root(), 32), invvpid(1, 5, 0), 5),
        (without(root(), 20), invept(1, EPTP, 0), 5),
        (guest(5, None), invvpid(1, 5, 0), 6),
        (guest(5, None), VMXON.to_vec(), 6),
        (user, invlpg(0), 7),
        (user, invlpg(ODD), 7),
        (user, invpcid(1, 1, 0), 7),
        (user, mov_to_cr3(1), 7),
        (root(), invpcid(4, 1, 0), 7),
        (root(), invpcid(2, 1 << 12, 0), 7),
        (root(), invpcid(0, 1, ODD), 7),
        (root(), mov_to_cr3(4_096), 4),
        (root(), invvpid(0, 5, ODD), 8),
        (root(), invvpid(4, 5, 0), 8),
        (root(), invept(0, 0, 0), 8),
        (root(), VMXON.to_vec(), 9),
        (root(), exit(0), 9),
        (guest(5, None), violation(0, 1, 0), 9),
        (root(), entry(1, 0, 0, 0, 0, 0), 10),
        (root(), entry(1, 0, 1, 0, 0, 0), 10),
        (root(), A.to_vec(), 11),
    ] {
        for kind in 1..=6 {
            let got = explain(&context, &m(kind).bytes(), &event);
            assert_eq!(got, Reason::refused(number), "{event:?}");
        }
    }
    // EPTP 0: its walk length is bad.
    for (event, answer) in [(invept(1, 0, 0), 8), (entry(0, 0, 1, 0, 0, 0), 10)] {
        for kind in 1..=6 {
            let got = explain(&root(), &m(kind).bytes(), &event);
            assert_eq!(got, Refused { answer, rule: 2 }, "{event:?}");
        }
    }
}

#[test]
fn not_exactly_one_record_is_3_and_never_2() {
    let bad = M {
        pcid: 4_096,
        ..m(1)
    };
    for record in [
        vec![],
        A[..16].to_vec(),
        [&A[..], &[0]].concat(),
        [A, A].concat(),
        [A, G].concat(),
        bad.bytes(),
        vec![7; 17],
        RESET.to_vec(),
        m(4).bytes().repeat(2_944),
        m(4).bytes().repeat(2_945),
        vec![0; TABLE_LIMIT + 1],
        vec![0xFF; 100_000],
    ] {
        // 3 goes before every later number, and 1 before 3.
        for event in [&RESET[..], &[], &VMXOFF, &invlpg(0)] {
            assert_eq!(explain(&outside(), &record, event), Reason::refused(3));
            let narrow = with_width(outside(), 35);
            assert_eq!(explain(&narrow, &record, event), Reason::refused(1));
        }
    }
}

#[test]
fn every_context_field_is_looked_at_first() {
    let rubbish = [0xFF; 50];
    for context in [
        with_width(root(), 35),
        with_cpl(root(), 4),
        at_width(root(), 56),
        Context {
            pcid: 4_096,
            ..root()
        },
        guest(65_536, None),
        guest(5, Some(1 << 40)),
    ] {
        assert_eq!(explain(&context, &A, &RESET), Reason::refused(1));
        assert_eq!(explain(&context, &rubbish, &rubbish), Reason::refused(1));
    }
}

/// There is always room: a creation is 11 or without a scope, never 12.
#[test]
fn there_is_room_for_a_creation() {
    let context = ept_guest();
    for event in [3, 6] {
        let event = m(event).bytes();
        assert_eq!(kinds(&context, &event, |_| ()), [NoScope; 6]);
    }
}

// Event without a scope

#[test]
fn events_without_a_scope() {
    for (context, event) in [
        (guest(5, None), A.to_vec()),
        (guest(5, None), m(4).bytes()),
        (ept_guest(), m(2).bytes()),
        (ept_guest(), m(3).bytes()),
        (ept_guest(), m(5).bytes()),
        (ept_guest(), m(6).bytes()),
        (outside(), VMXON.to_vec()),
        (root(), VMXOFF.to_vec()),
        (guest(0, None), switch(3, 2)),
        (root(), entry(1, 5, 0, 0, 1, 0)),
        (root(), entry(1, 5, 1, EPTP, 1, 0)),
        (guest(5, None), exit(0)),
        (ept_guest(), exit(0)),
    ] {
        assert_eq!(kinds(&context, &event, |_| ()), [NoScope; 6]);
        assert_eq!(kinds(&context, &event, |m| m.vpid = 0), [NoScope; 6]);
    }
}

// INVLPG

#[test]
fn invlpg_not_canonical_goes_before_all_that_follows() {
    for context in [outside(), root(), guest(5, None), ept_guest()] {
        for address in [ODD, 1 << 63, 0xFFFF_7FFF_FFFF_FFFF] {
            let event = invlpg(address);
            assert_eq!(kinds(&context, &event, |_| ()), [NotCanonical; 6]);
            assert_eq!(kinds(&context, &event, all_wrong), [NotCanonical; 6]);
        }
    }
}

#[test]
fn invlpg_in_order() {
    let context = guest(5, None);
    let event = invlpg(0);
    let each = |f: &dyn Fn(&mut M)| kinds(&context, &event, f);
    let with = |r| [r, WrongKind, r, r, WrongKind, r];
    assert_eq!(each(&all_wrong), with(WrongVpid));
    let own_vpid = |m: &mut M| {
        all_wrong(m);
        m.vpid = 5;
    };
    assert_eq!(each(&own_vpid), with(WrongPcid));
    let own_pcid = |m: &mut M| {
        own_vpid(m);
        m.pcid = 1;
    };
    // Structure caches go whatever they cover (Ask 2).
    assert_eq!(
        each(&own_pcid),
        [
            NotCovering,
            WrongKind,
            NotCovering,
            InScope,
            WrongKind,
            InScope
        ]
    );
    // Any EP4TA, with EPT off too.
    let covers = |m: &mut M| m.ep4ta = 9;
    assert_eq!(each(&covers), with(InScope));
}

#[test]
fn invlpg_and_globals() {
    let event = invlpg(0);
    let other_pcid = |m: &mut M| {
        m.pcid = 2;
        m.global = 1;
    };
    // The PCID is not tested of a global translation. Structure caches carry
    // no global mark.
    assert_eq!(
        kinds(&guest(5, None), &event, other_pcid),
        [InScope, WrongKind, InScope, WrongPcid, WrongKind, WrongPcid]
    );
    let far = |m: &mut M| {
        other_pcid(m);
        m.page = FAR >> 12;
    };
    assert_eq!(of(&guest(5, None), &event, 1, far), NotCovering);
    let other_vpid = |m: &mut M| {
        far(m);
        m.vpid = 6;
    };
    assert_eq!(of(&guest(5, None), &event, 1, other_vpid), WrongVpid);
}

/// Ask 2: of structure caches INVLPG does not test the cover, of any span.
#[test]
fn invlpg_and_the_cover_of_structure_caches() {
    for span in 1..=3 {
        for address in [0, FAR, 0x7FFF_FFFF_F000, u64::MAX] {
            let event = invlpg(address);
            let own = |m: &mut M| m.span = span;
            for kind in [4, 6] {
                assert_eq!(of(&ept_guest(), &event, kind, own), InScope);
            }
        }
    }
    // INVVPID type 0 and an EPT violation do.
    let kept = [NotCovering, WrongKind, NotCovering];
    let by_invvpid = kinds(&root(), &invvpid(0, 5, FAR), |_| ());
    assert_eq!(by_invvpid, [kept, kept].concat()[..]);
    let by_violation = kinds(&ept_guest(), &violation(FAR, 1, FAR), |_| ());
    let kept = [WrongKind, NotCovering, NotCovering];
    assert_eq!(by_violation, [kept, kept].concat()[..]);
}

#[test]
fn invlpg_uses_the_current_vpid() {
    let own = |m: &mut M| {
        m.vpid = 0;
        m.pcid = 0;
    };
    for context in [outside(), root()] {
        assert_eq!(of(&context, &invlpg(0), 1, own), InScope);
        assert_eq!(of(&context, &invlpg(0), 4, own), InScope);
        assert_eq!(of(&context, &invlpg(0), 1, |_| ()), WrongVpid);
    }
    assert_eq!(of(&guest(5, None), &invlpg(0), 1, own), WrongVpid);
}

// INVVPID

#[test]
fn invvpid_wrong_kind_even_if_nothing_else_fits() {
    for kind in 0..=3 {
        let event = invvpid(kind, 5, 0);
        for record in [2, 5] {
            assert_eq!(of(&root(), &event, record, |_| ()), WrongKind);
            assert_eq!(of(&root(), &event, record, all_wrong), WrongKind);
        }
    }
}

#[test]
fn invvpid_type_0() {
    let event = invvpid(0, 5, 0);
    let with = |r| [r, WrongKind, r, r, WrongKind, r];
    assert_eq!(kinds(&root(), &event, all_wrong), with(WrongVpid));
    let far = |m: &mut M| {
        all_wrong(m);
        m.vpid = 5;
    };
    assert_eq!(kinds(&root(), &event, far), with(NotCovering));
    // All PCIDs and EP4TAs, global or not.
    let covers = |m: &mut M| {
        m.pcid = 2;
        m.ep4ta = 9;
        m.global = 1;
    };
    assert_eq!(kinds(&root(), &event, covers), with(InScope));
}

#[test]
fn invvpid_types_1_and_2() {
    let with = |r| [r, WrongKind, r, r, WrongKind, r];
    let global = |vpid| {
        move |m: &mut M| {
            all_wrong(m);
            m.vpid = vpid;
            m.global = 1;
        }
    };
    // Neither the address nor the global mark is tested.
    let event = invvpid(1, 5, ODD);
    assert_eq!(kinds(&root(), &event, global(6)), with(WrongVpid));
    assert_eq!(kinds(&root(), &event, global(0)), with(WrongVpid));
    assert_eq!(kinds(&root(), &event, global(5)), with(InScope));
    for named in [0, 5, 0xFFFF] {
        let event = invvpid(2, named, ODD);
        assert_eq!(kinds(&root(), &event, global(0)), with(WrongVpid));
        assert_eq!(kinds(&root(), &event, global(5)), with(InScope));
        assert_eq!(kinds(&root(), &event, global(6)), with(InScope));
    }
}

#[test]
fn invvpid_type_3() {
    let event = invvpid(3, 5, FAR);
    let global = |vpid| {
        move |m: &mut M| {
            m.vpid = vpid;
            m.global = 1;
        }
    };
    let with = |r| [r, WrongKind, r, r, WrongKind, r];
    assert_eq!(kinds(&root(), &event, global(6)), with(WrongVpid));
    assert_eq!(
        kinds(&root(), &event, global(5)),
        [
            SparedAsGlobal,
            WrongKind,
            SparedAsGlobal,
            InScope,
            WrongKind,
            InScope
        ]
    );
    assert_eq!(kinds(&root(), &event, |_| ()), with(InScope));
}

// INVEPT

#[test]
fn invept_types() {
    let with = |r| [WrongKind, r, r, WrongKind, r, r];
    let event = invept(1, EPTP, 0);
    assert_eq!(kinds(&root(), &event, all_wrong), with(WrongEp4ta));
    // VPIDs, PCIDs, pages and the global mark are not tested.
    let own = |m: &mut M| {
        all_wrong(m);
        m.ep4ta = EP4TA;
        m.global = 1;
    };
    assert_eq!(kinds(&root(), &event, own), with(InScope));
    // EPTPs that differ in bit 6 name the same EP4TA.
    let flagged = invept(1, EPTP | 0x40, 0);
    assert_eq!(kinds(&root(), &flagged, own), with(InScope));
    let all = invept(2, u64::MAX, 0);
    assert_eq!(kinds(&root(), &all, all_wrong), with(InScope));
}

// EPT violation

#[test]
fn violation_in_order() {
    let event = violation(0, 1, 0);
    let context = ept_guest();
    let each = |f: &dyn Fn(&mut M)| kinds(&context, &event, f);
    // Of kinds 2 and 5 the EP4TA and the guest-physical page are tested.
    let with = |r, s| [WrongKind, r, s, WrongKind, r, s];
    assert_eq!(each(&all_wrong), with(WrongEp4ta, WrongVpid));
    let own_vpid = |m: &mut M| {
        all_wrong(m);
        m.vpid = 5;
    };
    assert_eq!(each(&own_vpid), with(WrongEp4ta, WrongPcid));
    let own_pcid = |m: &mut M| {
        own_vpid(m);
        m.pcid = 1;
    };
    assert_eq!(each(&own_pcid), with(WrongEp4ta, WrongEp4ta));
    let own_ep4ta = |m: &mut M| {
        own_pcid(m);
        m.ep4ta = EP4TA;
    };
    assert_eq!(each(&own_ep4ta), with(NotCovering, NotCovering));
    assert_eq!(each(&|_| ()), with(InScope, InScope));
}

#[test]
fn violation_by_its_two_addresses() {
    let context = ept_guest();
    let linear_elsewhere = violation(0, 1, FAR);
    assert_eq!(
        kinds(&context, &linear_elsewhere, |_| ()),
        [
            WrongKind,
            InScope,
            NotCovering,
            WrongKind,
            InScope,
            NotCovering
        ]
    );
    let guest_elsewhere = violation(FAR, 1, 0);
    assert_eq!(
        kinds(&context, &guest_elsewhere, |_| ()),
        [
            WrongKind,
            NotCovering,
            InScope,
            WrongKind,
            NotCovering,
            InScope
        ]
    );
}

#[test]
fn violation_without_a_linear_address() {
    let context = ept_guest();
    for linear in [0, ODD] {
        let event = violation(0, 0, linear);
        assert_eq!(
            kinds(&context, &event, |_| ()),
            [WrongKind, InScope, WrongKind, WrongKind, InScope, WrongKind]
        );
        assert_eq!(
            kinds(&context, &event, all_wrong),
            [WrongKind, WrongEp4ta, WrongKind, WrongKind, WrongEp4ta, WrongKind]
        );
    }
}

#[test]
fn violation_and_globals() {
    let event = violation(0, 1, 0);
    let global = |pcid| {
        move |m: &mut M| {
            m.pcid = pcid;
            m.global = 1;
        }
    };
    assert_eq!(of(&ept_guest(), &event, 3, global(2)), WrongPcid);
    assert_eq!(of(&ept_guest(), &event, 3, global(1)), InScope);
    // Kinds 2 and 5 have neither VPID nor PCID.
    let context = Context {
        pcid: 7,
        ..guest(8, Some(EP4TA))
    };
    assert_eq!(of(&context, &event, 2, |_| ()), InScope);
    assert_eq!(of(&context, &event, 5, |_| ()), InScope);
}

// INVPCID and MOV to CR3 (Ask 5)

/// INVPCID types 1 to 3 do not look at the address, nor types 2 and 3 at the
/// PCID; here all of them name PCID 1.
#[test]
fn invpcid_wrong_kind_and_wrong_vpid_first() {
    let with = |r| [r, WrongKind, r, r, WrongKind, r];
    let global = |m: &mut M| {
        all_wrong(m);
        m.global = 1;
    };
    for (context, other) in [(ept_guest(), 0), (guest(5, None), 0), (root(), 5)] {
        for event in [
            invpcid(0, 1, 0),
            invpcid(1, 1, ODD),
            invpcid(2, 1, ODD),
            invpcid(3, 1, ODD),
            mov_to_cr3(1),
        ] {
            assert_eq!(kinds(&context, &event, all_wrong), with(WrongVpid));
            assert_eq!(kinds(&context, &event, global), with(WrongVpid));
            assert_eq!(kinds(&context, &event, |m| m.vpid = other), with(WrongVpid));
        }
    }
}

#[test]
fn invpcid_type_0_in_order() {
    // The current PCID, 1, is not the one that is named.
    let context = guest(5, None);
    let event = invpcid(0, 3, 0);
    let each = |f: &dyn Fn(&mut M)| kinds(&context, &event, f);
    let with = |r| [r, WrongKind, r, r, WrongKind, r];
    let own_vpid = |m: &mut M| {
        all_wrong(m);
        m.vpid = 5;
    };
    assert_eq!(each(&own_vpid), with(WrongPcid));
    assert_eq!(each(&|_| ()), with(WrongPcid));
    let own_pcid = |m: &mut M| {
        own_vpid(m);
        m.pcid = 3;
    };
    assert_eq!(each(&own_pcid), with(NotCovering));
    // Any EP4TA, with EPT off too.
    let covers = |m: &mut M| {
        m.pcid = 3;
        m.ep4ta = 9;
    };
    assert_eq!(each(&covers), with(InScope));
}

/// 9.6: "that PCID" and "not global" are two tests, and the cover is between
/// them. Structure caches count as not global.
#[test]
fn invpcid_and_globals() {
    let context = guest(5, None);
    let with = |r| [r, WrongKind, r, r, WrongKind, r];
    let spared = [
        SparedAsGlobal,
        WrongKind,
        SparedAsGlobal,
        InScope,
        WrongKind,
        InScope,
    ];
    let global = |pcid, page| {
        move |m: &mut M| {
            m.pcid = pcid;
            m.page = page;
            m.global = 1;
        }
    };
    let far = FAR >> 12;
    let each = |kind, f: &dyn Fn(&mut M)| kinds(&context, &invpcid(kind, 3, 0), f);
    assert_eq!(each(0, &global(2, 0)), with(WrongPcid));
    assert_eq!(each(0, &global(3, far)), with(NotCovering));
    assert_eq!(each(0, &global(3, 0)), spared);
    assert_eq!(each(1, &global(2, 0)), with(WrongPcid));
    assert_eq!(each(1, &global(3, far)), spared);
    for pcid in [1, 2, 3] {
        assert_eq!(each(2, &global(pcid, far)), with(InScope));
        assert_eq!(each(3, &global(pcid, far)), spared);
    }
}

#[test]
fn invpcid_types_1_to_3_not_global() {
    let with = |r| [r, WrongKind, r, r, WrongKind, r];
    let far = |pcid| {
        move |m: &mut M| {
            all_wrong(m);
            m.vpid = 5;
            m.pcid = pcid;
        }
    };
    let each = |kind, pcid| kinds(&ept_guest(), &invpcid(kind, 3, ODD), far(pcid));
    assert_eq!(each(1, 2), with(WrongPcid));
    assert_eq!(each(1, 3), with(InScope));
    for pcid in [1, 2, 3] {
        assert_eq!(each(2, pcid), with(InScope));
        assert_eq!(each(3, pcid), with(InScope));
    }
}

/// As INVPCID type 1 of the new PCID; the current one, 1, does not matter.
#[test]
fn mov_to_cr3_in_order() {
    let with = |r| [r, WrongKind, r, r, WrongKind, r];
    let spared = [
        SparedAsGlobal,
        WrongKind,
        SparedAsGlobal,
        InScope,
        WrongKind,
        InScope,
    ];
    let far = |pcid, global| {
        move |m: &mut M| {
            all_wrong(m);
            m.vpid = 5;
            m.pcid = pcid;
            m.global = global;
        }
    };
    for context in [guest(5, None), ept_guest(), guest(5, Some(8))] {
        let each = |pcid, global| kinds(&context, &mov_to_cr3(3), far(pcid, global));
        for pcid in [1, 2] {
            assert_eq!(each(pcid, 0), with(WrongPcid));
            assert_eq!(each(pcid, 1), with(WrongPcid));
        }
        assert_eq!(each(3, 0), with(InScope));
        assert_eq!(each(3, 1), spared);
    }
}

// VM entry, VM exit, reset

#[test]
fn entry_and_exit_without_vpids() {
    let with = |r| [r, WrongKind, r, r, WrongKind, r];
    let zero = |m: &mut M| {
        all_wrong(m);
        m.vpid = 0;
        m.global = 1;
    };
    for (context, event) in [
        (root(), entry(0, 5, 0, 0, 1, 0)),
        (root(), entry(0, 0, 1, EPTP, 1, 0)),
        (guest(0, None), exit(0)),
        (guest(0, Some(EP4TA)), exit(0)),
    ] {
        assert_eq!(kinds(&context, &event, |_| ()), with(WrongVpid));
        assert_eq!(kinds(&context, &event, zero), with(InScope));
    }
}

#[test]
fn reset_takes_everything() {
    for context in [outside(), root(), ept_guest(), with_cpl(root(), 3)] {
        assert_eq!(kinds(&context, &RESET, |_| ()), [InScope; 6]);
        assert_eq!(kinds(&context, &RESET, all_wrong), [InScope; 6]);
    }
}

// Random inputs

/// In scope is said exactly if the step drops the record, and a refusal
/// carries the step's number.
#[test]
fn in_scope_exactly_if_the_step_drops_the_record() {
    println!("seed {SEED}");
    let mut rng = Rng::new(SEED);
    let mut reached = [0; 11];
    let mut new = vec![0; TABLE_LIMIT];
    for number in 0..100_000 {
        let case = generate::explain(&mut rng);
        let reason = explain(&case.context, &case.record, &case.event);
        let shown = || format!("seed {SEED}, case {number}\n{case}\n{reason:?}");
        let step = step(&case.context, &case.record, &case.event, &mut new);
        if step.answer == 1 {
            assert_eq!(reason, Reason::refused(1), "{}", shown());
        } else if Mapping::decode(case.context.linear(), &case.record).is_none() {
            assert_eq!(reason, Reason::refused(3), "{}", shown());
        } else {
            let dropped = step.answer == 0 && step.dropped == 1;
            assert_eq!(reason == InScope, dropped, "{}", shown());
            assert_eq!(reason.answer(), step.answer, "{}", shown());
            assert_eq!(reason.rule(), step.rule, "{}", shown());
            assert_eq!(reason.number() == 1, step.answer != 0, "{}", shown());
        }
        reached[reason.number() as usize] += 1;
    }
    println!("reasons reached: {reached:?}");
    assert!(reached[1..].iter().all(|count| *count > 500));
}
