//! Document 02, Ask 5: INVPCID and MOV to CR3 without bit 63. Their reasons are
//! in reasons.rs.

use crate::common::*;
use generate::{hex, Rng};
use model::book::Book;
use model::{print, replay, step, tuned, Context};
use model::{PROGRAM_CAPABILITY, TABLE_LIMIT};

const SEED: u64 = 20_260_101;

/// An address of a page that no record of `m` covers.
const FAR: u64 = 1 << 30;

/// Every place, with the VPID that is current there.
fn places() -> [(Context, u64); 6] {
    [
        (outside(), 0),
        (root(), 0),
        (guest(0, None), 0),
        (guest(5, None), 5),
        (ept_guest(), 5),
        (guest(5, Some(9)), 5),
    ]
}

/// A record that can be created outside VMX under a PCID.
fn of_pcid(kind: u64, pcid: u64) -> Vec<u8> {
    M {
        vpid: 0,
        pcid,
        ..m(kind)
    }
    .bytes()
}

// Answers

#[test]
fn r12_1_a_type_above_3() {
    for kind in 0..=3 {
        assert_eq!(answer(&root(), &[], &invpcid(kind, 5, 0)), 0);
    }
    for kind in [4, 5, 0x100, 0x101, 1 << 16, 1 << 32, (1 << 32) + 1] {
        assert_eq!(answer(&root(), &[], &invpcid(kind, 5, 0)), 7);
    }
    for bit in 2..64 {
        for low in 0..=3 {
            assert_eq!(answer(&root(), &[], &invpcid(low | 1 << bit, 5, 0)), 7);
        }
    }
}

#[test]
fn r12_1_reserved_bits_of_every_type() {
    for kind in 0..=3 {
        for bit in 12..64 {
            for pcid in [0, 5, 4_095] {
                let event = invpcid(kind, pcid | 1 << bit, 0);
                assert_eq!(answer(&root(), &[], &event), 7);
            }
        }
        for bit in 0..12 {
            assert_eq!(answer(&root(), &[], &invpcid(kind, 1 << bit, 0)), 0);
        }
        assert_eq!(answer(&root(), &[], &invpcid(kind, 4_095, 0)), 0);
        assert_eq!(answer(&root(), &[], &invpcid(kind, 4_096, 0)), 7);
        assert_eq!(answer(&root(), &[], &invpcid(kind, u64::MAX, 0)), 7);
    }
}

#[test]
fn r12_1_a_canonical_address_for_type_0_alone() {
    for address in [ODD, 1 << 48, 1 << 63, 0xFFFF_7FFF_FFFF_FFFF] {
        assert_eq!(answer(&root(), &[], &invpcid(0, 5, address)), 7);
        for kind in 1..=3 {
            assert_eq!(answer(&root(), &[], &invpcid(kind, 5, address)), 0);
        }
    }
    for address in [0, 0x0000_7FFF_FFFF_FFFF, 0xFFFF_8000_0000_0000, u64::MAX] {
        assert_eq!(answer(&root(), &[], &invpcid(0, 5, address)), 0);
    }
}

#[test]
fn r12_1_cpl_0_for_both_kinds() {
    for (context, _) in places() {
        for cpl in 1..=3 {
            let user = with_cpl(context, cpl);
            for kind in 0..=4 {
                assert_eq!(answer(&user, &[], &invpcid(kind, 5, 0)), 7);
            }
            assert_eq!(answer(&user, &[], &mov_to_cr3(1)), 7);
            // Its twin with bit 63 goes at any CPL.
            assert_eq!(answer(&user, &[], &switch(1, 0)), 0);
        }
    }
}

#[test]
fn r12_1_pcid_4096_is_4_in_kind_27() {
    for pcid in [0, 1, 4_095] {
        assert_eq!(answer(&root(), &[], &mov_to_cr3(pcid)), 0);
    }
    for pcid in [4_096, 4_097, 1 << 13, 1 << 14, 1 << 15, 0xFFFF] {
        assert_eq!(answer(&root(), &[], &mov_to_cr3(pcid)), 4);
        // 4 goes before 7.
        assert_eq!(answer(&with_cpl(root(), 3), &[], &mov_to_cr3(pcid)), 4);
        assert_eq!(answer(&root(), &[], &invpcid(1, pcid, 0)), 7);
    }
}

#[test]
fn r12_2_fine_in_every_place() {
    for (context, _) in places() {
        for capability in [PROGRAM_CAPABILITY, 0, u64::MAX] {
            let context = Context {
                capability,
                ..context
            };
            for kind in 0..=3 {
                assert_eq!(answer(&context, &[], &invpcid(kind, 5, 0)), 0);
            }
            assert_eq!(answer(&context, &[], &mov_to_cr3(5)), 0);
        }
    }
}

#[test]
fn the_order_of_document_01_stands() {
    for event in [invpcid(1, 1, 0), mov_to_cr3(1)] {
        let user = with_cpl(root(), 3);
        assert_eq!(answer(&with_width(user, 53), &[0], &event), 1);
        assert_eq!(answer(&user, &[0; TABLE_LIMIT + 1], &event), 2);
        assert_eq!(answer(&user, &[0], &event), 3);
        assert_eq!(answer(&user, &A, &event[..event.len() - 1]), 4);
        assert_eq!(answer(&user, &A, &[&event[..], &[0]].concat()), 4);
        assert_eq!(run_into(&user, &A, &event, 0).0.answer, 7);
        // Room for the old table, though the event may drop it.
        assert_eq!(run_into(&root(), &A, &event, 16).0.answer, 12);
        assert_eq!(run_into(&guest(5, None), &A, &event, 16).0.answer, 12);
        assert_eq!(run_into(&guest(5, None), &A, &event, 17).0.answer, 0);
    }
    let bad = invpcid(4, 1, 0);
    assert_eq!(run_into(&root(), &A, &bad, 0).0.answer, 7);
}

// Scopes

#[test]
fn type_0_takes_the_pcid_where_it_covers() {
    let context = guest(5, None);
    let taken = |event: &[u8], f: &dyn Fn(&mut M)| kinds_dropped(&context, event, f);
    assert_eq!(taken(&invpcid(0, 1, 0), &|_| ()), [1, 3, 4, 6]);
    assert_eq!(taken(&invpcid(0, 2, 0), &|_| ()), []);
    assert_eq!(taken(&invpcid(0, 1, FAR), &|_| ()), []);
    // Structure caches count as not global.
    assert_eq!(taken(&invpcid(0, 1, 0), &|m| m.global = 1), [4, 6]);
    assert_eq!(taken(&invpcid(0, 1, FAR), &|m| m.global = 1), []);
    assert_eq!(taken(&invpcid(0, 2, 0), &|m| m.global = 1), []);
}

/// Structure caches have the cover test too (10.1).
#[test]
fn type_0_at_the_ends_of_each_span() {
    for kind in [1, 3, 4, 6] {
        let spans = if kind <= 3 { 0..=2 } else { 1..=3 };
        for span in spans {
            let size = 1 << (9 * span);
            let page = 5 * size;
            let record = M {
                span,
                page,
                ..m(kind)
            }
            .bytes();
            let goes = |page: u64| drops(&ept_guest(), &record, &invpcid(0, 1, page << 12));
            assert!(!goes(page - 1));
            assert!(goes(page));
            assert!(goes(page + size - 1));
            assert!(!goes(page + size));
        }
    }
    let upper = M {
        page: (1 << 36) - 1,
        ..m(1)
    };
    assert!(drops(
        &guest(5, None),
        &upper.bytes(),
        &invpcid(0, 1, u64::MAX)
    ));
}

#[test]
fn type_1_takes_the_pcid_but_globals() {
    for address in [0, FAR, ODD, u64::MAX] {
        let taken = |pcid, global| {
            kinds_dropped(&guest(5, None), &invpcid(1, pcid, address), |m| {
                m.global = global;
            })
        };
        assert_eq!(taken(1, 0), [1, 3, 4, 6]);
        assert_eq!(taken(1, 1), [4, 6]);
        assert_eq!(taken(2, 0), []);
        assert_eq!(taken(2, 1), []);
    }
}

/// PCIDs that share a byte are not the same.
#[test]
fn all_twelve_bits_of_the_pcid_are_named() {
    let context = guest(5, None);
    for (named, own) in [(0x101, 1), (1, 0x101), (0x801, 1), (0x101, 0x100)] {
        for event in [
            invpcid(0, named, 0),
            invpcid(1, named, 0),
            mov_to_cr3(named),
        ] {
            let taken = |pcid| kinds_dropped(&context, &event, |m| m.pcid = pcid);
            assert_eq!(taken(own), []);
            assert_eq!(taken(named), [1, 3, 4, 6]);
        }
    }
}

#[test]
fn r12_5_types_2_and_3_take_every_pcid_of_the_current_vpid() {
    for (context, vpid) in places() {
        for named in [0, 1, 4_095] {
            let taken = |kind, vpid, pcid, global| {
                kinds_dropped(&context, &invpcid(kind, named, ODD), |m| {
                    m.vpid = vpid;
                    m.pcid = pcid;
                    m.global = global;
                })
            };
            for pcid in [0, 1, 2, 4_095] {
                for global in [0, 1] {
                    assert_eq!(taken(2, vpid, pcid, global), [1, 3, 4, 6]);
                    for other in [5 - vpid, 6, vpid | 0x100] {
                        assert_eq!(taken(2, other, pcid, global), []);
                        assert_eq!(taken(3, other, pcid, global), []);
                    }
                }
                assert_eq!(taken(3, vpid, pcid, 0), [1, 3, 4, 6]);
            }
        }
    }
}

#[test]
fn r12_4_type_3_takes_structure_caches_and_spares_globals() {
    let global = |m: &mut M| m.global = 1;
    for (context, vpid) in places() {
        let own = |m: &mut M| {
            global(m);
            m.vpid = vpid;
        };
        assert_eq!(kinds_dropped(&context, &invpcid(3, 0, 0), own), [4, 6]);
        assert_eq!(
            kinds_dropped(&context, &invpcid(2, 0, 0), own),
            [1, 3, 4, 6]
        );
    }
}

#[test]
fn the_current_vpid_and_any_ep4ta() {
    for (context, vpid) in places() {
        for event in [
            invpcid(0, 7, 0),
            invpcid(1, 7, 0),
            invpcid(2, 7, 0),
            invpcid(3, 7, 0),
            mov_to_cr3(7),
        ] {
            let taken = |vpid, ep4ta| {
                kinds_dropped(&context, &event, |m| {
                    m.vpid = vpid;
                    m.pcid = 7;
                    m.ep4ta = ep4ta;
                })
            };
            for ep4ta in [EP4TA, 9, 0, (1 << 40) - 1] {
                assert_eq!(taken(vpid, ep4ta), [1, 3, 4, 6]);
                for other in [5 - vpid, 6, vpid | 0x100] {
                    assert_eq!(taken(other, ep4ta), []);
                }
            }
        }
    }
}

#[test]
fn r12_3_mov_to_cr3_takes_the_new_pcids_records() {
    // PCID 1 is current in a guest and 0 elsewhere.
    for (context, vpid) in places() {
        let taken = |pcid, global| {
            kinds_dropped(&context, &mov_to_cr3(2), |m| {
                m.vpid = vpid;
                m.pcid = pcid;
                m.global = global;
            })
        };
        assert_eq!(taken(2, 0), [1, 3, 4, 6]);
        assert_eq!(taken(2, 1), [4, 6]);
        for pcid in [context.pcid, 3, 0x102] {
            assert_eq!(taken(pcid, 0), []);
            assert_eq!(taken(pcid, 1), []);
        }
    }
    // The current PCID again.
    assert_eq!(
        kinds_dropped(&guest(5, None), &mov_to_cr3(1), |_| ()),
        [1, 3, 4, 6]
    );
}

// The context after

#[test]
fn r12_3_mov_to_cr3_makes_its_pcid_current() {
    for (context, _) in places() {
        for pcid in [0, 1, 2, 4_095] {
            let (step, _) = run(&context, &[], &mov_to_cr3(pcid));
            assert_eq!(step.context, Context { pcid, ..context });
        }
        for kind in 0..=3 {
            let (step, _) = run(&context, &[], &invpcid(kind, 9, 0));
            assert_eq!(step.context, context);
        }
    }
}

#[test]
fn r12_3_its_twin_drops_nothing() {
    for pcid in [1, 2] {
        let taken = kinds_dropped(&guest(5, None), &switch(pcid, 0), |_| ());
        assert_eq!(taken, []);
    }
}

// Book and replay

#[test]
fn the_book_knows_both_kinds() {
    let mut book = Book::new(&outside());
    let global = M {
        vpid: 0,
        pcid: 3,
        global: 1,
        ..m(1)
    }
    .bytes();
    for (event, dropped) in [
        (of_pcid(1, 0), 0),
        (of_pcid(4, 0), 0),
        (switch(3, 0), 0),
        (of_pcid(1, 3), 0),
        (global, 0),
        (mov_to_cr3(0), 2), // PCID 0's two, not PCID 3's
        (of_pcid(1, 0), 0),
        (mov_to_cr3(3), 1), // not the global one
        (of_pcid(4, 3), 0),
        (invpcid(3, 0, 0), 2), // PCID 0's, and the structure cache of PCID 3
        (invpcid(2, 0, 0), 1), // the global one
    ] {
        let verdict = book.feed(&event);
        assert_eq!((verdict.answer, verdict.dropped), (0, dropped));
        assert_eq!(book.standing(), book.standing_by_notes());
    }
    assert!(book.table().is_empty());
    assert_eq!(book.context().pcid, 3);
}

#[test]
fn a_replay_knows_both_kinds() {
    let log = [
        of_pcid(1, 0),
        mov_to_cr3(2),
        of_pcid(1, 2),
        invpcid(0, 0, ODD), // 7, and goes on
        mov_to_cr3(4_096),  // 4, and goes on
        invpcid(0, 0, 0),
        of_pcid(1, 0), // 11: PCID 2 is current
        mov_to_cr3(2),
        invpcid(0, 0, 0)[..24].to_vec(), // cut
    ]
    .concat();
    assert_eq!(
        print(replay(&log).as_deref()),
        "1 0 0 17\n2 0 0 17\n3 0 0 34\n4 7 0 34\n5 4 0 34\n6 0 1 17\n7 11 0 17\n8 0 1 0\n9 4 0 0\n"
    );
}

// Random inputs

/// An event of kind 26 or 27, or one that differs from it in one field.
fn event(rng: &mut Rng, context: &Context) -> Vec<u8> {
    let kind = rng.pick(&[26, 26, 27]);
    let event = generate::event_of_kind(rng, context, kind);
    if !rng.one_in(4) {
        return event;
    }
    let near = generate::near_events(&event);
    near[rng.below(near.len())].clone()
}

#[test]
fn the_tuned_step_does_the_same() {
    println!("seed {SEED}");
    let mut rng = Rng::new(SEED);
    let (mut accepted, mut dropping, mut refused) = (0, 0, 0);
    for number in 0..50_000 {
        let context = generate::context(&mut rng);
        let count = rng.below(20);
        let table = generate::table(&mut rng, &context, count);
        let event = event(&mut rng, &context);
        let new = vec![0xA5; (table.len() + rng.below(3)).saturating_sub(1)];
        let (mut plain, mut fast) = (new.clone(), new);
        let expected = step(&context, &table, &event, &mut plain);
        let got = tuned::step(&context, &table, &event, &mut fast);
        let shown = || format!("seed {SEED}, {number}: {context:x?}\n{}", hex(&event));
        assert_eq!(expected, got, "{}", shown());
        assert_eq!(plain, fast, "{}", shown());
        accepted += usize::from(expected.answer == 0);
        dropping += usize::from(expected.dropped > 0);
        refused += usize::from(expected.answer == 7);
    }
    println!("{accepted} accepted, {dropping} dropped something, {refused} gave 7");
    assert!(accepted > 5_000 && dropping > 2_000 && refused > 5_000);
}

#[test]
fn runs_with_both_kinds_against_the_book() {
    println!("seed {SEED}");
    let mut rng = Rng::new(SEED);
    let mut dropped = 0;
    for number in 0..40 {
        let start = at_width(outside(), rng.pick(&[48, 57]));
        let mut book = Book::new(&start);
        let mut context = *book.context();
        let mut table = Vec::new();
        for other in generate::events(&mut rng, context.linear_width, 200) {
            let own = event(&mut rng, &context);
            for event in [own, other] {
                let mut new = vec![0; TABLE_LIMIT];
                let step = step(&context, &table, &event, &mut new);
                let verdict = book.feed(&event);
                let got = (step.answer, step.rule, step.dropped);
                let due = (verdict.answer, verdict.rule, verdict.dropped);
                let shown = || format!("seed {SEED}, run {number}: {}", hex(&event));
                assert_eq!(got, due, "{}", shown());
                if step.answer == 0 {
                    context = step.context;
                    new.truncate(step.length);
                    table = new;
                }
                assert_eq!(&context, book.context(), "{}", shown());
                assert_eq!(table, book.table(), "{}", shown());
                assert_eq!(book.standing(), book.standing_by_notes(), "{}", shown());
                if matches!(event.first(), Some(26 | 27)) {
                    dropped += step.dropped;
                }
            }
        }
    }
    println!("{dropped} dropped by the two kinds");
    assert!(dropped > 200);
}
