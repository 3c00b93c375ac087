//! Document 02, Ask 10: two levels of TLB.

use crate::common::*;
use model::levels::{lookup_levels, step_levels, After, Found, Level, LevelStep};
use model::{Context, Tally, TABLE_LIMIT};

/// A table with its tally and a new buffer.
#[derive(Clone)]
struct Own {
    tally: Tally,
    table: Vec<u8>,
    new: Vec<u8>,
}

/// A table with its own tally, and a buffer of the limit.
fn own(context: &Context, table: &[u8]) -> Own {
    with_room(context, table, TABLE_LIMIT)
}

fn with_room(context: &Context, table: &[u8], room: usize) -> Own {
    Own {
        tally: matching(context, table),
        table: table.to_vec(),
        new: vec![0xA5; room],
    }
}

/// A step of both levels. A refusal must leave all as it was, and an accepted step
/// leave of each level what its own step leaves.
fn stepped(context: &Context, event: &[u8], mut first: Own, mut second: Own) -> LevelStep {
    let before = [first.clone(), second.clone()];
    fn level(own: &mut Own) -> Level<'_> {
        Level {
            tally: &mut own.tally,
            table: &own.table,
            new: &mut own.new,
        }
    }
    let step = step_levels(context, event, level(&mut first), level(&mut second));
    let afters = [step.first, step.second];
    for ((own, before), after) in [first, second].iter().zip(&before).zip(afters) {
        if step.answer != 0 {
            assert!(own.tally == before.tally && own.new == before.new);
            assert_eq!(after, After::default());
            continue;
        }
        let room = before.new.len();
        let (alone, new) = run_into(context, &before.table, event, room);
        assert_eq!((alone.answer, alone.context), (0, step.context));
        assert_eq!((alone.length, alone.dropped), (after.length, after.dropped));
        assert_eq!(own.new[..after.length], new);
        assert!(own.new[after.length..].iter().all(|byte| *byte == 0xA5));
        assert!(own.tally == matching(&step.context, &new));
    }
    if step.answer != 0 {
        assert_eq!(step.context, *context);
    } else {
        assert_eq!(step.rule, 0);
    }
    step
}

fn after(length: usize, dropped: usize) -> After {
    After { length, dropped }
}

/// A creation goes into both, and each counts what it drops itself.
#[test]
fn both_are_stepped() {
    let context = guest(5, None);
    let step = stepped(&context, &A, own(&context, &[]), own(&context, &A));
    assert_eq!((step.answer, step.first), (0, after(17, 0)));
    assert_eq!(step.second, after(34, 0));
    let root = root();
    let (few, many) = ([A, G].concat(), [A, G, A, A].concat());
    let event = invvpid(1, 5, 0);
    let step = stepped(&root, &event, own(&root, &few), own(&root, &many));
    assert_eq!((step.first, step.second), (after(17, 1), after(17, 3)));
    // The context after it is one.
    let step = stepped(&root, &VMXOFF, own(&root, &A), own(&root, &[]));
    assert_eq!((step.answer, step.context), (0, outside()));
    assert_eq!((step.first, step.second), (after(17, 0), after(0, 0)));
}

/// A level whose answer to a creation of A in a guest with VPID 5, PCID 1 and EPT off
/// is this number.
fn answering(context: &Context, answer: u64) -> Own {
    match answer {
        0 => own(context, &A),
        2 => own(context, &vec![0; TABLE_LIMIT + 1]),
        3 => own(context, &A[..16]),
        12 => with_room(context, &A, 33),
        13 => Own {
            tally: Tally::empty(),
            ..own(context, &A)
        },
        _ => unreachable!("{answer}"),
    }
}

/// The number is the first table's if that is not 0, else the second's, and not the
/// lower of the two.
#[test]
fn r16_1_every_pair_of_answers() {
    let context = guest(5, None);
    let numbers = [0, 2, 3, 12, 13];
    for one in numbers {
        for two in numbers {
            let levels = (answering(&context, one), answering(&context, two));
            let step = stepped(&context, &A, levels.0, levels.1);
            let due = if one != 0 { one } else { two };
            assert_eq!((step.answer, step.rule), (due, 0), "{one} and {two}");
        }
    }
    // Those that the context and the event alone decide are the same in both; but 2,
    // 3 and 13 of one may go before them.
    for (context, event, number) in [
        (with_cpl(outside(), 4), VMXON.to_vec(), 1),
        (outside(), vec![0], 4),
        (outside(), VMXOFF.to_vec(), 5),
        (context, VMXON.to_vec(), 6),
        (with_cpl(outside(), 1), VMXON.to_vec(), 7),
        (root(), invvpid(4, 5, 0), 8),
        (root(), VMXON.to_vec(), 9),
        (root(), entry(1, 0, 0, 0, 0, 0), 10),
        (root(), A.to_vec(), 11),
    ] {
        for other in numbers {
            // 12 goes behind all of them, and 13 behind 4.
            let before = match number {
                1 => false,
                4 => matches!(other, 2 | 3),
                _ => matches!(other, 2 | 3 | 13),
            };
            let pair = |first, second| {
                let levels = (answering(&context, first), answering(&context, second));
                stepped(&context, &event, levels.0, levels.1).answer
            };
            assert_eq!(pair(0, other), number, "first 0, second {other}");
            let due = if before { other } else { number };
            assert_eq!(pair(other, 0), due, "first {other}, second 0");
        }
    }
}

/// The rule goes with the table whose answer is given.
#[test]
fn r13_3_the_rule() {
    let root = root();
    let bad = entry(1, 5, 1, EPTP | 1 << 7, 0, 0);
    let levels = |first, second| (answering(&root, first), answering(&root, second));
    for (pair, due) in [
        (levels(0, 0), (10, 4)),
        (levels(0, 3), (10, 4)),
        (levels(0, 13), (10, 4)),
        (levels(3, 0), (3, 0)),
        (levels(13, 0), (13, 0)),
    ] {
        let step = stepped(&root, &bad, pair.0, pair.1);
        assert_eq!((step.answer, step.rule), due);
    }
}

/// Room is judged for each against its own buffer.
#[test]
fn each_has_its_own_room() {
    let context = guest(5, None);
    for (first, second, due) in [(17, 34, 0), (16, 34, 12), (17, 33, 12), (0, 0, 12)] {
        let small = with_room(&context, &[], first);
        let large = with_room(&context, &A, second);
        assert_eq!(stepped(&context, &A, small, large).answer, due);
    }
    // A reset of the second needs the room of its old table.
    let short = with_room(&context, &A, 16);
    let step = stepped(&context, &RESET, own(&context, &[]), short);
    assert_eq!(step.answer, 12);
    // A full second table refuses a creation for both.
    let full = m(1).bytes().repeat(2_770);
    let step = stepped(&context, &A, own(&context, &[]), own(&context, &full));
    assert_eq!(step.answer, 12);
}

#[test]
fn r16_2_a_refused_table_empties_the_lookup() {
    let context = guest(5, None);
    let long = vec![0; TABLE_LIMIT + 1];
    let at = |first: &[u8], second: &[u8]| lookup_levels(&context, first, second, 0x1234_5678);
    let found = |level, place| Some(Found { level, place });
    assert_eq!(at(&A, &[]), (0, found(1, 0..17)));
    for (bad, number) in [(&A[..16], 3), (&long, 2), (&m(7).bytes(), 3)] {
        assert_eq!(at(&A, bad), (number, None));
        assert_eq!(at(bad, &A), (number, None));
    }
    // The first's, not the lower one.
    assert_eq!(at(&A[..16], &long), (3, None));
    assert_eq!(at(&long, &A[..16]), (2, None));
    let bad = with_cpl(context, 4);
    assert_eq!(lookup_levels(&bad, &A[..16], &long, 0), (1, None));
}

#[test]
fn r16_3_translations_of_linear_addresses_alone() {
    let page = |kind, page| M { page, ..m(kind) }.bytes();
    let found = |level, place| Some(Found { level, place });
    for linear_width in [48, 57] {
        let plain = at_width(guest(5, None), linear_width);
        let [linear, _, combined, structure, _, both] = kinds_of(&plain);
        // A structure cache that covers the page is skipped, before and behind.
        let cache = m(structure).bytes();
        let (near, far) = (page(linear, 1), page(linear, 2));
        let (length, skipped) = (near.len(), cache.len());
        let at = |first: &[&[u8]], second: &[&[u8]], address| {
            lookup_levels(&plain, &first.concat(), &second.concat(), address).1
        };
        assert_eq!(at(&[&cache], &[&cache], 0x1000), None);
        let due = found(1, skipped..skipped + length);
        assert_eq!(at(&[&cache, &near, &near], &[&near], 0x1000), due);
        // From the second where the first has none there.
        let due = found(2, skipped..skipped + length);
        assert_eq!(at(&[&cache, &far], &[&cache, &near], 0x1FFF), due);
        assert_eq!(
            at(&[&far], &[&far, &near], 0x1000),
            found(2, length..2 * length)
        );
        assert_eq!(at(&[], &[&near], 0x2000), None);
        assert_eq!(at(&[], &[], 0x1000), None);
        // Not canonical; guest-physical records never serve.
        assert_eq!(at(&[&near], &[&near], 1 << 63 | 0x1000), None);
        let ept = at_width(ept_guest(), linear_width);
        let tables = [m(2).bytes(), m(5).bytes(), m(both).bytes()].concat();
        assert_eq!(lookup_levels(&ept, &tables, &tables, 0), (0, None));
        let with = [&tables[..], &m(combined).bytes()].concat();
        let place = tables.len()..with.len();
        assert_eq!(lookup_levels(&ept, &tables, &with, 0), (0, found(2, place)));
        // A linear translation does not serve with EPT in use.
        assert_eq!(lookup_levels(&ept, &m(linear).bytes(), &[], 0), (0, None));
    }
}

/// The second level alone has what the first no longer holds.
#[test]
fn a_global_record_and_another_pcid() {
    let context = Context {
        pcid: 2,
        ..guest(5, None)
    };
    let global = M { global: 1, ..m(1) }.bytes();
    let place = Some(Found {
        level: 2,
        place: 0..17,
    });
    let own = m(1).bytes();
    assert_eq!(lookup_levels(&context, &own, &global, 0), (0, place));
}

/// Both report 0 and 0, and the context is as it came.
#[test]
fn r16_4_a_refusal_writes_nothing() {
    let context = guest(5, None);
    let step = stepped(&context, &A, own(&context, &A), own(&context, &A[..3]));
    let due = LevelStep {
        answer: 3,
        rule: 0,
        context,
        first: after(0, 0),
        second: after(0, 0),
    };
    assert_eq!(step, due);
}
