//! Document 02, Ask 7: the tally beside the table.

use crate::common::*;
use model::book::Book;
use model::event::Event;
use model::tally::carried;
use model::LinearWidth::{Bits48, Bits57};
use model::{count, explain, lookup, print, replay};
use model::{Address, Context, Kinds, Reason, Step, Tally, PCIDS, TABLE_LIMIT};

/// The counts of a table: those of kinds by row (from 0) and span, and those
/// of PCIDs. All others are 0.
fn tally(cells: &[(usize, usize, u16)], pcids: &[(usize, u16)]) -> Tally {
    let mut tally = Tally::empty();
    for (row, span, count) in cells {
        tally.kinds[*row][*span] = *count;
    }
    for (pcid, count) in pcids {
        tally.pcids[*pcid] = *count;
    }
    tally
}

/// A counted step into a buffer with just enough room.
fn counted(
    context: &Context,
    own: &Tally,
    table: &[u8],
    event: &[u8],
) -> (u64, usize, Tally, Vec<u8>) {
    let room = table.len() + event.len();
    let (step, after, new) = counted_into(context, own, table, event, room);
    (step.answer, step.dropped, after, new)
}

/// The answer with a tally that may be wrong.
fn answer_with(context: &Context, own: &Tally, table: &[u8], event: &[u8]) -> u64 {
    counted(context, own, table, event).0
}

/// One of each kind at a width, VPID 5 and PCID 1, and two more of the first.
fn eight_records(context: &Context) -> Vec<u8> {
    let kinds = kinds_of(context);
    let mut table: Vec<u8> = kinds.iter().flat_map(|kind| m(*kind).bytes()).collect();
    table.extend(m(kinds[0]).bytes());
    table.extend(m(kinds[0]).bytes());
    table
}

/// Its tally: translations have span 0 and structure caches span 1.
fn of_eight_records() -> Tally {
    tally(
        &[
            (0, 0, 3),
            (1, 0, 1),
            (2, 0, 1),
            (3, 1, 1),
            (4, 1, 1),
            (5, 1, 1),
        ],
        &[(1, 6)],
    )
}

fn both_widths(context: Context) -> [Context; 2] {
    [48, 57].map(|linear_width| at_width(context, linear_width))
}

// What is counted

#[test]
fn the_shape_of_a_tally() {
    let empty = Tally::empty();
    assert_eq!(empty.kinds, [[0; 5]; 6]);
    assert_eq!((PCIDS, empty.pcids.len()), (4_096, 4_096));
    assert!(empty.pcids.iter().all(|count| *count == 0));
    for width in [Bits48, Bits57] {
        assert_eq!(count(width, &[]), Ok(empty.clone()));
    }
}

#[test]
fn the_cards_tally() {
    let due = tally(&[(0, 0, 1), (1, 0, 1)], &[(1, 1)]);
    assert_eq!(count(Bits48, &[A, G].concat()), Ok(due.clone()));
    assert_eq!(count(Bits48, &[G, A].concat()), Ok(due));
    // Equal records stand twice, and count twice.
    let twice = tally(&[(0, 0, 2)], &[(1, 2)]);
    assert_eq!(count(Bits48, &[A, A].concat()), Ok(twice));
}

#[test]
fn each_kind_has_its_row_and_each_span_its_place() {
    for (kind, row, spans) in [
        (1, 0, 0..=2),
        (2, 1, 0..=2),
        (3, 2, 0..=2),
        (4, 3, 1..=3),
        (5, 4, 1..=3),
        (6, 5, 1..=3),
        // r14.6: as their siblings, and span 4.
        (7, 0, 0..=2),
        (8, 2, 0..=2),
        (9, 3, 1..=4),
        (10, 5, 1..=4),
    ] {
        for span in spans {
            let record = M { span, ..m(kind) }.bytes();
            let pcids: &[(usize, u16)] = match kind {
                2 | 5 => &[],
                _ => &[(1, 1)],
            };
            let due = tally(&[(row, span as usize, 1)], pcids);
            let width = if kind >= 7 { Bits57 } else { Bits48 };
            assert_eq!(count(width, &record), Ok(due.clone()), "kind {kind}");
            if kind == 2 || kind == 5 {
                assert_eq!(count(Bits57, &record), Ok(due), "kind {kind}");
            }
        }
    }
}

#[test]
fn r14_6_the_same_counts_at_both_widths() {
    for context in both_widths(root()) {
        let table = eight_records(&context);
        assert_eq!(count(context.linear(), &table), Ok(of_eight_records()));
    }
}

#[test]
fn r14_3_pcids() {
    // Under its own PCID, whatever its VPID, its EP4TA and its global mark.
    for (kind, width) in [
        (1, Bits48),
        (3, Bits48),
        (4, Bits48),
        (6, Bits48),
        (7, Bits57),
        (8, Bits57),
        (9, Bits57),
        (10, Bits57),
    ] {
        for pcid in [0, 1, 255, 256, 4_095] {
            for (vpid, global) in [(0, 0), (5, 1), (65_535, 0)] {
                let record = M {
                    vpid,
                    pcid,
                    global,
                    ..m(kind)
                };
                let got = count(width, &record.bytes()).unwrap();
                let due = tally(&[], &[(pcid as usize, 1)]);
                assert_eq!(got.pcids, due.pcids, "kind {kind}, PCID {pcid}");
            }
        }
    }
    // The EP4TA of kinds 2 and 5 stands where the others have their PCID.
    for kind in [2, 5] {
        for ep4ta in [0, 0x01_0101_0101, u64::MAX >> 24] {
            let record = M { ep4ta, ..m(kind) }.bytes();
            for width in [Bits48, Bits57] {
                let got = count(width, &record).unwrap();
                assert_eq!(got.pcids, Tally::empty().pcids, "kind {kind}");
            }
        }
    }
}

#[test]
fn r14_8_the_largest_counts() {
    let full = m(4).bytes().repeat(2_944);
    assert_eq!(full.len(), TABLE_LIMIT);
    let due = tally(&[(3, 1, 2_944)], &[(1, 2_944)]);
    assert_eq!(count(Bits48, &full), Ok(due.clone()));
    let (answer, dropped, after, _) = counted(&root(), &due, &full, &RESET);
    assert_eq!((answer, dropped, after), (0, 2_944, Tally::empty()));
}

#[test]
fn what_has_no_count() {
    let long = vec![0; TABLE_LIMIT + 1];
    for (width, other) in [(Bits48, 7), (Bits57, 1)] {
        assert_eq!(count(width, &long), Err(2));
        assert_eq!(count(width, &A[..16]), Err(3));
        assert_eq!(count(width, &m(other).bytes()), Err(3));
        assert_eq!(count(width, &[0; 17]), Err(3));
    }
}

// The order of the answers

/// The inputs of a step that has this answer, if its tally matches.
struct Asked {
    answer: u64,
    context: Context,
    table: Vec<u8>,
    event: Vec<u8>,
    room: usize,
}

/// Steps for each answer but 13.
fn one_of_each() -> Vec<Asked> {
    let of = |answer, context, event: &[u8]| Asked {
        answer,
        context,
        table: [A, G].concat(),
        event: event.to_vec(),
        room: TABLE_LIMIT,
    };
    let with_table = |answer, table| Asked {
        table,
        ..of(answer, root(), &RESET)
    };
    let with_room = |room, asked| Asked { room, ..asked };
    vec![
        of(0, root(), &RESET),
        of(0, guest(5, None), &A),
        of(1, with_cpl(root(), 4), &RESET),
        with_table(2, vec![0; TABLE_LIMIT + 1]),
        with_table(3, A[..16].to_vec()),
        of(4, root(), &[]),
        of(4, root(), &switch(4_096, 0)),
        of(5, outside(), &VMXOFF),
        of(6, guest(5, None), &VMXON),
        of(7, with_cpl(root(), 1), &invlpg(0)),
        of(7, root(), &invpcid(4, 0, 0)),
        of(8, root(), &invvpid(4, 5, 0)),
        of(8, root(), &invept(1, 0, 0)),
        of(9, root(), &VMXON),
        of(10, root(), &entry(1, 0, 0, 0, 0, 0)),
        of(10, root(), &entry(1, 5, 1, 0, 0, 0)),
        of(11, root(), &A),
        with_room(33, of(12, root(), &RESET)),
        with_room(50, of(12, guest(5, None), &A)),
    ]
}

/// A counted step of these.
fn counted_of(asked: &Asked, own: &Tally) -> (Step, Tally, Vec<u8>) {
    counted_into(&asked.context, own, &asked.table, &asked.event, asked.room)
}

#[test]
fn r14_1_order_of_the_answers() {
    let right = tally(&[(0, 0, 1), (1, 0, 1)], &[(1, 1)]);
    let mut wrongs = vec![Tally::empty()];
    wrongs.push(tally(&[(0, 0, 1), (1, 0, 1), (3, 0, 1)], &[(1, 1)]));
    wrongs.push(tally(&[(0, 0, 1), (1, 0, 1)], &[(2, 1)]));
    let short = right.pcids[1..].to_vec();
    wrongs.push(Tally {
        pcids: short,
        ..right.clone()
    });
    for asked in one_of_each() {
        let answer = asked.answer;
        assert_eq!(counted_of(&asked, &right).0.answer, answer);
        for wrong in &wrongs {
            let (step, after, new) = counted_of(&asked, wrong);
            let due = if (1..=4).contains(&answer) {
                answer
            } else {
                13
            };
            assert_eq!(step.answer, due, "instead of {answer}");
            assert_eq!((step.rule, step.length, step.dropped), (0, 0, 0));
            assert_eq!(step.context, asked.context);
            // r14.4: wrong as it is.
            assert_eq!(&after, wrong);
            assert!(new.is_empty());
        }
    }
}

#[test]
fn a_bad_eptp_is_not_the_ground_of_13() {
    let event = invept(1, EPTP | 7, 0);
    let (step, ..) = counted_into(&root(), &Tally::empty(), &[], &event, 0);
    assert_eq!((step.answer, step.rule), (8, 1));
    let wrong = tally(&[], &[(0, 1)]);
    let (step, ..) = counted_into(&root(), &wrong, &[], &event, 0);
    assert_eq!((step.answer, step.rule), (13, 0));
}

// What does not match

#[test]
fn r14_2_every_count_is_compared() {
    for context in both_widths(root()) {
        let table = eight_records(&context);
        let right = of_eight_records();
        assert_eq!(answer_with(&context, &right, &table, &VMXOFF), 0);
        for row in 0..6 {
            // Span 4 at 48 bits too, and others that no record has.
            for span in 0..5 {
                for by in [1, u16::MAX, 256, 1 << 15] {
                    let mut wrong = right.clone();
                    let cell = &mut wrong.kinds[row][span];
                    *cell = cell.wrapping_add(by);
                    let got = answer_with(&context, &wrong, &table, &VMXOFF);
                    assert_eq!(got, 13, "row {row}, span {span}, by {by}");
                }
            }
        }
        for pcid in (0..PCIDS).step_by(5).chain([0, 1, 2, 4_094, 4_095]) {
            for by in [1, u16::MAX] {
                let mut wrong = right.clone();
                wrong.pcids[pcid] = wrong.pcids[pcid].wrapping_add(by);
                let got = answer_with(&context, &wrong, &table, &VMXOFF);
                assert_eq!(got, 13, "PCID {pcid}, by {by}");
            }
        }
    }
}

#[test]
fn counts_in_the_wrong_place() {
    for context in both_widths(root()) {
        let table = eight_records(&context);
        let right = of_eight_records();
        // Moved by one between two PCIDs, and all of them.
        for (to, count) in [(0, 1), (2, 1), (4_095, 1), (257, 6)] {
            let mut wrong = right.clone();
            wrong.pcids[1] -= count;
            wrong.pcids[to] += count;
            assert_eq!(answer_with(&context, &wrong, &table, &RESET), 13);
        }
        // Two rows swapped: one of equal rows matches still.
        for one in 0..6 {
            for other in 0..one {
                let mut wrong = right.clone();
                wrong.kinds.swap(one, other);
                let same = right.kinds[one] == right.kinds[other];
                let due = if same { 0 } else { 13 };
                assert_eq!(answer_with(&context, &wrong, &table, &RESET), due);
            }
        }
        // Two spans of a row swapped.
        for row in 0..6 {
            for span in 1..5 {
                let mut wrong = right.clone();
                wrong.kinds[row].swap(0, span);
                let same = wrong == right;
                let due = if same { 0 } else { 13 };
                assert_eq!(answer_with(&context, &wrong, &table, &RESET), due);
            }
        }
    }
}

#[test]
fn a_list_of_another_length() {
    let right = Tally::empty();
    for length in [0, 1, 4_095, 4_097, 8_192] {
        let wrong = Tally {
            pcids: vec![0; length],
            ..right.clone()
        };
        assert_eq!(answer_with(&root(), &wrong, &[], &RESET), 13);
        // After 4 all the same.
        assert_eq!(answer_with(&root(), &wrong, &[], &[]), 4);
    }
    assert_eq!(answer_with(&root(), &right, &[], &RESET), 0);
}

#[test]
fn the_tally_of_another_table() {
    let right = tally(&[(0, 0, 1), (1, 0, 1)], &[(1, 1)]);
    let table = [A, G].concat();
    for (other, due) in [
        ([G, A].concat(), 0),
        (A.to_vec(), 13),
        (Vec::new(), 13),
        ([A, G, A].concat(), 13),
        ([A, A].concat(), 13),
    ] {
        assert_eq!(answer_with(&root(), &right, &other, &RESET), due);
    }
    assert_eq!(answer_with(&root(), &Tally::empty(), &table, &RESET), 13);
}

// What is carried on

#[test]
fn the_card_with_a_tally() {
    let right = tally(&[(0, 0, 1), (1, 0, 1)], &[(1, 1)]);
    let table = [A, G].concat();
    let (answer, dropped, after, new) = counted(&root(), &right, &table, &invvpid(1, 5, 0));
    assert_eq!((answer, dropped), (0, 1));
    assert_eq!(new, G);
    assert_eq!(after, tally(&[(1, 0, 1)], &[]));
    let (answer, dropped, after, new) = counted(&root(), &after, &new, &invept(2, 0, 0));
    assert_eq!((answer, dropped), (0, 1));
    assert!(new.is_empty());
    assert_eq!(after, Tally::empty());
}

#[test]
fn creations_are_added() {
    for (context, kind, row) in [
        (guest(5, None), 1, 0),
        (ept_guest(), 2, 1),
        (ept_guest(), 3, 2),
        (guest(5, None), 4, 3),
        (ept_guest(), 5, 4),
        (ept_guest(), 6, 5),
    ] {
        for context in both_widths(context) {
            let mapping = m(kinds_of(&context)[kind - 1]);
            let span = mapping.span as usize;
            let pcid = if kind == 2 || kind == 5 { 0 } else { 1 };
            let own = m(2).bytes();
            let before = tally(&[(1, 0, 1)], &[]);
            let (answer, _, after, new) = counted(&context, &before, &own, &mapping.bytes());
            assert_eq!(answer, 0);
            let mut due = before.clone();
            due.kinds[row][span] += 1;
            due.pcids[1] += pcid;
            assert_eq!(after, due, "kind {kind}");
            // Once more, on what was left.
            let (answer, _, after, _) = counted(&context, &after, &new, &mapping.bytes());
            due.kinds[row][span] += 1;
            due.pcids[1] += pcid;
            assert_eq!((answer, after), (0, due), "kind {kind}");
        }
    }
}

/// A global record of another PCID that INVLPG takes goes off its own PCID.
#[test]
fn a_global_record_goes_off_its_own_pcid() {
    let global = M {
        pcid: 7,
        global: 1,
        ..m(1)
    };
    let table = [m(1).bytes(), global.bytes()].concat();
    let before = tally(&[(0, 0, 2)], &[(1, 1), (7, 1)]);
    let context = guest(5, None);
    let (answer, dropped, after, _) = counted(&context, &before, &table, &invlpg(0));
    assert_eq!((answer, dropped, after), (0, 2, Tally::empty()));
    let (answer, dropped, after, new) = counted(&context, &before, &table, &invpcid(1, 1, 0));
    assert_eq!((answer, dropped), (0, 1));
    assert_eq!(new, global.bytes());
    assert_eq!(after, tally(&[(0, 0, 1)], &[(7, 1)]));
}

/// Events without a scope leave the counts, and a reset leaves none.
#[test]
fn events_that_drop_nothing_or_all() {
    for context in both_widths(root()) {
        let table = eight_records(&context);
        let right = of_eight_records();
        for event in [
            VMXOFF.to_vec(),
            switch(1, 0),
            entry(1, 5, 1, EPTP, 0, 0),
            invlpg(0),
        ] {
            let (answer, dropped, after, new) = counted(&context, &right, &table, &event);
            assert_eq!((answer, dropped, &after, &new), (0, 0, &right, &table));
        }
        let (answer, dropped, after, new) = counted(&context, &right, &table, &RESET);
        assert_eq!((answer, dropped, new.len()), (0, 8, 0));
        assert_eq!(after, Tally::empty());
    }
}

#[test]
fn a_refused_step_leaves_the_tally() {
    let right = tally(&[(0, 0, 1), (1, 0, 1)], &[(1, 1)]);
    for asked in one_of_each() {
        let (step, after, _) = counted_of(&asked, &right);
        assert_eq!(step.answer, asked.answer);
        // Counts of both accepted ones change.
        assert_eq!(after == right, step.answer != 0);
    }
}

/// By adding what was created and taking off what was dropped.
#[test]
fn carried_by_hand() {
    let right = of_eight_records();
    let table = eight_records(&root());
    let event = Event::decode(Bits48, &invvpid(1, 5, 0)).unwrap();
    let due = tally(&[(1, 0, 1), (4, 1, 1)], &[]);
    assert_eq!(carried(&root(), &right, &table, &event), due);
    let created = Event::decode(Bits48, &m_outside(4)).unwrap();
    let mut due = right.clone();
    due.kinds[3][1] = 2;
    due.pcids[0] = 1;
    assert_eq!(carried(&root(), &right, &table, &created), due);
}

/// Demand 3's second run: what is taken out between steps goes off its tally,
/// or the next step is 13.
#[test]
fn r7_5_what_a_second_run_drops() {
    let table = [A, G, A].concat();
    let mut own = tally(&[(0, 0, 2), (1, 0, 1)], &[(1, 2)]);
    let left = [G, A].concat();
    assert_eq!(answer_with(&root(), &own, &left, &VMXOFF), 13);
    let taken = model::mapping::records(Bits48, &table).unwrap()[0].1;
    own.take_off(&taken);
    assert_eq!(own, tally(&[(0, 0, 1), (1, 0, 1)], &[(1, 1)]));
    assert_eq!(answer_with(&root(), &own, &left, &VMXOFF), 0);
    own.add(&taken);
    assert_eq!(answer_with(&root(), &own, &table, &VMXOFF), 0);
}

/// r14.5: no tally is asked for elsewhere.
#[test]
fn r14_5_where_there_is_no_13() {
    assert_eq!(explain(&root(), &A, &invvpid(1, 5, 0)), Reason::InScope);
    let address = Address::Linear(0x1234_5678);
    assert_eq!(
        lookup(&guest(5, None), &A, address, 0),
        (0, Some(0..A.len()))
    );
    let mut book = Book::new(&outside());
    assert_eq!(book.feed(&m_outside(1)).answer, 0);
    assert_eq!(book.feed(&invlpg(0)).answer, 0);
    let log = [&m_outside(1)[..], &m_outside(4), &RESET].concat();
    let printed = print(replay(&log).as_deref());
    assert_eq!(printed, "1 0 0 17\n2 0 0 33\n3 0 2 0\n");
}

/// The rows have the kinds' numbers less one, and the spans are not turned.
#[test]
fn rows_are_not_turned() {
    let table = [
        M { span: 3, ..m(4) }.bytes(),
        M { span: 2, ..m(1) }.bytes(),
        M { span: 1, ..m(6) }.bytes(),
    ]
    .concat();
    let due: Kinds = [
        [0, 0, 1, 0, 0],
        [0; 5],
        [0; 5],
        [0, 0, 0, 1, 0],
        [0; 5],
        [0, 1, 0, 0, 0],
    ];
    assert_eq!(count(Bits48, &table).unwrap().kinds, due);
}
