//! Document 02, Ask 2.

use crate::common::*;
use model::book::Book;

#[test]
fn r10_1_invlpg_takes_structure_caches_of_any_page() {
    let far = 1 << 30;
    for (context, vpid) in [
        (outside(), 0),
        (root(), 0),
        (guest(0, None), 0),
        (guest(5, None), 5),
        (ept_guest(), 5),
        (guest(5, Some(9)), 5),
    ] {
        let taken = |vpid, pcid| {
            kinds_dropped(&context, &invlpg(far), |mapping| {
                mapping.vpid = vpid;
                mapping.pcid = pcid;
                mapping.ep4ta = 99;
            })
        };
        assert_eq!(taken(vpid, context.pcid), [4, 6]);
        assert_eq!(taken(vpid, 2), []);
        assert_eq!(taken(5 - vpid, context.pcid), []);
    }
}

#[test]
fn r10_1_other_events_keep_the_cover_test() {
    let far = 1 << 30;
    assert_eq!(kinds_dropped(&root(), &invvpid(0, 5, far), |_| ()), []);
    let event = violation(far, 1, far);
    assert_eq!(kinds_dropped(&ept_guest(), &event, |_| ()), []);
}

#[test]
fn r10_1_a_canonical_address_is_still_needed() {
    let own = |mapping: &mut M| mapping.page = 1 << 35;
    for address in [ODD, 1 << 63, 0xFFFF_7FFF_FFFF_FFFF] {
        assert_eq!(kinds_dropped(&guest(5, None), &invlpg(address), own), []);
    }
}

#[test]
fn r10_1_the_book_reads_the_new_scope() {
    let mut book = Book::new(&outside());
    book.feed(&m_outside(1));
    book.feed(&m_outside(4));
    let verdict = book.feed(&invlpg(1 << 30));
    assert_eq!((verdict.answer, verdict.dropped), (0, 1));
    assert_eq!(book.table(), m_outside(1));
    assert_eq!(book.standing_by_notes(), [0]);
}
