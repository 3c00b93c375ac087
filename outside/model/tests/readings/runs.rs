//! Whole runs.

use crate::common::*;
use model::book::Book;

#[test]
fn r7_1_the_book_counts_by_note() {
    let mut book = Book::new(&outside());
    book.feed(&m_outside(1));
    book.feed(&m_outside(1));
    let verdict = book.feed(&invlpg(0));
    assert_eq!((verdict.answer, verdict.dropped), (0, 2));
    assert!(book.table().is_empty());
}

#[test]
fn r7_2_the_book_judges_in_the_noted_context() {
    let mut book = Book::new(&outside());
    for event in [
        VMXON.to_vec(),
        m_outside(1),
        entry(1, 5, 0, 0, 1, 0),
        A.to_vec(),
        exit(0), // noted in the guest of VPID 5: VPID 0 stays
    ] {
        assert_eq!(book.feed(&event).answer, 0);
    }
    assert_eq!(book.standing(), [1, 3]);
    assert_eq!(book.standing_by_notes(), [1, 3]);
    assert_eq!(book.context(), &root());
}

#[test]
fn r7_6_a_run_at_a_bad_width() {
    for width in [0, 35, 53, u64::MAX] {
        let context = with_width(outside(), width);
        let mut book = Book::new(&context);
        for event in [&VMXON[..], &RESET, &[], &A] {
            assert_eq!(book.feed(event).answer, 1);
            assert_eq!(answer(&context, &[], event), 1);
        }
        assert!(book.notes().is_empty());
    }
}
