//! Records and tables.

use crate::common::*;
use model::LinearWidth::Bits48;
use model::{lookup, Address, TABLE_LIMIT};

#[test]
fn r2_1_spans() {
    for kind in 1..=6 {
        for span in 0..=255 {
            let record = M { span, ..m(kind) }.bytes();
            let valid = if kind <= 3 {
                span <= 2
            } else {
                (1..=3).contains(&span)
            };
            assert_eq!(answer(&root(), &record, &RESET) == 0, valid);
        }
    }
}

#[test]
fn r2_2_page_is_below_2_to_the_36() {
    for kind in 1..=6 {
        let ask = |page| answer(&root(), &M { page, ..m(kind) }.bytes(), &RESET);
        assert_eq!(ask((1 << 36) - 512), 0);
        for bit in 36..40 {
            assert_eq!(ask(1 << bit), 3);
        }
    }
}

#[test]
fn r2_2_page_is_a_multiple() {
    for kind in 1..=6 {
        for span in 0..=3 {
            if (kind <= 3 && span == 3) || (kind > 3 && span == 0) {
                continue;
            }
            for bit in 0..36 {
                let page = 1 << bit;
                let record = M {
                    span,
                    page,
                    ..m(kind)
                }
                .bytes();
                let expected = if bit < 9 * span { 3 } else { 0 };
                assert_eq!(answer(&root(), &record, &RESET), expected);
            }
        }
    }
}

#[test]
fn r2_3_lengths_and_offsets() {
    let lengths: Vec<usize> = (1..=6).map(|kind| m(kind).bytes().len()).collect();
    assert_eq!(lengths, [17, 17, 22, 16, 17, 21]);
    for kind in 0..=255u8 {
        let length = model::mapping::length(Bits48, kind);
        let expected = lengths.get(usize::from(kind).wrapping_sub(1)).copied();
        assert_eq!(length, expected);
    }
}

#[test]
fn r2_4_ep4ta_and_frame_are_any_five_bytes() {
    for kind in 1..=6 {
        let mut record = M {
            ep4ta: (1 << 40) - 1,
            ..m(kind)
        }
        .bytes();
        let frame = if kind == 4 || kind == 6 { 11 } else { 12 };
        record[frame..frame + 5].fill(0xFF);
        assert_eq!(answer(&with_width(root(), 36), &record, &RESET), 0);
    }
}

#[test]
fn r2_5_any_bad_record_is_3() {
    let bad = M {
        pcid: 4_096,
        ..m(1)
    }
    .bytes();
    for table in [
        [&A[..], &bad, &G].concat(),
        [&bad[..], &A].concat(),
        [&A[..], &bad].concat(),
        A[..16].to_vec(),
        [&A[..], &G[..1]].concat(),
        [&A[..], &[0]].concat(),
        vec![7; 17],
        vec![22],
    ] {
        assert_eq!(answer(&root(), &table, &RESET), 3);
        assert_eq!(lookup(&root(), &table, Address::Linear(0), 0), (3, None));
    }
    assert_eq!(answer(&root(), &[], &RESET), 0);
}

#[test]
fn r2_6_length_goes_before_validity() {
    let full = m(4).bytes().repeat(TABLE_LIMIT / 16);
    assert_eq!(full.len(), TABLE_LIMIT);
    let (step, _) = run(&root(), &full, &RESET);
    assert_eq!((step.answer, step.dropped), (0, 2_944));
    let rubbish = vec![0; TABLE_LIMIT + 1];
    assert_eq!(answer(&root(), &rubbish, &RESET), 2);
    assert_eq!(lookup(&root(), &rubbish, Address::Linear(0), 0), (2, None));
    assert_eq!(answer(&root(), &rubbish[1..], &RESET), 3);
}

#[test]
fn r2_7_equal_records_stand_twice() {
    let (step, new) = run(&guest(5, None), &A, &A);
    assert_eq!((step.answer, step.dropped, step.length), (0, 0, 34));
    assert_eq!(new, [A, A].concat());
    let (step, _) = run(&root(), &new, &invvpid(1, 5, 0));
    assert_eq!((step.dropped, step.length), (2, 0));
}

#[test]
fn r2_8_cover_at_the_ends_of_each_span() {
    for kind in 1..=6 {
        for span in 0..=3 {
            if (kind <= 3 && span == 3) || (kind > 3 && span == 0) {
                continue;
            }
            let size = 1 << (9 * span);
            let page = 5 * size;
            let record = M {
                span,
                page,
                ..m(kind)
            }
            .bytes();
            let goes = |page: u64| {
                let context = ept_guest();
                let event = violation(page << 12, 1, page << 12);
                let by_violation = drops(&context, &record, &event);
                if kind == 2 || kind == 5 {
                    return by_violation;
                }
                let by_invvpid = drops(&root(), &record, &invvpid(0, 5, page << 12));
                let by_invlpg = drops(&context, &record, &invlpg(page << 12));
                // INVLPG takes structure caches whatever they cover.
                assert_eq!(by_invlpg, by_invvpid || kind > 3);
                if kind == 1 || kind == 4 {
                    assert!(!by_violation);
                } else {
                    assert_eq!(by_violation, by_invvpid);
                }
                by_invvpid
            };
            assert!(!goes(page - 1));
            assert!(goes(page));
            assert!(goes(page + size - 1));
            assert!(!goes(page + size));
        }
    }
}
