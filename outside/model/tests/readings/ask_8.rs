//! Document 02, Ask 8: the judge of another simulator's table.

use crate::common::*;
use model::{judge_claim, Context, Judgement, TABLE_LIMIT};
use Judgement::{Accepted, Malformed};

/// A of another VPID, and A of another page.
fn others() -> (Vec<u8>, Vec<u8>) {
    let (mut vpid, mut page) = (A.to_vec(), A.to_vec());
    vpid[1] = 6;
    page[7] = 0x46;
    (vpid, page)
}

fn refused(answer: u64) -> Judgement {
    Judgement::Refused { answer, rule: 0 }
}

fn unmatched(position: usize) -> Judgement {
    Judgement::Unmatched { position }
}

/// What is said of a claim after an event that drops nothing: a new PCID.
fn kept(table: &[&[u8]], claim: &[&[u8]]) -> Judgement {
    judge_claim(&root(), &table.concat(), &switch(2, 0), &claim.concat())
}

#[test]
fn r15_1_a_bad_table_before_is_refused() {
    let long = vec![0; TABLE_LIMIT + 1];
    for (table, answer) in [(&A[..16], 3), (&[0], 3), (&long, 2)] {
        for claim in [&A[..], &A[..16], &[]] {
            let judged = judge_claim(&root(), table, &RESET, claim);
            assert_eq!(judged, refused(answer));
        }
    }
}

#[test]
fn r15_1_a_malformed_claim() {
    let wide = m(7).bytes();
    for claim in [&A[..16], &[0], &[22], &wide] {
        assert_eq!(kept(&[&A], &[claim]), Malformed);
        assert_eq!(kept(&[&A], &[&A, claim]), Malformed);
    }
    // By its length alone: 2,944 structure caches fit, and one more does not.
    let full = m_outside(4).repeat(2_944);
    assert_eq!(full.len(), TABLE_LIMIT);
    assert_eq!(kept(&[&full], &[&full]), Accepted);
    assert_eq!(kept(&[&full], &[&full, &m_outside(4)]), Malformed);
    // At the context's width.
    let at = |linear_width, table: &[u8], claim: &[u8]| {
        judge_claim(&at_width(root(), linear_width), table, &switch(2, 0), claim)
    };
    assert_eq!(at(57, &wide, &wide), Accepted);
    assert_eq!(at(57, &wide, &A), Malformed);
    assert_eq!(at(57, &A, &A), refused(3));
    assert_eq!(at(48, &wide, &wide), refused(3));
}

#[test]
fn r15_2_the_order_of_grounds() {
    // Refused before malformed, whatever is wrong with the claim.
    let claim = [&A[..], &[0]].concat();
    assert_eq!(judge_claim(&root(), &A, &VMXON, &claim), refused(9));
    // Rubbish behind a record that has no match.
    let (other, _) = others();
    assert_eq!(kept(&[&A], &[&other]), unmatched(0));
    assert_eq!(kept(&[&A], &[&other, &[0]]), Malformed);
}

#[test]
fn r15_3_the_position_is_a_byte_of_the_claim() {
    let (vpid, page) = others();
    let table = [&A[..], &vpid, &page];
    for (claim, due) in [
        (&[][..], Accepted),
        (&[&A[..]], Accepted),
        (&[&vpid], Accepted),
        (&[&A, &page], Accepted),
        (&[&A, &vpid, &page], Accepted),
        // In another order.
        (&[&vpid, &A], unmatched(17)),
        (&[&page, &vpid], unmatched(17)),
        (&[&A, &page, &vpid], unmatched(34)),
        // Each record of the table is matched once.
        (&[&A, &A], unmatched(17)),
        (&[&A, &vpid, &page, &page], unmatched(51)),
        // Of another kind, and so of another length.
        (&[&m(4).bytes(), &A], unmatched(0)),
    ] {
        assert_eq!(kept(&table, claim), due, "{claim:x?}");
    }
    let structure = m(4).bytes();
    assert_eq!(kept(&[&structure, &A], &[&structure, &G]), unmatched(16));
}

#[test]
fn r15_3_the_earliest_match() {
    let (vpid, _) = others();
    // A, other, A: the first A is matched with the first, and so the other one
    // is still to come.
    let table = [&A[..], &vpid, &A];
    assert_eq!(kept(&table, &[&A, &vpid, &A]), Accepted);
    assert_eq!(kept(&table, &[&A, &A]), Accepted);
    assert_eq!(kept(&table, &[&A, &A, &vpid]), unmatched(34));
    assert_eq!(kept(&table, &[&vpid, &A, &A]), unmatched(34));
}

#[test]
fn r15_4_a_claim_may_lack_the_creation() {
    let context = guest(5, None);
    let (_, page) = others();
    let judge = |claim: &[u8]| judge_claim(&context, &A, &page, claim);
    assert_eq!(judge(&[&A[..], &page].concat()), Accepted);
    assert_eq!(judge(&A), Accepted);
    assert_eq!(judge(&page), Accepted);
    assert_eq!(judge(&[]), Accepted);
    assert_eq!(judge(&[&page[..], &A].concat()), unmatched(17));
    assert_eq!(judge(&[&A[..], &page, &page].concat()), unmatched(34));
}

#[test]
fn r15_5_a_creation_into_a_full_table() {
    let context = outside();
    let own = m_outside(4);
    for (records, answer) in [(2_943, 0), (2_944, 12)] {
        let table = own.repeat(records);
        let due = match answer {
            0 => Accepted,
            _ => refused(12),
        };
        for claim in [&table[..], &[], &own] {
            assert_eq!(judge_claim(&context, &table, &own, claim), due);
        }
    }
    // The claim's own length gives no room.
    let table = own.repeat(2_944);
    let judge = |event: &[u8]| judge_claim(&context, &table, event, &[]);
    assert_eq!(judge(&switch(1, 0)), Accepted);
}

/// What INVVPID takes cannot be claimed, and what it leaves can.
#[test]
fn what_an_event_takes() {
    let (vpid, page) = others();
    let table = [&A[..], &vpid, &page].concat();
    let judge = |claim: &[&[u8]]| judge_claim(&root(), &table, &invvpid(1, 5, 0), &claim.concat());
    assert_eq!(judge(&[&vpid]), Accepted);
    assert_eq!(judge(&[]), Accepted);
    assert_eq!(judge(&[&A, &vpid]), unmatched(0));
    assert_eq!(judge(&[&vpid, &page]), unmatched(17));
}

/// Each answer, with the rule of the EPTP where that is its ground.
#[test]
fn each_refusal() {
    let narrow = with_width(root(), 35);
    let user = with_cpl(root(), 3);
    let entered = |eptp| entry(1, 5, 1, eptp, 0, 0);
    let cases: [(Context, Vec<u8>, u64, u64); 11] = [
        (narrow, RESET.to_vec(), 1, 0),
        (root(), vec![], 4, 0),
        (outside(), invvpid(1, 5, 0), 5, 0),
        (ept_guest(), VMXON.to_vec(), 6, 0),
        (user, invlpg(0), 7, 0),
        (root(), invvpid(4, 5, 0), 8, 0),
        (root(), invept(1, EPTP | 0x80, 0), 8, 4),
        (root(), VMXON.to_vec(), 9, 0),
        (root(), entered(EPTP ^ 7), 10, 1),
        (root(), entry(1, 0, 1, EPTP ^ 7, 0, 0), 10, 0),
        (root(), A.to_vec(), 11, 0),
    ];
    for (context, event, answer, rule) in cases {
        for claim in [&A[..], &[], &[0]] {
            let judged = judge_claim(&context, &A, &event, claim);
            assert_eq!(judged, Judgement::Refused { answer, rule });
        }
    }
}
