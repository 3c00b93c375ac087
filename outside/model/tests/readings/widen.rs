//! Document 02, Ask 12: the converter.

use crate::common::*;
use generate::{hex, Rng};
use model::mapping::records;
use model::LinearWidth::{Bits48, Bits57};
use model::{tuned, usable, widen, Address, Context, Widened, TABLE_LIMIT};

const SEED: u64 = 20_260_101;

/// The converter into a buffer of this length: the plain one, which must agree
/// with the tuned one. Hands back the answer and the new table; the rest of the
/// buffer must stay, and all of it on a refusal.
fn into(table: &[u8], room: usize) -> (u64, Vec<u8>) {
    let mut new = vec![0xA5; room];
    let mut other = new.clone();
    let widened = widen(table, &mut new);
    assert_eq!(widened, tuned::widen(table, &mut other));
    assert_eq!(new, other);
    assert!(new[widened.length..].iter().all(|byte| *byte == 0xA5));
    if widened.answer != 0 {
        assert_eq!(widened, Widened::refused(widened.answer));
    }
    new.truncate(widened.length);
    (widened.answer, new)
}

/// The new table, which must be accepted.
fn widened(table: &[u8]) -> Vec<u8> {
    let (answer, new) = into(table, TABLE_LIMIT);
    assert_eq!(answer, 0);
    new
}

fn answer_of(table: &[u8]) -> u64 {
    into(table, 2 * TABLE_LIMIT).0
}

#[test]
fn r18_3_each_kind_by_hand() {
    // A: kind 7, and a sixth byte of its page.
    let due = [
        0x07, 0x05, 0x00, 0x01, 0x00, 0x00, 0x00, 0x45, 0x23, 0x01, 0x00, 0x00, 0x00, 0xDE, 0xBC,
        0x0A, 0x00, 0x00,
    ];
    assert_eq!(widened(&A), due);
    // VPID 605h, PCID 102h, global, span 1, page 12200h, frame 8765432101h,
    // EP4TA F987654321h.
    let combined = [
        0x03, 0x05, 0x06, 0x02, 0x01, 0x01, 0x01, 0x00, 0x22, 0x01, 0x00, 0x00, 0x01, 0x21, 0x43,
        0x65, 0x87, 0x21, 0x43, 0x65, 0x87, 0xF9,
    ];
    let due = [
        0x08, 0x05, 0x06, 0x02, 0x01, 0x01, 0x01, 0x00, 0x22, 0x01, 0x00, 0x00, 0x00, 0x01, 0x21,
        0x43, 0x65, 0x87, 0x21, 0x43, 0x65, 0x87, 0xF9,
    ];
    assert_eq!(widened(&combined), due);
    // VPID 605h, PCID 102h, span 3, page 10000000h, structure 8765432101h.
    let structure = [
        0x04, 0x05, 0x06, 0x02, 0x01, 0x03, 0x00, 0x00, 0x00, 0x10, 0x00, 0x01, 0x21, 0x43, 0x65,
        0x87,
    ];
    let due = [
        0x09, 0x05, 0x06, 0x02, 0x01, 0x03, 0x00, 0x00, 0x00, 0x10, 0x00, 0x00, 0x01, 0x21, 0x43,
        0x65, 0x87,
    ];
    assert_eq!(widened(&structure), due);
    let ep4ta = [0x21, 0x43, 0x65, 0x87, 0xF9];
    let mut combined = [&structure[..], &ep4ta].concat();
    combined[0] = 6;
    let mut due = [&due[..], &ep4ta].concat();
    due[0] = 10;
    assert_eq!(widened(&combined), due);
    assert_eq!(widened(&G), G);
    assert_eq!(widened(&m(5).bytes()), m(5).bytes());
}

#[test]
fn r18_6_pages_of_the_upper_half() {
    // The page at 48 bits, and its six bytes at 57.
    for (page, due) in [
        (0, [0, 0, 0, 0, 0, 0]),
        (1 << 27, [0, 0, 0, 0x08, 0, 0]),
        ((1 << 35) - (1 << 27), [0, 0, 0, 0xF8, 0x07, 0]),
        (1 << 35, [0, 0, 0, 0, 0xF8, 0x1F]),
        ((1 << 35) + (1 << 27), [0, 0, 0, 0x08, 0xF8, 0x1F]),
        ((1 << 36) - (1 << 27), [0, 0, 0, 0xF8, 0xFF, 0x1F]),
    ] {
        for (kind, wide, at) in [(1, 7, 7), (3, 8, 7), (4, 9, 6), (6, 10, 6)] {
            let old = M { page, ..m(kind) }.bytes();
            let new = widened(&old);
            assert_eq!(new[at..at + 6], due, "{kind}, {page:#x}");
            // All else stays.
            assert_eq!(new[0], wide);
            assert_eq!(new[1..at], old[1..at]);
            assert_eq!(new[at + 6..], old[at + 5..]);
        }
        for kind in [2, 5] {
            let old = M { page, ..m(kind) }.bytes();
            assert_eq!(widened(&old), old, "{kind}, {page:#x}");
        }
    }
    // Span 0: the last page of the lower half, the first and last of the upper.
    for (page, due) in [
        ((1 << 35) - 1, [0xFF, 0xFF, 0xFF, 0xFF, 0x07, 0]),
        (1 << 35, [0, 0, 0, 0, 0xF8, 0x1F]),
        ((1 << 36) - 1, [0xFF, 0xFF, 0xFF, 0xFF, 0xFF, 0x1F]),
    ] {
        let old = M { page, ..m(1) }.bytes();
        assert_eq!(widened(&old)[7..13], due, "{page:#x}");
        let old = M { page, ..m(2) }.bytes();
        assert_eq!(widened(&old), old, "{page:#x}");
    }
}

#[test]
fn in_order() {
    let table = [
        m(6).bytes(),
        G.to_vec(),
        A.to_vec(),
        A.to_vec(),
        m(5).bytes(),
        m(3).bytes(),
        m(4).bytes(),
    ]
    .concat();
    let due = [
        m(10).bytes(),
        G.to_vec(),
        widened(&A),
        widened(&A),
        m(5).bytes(),
        m(8).bytes(),
        m(9).bytes(),
    ]
    .concat();
    assert_eq!(widened(&table), due);
    assert_eq!(into(&[], 0), (0, vec![]));
    assert_eq!(into(&[], 10), (0, vec![]));
}

#[test]
fn r18_5_the_old_table_is_a_48_bit_one() {
    let bad = M {
        pcid: 4_096,
        ..m(1)
    }
    .bytes();
    for table in [
        [&A[..], &bad, &G].concat(),
        A[..16].to_vec(),
        [&A[..], &[0]].concat(),
        [&A[..], &[1]].concat(),
        vec![0],
        vec![22],
        m(7).bytes(),
        [&A[..], &m(8).bytes()].concat(),
        [&m(9).bytes()[..], &A].concat(),
        m(10).bytes(),
        M { span: 4, ..m(4) }.bytes(),
        M { span: 3, ..m(1) }.bytes(),
        M { span: 0, ..m(6) }.bytes(),
        M {
            page: 1 << 36,
            ..m(3)
        }
        .bytes(),
        M { page: 513, ..m(4) }.bytes(),
        widened(&A),
    ] {
        // 3 goes before 12.
        for room in [0, 1, TABLE_LIMIT] {
            assert_eq!(into(&table, room).0, 3, "{}", hex(&table));
        }
    }
}

#[test]
fn the_length_goes_before_validity() {
    assert_eq!(answer_of(&[0; 47_105]), 2);
    assert_eq!(answer_of(&[0; 47_104]), 3);
    let full = m(4).bytes().repeat(2_944);
    assert_eq!(full.len(), 47_104);
    assert_eq!(answer_of(&full), 12);
    assert_eq!(answer_of(&[&full[..], &[4]].concat()), 2);
    assert_eq!(answer_of(&[0; 100_000]), 2);
    assert_eq!(into(&[0; 47_105], 0).0, 2);
}

#[test]
fn a_result_longer_than_the_limit() {
    // So many records fit at 57 bits: 23, 22, 18 and 17 bytes each.
    for (kind, most) in [(3, 2_048), (6, 2_141), (1, 2_616), (4, 2_770)] {
        let record = m(kind).bytes();
        let table = record.repeat(most);
        assert_eq!(widened(&table).len(), (record.len() + 1) * most);
        for room in [TABLE_LIMIT, TABLE_LIMIT + 1, 100_000] {
            assert_eq!(into(&record.repeat(most + 1), room).0, 12);
        }
    }
    // 2,048 records of kind 8 are the limit to the byte.
    assert_eq!(widened(&m(3).bytes().repeat(2_048)).len(), 47_104);
    // Kinds 2 and 5 gain nothing: all that a table holds fits.
    let table = G.repeat(2_770);
    assert_eq!(widened(&table), table);
    let table = [&table[..17 * 2_769], &A].concat();
    assert_eq!(widened(&table).len(), 47_091);
}

#[test]
fn a_result_longer_than_the_buffer() {
    let table = [&A[..], &G, &m(3).bytes()].concat();
    let due = widened(&table);
    assert_eq!((table.len(), due.len()), (56, 58));
    for room in 0..58 {
        assert_eq!(into(&table, room).0, 12);
    }
    for room in [58, 59, 1_000, 100_000] {
        assert_eq!(into(&table, room), (0, due.clone()));
    }
}

/// The new table is valid at 57 bits, and an address that is canonical at 48 has
/// the same usable records as before.
#[test]
fn the_same_records_are_usable() {
    println!("seed {SEED}");
    let mut rng = Rng::new(SEED);
    let (mut found, mut upper) = (0, 0);
    for _ in 0..20_000 {
        let narrow = at_width(generate::context(&mut rng), 48);
        let count = rng.below(8);
        let table = generate::table(&mut rng, &narrow, count);
        let new = widened(&table);
        let all = [
            records(Bits48, &table).expect("a valid table"),
            records(Bits57, &new).expect("a valid table"),
        ];
        assert_eq!(all[0].len(), all[1].len());
        for _ in 0..4 {
            let address = generate::address(&mut rng, 48);
            if matches!(address, Address::Linear(number) if !Bits48.canonical(number)) {
                continue;
            }
            let numbers = |nth: usize, context: &Context, table: &[u8]| -> Vec<usize> {
                let places = usable(context, table, address);
                let number = |start| all[nth].iter().position(|(own, _)| own.start == start);
                places.iter().filter_map(|own| number(own.start)).collect()
            };
            let due = numbers(0, &narrow, &table);
            let got = numbers(1, &at_width(narrow, 57), &new);
            assert_eq!(got, due, "{address:x?}\n{}", hex(&table));
            found += due.len();
            let high = matches!(address, Address::Linear(number) if number >> 63 == 1);
            upper += if high { due.len() } else { 0 };
        }
    }
    println!("{found} usable, {upper} of them in the upper half");
    assert!(found > 5_000 && upper > 200);
}
