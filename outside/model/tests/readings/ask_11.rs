//! Document 02, Ask 11: fixed rows, out and in.

use crate::common::*;
use model::rows::ROW;
use model::{export, import, tuned, Converted, TABLE_LIMIT};

/// One of the two calls.
type Call = fn(u64, &[u8], &mut [u8]) -> Converted;

/// A call into a buffer of this length: the plain one, which must agree with the
/// tuned one. Hands back what it says and what it wrote; the rest of the buffer
/// must stay, and all of it on a refusal.
fn into(calls: [Call; 2], width: u64, input: &[u8], room: usize) -> (Converted, Vec<u8>) {
    let mut written = vec![0xA5; room];
    let mut other = written.clone();
    let converted = calls[0](width, input, &mut written);
    assert_eq!(converted, calls[1](width, input, &mut other));
    assert_eq!(written, other);
    let Converted {
        answer,
        row,
        length,
    } = converted;
    assert!(written[length..].iter().all(|byte| *byte == 0xA5));
    assert!(answer == 0 || length == 0);
    assert!(answer == 4 || row == 0);
    written.truncate(length);
    (converted, written)
}

const EXPORTS: [Call; 2] = [export, tuned::export];
const IMPORTS: [Call; 2] = [import, tuned::import];

/// More room than any call needs.
const ROOM: usize = 100_000;

fn refused(answer: u64) -> (Converted, Vec<u8>) {
    (Converted::refused(answer), vec![])
}

/// Answer 4 for this row.
fn bad_row(row: u64) -> (Converted, Vec<u8>) {
    let (refused, nothing) = refused(4);
    (Converted { row, ..refused }, nothing)
}

/// The rows of a table, which must be accepted.
fn exported(width: u64, table: &[u8]) -> Vec<u8> {
    let (converted, rows) = into(EXPORTS, width, table, ROOM);
    assert_eq!((converted.answer, converted.row), (0, 0));
    rows
}

/// The table of rows, which must be accepted.
fn imported(width: u64, rows: &[u8]) -> Vec<u8> {
    let (converted, table) = into(IMPORTS, width, rows, ROOM);
    assert_eq!((converted.answer, converted.row), (0, 0));
    table
}

/// What import says of one row.
fn of_row(width: u64, row: &[u8]) -> (Converted, Vec<u8>) {
    into(IMPORTS, width, row, ROOM)
}

/// A record of each kind with every field that it has, and its row, both written
/// out by hand; with the widths at which the kind is known. VPID 605h, PCID 102h,
/// global, frame or structure 8765432101h, EP4TA F987654321h; the page is 12200h
/// with span 1, or 10000000h with span 3 for structure caches, and 1F0000000000h of
/// 57 bits, with span 2 or 4.
fn kinds() -> [(&'static [u64], Vec<u8>, [u8; 32]); 10] {
    const FRAME: [u8; 5] = [0x01, 0x21, 0x43, 0x65, 0x87];
    const EP4TA: [u8; 5] = [0x21, 0x43, 0x65, 0x87, 0xF9];
    let tagged = |kind: u8, tags: &[u8], page: &[u8], last: &[u8]| {
        [&[kind], tags, page, &FRAME, last].concat()
    };
    let linear = [0x05, 0x06, 0x02, 0x01];
    let (small, large) = ([0x00, 0x22, 0x01, 0x00, 0x00], [0, 0, 0, 0x10, 0]);
    let wide = [0, 0, 0, 0, 0, 0x1F];
    #[rustfmt::skip]
    let all = [
        (
            &[48][..],
            tagged(1, &[&linear[..], &[1, 1]].concat(), &small, &[]),
            [
                1, 1, 1, 0, 0x05, 0x06, 0x02, 0x01, 0x00, 0x22, 0x01, 0, 0, 0, 0, 0,
                0x01, 0x21, 0x43, 0x65, 0x87, 0, 0, 0, 0, 0, 0, 0, 0, 0, 0, 0,
            ],
        ),
        (
            &[48, 57],
            tagged(2, &[&EP4TA[..], &[1]].concat(), &small, &[]),
            [
                2, 1, 0, 0, 0, 0, 0, 0, 0x00, 0x22, 0x01, 0, 0, 0, 0, 0,
                0x01, 0x21, 0x43, 0x65, 0x87, 0, 0, 0, 0x21, 0x43, 0x65, 0x87, 0xF9, 0, 0, 0,
            ],
        ),
        (
            &[48],
            tagged(3, &[&linear[..], &[1, 1]].concat(), &small, &EP4TA),
            [
                3, 1, 1, 0, 0x05, 0x06, 0x02, 0x01, 0x00, 0x22, 0x01, 0, 0, 0, 0, 0,
                0x01, 0x21, 0x43, 0x65, 0x87, 0, 0, 0, 0x21, 0x43, 0x65, 0x87, 0xF9, 0, 0, 0,
            ],
        ),
        (
            &[48],
            tagged(4, &[&linear[..], &[3]].concat(), &large, &[]),
            [
                4, 3, 0, 0, 0x05, 0x06, 0x02, 0x01, 0, 0, 0, 0x10, 0, 0, 0, 0,
                0x01, 0x21, 0x43, 0x65, 0x87, 0, 0, 0, 0, 0, 0, 0, 0, 0, 0, 0,
            ],
        ),
        (
            &[48, 57],
            tagged(5, &[&EP4TA[..], &[3]].concat(), &large, &[]),
            [
                5, 3, 0, 0, 0, 0, 0, 0, 0, 0, 0, 0x10, 0, 0, 0, 0,
                0x01, 0x21, 0x43, 0x65, 0x87, 0, 0, 0, 0x21, 0x43, 0x65, 0x87, 0xF9, 0, 0, 0,
            ],
        ),
        (
            &[48],
            tagged(6, &[&linear[..], &[3]].concat(), &large, &EP4TA),
            [
                6, 3, 0, 0, 0x05, 0x06, 0x02, 0x01, 0, 0, 0, 0x10, 0, 0, 0, 0,
                0x01, 0x21, 0x43, 0x65, 0x87, 0, 0, 0, 0x21, 0x43, 0x65, 0x87, 0xF9, 0, 0, 0,
            ],
        ),
        (
            &[57],
            tagged(7, &[&linear[..], &[1, 2]].concat(), &wide, &[]),
            [
                7, 2, 1, 0, 0x05, 0x06, 0x02, 0x01, 0, 0, 0, 0, 0, 0x1F, 0, 0,
                0x01, 0x21, 0x43, 0x65, 0x87, 0, 0, 0, 0, 0, 0, 0, 0, 0, 0, 0,
            ],
        ),
        (
            &[57],
            tagged(8, &[&linear[..], &[1, 2]].concat(), &wide, &EP4TA),
            [
                8, 2, 1, 0, 0x05, 0x06, 0x02, 0x01, 0, 0, 0, 0, 0, 0x1F, 0, 0,
                0x01, 0x21, 0x43, 0x65, 0x87, 0, 0, 0, 0x21, 0x43, 0x65, 0x87, 0xF9, 0, 0, 0,
            ],
        ),
        (
            &[57],
            tagged(9, &[&linear[..], &[4]].concat(), &wide, &[]),
            [
                9, 4, 0, 0, 0x05, 0x06, 0x02, 0x01, 0, 0, 0, 0, 0, 0x1F, 0, 0,
                0x01, 0x21, 0x43, 0x65, 0x87, 0, 0, 0, 0, 0, 0, 0, 0, 0, 0, 0,
            ],
        ),
        (
            &[57],
            tagged(10, &[&linear[..], &[4]].concat(), &wide, &EP4TA),
            [
                10, 4, 0, 0, 0x05, 0x06, 0x02, 0x01, 0, 0, 0, 0, 0, 0x1F, 0, 0,
                0x01, 0x21, 0x43, 0x65, 0x87, 0, 0, 0, 0x21, 0x43, 0x65, 0x87, 0xF9, 0, 0, 0,
            ],
        ),
    ];
    all
}

#[test]
fn each_kind_by_hand() {
    assert_eq!(ROW, 32);
    let lengths = [17, 17, 22, 16, 17, 21, 18, 23, 17, 22];
    for ((widths, record, row), length) in kinds().into_iter().zip(lengths) {
        assert_eq!(record.len(), length);
        for width in [48, 57] {
            if widths.contains(&width) {
                assert_eq!(exported(width, &record), row, "kind {}", row[0]);
                assert_eq!(imported(width, &row), record, "kind {}", row[0]);
            } else {
                // 18.8: a bad table one way, a bad row the other.
                assert_eq!(into(EXPORTS, width, &record, ROOM), refused(3));
                assert_eq!(of_row(width, &row), bad_row(1));
            }
        }
    }
}

/// Document 01's A and G.
#[test]
fn the_cards_records() {
    #[rustfmt::skip]
    let due = [
        1, 0, 0, 0, 5, 0, 1, 0, 0x45, 0x23, 1, 0, 0, 0, 0, 0,
        0xDE, 0xBC, 0x0A, 0, 0, 0, 0, 0, 0, 0, 0, 0, 0, 0, 0, 0,
        2, 0, 0, 0, 0, 0, 0, 0, 0x10, 0, 0, 0, 0, 0, 0, 0,
        0x20, 0, 0, 0, 0, 0, 0, 0, 0x67, 0x45, 0x23, 0x01, 0, 0, 0, 0,
    ];
    assert_eq!(exported(48, &[A, G].concat()), due);
    assert_eq!(imported(48, &due), [A, G].concat());
    assert_eq!(exported(57, &G), due[32..]);
}

/// 17.1: the bytes that a kind does not use, each with each of its bits set.
#[test]
fn r17_1_unused_bytes() {
    let unused: [(u8, &[usize]); 10] = [
        (1, &[3, 24, 25, 26, 27, 28, 29, 30, 31]),
        (2, &[2, 3, 4, 5, 6, 7]),
        (3, &[3]),
        (4, &[2, 3, 24, 25, 26, 27, 28, 29, 30, 31]),
        (5, &[2, 3, 4, 5, 6, 7]),
        (6, &[2, 3]),
        (7, &[3, 24, 25, 26, 27, 28, 29, 30, 31]),
        (8, &[3]),
        (9, &[2, 3, 24, 25, 26, 27, 28, 29, 30, 31]),
        (10, &[2, 3]),
    ];
    for ((widths, _, row), (kind, bytes)) in kinds().into_iter().zip(unused) {
        assert_eq!(row[0], kind);
        for at in bytes {
            for bit in 0..8 {
                let mut bad = row;
                bad[*at] ^= 1 << bit;
                assert_eq!(
                    of_row(widths[0], &bad),
                    bad_row(1),
                    "kind {kind}, byte {at}"
                );
            }
        }
    }
}

/// A row with a number in one of its fields.
fn with(row: [u8; 32], start: usize, bytes: usize, number: u64) -> [u8; 32] {
    let mut row = row;
    row[start..start + bytes].copy_from_slice(&number.to_le_bytes()[..bytes]);
    row
}

/// 17.2: numbers of 8 bytes are not cut; a frame or EP4TA of 2^40 is no record's.
#[test]
fn r17_2_numbers_are_not_cut() {
    let most = (1 << 40) - 1;
    for (widths, _, row) in kinds() {
        let width = widths[0];
        let kind = row[0];
        for (start, has) in [(16, true), (24, !matches!(kind, 1 | 4 | 7 | 9))] {
            assert_eq!(of_row(width, &with(row, start, 8, 0)).0.answer, 0);
            for number in [1 << 40, 1 << 63, u64::MAX, most + 2] {
                let bad = with(row, start, 8, number);
                assert_eq!(of_row(width, &bad), bad_row(1), "kind {kind}, {number:#x}");
            }
            let full = of_row(width, &with(row, start, 8, most)).0;
            assert_eq!(full.answer, if has { 0 } else { 4 });
        }
    }
}

/// Each other field at its bounds and one past them.
#[test]
fn fields_at_their_bounds() {
    for (widths, record, row) in kinds() {
        let width = widths[0];
        let kind = row[0];
        let good = |row: [u8; 32]| {
            let (converted, table) = of_row(width, &row);
            assert_eq!((converted.answer, converted.row), (0, 0), "kind {kind}");
            assert_eq!(exported(width, &table), row);
        };
        let bad = |row: [u8; 32]| assert_eq!(of_row(width, &row), bad_row(1), "kind {kind}");
        let linear = kind != 2 && kind != 5;
        if linear {
            good(with(row, 4, 2, 0));
            good(with(row, 4, 2, 0xFFFF));
            good(with(row, 6, 2, 0));
            good(with(row, 6, 2, 4_095));
            bad(with(row, 6, 2, 4_096));
            bad(with(row, 6, 2, 0xFFFF));
        }
        if matches!(kind, 1 | 3 | 7 | 8) {
            good(with(row, 2, 1, 0));
            for global in [2, 3, 0x80, 0xFF] {
                bad(with(row, 2, 1, global));
            }
        }
        let (least, most) = match kind {
            1 | 2 | 3 | 7 | 8 => (0, 2),
            4..=6 => (1, 3),
            _ => (1, 4),
        };
        // Page 0 is a multiple of everything.
        let zero = with(row, 8, 8, 0);
        for span in 0..=255 {
            if (least..=most).contains(&span) {
                good(with(zero, 1, 1, span));
            } else {
                bad(with(zero, 1, 1, span));
            }
        }
        let bits = if kind >= 7 { 45 } else { 36 };
        for span in least..=most {
            let pages = 1 << (9 * span);
            let of_span = with(row, 1, 1, span);
            good(with(of_span, 8, 8, pages));
            good(with(of_span, 8, 8, (1 << bits) - pages));
            for page in [1 << bits, (1 << bits) + pages, 1 << 47, 1 << 48, 1 << 63] {
                bad(with(of_span, 8, 8, page));
            }
            if span > 0 {
                bad(with(of_span, 8, 8, pages / 2));
                bad(with(of_span, 8, 8, pages + 1));
            }
        }
        // The record's own page, so that nothing above was its doing.
        assert_eq!(imported(width, &row), record);
    }
}

#[test]
fn kinds_that_are_none() {
    for width in [48, 57] {
        for kind in 0..=255 {
            let known = match kind {
                2 | 5 => true,
                1 | 3 | 4 | 6 => width == 48,
                7..=10 => width == 57,
                _ => false,
            };
            // Span 1 is every kind's, and page 0 and all else of a row too.
            let mut row = [0; 32];
            row[0] = kind;
            row[1] = 1;
            let due = if known { 0 } else { 4 };
            assert_eq!(of_row(width, &row).0.answer, due, "{kind} at {width}");
        }
        assert_eq!(of_row(width, &[0; 32]), bad_row(1));
    }
}

/// Ask 12: any width but 48 or 57 is 1, before all else, with row 0.
#[test]
fn other_widths() {
    let widths = [0, 1, 47, 49, 56, 58, 64, 304, 313, 1 << 32 | 48, u64::MAX];
    for width in widths {
        for input in [&[][..], &A, &[0; 31], &[0xFF; 64], &[0; 100_000]] {
            for room in [0, 16, ROOM] {
                assert_eq!(into(EXPORTS, width, input, room), refused(1));
                assert_eq!(into(IMPORTS, width, input, room), refused(1));
            }
        }
    }
}

/// 17.3 and 17.4: the length, with row 0, before every row.
#[test]
fn r17_3_a_length_that_is_no_multiple_of_32() {
    let row = exported(48, &A);
    let rows = row.repeat(3);
    for length in 0..=96 {
        let due = match length {
            0 => (0, 0),
            32 => (0, 17),
            64 => (0, 34),
            96 => (0, 51),
            _ => (4, 0),
        };
        let (converted, _) = into(IMPORTS, 48, &rows[..length], ROOM);
        assert_eq!((converted.answer, converted.length), due, "{length}");
        assert_eq!(converted.row, 0);
    }
    let bad = [&[0xFF; 32], &row[..], &[0]].concat();
    assert_eq!(into(IMPORTS, 48, &bad, ROOM), bad_row(0));
    assert_eq!(into(IMPORTS, 48, &bad, 0), bad_row(0));
}

/// 17.3: the first bad row, though there is no room and more are bad.
#[test]
fn r17_3_the_first_bad_row() {
    let row = exported(48, &A);
    let bad = [0xFF; 32];
    for place in 0..5 {
        for more in 0..3 {
            let rows = [row.repeat(place), bad.repeat(1 + more), row.repeat(2)].concat();
            for room in [0, 17 * place, ROOM] {
                let due = bad_row(place as u64 + 1);
                assert_eq!(into(IMPORTS, 48, &rows, room), due, "{place}");
            }
        }
    }
    // A good row of the other width.
    let wide = kinds()[6].2;
    let rows = [&row[..], &row, &wide].concat();
    assert_eq!(into(IMPORTS, 48, &rows, ROOM), bad_row(3));
    let rows = [&wide[..], &row].concat();
    assert_eq!(into(IMPORTS, 57, &rows, ROOM), bad_row(2));
    // 2,770 records of 17 bytes are 47,090: the last fits no more, and is judged.
    let rows = [row.repeat(2_771), bad.to_vec()].concat();
    assert_eq!(into(IMPORTS, 48, &rows, ROOM), bad_row(2_772));
    assert_eq!(into(IMPORTS, 48, &rows[..32 * 2_771], ROOM), refused(12));
}

/// 17.4: no rows are an empty table, and an empty table has none.
#[test]
fn r17_4_nothing() {
    for width in [48, 57] {
        for room in [0, 1, ROOM] {
            for calls in [EXPORTS, IMPORTS] {
                assert_eq!(into(calls, width, &[], room), refused(0));
            }
        }
    }
}

/// Export judges a table as a step does.
#[test]
fn tables_that_are_none() {
    let bad = M {
        pcid: 4_096,
        ..m(1)
    }
    .bytes();
    for room in [0, 31, ROOM] {
        for table in [
            [&A[..], &bad, &G].concat(),
            A[..16].to_vec(),
            [&A[..], &[0]].concat(),
            [&A[..], &[22]].concat(),
            vec![0; 47_104],
            [&A[..], &m(7).bytes()].concat(),
        ] {
            assert_eq!(into(EXPORTS, 48, &table, room), refused(3));
        }
        let mixed = [&m(7).bytes()[..], &A].concat();
        assert_eq!(into(EXPORTS, 57, &mixed, room), refused(3));
        assert_eq!(into(EXPORTS, 48, &[0; 47_105], room), refused(2));
        assert_eq!(into(EXPORTS, 57, &[0; 47_105], room), refused(2));
        assert_eq!(into(EXPORTS, 48, &A.repeat(2_771), room), refused(2));
    }
}

/// 17.5: export's room is its buffer alone, 32 bytes a record.
#[test]
fn r17_5_the_room_of_export() {
    for count in [1, 2, 3] {
        let table = A.repeat(count);
        for room in 0..32 * count {
            assert_eq!(into(EXPORTS, 48, &table, room), refused(12));
        }
        for room in [32 * count, 32 * count + 1, ROOM] {
            let (converted, rows) = into(EXPORTS, 48, &table, room);
            assert_eq!((converted.answer, rows.len()), (0, 32 * count));
        }
    }
    // 2,944 records of 16 bytes are 47,104: 94,208 bytes of rows.
    let full = m(4).bytes().repeat(2_944);
    assert_eq!(full.len(), TABLE_LIMIT);
    assert_eq!(into(EXPORTS, 48, &full, 94_207), refused(12));
    let rows = exported(48, &full);
    assert_eq!(rows.len(), 94_208);
    assert_eq!(into(IMPORTS, 48, &rows, 47_103), refused(12));
    assert_eq!(into(IMPORTS, 48, &rows, 47_104).1, full);
}

/// 17.5: import's room is its buffer, and 47,104 bytes.
#[test]
fn r17_5_the_room_of_import() {
    let table = [&A[..], &m(3).bytes(), &m(4).bytes()].concat();
    assert_eq!(table.len(), 55);
    let rows = exported(48, &table);
    for room in 0..55 {
        assert_eq!(into(IMPORTS, 48, &rows, room), refused(12));
    }
    for room in [55, 56, ROOM] {
        assert_eq!(into(IMPORTS, 48, &rows, room).1, table);
    }
    // So many rows of a kind fit: its records have so many bytes.
    for (width, kind, bytes, most) in [
        (48, 3, 22, 2_141),
        (48, 6, 21, 2_243),
        (57, 7, 18, 2_616),
        (57, 8, 23, 2_048),
        (57, 9, 17, 2_770),
        (57, 10, 22, 2_141),
    ] {
        let row = exported(width, &m(kind).bytes());
        let table = imported(width, &row.repeat(most));
        assert_eq!(table, m(kind).bytes().repeat(most));
        assert_eq!(table.len(), bytes * most);
        for room in [TABLE_LIMIT, ROOM] {
            let rows = row.repeat(most + 1);
            assert_eq!(into(IMPORTS, width, &rows, room), refused(12));
        }
    }
}

/// In the table's order, and equal records twice.
#[test]
fn in_order_there_and_back() {
    for width in [48, 57] {
        let all = kinds();
        let known: Vec<_> = all.iter().filter(|own| own.0.contains(&width)).collect();
        assert_eq!(known.len(), 6);
        for first in 0..6 {
            let order: Vec<usize> = (0..12).map(|nth| (first + nth / 2 * 5) % 6).collect();
            let table: Vec<u8> = order.iter().flat_map(|nth| known[*nth].1.clone()).collect();
            let rows: Vec<u8> = order.iter().flat_map(|nth| known[*nth].2).collect();
            assert_eq!(exported(width, &table), rows);
            assert_eq!(imported(width, &rows), table);
        }
    }
}
