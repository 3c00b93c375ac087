//! The numbers and the layouts here are those of the model, which has its own.

use common::{
    canonical, encode, field, hex, is_mapping_kind, is_wide_kind, kinds, length, number, put,
    read_row, set_field, sibling, write_row, Record, CAPABILITY_BITS, KINDS, LINEAR_WIDTHS, ROW,
};
use common::{fixed_row, row_field, set_row_field, FIXED_ROW, FIXED_ROW_FIELDS};
use model::event::Event;
use model::mapping::{has_kind, Mapping};
use model::{Context, LinearWidth};

#[test]
fn the_limits_and_the_programs_numbers() {
    assert_eq!(common::TABLE_LIMIT, model::TABLE_LIMIT);
    assert_eq!(common::LOG_LIMIT, model::LOG_LIMIT);
    assert_eq!(common::PCIDS, model::PCIDS);
    assert_eq!(common::PROGRAM_CAPABILITY, model::PROGRAM_CAPABILITY);
    assert_eq!(common::PROGRAM_WIDTH, model::PROGRAM_WIDTH);
    assert_eq!(common::PROGRAM_LINEAR_WIDTH, model::PROGRAM_LINEAR_WIDTH);
    let ones = model::PROGRAM_CAPABILITY.count_ones();
    assert_eq!(CAPABILITY_BITS.len(), ones as usize);
}

#[test]
fn the_lengths_of_all_kinds() {
    let both = LINEAR_WIDTHS.map(LinearWidth::of);
    for kind in 0..=255 {
        let lengths = both.map(|width| model::event::length(width, kind));
        assert_eq!(length(kind), lengths[0].or(lengths[1]), "kind {kind}");
        let mapping = both.iter().any(|width| has_kind(*width, kind));
        assert_eq!(is_mapping_kind(kind), mapping, "kind {kind}");
        assert_eq!(KINDS.contains(&kind), length(kind).is_some(), "kind {kind}");
    }
}

#[test]
fn the_kinds_of_each_width() {
    for number in [0, 48, 49, 56, 57, 58, (1 << 32) + 57, u64::MAX] {
        let width = LinearWidth::of(number);
        for kind in 0..=255 {
            let known = model::event::length(width, kind).is_some();
            assert_eq!(kinds(number).contains(&kind), known, "kind {kind}");
            // What is known at both stays, and the others change places.
            let own = sibling(number, kind);
            assert_eq!(own == kind, known || length(kind).is_none(), "kind {kind}");
            assert_eq!(
                kinds(number).contains(&own),
                length(kind).is_some(),
                "kind {kind}"
            );
        }
    }
    let siblings: Vec<u8> = (1..=10).map(|kind| sibling(57, kind)).collect();
    assert_eq!(siblings, [7, 2, 8, 9, 5, 10, 7, 8, 9, 10]);
    let siblings: Vec<u8> = (1..=10).map(|kind| sibling(48, kind)).collect();
    assert_eq!(siblings, [1, 2, 3, 4, 5, 6, 1, 3, 4, 6]);
}

#[test]
fn the_widths_of_a_context() {
    for linear_width in 0..100 {
        let context = Context {
            linear_width,
            ..Context::program()
        };
        assert_eq!(LINEAR_WIDTHS.contains(&linear_width), context.in_range());
    }
}

#[test]
fn records() {
    for kind in 1..=10 {
        let width = LinearWidth::of(if is_wide_kind(kind) { 57 } else { 48 });
        let record = Record {
            kind,
            vpid: 0x0105,
            pcid: 0x203,
            global: 1,
            span: 1,
            page: if is_wide_kind(kind) {
                0x1008_1234_5600
            } else {
                0x8_1234_5600
            },
            frame: 0xAB_CDEF_0123,
            ep4ta: 0x76_5432_10FE,
        };
        let read = Mapping::decode(width, &record.bytes()).expect("a valid record");
        let linear = kind != 2 && kind != 5;
        let physical = ![1, 4, 7, 9].contains(&kind);
        let due = Mapping {
            kind: kind.into(),
            vpid: linear.then_some(record.vpid),
            pcid: linear.then_some(record.pcid),
            global: [1, 3, 7, 8].contains(&kind),
            span: record.span,
            page: record.page,
            frame: record.frame,
            ep4ta: physical.then_some(record.ep4ta),
        };
        assert_eq!(read, due);
    }
}

/// The rows here are those that the model exports.
#[test]
fn fixed_rows() {
    assert_eq!(FIXED_ROW, model::rows::ROW);
    let mut end = 0;
    for (name, place) in FIXED_ROW_FIELDS {
        assert_eq!(place.start, end, "{name}");
        end = place.end;
    }
    assert_eq!(end, FIXED_ROW);
    for kind in 1..=10 {
        let linear_width = if is_wide_kind(kind) { 57 } else { 48 };
        let record = Record {
            kind,
            vpid: 0x0105,
            pcid: 0x203,
            global: 1,
            span: 1,
            page: 0x8_1234_5600,
            frame: 0xAB_CDEF_0123,
            ep4ta: 0x76_5432_10FE,
        };
        let mut due = [0xA5; FIXED_ROW];
        let exported = model::export(linear_width, &record.bytes(), &mut due);
        assert_eq!((exported.answer, exported.length), (0, FIXED_ROW));
        let row = fixed_row(&record.bytes()).expect("a record");
        assert_eq!(row, due, "kind {kind}");
        assert_eq!(
            (row_field(&row, 0), row_field(&row, 6)),
            (kind.into(), record.page)
        );
        let whole = record.bytes();
        assert_eq!(fixed_row(&whole[..whole.len() - 1]), None);
    }
    assert_eq!(fixed_row(&[]), None);
    assert_eq!(fixed_row(&[22]), None);
    let mut row = [0xA5; FIXED_ROW];
    set_row_field(&mut row, 4, 0x12_3456);
    assert_eq!(row[3..7], [0xA5, 0x56, 0x34, 0xA5]);
}

#[test]
fn events() {
    let (kind, low, high) = (3, 0x1234_5678_9ABC_DEF0, 0x0FED_CBA9_8765_4321);
    for (bytes, due) in [
        (
            encode(16, &[kind, low, high]),
            Event::Invvpid { kind, low, high },
        ),
        (
            encode(17, &[kind, low, high]),
            Event::Invept { kind, low, high },
        ),
        (encode(18, &[low]), Event::Invlpg { address: low }),
        (
            encode(19, &[0x1234, 1, 0x5678]),
            Event::EptViolation {
                guest_physical: 0x1234,
                linear: Some(0x5678),
            },
        ),
        (
            encode(20, &[1, 0x0105, 1, low, 0x203, 3]),
            Event::Entry {
                vpid: Some(0x0105),
                eptp: Some(low),
                pcid: 0x203,
                cpl: 3,
            },
        ),
        (encode(21, &[0x203]), Event::Exit { pcid: 0x203 }),
        (encode(22, &[]), Event::Vmxon),
        (encode(23, &[]), Event::Vmxoff),
        (
            encode(24, &[0x203, 3]),
            Event::Switch {
                pcid: 0x203,
                cpl: 3,
            },
        ),
        (encode(25, &[]), Event::Reset),
        (
            encode(26, &[kind, low, high]),
            Event::Invpcid { kind, low, high },
        ),
        (encode(27, &[0x203]), Event::MovToCr3 { pcid: 0x203 }),
    ] {
        for width in LINEAR_WIDTHS.map(LinearWidth::of) {
            assert_eq!(Event::decode(width, &bytes), Some(due));
        }
    }
}

#[test]
fn fields_of_an_event() {
    let mut entry = encode(20, &[1, 5, 0, 0x1E, 0xFFF, 3]);
    assert_eq!(field(&entry, 1), Some(5));
    assert_eq!(field(&entry, 4), Some(0xFFF));
    assert_eq!(field(&entry, 6), None);
    assert_eq!(field(&entry[..4], 1), Some(5));
    assert_eq!(field(&entry[..3], 1), None);
    assert_eq!(field(&[], 0), None);
    assert_eq!(field(&[11, 0], 0), None);
    // Cut to two bytes.
    set_field(&mut entry, 4, 0x1_0002);
    assert_eq!(entry, encode(20, &[1, 5, 0, 0x1E, 2, 3]));
}

#[test]
fn numbers_there_and_back() {
    let mut bytes = vec![0xFF];
    put(&mut bytes, 0x1234_5678_9ABC, 5);
    assert_eq!(bytes, [0xFF, 0xBC, 0x9A, 0x78, 0x56, 0x34]);
    assert_eq!(hex(&bytes), "ff bc 9a 78 56 34");
    assert_eq!(number(&bytes[1..]), 0x34_5678_9ABC);
    assert_eq!(number(&[]), 0);
    assert_eq!(number(&[0xFF; 8]), u64::MAX);
    let mut row = [0xA5; ROW];
    write_row(&mut row, [12, 0, 47_104]);
    assert_eq!(read_row(&row), [12, 0, 47_104]);
}

#[test]
fn canonical_addresses() {
    for (linear_width, address, due) in [
        (48, 0x7FFF_FFFF_F000, 0x7FFF_FFFF_F000),
        (48, 0x8000_0000_0000, 0xFFFF_8000_0000_0000),
        (48, 0xFFFF_0000_0000_0001, 1),
        (57, 0x8000_0000_0000, 0x8000_0000_0000),
        (57, 0x00FF_FFFF_FFFF_F000, 0x00FF_FFFF_FFFF_F000),
        (57, 0x0100_0000_0000_0000, 0xFF00_0000_0000_0000),
        (57, 0xFE00_0000_0000_0001, 1),
    ] {
        assert_eq!(canonical(linear_width, address), due);
        assert!(LinearWidth::of(linear_width).canonical(due));
    }
}
