//! Document 02, Ask 12: 57-bit linear addresses. The converter is in widen.rs.

use crate::common::*;
use model::book::Book;
use model::event::Event;
use model::mapping::Mapping;
use model::replay::lines;
use model::LinearWidth::{self, Bits48, Bits57};
use model::{explain, lookup, print, tuned, usable, Address, Context, Line, Place, Reason};
use model::{LOG_LIMIT, TABLE_LIMIT};

/// Kind 7: VPID 5, PCID 1, not global, span 0, page 100000012345h, frame ABCDEh.
const W: [u8; 18] = [
    0x07, 0x05, 0x00, 0x01, 0x00, 0x00, 0x00, 0x45, 0x23, 0x01, 0x00, 0x00, 0x10, 0xDE, 0xBC, 0x0A,
    0x00, 0x00,
];

/// An address in W's page.
const W_ADDRESS: u64 = 0xFF00_0000_1234_5678;

/// The same context at 57 bits.
fn wide(context: Context) -> Context {
    at_width(context, 57)
}

/// Every place, at 57 bits.
fn wide_places() -> [Context; 6] {
    [
        outside(),
        root(),
        guest(0, None),
        guest(5, None),
        ept_guest(),
        guest(5, Some(9)),
    ]
    .map(wide)
}

/// The kind at 57 bits of one at 48.
fn sibling(kind: u64) -> u64 {
    kinds_of(&wide(root()))[kind as usize - 1]
}

// The context

#[test]
fn the_linear_width_is_48_or_57() {
    let rubbish = vec![0xFF; 100_000];
    for number in [
        0,
        1,
        36,
        47,
        49,
        52,
        56,
        58,
        64,
        48 + 256,
        57 + 256,
        (1 << 32) + 48,
        (1 << 32) + 57,
        1 << 63,
        u64::MAX,
    ] {
        for context in [outside(), root(), ept_guest()] {
            let context = at_width(context, number);
            assert_eq!(answer(&context, &[], &RESET), 1);
            // Before all else.
            assert_eq!(answer(&context, &rubbish, &[]), 1);
            for address in [Address::Linear(0), Address::GuestPhysical(0)] {
                assert_eq!(lookup(&context, &rubbish, address, 0), (1, None));
                assert_eq!(tuned::lookup(&context, &[], address, 0), (1, None));
            }
            assert_eq!(explain(&context, &A, &RESET), Reason::refused(1));
            assert_eq!(explain(&context, &rubbish, &[]), Reason::refused(1));
        }
    }
    for number in [48, 57] {
        assert_eq!(answer(&at_width(root(), number), &[], &RESET), 0);
    }
}

#[test]
fn r18_7_no_event_changes_it() {
    for linear_width in [48, 57] {
        let at = |context| at_width(context, linear_width);
        let own = kinds_of(&at(root()));
        for (context, event) in [
            (outside(), VMXON.to_vec()),
            (root(), VMXOFF.to_vec()),
            (root(), entry(1, 5, 1, EPTP, 1, 3)),
            (root(), entry(0, 0, 0, 0, 1, 0)),
            (ept_guest(), exit(3)),
            (ept_guest(), switch(7, 3)),
            (ept_guest(), mov_to_cr3(7)),
            (ept_guest(), invpcid(2, 0, 0)),
            (ept_guest(), invlpg(0)),
            (ept_guest(), violation(0, 1, 0)),
            (ept_guest(), m(own[2]).bytes()),
            (root(), invvpid(2, 0, 0)),
            (root(), invept(2, 0, 0)),
            (ept_guest(), RESET.to_vec()),
        ] {
            let (step, _) = run(&at(context), &[], &event);
            assert_eq!((step.answer, step.context.linear_width), (0, linear_width));
        }
        let (step, _) = run(&at(with_cpl(ept_guest(), 3)), &[], &RESET);
        assert_eq!(step.context, at(outside()));
    }
}

// Addresses

#[test]
fn canonical_and_page() {
    // The address, whether it is canonical at 48 and at 57 bits, and its page
    // at both.
    for (address, at_48, at_57, page_48, page_57) in [
        (0, true, true, 0, 0),
        (
            0x0000_7FFF_FFFF_FFFF,
            true,
            true,
            0x7_FFFF_FFFF,
            0x7_FFFF_FFFF,
        ),
        (
            0x0000_8000_0000_0000,
            false,
            true,
            0x8_0000_0000,
            0x8_0000_0000,
        ),
        (0x0001_0000_0000_0000, false, true, 0, 0x10_0000_0000),
        (
            0x00FF_FFFF_FFFF_FFFF,
            false,
            true,
            0xF_FFFF_FFFF,
            0xFFF_FFFF_FFFF,
        ),
        (0x0100_0000_0000_0000, false, false, 0, 0x1000_0000_0000),
        (0x0200_0000_0000_0000, false, false, 0, 0),
        (
            0x7FFF_FFFF_FFFF_FFFF,
            false,
            false,
            0xF_FFFF_FFFF,
            0x1FFF_FFFF_FFFF,
        ),
        (0x8000_0000_0000_0000, false, false, 0, 0),
        (0xFE00_0000_0000_0000, false, false, 0, 0),
        (
            0xFEFF_FFFF_FFFF_FFFF,
            false,
            false,
            0xF_FFFF_FFFF,
            0xFFF_FFFF_FFFF,
        ),
        (0xFF00_0000_0000_0000, false, true, 0, 0x1000_0000_0000),
        (
            0xFFFF_7FFF_FFFF_FFFF,
            false,
            true,
            0x7_FFFF_FFFF,
            0x1FF7_FFFF_FFFF,
        ),
        (
            0xFFFF_8000_0000_0000,
            true,
            true,
            0x8_0000_0000,
            0x1FF8_0000_0000,
        ),
        (
            0xFFFF_FFFF_FFFF_F000,
            true,
            true,
            0xF_FFFF_FFFF,
            0x1FFF_FFFF_FFFF,
        ),
        (u64::MAX, true, true, 0xF_FFFF_FFFF, 0x1FFF_FFFF_FFFF),
    ] {
        assert_eq!(Bits48.canonical(address), at_48, "{address:#x}");
        assert_eq!(Bits57.canonical(address), at_57, "{address:#x}");
        assert_eq!(Bits48.page(address), page_48, "{address:#x}");
        assert_eq!(Bits57.page(address), page_57, "{address:#x}");
        for (linear_width, canonical) in [(48, at_48), (57, at_57)] {
            let at = |context| at_width(context, linear_width);
            let ask = |context, event: &[u8]| answer(&at(context), &[], event);
            let or = |refused| if canonical { 0 } else { refused };
            assert_eq!(ask(root(), &invvpid(0, 5, address)), or(8));
            assert_eq!(ask(root(), &invvpid(1, 5, address)), 0);
            assert_eq!(ask(root(), &invpcid(0, 5, address)), or(7));
            assert_eq!(ask(root(), &invpcid(1, 5, address)), 0);
            assert_eq!(ask(ept_guest(), &violation(0, 1, address)), or(4));
            assert_eq!(ask(ept_guest(), &violation(0, 0, address)), 0);
            assert_eq!(ask(root(), &invlpg(address)), 0);
        }
    }
}

#[test]
fn every_bit_that_must_be_equal() {
    for (width, first) in [(Bits48, 47), (Bits57, 56)] {
        for address in [0, u64::MAX] {
            assert!(width.canonical(address));
            for bit in first..64 {
                assert!(!width.canonical(address ^ 1 << bit), "{bit}");
            }
            for bit in 0..first {
                assert!(width.canonical(address ^ 1 << bit), "{bit}");
            }
        }
    }
}

/// The last page of the upper half, and that of an address that is canonical
/// at 57 bits alone.
#[test]
fn pages_of_the_upper_half() {
    let off = wide(guest(5, None));
    for (page, address) in [
        (0x1FFF_FFFF_FFFF, u64::MAX),
        (0x1FFF_FFFF_FFFF, 0xFFFF_FFFF_FFFF_F000),
        (0x1000_0000_0000, 0xFF00_0000_0000_0FFF),
        (0x0FFF_FFFF_FFFF, 0x00FF_FFFF_FFFF_F000),
        (0x0008_0000_0000, 0x0000_8000_0000_0000),
        (0x0010_0000_0000, 0x0001_0000_0000_0000),
    ] {
        for kind in [7, 8] {
            let record = M { page, ..m(kind) }.bytes();
            let other = M {
                page: page ^ 1,
                ..m(kind)
            }
            .bytes();
            let far = M {
                page: page ^ 1 << 36,
                ..m(kind)
            }
            .bytes();
            for (context, event) in [
                (wide(root()), invvpid(0, 5, address)),
                (off, invpcid(0, 1, address)),
                (off, invlpg(address)),
            ] {
                assert!(drops(&context, &record, &event));
                assert!(!drops(&context, &other, &event));
                assert!(!drops(&context, &far, &event));
            }
            let event = violation(0, 1, address);
            assert_eq!(drops(&wide(ept_guest()), &record, &event), kind == 8);
            assert!(!drops(&wide(ept_guest()), &far, &event));
        }
        let table = [M { page, ..m(7) }.bytes(), M { page, ..m(8) }.bytes()].concat();
        let address = Address::Linear(address);
        assert_eq!(usable(&off, &table, address), vec![0..18]);
        assert_eq!(usable(&wide(ept_guest()), &table, address), vec![18..41]);
    }
}

#[test]
fn r4_7_invlpg_at_an_address_canonical_at_57_bits_alone() {
    let at = |linear_width| at_width(guest(5, None), linear_width);
    let own = |m: &mut M| m.page = 0x8_0000_0000;
    assert_eq!(kinds_dropped(&at(48), &invlpg(ODD), own), []);
    assert_eq!(kinds_dropped(&at(57), &invlpg(ODD), own), [7, 8, 9, 10]);
    let (odd, record) = (
        0x0100_0000_0000_0000,
        M {
            page: 1 << 44,
            ..m(7)
        }
        .bytes(),
    );
    assert_eq!(
        explain(&at(57), &record, &invlpg(odd)),
        Reason::NotCanonical
    );
    assert!(!drops(&at(57), &record, &invlpg(odd)));
    assert_eq!(explain(&at(48), &A, &invlpg(ODD)), Reason::NotCanonical);
    assert_eq!(explain(&at(57), &W, &invlpg(ODD)), Reason::NotCovering);
}

#[test]
fn r18_2_guest_physical_addresses_stay() {
    let context = wide(ept_guest());
    for address in [1 << 48, 1 << 56, 1 << 63, u64::MAX] {
        assert_eq!(answer(&context, &[], &violation(address, 0, 0)), 4);
        let address = Address::GuestPhysical(address);
        assert_eq!(usable(&context, &G, address), vec![]);
    }
    let top = (1 << 48) - 1;
    assert_eq!(answer(&context, &[], &violation(top, 0, 0)), 0);
    let record = M {
        page: 0xF_FFFF_FFFF,
        ..m(2)
    }
    .bytes();
    assert!(drops(&context, &record, &violation(top, 0, 0)));
    let address = Address::GuestPhysical(top);
    assert_eq!(usable(&context, &record, address), vec![0..17]);
    // By its two addresses, each at its own width.
    let address = 0xFF00_0000_0000_0000;
    let at = |page| move |m: &mut M| m.page = page;
    let event = violation(0x8000_0000_0000, 1, address);
    assert_eq!(kinds_dropped(&context, &event, at(1 << 35)), [2, 5]);
    let event = violation(0x8000_0000_0000, 1, 0x8000_0000_0000);
    assert_eq!(kinds_dropped(&context, &event, at(1 << 35)), [2, 8, 5, 10]);
}

// Records

#[test]
fn the_papers_layouts() {
    let fields = |kind, global, ep4ta| Mapping {
        kind,
        vpid: Some(5),
        pcid: Some(1),
        global,
        span: 0,
        page: 0x1000_0001_2345,
        frame: 0xABCDE,
        ep4ta,
    };
    assert_eq!(Mapping::decode(Bits57, &W), Some(fields(7, false, None)));
    let mut global = W;
    global[5] = 1;
    assert_eq!(
        Mapping::decode(Bits57, &global),
        Some(fields(7, true, None))
    );
    let mut combined = [&W[..], &[0x67, 0x45, 0x23, 0x01, 0x00]].concat();
    combined[0] = 8;
    let due = fields(8, false, Some(0x123_4567));
    assert_eq!(Mapping::decode(Bits57, &combined), Some(due));
    // Kinds 9 and 10 have no global mark: the span follows the PCID.
    let structure = [
        0x09, 0x05, 0x00, 0x01, 0x00, 0x04, 0x00, 0x00, 0x00, 0x00, 0x10, 0x1F, 0xDE, 0xBC, 0x0A,
        0x00, 0x00,
    ];
    let due = Mapping {
        span: 4,
        page: 0x1F10_0000_0000,
        ..fields(9, false, None)
    };
    assert_eq!(Mapping::decode(Bits57, &structure), Some(due));
    let mut combined = [&structure[..], &[0x67, 0x45, 0x23, 0x01, 0x00]].concat();
    combined[0] = 10;
    let due = Mapping {
        kind: 10,
        ep4ta: Some(0x123_4567),
        ..due
    };
    assert_eq!(Mapping::decode(Bits57, &combined), Some(due));
    let context = wide(guest(5, None));
    assert!(drops(&context, &W, &invlpg(W_ADDRESS)));
    assert!(!drops(&context, &W, &invlpg(0x1234_5678)));
}

#[test]
fn r3_1_lengths() {
    let lengths: Vec<usize> = (7..=10).map(|kind| m(kind).bytes().len()).collect();
    assert_eq!(lengths, [18, 23, 17, 22]);
    for kind in 0..=255u8 {
        let (at_48, at_57) = (
            model::mapping::length(Bits48, kind),
            model::mapping::length(Bits57, kind),
        );
        let due = match kind {
            2 | 5 => (Some(17), Some(17)),
            1 | 3 | 4 | 6 => (Some(m(kind.into()).bytes().len()), None),
            7..=10 => (None, Some(m(kind.into()).bytes().len())),
            _ => (None, None),
        };
        assert_eq!((at_48, at_57), due, "{kind}");
        if kind > 10 {
            let length = |width| model::event::length(width, kind);
            assert_eq!(length(Bits48), length(Bits57));
        }
    }
}

#[test]
fn r2_1_spans() {
    let context = wide(root());
    for kind in kinds_of(&context) {
        for span in 0..=255 {
            let record = M { span, ..m(kind) }.bytes();
            let valid = match kind {
                2 | 7 | 8 => span <= 2,
                5 => (1..=3).contains(&span),
                _ => (1..=4).contains(&span),
            };
            let due = if valid { 0 } else { 3 };
            assert_eq!(answer(&context, &record, &RESET), due, "{kind}, {span}");
        }
    }
    // Kinds 4 and 6 gain nothing.
    for kind in [4, 5, 6] {
        let record = M { span: 4, ..m(kind) }.bytes();
        assert_eq!(answer(&root(), &record, &RESET), 3);
    }
}

#[test]
fn r2_2_page_is_below_2_to_the_45() {
    let context = wide(root());
    let ask = |kind, span, page| {
        let record = M {
            span,
            page,
            ..m(kind)
        };
        answer(&context, &record.bytes(), &RESET)
    };
    for kind in 7..=10 {
        assert_eq!(ask(kind, 1, (1 << 45) - 512), 0);
        assert_eq!(ask(kind, 1, 1 << 44), 0);
        assert_eq!(ask(kind, 1, 1 << 36), 0);
        for bit in 45..48 {
            assert_eq!(ask(kind, 1, 1 << bit), 3);
        }
    }
    // Kinds 2 and 5 keep their five bytes.
    for kind in [2, 5] {
        assert_eq!(ask(kind, 1, (1 << 36) - 512), 0);
        for bit in 36..40 {
            assert_eq!(ask(kind, 1, 1 << bit), 3);
        }
    }
}

#[test]
fn r2_2_page_is_a_multiple() {
    let context = wide(root());
    for (kind, spans) in [(7, 0..=2), (8, 0..=2), (9, 1..=4), (10, 1..=4)] {
        for span in spans {
            for bit in 0..45 {
                let record = M {
                    span,
                    page: 1 << bit,
                    ..m(kind)
                };
                let due = if bit < 9 * span { 3 } else { 0 };
                assert_eq!(answer(&context, &record.bytes(), &RESET), due);
            }
        }
    }
}

#[test]
fn r2_8_cover_at_the_ends_of_each_span() {
    let (root, ept) = (wide(root()), wide(ept_guest()));
    for (kind, spans) in [(7, 0..=2), (8, 0..=2), (9, 1..=4), (10, 1..=4)] {
        for span in spans {
            let size = 1 << (9 * span);
            let page = 5 * size;
            let record = M {
                span,
                page,
                ..m(kind)
            }
            .bytes();
            let covers = |page: u64| {
                let address = page << 12;
                let goes = drops(&root, &record, &invvpid(0, 5, address));
                assert_eq!(drops(&ept, &record, &invpcid(0, 1, address)), goes);
                let by_violation = drops(&ept, &record, &violation(0, 1, address));
                assert_eq!(by_violation, goes && (kind == 8 || kind == 10));
                let by_invlpg = drops(&ept, &record, &invlpg(address));
                assert_eq!(by_invlpg, goes || kind >= 9);
                goes
            };
            assert!(!covers(page - 1));
            assert!(covers(page));
            assert!(covers(page + size - 1));
            assert!(!covers(page + size));
        }
    }
    // Span 4 is all that 48 bits have.
    let record = M {
        span: 4,
        page: 0x1FF0_0000_0000,
        ..m(9)
    }
    .bytes();
    for (address, goes) in [
        (0xFFFF_0000_0000_0000, true),
        (u64::MAX, true),
        (0xFFFE_FFFF_FFFF_FFFF, false),
        (0, false),
    ] {
        assert_eq!(drops(&root, &record, &invvpid(0, 5, address)), goes);
    }
}

#[test]
fn r18_8_a_record_of_the_other_width() {
    for (linear_width, others) in [(48, [7, 8, 9, 10]), (57, [1, 3, 4, 6])] {
        let at = |context| at_width(context, linear_width);
        for kind in others {
            let other = m(kind).bytes();
            for context in [outside(), root(), guest(5, None), ept_guest()].map(at) {
                // In a table, alone, first and last, and though it would go.
                for table in [
                    other.clone(),
                    [&other[..], &G].concat(),
                    [&G[..], &other].concat(),
                ] {
                    assert_eq!(answer(&context, &table, &RESET), 3);
                    let address = Address::Linear(0);
                    assert_eq!(lookup(&context, &table, address, 0), (3, None));
                    assert_eq!(tuned::lookup(&context, &table, address, 0), (3, None));
                }
                // As an event, in which 4 goes before 11.
                assert_eq!(answer(&context, &G, &other), 4);
                assert_eq!(explain(&context, &other, &RESET), Reason::refused(3));
                assert_eq!(explain(&context, &G, &other), Reason::refused(4));
                assert_eq!(explain(&context, &other, &other), Reason::refused(3));
            }
        }
        for kind in [2, 5] {
            assert_eq!(answer(&at(root()), &m(kind).bytes(), &RESET), 0);
            assert_eq!(answer(&at(ept_guest()), &[], &m(kind).bytes()), 0);
        }
    }
}

#[test]
fn r18_8_events_of_either_width() {
    for kind in 1..=10 {
        let record = m(kind).bytes();
        let known = |width| Event::decode(width, &record).is_some();
        let both = kind == 2 || kind == 5;
        assert_eq!(known(Bits48), both || kind < 7);
        assert_eq!(known(Bits57), both || kind >= 7);
    }
    // A page of the wrong length.
    assert_eq!(answer(&wide(guest(5, None)), &[], &W[..17]), 4);
    let mut narrow = A;
    narrow[0] = 7;
    assert_eq!(answer(&wide(guest(5, None)), &[], &narrow), 4);
}

#[test]
fn r18_1_the_limit_at_both_widths() {
    assert_eq!(TABLE_LIMIT, 47_104);
    for (linear_width, kind, count) in [(48, 4, 2_944), (57, 8, 2_048)] {
        let at = |context| at_width(context, linear_width);
        let record = m(kind).bytes();
        let full = record.repeat(count);
        assert_eq!(full.len(), TABLE_LIMIT);
        let (step, _) = run(&at(root()), &full, &RESET);
        assert_eq!((step.answer, step.dropped), (0, count));
        let long = [&full[..], &[0]].concat();
        assert_eq!(answer(&at(root()), &long, &RESET), 2);
        let address = Address::Linear(0);
        assert_eq!(lookup(&at(root()), &long, address, 0), (2, None));
        assert_eq!(explain(&at(root()), &long, &RESET), Reason::refused(3));
        // To the last byte, and one record more.
        let ept = (kind == 8).then_some(EP4TA);
        let context = at(guest(5, ept));
        let (step, _) = run(&context, &full[record.len()..], &record);
        assert_eq!((step.answer, step.length), (0, TABLE_LIMIT));
        for room in [TABLE_LIMIT, 100_000] {
            assert_eq!(run_into(&context, &full, &record, room).0.answer, 12);
        }
    }
}

// As their siblings

/// Fields to change.
const CHANGES: [fn(&mut M); 9] = [
    |_| (),
    |m| m.vpid = 0,
    |m| m.vpid = 6,
    |m| m.pcid = 2,
    |m| m.global = 1,
    |m| {
        m.pcid = 2;
        m.global = 1;
    },
    |m| m.ep4ta = 9,
    |m| m.page = 1 << 20,
    |m| {
        m.page = 1 << 20;
        m.global = 1;
    },
];

/// Events of every kind that names no page above 2^35.
fn events() -> Vec<Vec<u8>> {
    let mut events = vec![
        invlpg(0),
        invlpg(1 << 32),
        invlpg(1 << 63),
        violation(0, 0, 0),
        violation(0, 1, 0),
        violation(1 << 32, 1, 0),
        entry(0, 0, 0, 0, 1, 0),
        entry(1, 5, 1, EPTP, 1, 0),
        exit(0),
        VMXON.to_vec(),
        VMXOFF.to_vec(),
        switch(2, 0),
        RESET.to_vec(),
        mov_to_cr3(1),
        mov_to_cr3(2),
    ];
    for kind in 0..=4 {
        events.push(invvpid(kind, 5, 0));
        events.push(invpcid(kind, 1, 0));
        events.push(invept(kind, EPTP, 0));
    }
    events
}

#[test]
fn dropped_and_explained_as_their_siblings() {
    for context in wide_places() {
        let narrow = at_width(context, 48);
        for event in events() {
            for change in CHANGES {
                for kind in 1..=6 {
                    let [own, other] = [kind, sibling(kind)].map(|kind| {
                        let mut mapping = m(kind);
                        change(&mut mapping);
                        mapping.bytes()
                    });
                    let (due, _) = run(&narrow, &own, &event);
                    let (got, _) = run(&context, &other, &event);
                    assert_eq!((got.answer, got.rule), (due.answer, due.rule));
                    assert_eq!(got.dropped, due.dropped, "{kind}: {event:?}");
                    assert_eq!(got.context, at_width(due.context, 57));
                    let due = explain(&narrow, &own, &event);
                    let got = explain(&context, &other, &event);
                    assert_eq!(got, due, "{kind}: {event:?}");
                }
            }
        }
    }
}

#[test]
fn created_as_their_siblings() {
    for context in wide_places() {
        for change in CHANGES {
            for kind in 1..=6 {
                let [own, other] = [kind, sibling(kind)].map(|kind| {
                    let mut mapping = m(kind);
                    change(&mut mapping);
                    mapping.bytes()
                });
                let due = answer(&at_width(context, 48), &G, &own);
                let (step, new) = run(&context, &G, &other);
                assert_eq!(step.answer, due, "{kind}");
                if due == 0 {
                    assert_eq!(new, [&G[..], &other].concat());
                }
            }
        }
    }
    // Worked out by hand: kinds 7 and 9 with EPT not in use, the others with.
    let created = |context: Context| -> Vec<u64> {
        let can = |kind: &u64| answer(&wide(context), &[], &m(*kind).bytes()) == 0;
        kinds_of(&wide(context)).into_iter().filter(can).collect()
    };
    assert_eq!(created(guest(5, None)), [7, 9]);
    assert_eq!(created(ept_guest()), [2, 8, 5, 10]);
    assert_eq!(created(guest(6, None)), []);
    assert_eq!(created(root()), []);
}

#[test]
fn looked_up_as_their_siblings() {
    for context in wide_places() {
        let narrow = at_width(context, 48);
        for change in CHANGES {
            for address in [
                Address::Linear(0),
                Address::Linear(1 << 32),
                Address::Linear(1 << 63),
                Address::GuestPhysical(0),
                Address::GuestPhysical(1 << 32),
                Address::GuestPhysical(1 << 48),
            ] {
                for kind in 1..=6 {
                    let [own, other] = [kind, sibling(kind)].map(|kind| {
                        let mut mapping = m(kind);
                        change(&mut mapping);
                        mapping.bytes()
                    });
                    let due = usable(&narrow, &own, address).len();
                    let got = usable(&context, &other, address);
                    assert_eq!(got.len(), due, "{kind}: {address:?}");
                    let first = (0, got.first().cloned());
                    assert_eq!(tuned::lookup(&context, &other, address, 0), first);
                }
            }
        }
    }
    let address = Address::Linear(W_ADDRESS);
    assert_eq!(usable(&wide(guest(5, None)), &W, address), vec![0..18]);
}

// Runs and replays

#[test]
fn the_book_at_57_bits() {
    let mut book = Book::new(&wide(outside()));
    let own = m_outside(7);
    for (event, answer, dropped) in [
        (m_outside(1), 4, 0),
        (own.clone(), 0, 0),
        (m_outside(9), 0, 0),
        (VMXON.to_vec(), 0, 0),
        (entry(1, 5, 0, 0, 1, 0), 0, 0),
        (W.to_vec(), 0, 0),
        (invlpg(W_ADDRESS), 0, 1),
        (W.to_vec(), 0, 0),
        (A.to_vec(), 4, 0),
        (exit(0), 0, 0),
        // Takes the structure cache of VPID 0 and PCID 0 alone.
        (invlpg(1 << 40), 0, 1),
        (invvpid(0, 5, 1 << 56), 8, 0),
        (invvpid(0, 5, W_ADDRESS), 0, 1),
    ] {
        let verdict = book.feed(&event);
        assert_eq!((verdict.answer, verdict.dropped), (answer, dropped));
    }
    assert_eq!(book.table(), own);
    assert_eq!(book.standing(), book.standing_by_notes());
    assert_eq!(book.context(), &wide(root()));
}

#[test]
fn r8_1_kinds_7_to_10_are_unknown_to_the_program() {
    for kind in 7..=10 {
        let log = [&m_outside(1)[..], &m_outside(kind), &VMXON].concat();
        let printed = print(model::replay(&log).as_deref());
        assert_eq!(printed, "1 0 0 17\n2 4 0 17\n");
    }
}

fn replayed(start: &Context, log: &[u8]) -> String {
    let plain = lines(start, log);
    let (mut old, mut new) = (vec![0; TABLE_LIMIT], vec![0; TABLE_LIMIT]);
    let mut fast: Vec<Line> = Vec::new();
    assert!(log.len() <= LOG_LIMIT);
    tuned::replay(start, log, &mut old, &mut new, |line| fast.push(line));
    assert_eq!(plain, fast);
    print(Some(&plain))
}

#[test]
fn a_log_at_57_bits() {
    let start = wide(outside());
    let log = [
        &m_outside(7)[..],
        &m_outside(9),
        &VMXON,
        &invlpg(1 << 40),
        &entry(1, 5, 1, EPTP, 1, 0),
        &m(8).bytes(),
        &m(10).bytes(),
        &m(2).bytes(),
        &violation(0, 1, 0),
    ]
    .concat();
    let due = "1 0 0 18\n2 0 0 35\n3 0 0 35\n4 0 1 18\n5 0 0 18\n6 0 0 41\n7 0 0 63\n8 0 0 80\n\
               9 0 3 18\n";
    assert_eq!(replayed(&start, &log), due);
    for kind in [1, 3, 4, 6] {
        let log = [&m_outside(7)[..], &m_outside(kind), &VMXON].concat();
        assert_eq!(replayed(&start, &log), "1 0 0 18\n2 4 0 18\n");
    }
    // Cut in its last byte, and a bad field that goes on.
    assert_eq!(replayed(&start, &m_outside(7)[..17]), "1 4 0 0\n");
    let bad = M {
        page: 1 << 45,
        ..m(7)
    }
    .bytes();
    let log = [&bad[..], &VMXON].concat();
    assert_eq!(replayed(&start, &log), "1 4 0 0\n2 0 0 0\n");
}

/// Every event is answered 1, and the log is cut as at 48 bits.
#[test]
fn a_log_at_a_width_that_is_none() {
    for number in [0, 47, 49, 56, 58, (1 << 32) + 57, u64::MAX] {
        assert_eq!(LinearWidth::of(number), Bits48);
        let start = at_width(outside(), number);
        let log = [&A[..], &VMXON, &m(3).bytes(), &RESET].concat();
        let due = "1 1 0 0\n2 1 0 0\n3 1 0 0\n4 1 0 0\n";
        assert_eq!(replayed(&start, &log), due);
        // Unknown, and so the last.
        let log = [&VMXON[..], &W, &VMXON].concat();
        assert_eq!(replayed(&start, &log), "1 1 0 0\n2 1 0 0\n");
    }
    assert_eq!(LinearWidth::of(57), Bits57);
}

/// VPID 0's mappings go where VPIDs are not enabled.
#[test]
fn entry_and_exit_at_57_bits() {
    let context = wide(guest(5, None));
    let (step, _) = run(&context, &W, &exit(0));
    assert_eq!(step.context.place, Place::Root);
    assert_eq!((step.length, step.dropped), (18, 0));
    let zero = M { vpid: 0, ..m(7) }.bytes();
    assert!(drops(&wide(guest(0, None)), &zero, &exit(0)));
    assert!(drops(&wide(root()), &zero, &entry(0, 0, 0, 0, 0, 0)));
}
