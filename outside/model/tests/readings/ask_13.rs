//! Document 02, Ask 13: the walk of a guest's tables through EPT.

use model::walk::{Ending, Spot};
use model::{walk, Context, Place, Walk};

/// The EPT tables are at 1000h to 4000h, one for each level, and map the
/// guest-physical pages 10h to 14h. The guest's tables are at guest-physical
/// 10000h to 13000h, physical 5000h to 8000h. The address takes their entries 1,
/// 2, 3 and 4.
const ENTRIES: [(usize, u64); 12] = [
    (0x1000, 0x2007),
    (0x2000, 0x3007),
    (0x3000, 0x4007),
    (0x4080, 0x5007),
    (0x4088, 0x6007),
    (0x4090, 0x7007),
    (0x4098, 0x8007),
    (0x40A0, 0xABCD_E007),
    (0x5008, 0x1_1003),
    (0x6010, 0x1_2003),
    (0x7018, 0x1_3003),
    (0x8020, 0x1_4103),
];

const ROOT: u64 = 0x1_0000;
const EPTP: u64 = 0x101E;
const ADDRESS: u64 = 1 << 39 | 2 << 30 | 3 << 21 | 4 << 12 | 0x567;

/// Page 8080604h, frame ABCDEh, global, VPID 5, PCID 1, EP4TA 1.
const RECORD: [u8; 22] = [
    0x03, 0x05, 0x00, 0x01, 0x00, 0x01, 0x00, 0x04, 0x06, 0x08, 0x08, 0x00, 0xDE, 0xBC, 0x0A, 0x00,
    0x00, 0x01, 0x00, 0x00, 0x00, 0x00,
];

const FOUND: Walk = Walk {
    ending: Ending::Translated(RECORD),
    read: 24,
};

fn pcid_1() -> Context {
    Context {
        pcid: 1,
        ..Context::program()
    }
}

fn put(image: &mut [u8], at: usize, entry: u64) {
    image[at..at + 8].copy_from_slice(&entry.to_le_bytes());
}

/// The tables above with some entries changed, in 11 pages.
fn image(changes: &[(usize, u64)]) -> Vec<u8> {
    let mut image = vec![0; 0xB000];
    for (at, entry) in ENTRIES.iter().chain(changes) {
        put(&mut image, *at, *entry);
    }
    image
}

fn walk_in(image: &[u8]) -> Walk {
    walk(&pcid_1(), image, ROOT, EPTP, 5, ADDRESS)
}

fn changed(changes: &[(usize, u64)]) -> Walk {
    walk_in(&image(changes))
}

fn spot(guest_level: u64, ept_level: u64, address: u64) -> Spot {
    Spot {
        guest_level,
        ept_level,
        address,
    }
}

fn absent(guest_level: u64, ept_level: u64, address: u64, read: u64) -> Walk {
    let ending = Ending::Absent(spot(guest_level, ept_level, address));
    Walk { ending, read }
}

fn outside(guest_level: u64, ept_level: u64, address: u64, read: u64) -> Walk {
    let ending = Ending::Outside(spot(guest_level, ept_level, address));
    Walk { ending, read }
}

fn too_high(guest_level: u64, address: u64, read: u64) -> Walk {
    let ending = Ending::TooHigh(spot(guest_level, 0, address));
    Walk { ending, read }
}

/// A record with this global mark, span, page and frame.
fn found(global: u64, span: u64, page: u64, frame: u64, read: u64) -> Walk {
    let numbers = [
        3 | 5 << 8 | 1 << 24 | global << 40 | span << 48,
        page,
        frame,
        1,
    ];
    let mut record = [0; 22];
    let mut place = 0;
    for (number, count) in numbers.into_iter().zip([7, 5, 5, 5]) {
        record[place..place + count].copy_from_slice(&number.to_le_bytes()[..count]);
        place += count;
    }
    let ending = Ending::Translated(record);
    Walk { ending, read }
}

#[test]
fn r19_1_the_frame_lies_outside_the_image() {
    assert_eq!(ADDRESS, 0x80_8060_4567);
    assert_eq!(changed(&[]), FOUND);
    assert_eq!(found(1, 0, 0x808_0604, 0xA_BCDE, 24), FOUND);
    // The highest frame that there is.
    let high = 0x000F_FFFF_FFFF_F000;
    let due = found(1, 0, 0x808_0604, 0xFF_FFFF_FFFF, 24);
    assert_eq!(changed(&[(0x40A0, high | 7)]), due);
}

#[test]
fn r19_2_an_absent_entry_counts_as_read() {
    for (at, guest, ept, read) in [
        (0x1000, 4, 4, 1),
        (0x2000, 4, 3, 2),
        (0x3000, 4, 2, 3),
        (0x4080, 4, 1, 4),
        (0x5008, 4, 0, 5),
        (0x4088, 3, 1, 9),
        (0x6010, 3, 0, 10),
        (0x4090, 2, 1, 14),
        (0x7018, 2, 0, 15),
        (0x4098, 1, 1, 19),
        (0x8020, 1, 0, 20),
        (0x40A0, 0, 1, 24),
    ] {
        assert_eq!(changed(&[(at, 0)]), absent(guest, ept, at as u64, read));
    }
}

/// Each table outside the image in turn.
#[test]
fn r19_2_a_read_outside_does_not_count() {
    for (at, guest, ept, offset, read) in [
        (0x1000, 4, 3, 0, 1),
        (0x2000, 4, 2, 0, 2),
        (0x3000, 4, 1, 0x80, 3),
        (0x4080, 4, 0, 0x08, 4),
        (0x4088, 3, 0, 0x10, 9),
        (0x4090, 2, 0, 0x18, 14),
        (0x4098, 1, 0, 0x20, 19),
    ] {
        let due = outside(guest, ept, 0xB000 + offset, read);
        assert_eq!(changed(&[(at, 0xB007)]), due);
        let due = outside(guest, ept, 0x000F_FFFF_FFFF_F000 + offset, read);
        assert_eq!(changed(&[(at, u64::MAX ^ 0x80)]), due);
    }
}

/// What makes an entry present: bit 0 of the guest's, any of bits 2:0 of EPT's.
#[test]
fn present_bits() {
    for bits in 1..8 {
        assert_eq!(changed(&[(0x3000, 0x4000 | bits)]), FOUND);
    }
    assert_eq!(
        changed(&[(0x3000, 0x4000 | 0xFF8)]),
        absent(4, 2, 0x3000, 3)
    );
    assert_eq!(changed(&[(0x7018, 0x1_3001)]), FOUND);
    assert_eq!(changed(&[(0x7018, 0x1_3FFE)]), absent(2, 0, 0x7018, 15));
    // Bits 63:52 and 11:9 mean nothing.
    let noise = 0xFFF0_0000_0000_0E00;
    for (at, entry) in ENTRIES {
        assert_eq!(changed(&[(at, entry | noise)]), FOUND);
    }
}

#[test]
fn r19_3_the_root() {
    let from = |root| walk(&pcid_1(), &image(&[]), root, EPTP, 5, ADDRESS);
    assert_eq!(from(ROOT | 0xFFF), FOUND);
    for bit in 48..64 {
        let root = 1 << bit | ROOT;
        assert_eq!(from(root), too_high(4, root | 8, 0));
    }
    let last = 0xFFFF_FFFF_FFFF_F000;
    assert_eq!(from(u64::MAX), too_high(4, last | 8, 0));
}

#[test]
fn r19_4_the_first_ground() {
    let bad = Context {
        pcid: 4_096,
        ..pcid_1()
    };
    let odd = 1 << 47;
    let high = 1 << 48;
    let alone = |ending| Walk { ending, read: 0 };
    let none = &[];
    let due = alone(Ending::ContextOutOfRange);
    assert_eq!(walk(&bad, none, high, 0, 5, odd), due);
    let due = alone(Ending::BadEptp(2));
    assert_eq!(walk(&pcid_1(), none, high, 0, 5, odd), due);
    let due = alone(Ending::NotCanonical);
    assert_eq!(walk(&pcid_1(), none, high, EPTP, 5, odd), due);
    // Too high before the first EPT entry, which would be outside.
    let due = too_high(4, high | 8, 0);
    assert_eq!(walk(&pcid_1(), none, high, EPTP, 5, ADDRESS), due);
    assert_eq!(walk_in(none), outside(4, 4, 0x1000, 0));
}

/// Each rule of Ask 6.
#[test]
fn bad_eptps() {
    let ends = |context: &Context, eptp| walk(context, &image(&[]), ROOT, eptp, 5, ADDRESS);
    let no_dirty = Context {
        capability: pcid_1().capability & !(1 << 21),
        ..pcid_1()
    };
    let narrow = Context {
        width: 36,
        ..pcid_1()
    };
    for (context, eptp, rule) in [
        (pcid_1(), 0x101B, 1),
        (pcid_1(), 0x1016, 2),
        (no_dirty, 0x105E, 3),
        (pcid_1(), 0x109E, 4),
        (pcid_1(), 1 << 52 | 0x101E, 5),
        (narrow, 1 << 36 | 0x101E, 5),
    ] {
        let ending = Ending::BadEptp(rule);
        assert_eq!(ends(&context, eptp), Walk { ending, read: 0 });
    }
    // Uncached, and with accessed and dirty flags.
    assert_eq!(ends(&pcid_1(), 0x1018), FOUND);
    assert_eq!(ends(&pcid_1(), 0x105E), FOUND);
}

/// A guest page of 2 MBytes at guest-physical 40200000h, with each EPT page size.
/// Its final address is 40204567h: entries 0, 1, 1 and 4 of EPT's tables.
#[test]
fn r19_5_two_mbytes_in_each_size() {
    // Bits 20:12 of a large entry are rounded away.
    let large = (0x7018, 0x4031_2183);
    let small = [
        large,
        (0x2008, 0x9007),
        (0x9008, 0xA007),
        (0xA020, 0x7777_7007),
    ];
    assert_eq!(changed(&small), found(1, 0, 0x808_0604, 0x7_7777, 19));
    let same = [large, (0x2008, 0x9007), (0x9008, 0x1234_5087)];
    assert_eq!(changed(&same), found(1, 1, 0x808_0600, 0x1_2200, 18));
    let larger = [large, (0x2008, 0x1_2345_6087)];
    assert_eq!(changed(&larger), found(1, 1, 0x808_0600, 0x10_0200, 17));
}

/// A guest page of 1 GByte at guest-physical 80000000h, with each EPT page size.
/// Its final address is 80604567h: entries 0, 2, 3 and 4.
#[test]
fn r19_5_one_gbyte_in_each_size() {
    let large = (0x6010, 0xBFFF_F083);
    let small = [
        large,
        (0x2010, 0x9007),
        (0x9018, 0xA007),
        (0xA020, 0x7777_7007),
    ];
    assert_eq!(changed(&small), found(0, 0, 0x808_0604, 0x7_7777, 14));
    let middle = [large, (0x2010, 0x9007), (0x9018, 0x1234_5087)];
    assert_eq!(changed(&middle), found(0, 1, 0x808_0600, 0x1_2200, 13));
    let same = [large, (0x2010, 0x7_FFFF_F087)];
    assert_eq!(changed(&same), found(0, 2, 0x808_0000, 0x7C_0000, 12));
}

/// A guest page of 4 KBytes at 14000h, in EPT pages of 2 MBytes and 1 GByte. The
/// guest's tables lie in them too.
#[test]
fn r19_5_four_kbytes_in_large_pages() {
    let mut tables = vec![0; 0x1_5000];
    for (at, entry) in [
        (0x1000, 0x2007),
        (0x2000, 0x3007),
        (0x3000, 0x1_F087),
        (0x1_0008, 0x1_1003),
        (0x1_1010, 0x1_2003),
        (0x1_2018, 0x1_3003),
        (0x1_3020, 0x1_4003),
    ] {
        put(&mut tables, at, entry);
    }
    assert_eq!(walk_in(&tables), found(0, 0, 0x808_0604, 0x14, 19));
    put(&mut tables, 0x2000, 0x3FFF_F087);
    assert_eq!(walk_in(&tables), found(0, 0, 0x808_0604, 0x14, 14));
}

#[test]
fn r19_6_bit_7_at_the_top_and_at_the_last_level() {
    for at in [0x1000, 0x4080, 0x4088, 0x40A0, 0x5008, 0x8020] {
        let (_, entry) = ENTRIES.into_iter().find(|(own, _)| *own == at).unwrap();
        assert_eq!(changed(&[(at, entry | 0x80)]), FOUND);
    }
}

#[test]
fn r19_7_guest_addresses_of_48_bits() {
    for bit in 48..52 {
        let high = 1 << bit;
        for (at, entry, guest, address, read) in [
            (0x5008, 0x1_1003, 3, 0x1_1010, 5),
            (0x6010, 0x1_2003, 2, 0x1_2018, 10),
            (0x7018, 0x1_3003, 1, 0x1_3020, 15),
            (0x8020, 0x1_4003, 0, 0x1_4567, 20),
            (0x7018, 0x4020_0083, 0, 0x4020_4567, 15),
            (0x6010, 0x8000_0083, 0, 0x8060_4567, 10),
        ] {
            assert_eq!(
                changed(&[(at, high | entry)]),
                too_high(guest, high | address, read)
            );
        }
    }
}

#[test]
fn r19_8_all_eight_bytes() {
    let whole = image(&[]);
    assert_eq!(walk_in(&whole[..0x8028]), FOUND);
    for length in 0x8020..0x8028 {
        assert_eq!(walk_in(&whole[..length]), outside(1, 0, 0x8020, 19));
    }
    for length in 0..8 {
        let eptp = 0x1E;
        let ends = walk(&pcid_1(), &vec![7; length], ROOT, eptp, 5, ADDRESS);
        assert_eq!(ends, outside(4, 4, 0, 0));
    }
}

#[test]
fn r19_9_any_context_in_range() {
    let ends = |context: &Context, address| walk(context, &image(&[]), ROOT, EPTP, 5, address);
    let guest = |vpid| Context {
        cpl: 3,
        linear_width: 57,
        place: Place::Guest {
            vpid,
            ept: Some(0x77),
        },
        ..pcid_1()
    };
    // Neither the guest's VPID nor its EP4TA; kind 3 at 57 bits too.
    assert_eq!(ends(&guest(9), ADDRESS), FOUND);
    let none = |ending| Walk { ending, read: 0 };
    let due = none(Ending::ContextOutOfRange);
    assert_eq!(ends(&guest(65_536), ADDRESS), due);
    let other = Context {
        linear_width: 49,
        ..pcid_1()
    };
    assert_eq!(ends(&other, ADDRESS), due);
    // Canonical at 57 bits alone.
    for address in [1 << 47, 0xFFFF_7FFF_FFFF_F000, 1 << 48] {
        assert_eq!(ends(&guest(9), address), none(Ending::NotCanonical));
    }
}

/// Entry 256 of the first table, and a page of 2^35 and more.
#[test]
fn the_upper_half() {
    let address = ADDRESS - (1 << 39) + 0xFFFF_8000_0000_0000;
    let image = image(&[(0x5008, 0), (0x5800, 0x1_1003)]);
    let ends = walk(&pcid_1(), &image, ROOT, EPTP, 5, address);
    assert_eq!(ends, found(1, 0, 0x8_0008_0604, 0xA_BCDE, 24));
}

#[test]
fn r19_10_global_is_of_the_last_guest_entry() {
    let global = |changes: &[(usize, u64)]| match changed(changes).ending {
        Ending::Translated(record) => record[5],
        other => panic!("{other:?}"),
    };
    assert_eq!(global(&[(0x8020, 0x1_4003)]), 0);
    // Of no guest entry above, and of no EPT entry.
    for (at, entry) in ENTRIES.into_iter().filter(|(at, _)| *at != 0x8020) {
        assert_eq!(global(&[(0x8020, 0x1_4003), (at, entry | 0x100)]), 0);
    }
    let ept = (0x2008, 0x87);
    assert_eq!(global(&[ept, (0x7018, 0x4020_0083)]), 0);
    assert_eq!(global(&[ept, (0x7018, 0x4020_0183)]), 1);
    assert_eq!(global(&[ept, (0x6010, 0x4000_0183)]), 1);
}

#[test]
fn r19_11_frames_above_the_width() {
    let narrow = Context {
        width: 36,
        ..pcid_1()
    };
    let image = image(&[(0x40A0, 0x8_0000_0000_0007)]);
    let ends = walk(&narrow, &image, ROOT, EPTP, 5, ADDRESS);
    assert_eq!(ends, found(1, 0, 0x808_0604, 0x80_0000_0000, 24));
}

#[test]
fn r19_12_any_vpid() {
    for (vpid, bytes) in [(0, [0, 0]), (0x1234, [0x34, 0x12]), (65_535, [0xFF, 0xFF])] {
        let ends = walk(&pcid_1(), &image(&[]), ROOT, EPTP, vpid, ADDRESS);
        let mut record = RECORD;
        record[1..3].copy_from_slice(&bytes);
        assert_eq!(ends.ending, Ending::Translated(record));
    }
}

/// One entry of eight bytes that points at itself, for all levels of both.
#[test]
fn a_table_that_points_at_itself() {
    let image = 7_u64.to_le_bytes();
    let record = |pcid| {
        let mut record = [0; 22];
        (record[0], record[1], record[3]) = (3, 5, pcid);
        Ending::Translated(record)
    };
    let ends = walk(&pcid_1(), &image, 0, 0x1E, 5, 0x567);
    assert_eq!((ends.ending, ends.read), (record(1), 24));
    // The next page's entry would be at 8.
    let ends = walk(&pcid_1(), &image, 0, 0x1E, 5, 0x1567);
    assert_eq!(ends, outside(1, 0, 8, 19));
    // As a large page it is one of 1 GByte at guest level 3 and EPT level 3.
    let image = 0x87_u64.to_le_bytes();
    let ends = walk(&pcid_1(), &image, 0, 0x1E, 5, 0x567);
    let mut due = record(1);
    if let Ending::Translated(record) = &mut due {
        record[6] = 2;
    }
    assert_eq!((ends.ending, ends.read), (due, 8));
}
