//! The wrapper's walk: every ending, its numbers there and back, null, and a VPID
//! whose register holds more than 16 bits.

use skuldrefn::{raw, walk, walk_flat, Context, Ending, FlatContext, FlatWalk, Place, Spot, Walk};
use std::ptr::null;

/// EPT's tables at 1000h to 4000h map the guest-physical pages 10h to 14h; the
/// guest's are at guest-physical 10000h to 13000h, physical 5000h to 8000h. The
/// address takes their entries 1, 2, 3 and 4, and its page is 14000h, physical
/// ABCDE000h.
const ENTRIES: [(usize, u64); 12] = [
    (0x1000, 0x2007),
    (0x2000, 0x3007),
    (0x3000, 0x4007),
    (0x4080, 0x5007),
    (0x4088, 0x6007),
    (0x4090, 0x7007),
    (0x4098, 0x8007),
    (0x40A0, 0xABCD_E007),
    (0x5008, 0x1_1003),
    (0x6010, 0x1_2003),
    (0x7018, 0x1_3003),
    (0x8020, 0x1_4103),
];

const ROOT: u64 = 0x1_0000;
const EPTP: u64 = 0x101E;
const ADDRESS: u64 = 0x80_8060_4567;

/// VPID 5, PCID 1, global, page 8080604h, frame ABCDEh, EP4TA 1.
const RECORD: [u8; 22] = [
    0x03, 0x05, 0x00, 0x01, 0x00, 0x01, 0x00, 0x04, 0x06, 0x08, 0x08, 0x00, 0xDE, 0xBC, 0x0A, 0x00,
    0x00, 0x01, 0x00, 0x00, 0x00, 0x00,
];

fn context() -> Context {
    Context {
        pcid: 1,
        ..Context::program()
    }
}

/// The tables with one entry changed; the last entry ends the image.
fn image(at: usize, entry: u64) -> Vec<u8> {
    let mut image = vec![0; 0x8028];
    for (at, entry) in ENTRIES.into_iter().chain([(at, entry)]) {
        image[at..at + 8].copy_from_slice(&entry.to_le_bytes());
    }
    image
}

fn tables() -> Vec<u8> {
    image(0x1000, 0x2007)
}

fn ended(ending: Ending, read: u64) -> Walk {
    Walk { ending, read }
}

fn spot(guest_level: u64, ept_level: u64, address: u64) -> Spot {
    Spot {
        guest_level,
        ept_level,
        address,
    }
}

#[test]
fn a_translation() {
    let got = walk(&context(), &tables(), ROOT, EPTP, 5, ADDRESS);
    assert_eq!(got, ended(Ending::Translated(RECORD), 24));
    // A kind 3 record at 57 bits too.
    let wide = Context {
        linear_width: 57,
        ..context()
    };
    let got = walk(&wide, &tables(), ROOT, EPTP, 5, ADDRESS);
    assert_eq!(got, ended(Ending::Translated(RECORD), 24));
}

#[test]
fn every_ground() {
    let good = tables();
    let bad = Context {
        cpl: 4,
        ..context()
    };
    let got = walk(&bad, &good, ROOT, EPTP, 5, ADDRESS);
    assert_eq!(got, ended(Ending::ContextOutOfRange, 0));
    for (eptp, rule) in [(0x101B, 1), (0x1016, 2), (0x109E, 4), (1 << 52 | 0x101E, 5)] {
        let got = walk(&context(), &good, ROOT, eptp, 5, ADDRESS);
        assert_eq!(got, ended(Ending::BadEptp(rule), 0));
    }
    let got = walk(&context(), &good, ROOT, EPTP, 5, 1 << 47);
    assert_eq!(got, ended(Ending::NotCanonical, 0));
    // EPT's entry for the guest's table of level 2, and that table's own.
    let got = walk(&context(), &image(0x4090, 0), ROOT, EPTP, 5, ADDRESS);
    assert_eq!(got, ended(Ending::Absent(spot(2, 1, 0x4090)), 14));
    let got = walk(&context(), &image(0x7018, 0), ROOT, EPTP, 5, ADDRESS);
    assert_eq!(got, ended(Ending::Absent(spot(2, 0, 0x7018)), 15));
    let high = image(0x8020, 1 << 48 | 0x1_4003);
    let got = walk(&context(), &high, ROOT, EPTP, 5, ADDRESS);
    let due = Ending::TooHigh(spot(0, 0, 1 << 48 | 0x1_4567));
    assert_eq!(got, ended(due, 20));
    // The last entry lacks a byte.
    let got = walk(&context(), &good[..0x8027], ROOT, EPTP, 5, ADDRESS);
    assert_eq!(got, ended(Ending::Outside(spot(1, 0, 0x8020)), 19));
}

/// 2 MBytes of the guest at 40200000h in 1 GByte of EPT at 100000000h.
#[test]
fn large_pages() {
    let mut image = image(0x7018, 0x4031_2083);
    image[0x2008..0x2010].copy_from_slice(&0x1_2345_6087_u64.to_le_bytes());
    let mut record = RECORD;
    // Not global, span 1, page 8080600h, frame 100200h.
    record[5..17].copy_from_slice(&[0, 1, 0, 6, 8, 8, 0, 0x00, 0x02, 0x10, 0, 0]);
    let got = walk(&context(), &image, ROOT, EPTP, 5, ADDRESS);
    assert_eq!(got, ended(Ending::Translated(record), 17));
}

#[test]
fn numbers_that_stand_for_nothing() {
    let flat = FlatContext::from(&context());
    for (place, ept) in [(3, 0), (1 << 32, 0), (2, 2), (u64::MAX, u64::MAX)] {
        let odd = FlatContext { place, ept, ..flat };
        let got = walk_flat(&odd, &tables(), ROOT, EPTP, 5, ADDRESS);
        assert_eq!(got, FlatWalk::from(ended(Ending::ContextOutOfRange, 0)));
    }
    // With these the EPT number is not looked at.
    for place in [0, 1] {
        let odd = FlatContext {
            place,
            ept: 7,
            ..flat
        };
        let got = walk_flat(&odd, &tables(), ROOT, EPTP, 5, ADDRESS);
        assert_eq!(got, FlatWalk::from(ended(Ending::Translated(RECORD), 24)));
    }
}

#[test]
fn there_and_back() {
    let at = spot(3, 2, 0x1234);
    let endings = [
        Ending::Translated(RECORD),
        Ending::ContextOutOfRange,
        Ending::BadEptp(4),
        Ending::NotCanonical,
        Ending::Absent(at),
        Ending::TooHigh(at),
        Ending::Outside(at),
    ];
    for (number, ending) in (0..).zip(endings) {
        let walk = ended(ending, 17);
        let flat = FlatWalk::from(walk);
        assert_eq!((flat.ending, flat.read), (number, 17));
        assert_eq!(flat.walk(), Some(walk));
    }
    let flat = FlatWalk::from(ended(Ending::NotCanonical, 0));
    let mut record = [0; 22];
    record[21] = 1;
    for none in [
        FlatWalk { ending: 7, ..flat },
        FlatWalk { rule: 1, ..flat },
        FlatWalk {
            guest_level: 1,
            ..flat
        },
        FlatWalk {
            ept_level: 1,
            ..flat
        },
        FlatWalk { address: 1, ..flat },
        FlatWalk { record, ..flat },
    ] {
        assert_eq!(none.walk(), None, "{none:?}");
    }
}

#[test]
fn no_image() {
    let due = ended(Ending::Outside(spot(4, 4, 0x1000)), 0);
    assert_eq!(walk(&context(), &[], ROOT, EPTP, 5, ADDRESS), due);
    let flat = FlatContext::from(&context());
    // SAFETY: null goes with length 0, which the header allows.
    let got = unsafe { raw::skuldrefn_walk(flat, null(), 0, ROOT, EPTP, 5, ADDRESS) };
    assert_eq!(got.walk(), Some(due));
}

/// The record's VPID is the call's, whatever the context's is.
#[test]
fn every_vpid() {
    let guest = Context {
        place: Place::Guest {
            vpid: 9,
            ept: Some(0x77),
        },
        ..context()
    };
    for vpid in [0, 1, 0x0105, 0xFF00, 65_535] {
        let mut record = RECORD;
        record[1..3].copy_from_slice(&u16::to_le_bytes(vpid));
        let got = walk(&guest, &tables(), ROOT, EPTP, vpid, ADDRESS);
        assert_eq!(got, ended(Ending::Translated(record), 24));
    }
}

#[cfg(target_arch = "x86_64")]
type Wide = unsafe extern "C" fn(FlatContext, *const u8, usize, u64, u64, u64, u64) -> FlatWalk;

/// The x86-64 ABI says nothing of the bits above an argument's own, so the
/// library may not look at them.
#[cfg(target_arch = "x86_64")]
#[test]
fn bits_above_the_vpid_do_not_matter() {
    let flat = FlatContext::from(&context());
    let image = tables();
    let mut record = RECORD;
    record[1..3].copy_from_slice(&[0xFE, 0xFF]);
    let due = FlatWalk::from(ended(Ending::Translated(record), 24));
    // SAFETY: in this ABI a 16-bit argument is the low part of a whole register.
    let wide: Wide = unsafe { std::mem::transmute(raw::skuldrefn_walk as *const ()) };
    for above in [0, 0x1_0000, 0xFFFF_0000, 0xA5A5_5A5A_FFFF_0000] {
        let vpid = above | 0xFFFE;
        // SAFETY: as in the wrapper.
        let got = unsafe { wide(flat, image.as_ptr(), image.len(), ROOT, EPTP, vpid, ADDRESS) };
        assert_eq!(got, due, "{above:#x}");
    }
}
