//! Logs made for one purpose.

use common::encode;
use generate::Rng;

/// A log with every kind of event, each of them whole.
pub fn every_kind(rng: &mut Rng) -> Vec<u8> {
    let mut bytes = Vec::new();
    let mut context = model::Context::program();
    for kind in [
        22, 20, 1, 2, 3, 4, 5, 6, 19, 18, 26, 27, 24, 21, 16, 17, 23, 25,
    ] {
        let event = generate::event_of_kind(rng, &context, kind);
        context = model::step(&context, &[], &event, &mut []).context;
        bytes.extend(event);
    }
    bytes
}

/// A log for each kind of 57-bit addresses, which is unknown: a whole record of it between other
/// events.
pub fn wide_kinds(rng: &mut Rng) -> [Vec<u8>; 4] {
    [7, 8, 9, 10].map(|kind| {
        let record = generate::event_of_kind(rng, &model::Context::program(), kind);
        [&encode(4, &[0, 0, 1, 512, 9]), &record, &[22][..]].concat()
    })
}

/// The lines that the papers give for each of these.
pub const UNKNOWN: &str = "1 0 0 16\n2 4 0 16\n";

/// A log that fills the table to exactly 47,104 bytes with 2,944 structure caches, the last of them
/// under a PCID of its own, is refused one more, drops that one by INVLPG of a page that it does
/// not cover, creates one again and is refused the next.
pub fn full_to_the_byte() -> Vec<u8> {
    // VPID 0, span 1.
    let created = |pcid, i: u64| encode(4, &[0, pcid, 1, i * 512, 9]);
    let mut bytes: Vec<u8> = (0..2943).flat_map(|i| created(0, i)).collect();
    // PCID 1, CPL 0.
    bytes.extend(encode(24, &[1, 0]));
    bytes.extend(created(1, 1));
    bytes.extend(created(1, 2));
    bytes.extend(encode(18, &[0]));
    bytes.extend(created(1, 3));
    bytes.extend(created(1, 4));
    bytes
}

/// The lines that the papers give for the end of that log.
pub const FULL_END: &str = "2943 0 0 47088\n2944 0 0 47088\n2945 0 0 47104\n2946 12 0 47104\n\
    2947 0 1 47088\n2948 0 0 47104\n2949 12 0 47104\n";
