//! The wrapper's two levels: steps, lookups, flat contexts and null.

use skuldrefn::{lookup_levels, lookup_levels_flat, raw, step_levels, step_levels_flat};
use skuldrefn::{Context, FlatContext, Found, Level, LevelAfter, LevelPart, LevelStep};
use skuldrefn::{Place, Tally, TABLE_LIMIT};
use std::ptr::{null, null_mut};

/// A linear translation of page 12345h: VPID 5, PCID 1, frame ABCDEh.
const A: [u8; 17] = [
    0x01, 0x05, 0x00, 0x01, 0x00, 0x00, 0x00, 0x45, 0x23, 0x01, 0x00, 0x00, 0xDE, 0xBC, 0x0A, 0x00,
    0x00,
];
/// A linear structure cache that covers that page: span 1, page 12200h.
const S: [u8; 16] = [
    0x04, 0x05, 0x00, 0x01, 0x00, 0x01, 0x00, 0x22, 0x01, 0x00, 0x00, 0x11, 0, 0, 0, 0,
];
const RESET: [u8; 1] = [25];

fn guest() -> Context {
    Context {
        pcid: 1,
        place: Place::Guest { vpid: 5, ept: None },
        ..Context::program()
    }
}

/// A table with its tally and a new buffer.
struct Own {
    tally: Tally,
    table: Vec<u8>,
    new: Vec<u8>,
}

fn own(table: &[u8], room: usize) -> Own {
    Own {
        tally: skuldrefn::count(48, table).unwrap_or_default(),
        table: table.to_vec(),
        new: vec![0xA5; room],
    }
}

impl Own {
    fn level(&mut self) -> Level<'_> {
        Level {
            tally: &mut self.tally,
            table: &self.table,
            new: &mut self.new,
        }
    }

    /// The new table is this, its tally its own, and the bytes behind it stay.
    fn has(&self, table: &[u8]) -> bool {
        let (new, rest) = self.new.split_at(table.len());
        let tally = skuldrefn::count(48, table);
        new == table && rest.iter().all(|byte| *byte == 0xA5) && tally == Ok(self.tally.clone())
    }

    /// Nothing was written, and the tally is that of the table or as it was.
    fn is_untouched(&self, tally: &Tally) -> bool {
        self.new.iter().all(|byte| *byte == 0xA5) && self.tally == *tally
    }
}

fn after(length: usize, dropped: usize) -> LevelAfter {
    LevelAfter { length, dropped }
}

/// A creation goes into both; an event drops at each level what is there.
#[test]
fn both_levels_are_stepped() {
    let (mut first, mut second) = (own(&S, 40), own(&[A, A].concat(), 60));
    let step = step_levels(&guest(), &A, first.level(), second.level());
    let due = LevelStep {
        answer: 0,
        rule: 0,
        context: guest(),
        first: after(33, 0),
        second: after(51, 0),
    };
    assert_eq!(step, due);
    assert!(first.has(&[&S[..], &A].concat()));
    assert!(second.has(&[A, A, A].concat()));
    let (mut first, mut second) = (own(&[A, A].concat(), 34), own(&S, 16));
    let step = step_levels(&guest(), &RESET, first.level(), second.level());
    assert_eq!((step.first, step.second), (after(0, 2), after(0, 1)));
    assert_eq!(step.context, Context::program());
    assert!(first.has(&[]) && second.has(&[]));
}

/// The number is the first's, or the second's where that is 0; neither is written.
#[test]
fn a_refusal_leaves_both() {
    let long = vec![0; TABLE_LIMIT + 1];
    let wrong = || Own {
        tally: Tally::new(),
        ..own(&A, 40)
    };
    let levels: [(u64, Box<dyn Fn() -> Own>); 5] = [
        (0, Box::new(|| own(&A, 34))),
        (2, Box::new(move || own(&long, 34))),
        (3, Box::new(|| own(&A[..16], 34))),
        (12, Box::new(|| own(&A, 33))),
        (13, Box::new(wrong)),
    ];
    for (one, make_first) in &levels {
        for (two, make_second) in &levels {
            let (mut first, mut second) = (make_first(), make_second());
            let tallies = (first.tally.clone(), second.tally.clone());
            let step = step_levels(&guest(), &A, first.level(), second.level());
            let answer = if *one == 0 { *two } else { *one };
            assert_eq!(step.answer, answer, "{one} and {two}");
            if answer != 0 {
                assert_eq!(step.context, guest());
                assert_eq!((step.first, step.second), (after(0, 0), after(0, 0)));
                assert!(first.is_untouched(&tallies.0), "{one} and {two}");
                assert!(second.is_untouched(&tallies.1), "{one} and {two}");
            }
        }
    }
    // The rule of an EPTP with bit 7 goes with its answer.
    let root = Context {
        place: Place::Root,
        ..Context::program()
    };
    let eptp = 0x12_3456_709E_u64.to_le_bytes();
    let entry = [&[20, 1, 5, 0, 1], &eptp[..], &[0; 3]].concat();
    let ruled = |mut first: Own, mut second: Own| {
        let step = step_levels(&root, &entry, first.level(), second.level());
        (step.answer, step.rule)
    };
    assert_eq!(ruled(own(&[], 0), own(&A, 17)), (10, 4));
    assert_eq!(ruled(own(&[], 0), own(&A[..3], 17)), (10, 4));
    assert_eq!(ruled(own(&A[..3], 17), own(&[], 0)), (3, 0));
}

/// From the first level if it has one, else from the second; translations alone.
#[test]
fn lookups() {
    let at = |first: &[u8], second: &[u8]| lookup_levels(&guest(), first, second, 0x1234_5678);
    let found = |level, place| (0, Some(Found { level, place }));
    let behind = [&S[..], &A].concat();
    assert_eq!(at(&A, &A), found(1, 0..17));
    assert_eq!(at(&behind, &A), found(1, 16..33));
    assert_eq!(at(&S, &behind), found(2, 16..33));
    assert_eq!(at(&[], &A), found(2, 0..17));
    assert_eq!(at(&S, &S), (0, None));
    assert_eq!(at(&[], &[]), (0, None));
    // A table that is refused empties it.
    let long = vec![0; TABLE_LIMIT + 1];
    assert_eq!(at(&A, &A[..16]), (3, None));
    assert_eq!(at(&A, &long), (2, None));
    assert_eq!(at(&A[..16], &long), (3, None));
    let bad = Context { cpl: 4, ..guest() };
    assert_eq!(lookup_levels(&bad, &A[..16], &A, 0), (1, None));
    assert_eq!(lookup_levels(&guest(), &A, &A, 1 << 63), (0, None));
}

#[test]
fn flat_contexts_and_null() {
    let odd = FlatContext {
        place: 3,
        ..FlatContext::from(&guest())
    };
    let (mut first, mut second) = (own(&A, 34), own(&[], 17));
    let tallies = (first.tally.clone(), second.tally.clone());
    let step = step_levels_flat(&odd, &RESET, first.level(), second.level());
    assert_eq!((step.answer, step.context), (1, odd));
    assert!(first.is_untouched(&tallies.0) && second.is_untouched(&tallies.1));
    let none = |answer| LevelPart {
        answer,
        level: 0,
        start: 0,
        length: 0,
    };
    assert_eq!(lookup_levels_flat(&odd, &A, &A, 0x1234_5678), none(1));
    let context = FlatContext::from(&Context::program());
    let own = Tally::new();
    let (mut one, mut two) = (own.pcids.clone(), own.pcids.clone());
    // SAFETY: null goes with length 0, which the header allows.
    unsafe {
        let mut step = |pcids: *mut u16, length| {
            raw::skuldrefn_step_levels(
                context,
                RESET.as_ptr(),
                1,
                own.kinds,
                one.as_mut_ptr(),
                4_096,
                null(),
                0,
                null_mut(),
                0,
                own.kinds,
                pcids,
                length,
                null(),
                0,
                null_mut(),
                0,
            )
        };
        assert_eq!(step(two.as_mut_ptr(), 4_096).answer, 0);
        assert_eq!(step(null_mut(), 0).answer, 13);
        let part = raw::skuldrefn_lookup_levels(context, null(), 0, null(), 0, 0);
        assert_eq!(part, none(0));
    }
}
