//! The wrapper's reader: logs in fragments, ends, resets, and readers that ignore.

use skuldrefn::{raw, Context, FlatContext, FlatStep, Line, Place, Reader, Step, Taken, Tally};
use skuldrefn::{PROGRAM_CAPABILITY, PROGRAM_LINEAR_WIDTH, PROGRAM_WIDTH, TABLE_LIMIT};
use std::ptr::{null, null_mut};

/// Document 01's five events: VMXON; VM entry with VPID 5, PCID 1; the creation of A;
/// VM exit to PCID 0; INVVPID type 1, VPID 5.
const LOG: [u8; 62] = [
    22, 20, 1, 5, 0, 0, 0, 0, 0, 0, 0, 0, 0, 0, 1, 0, 0, 1, 5, 0, 1, 0, 0, 0, 0x45, 0x23, 1, 0, 0,
    0xDE, 0xBC, 0x0A, 0, 0, 21, 0, 0, 16, 1, 0, 0, 0, 0, 0, 0, 0, 5, 0, 0, 0, 0, 0, 0, 0, 0, 0, 0,
    0, 0, 0, 0, 0,
];
/// Its record A.
const A: [u8; 17] = [
    0x01, 0x05, 0x00, 0x01, 0x00, 0x00, 0x00, 0x45, 0x23, 0x01, 0x00, 0x00, 0xDE, 0xBC, 0x0A, 0x00,
    0x00,
];

fn start() -> FlatContext {
    FlatContext::from(&Context::program())
}

/// What is in force, and what was reported.
struct Run {
    reader: Reader,
    context: Context,
    tally: Tally,
    table: Vec<u8>,
    lines: Vec<Line>,
}

impl Run {
    fn new() -> Run {
        Run {
            reader: Reader::new(),
            context: Context::program(),
            tally: Tally::new(),
            table: Vec::new(),
            lines: Vec::new(),
        }
    }

    fn feed(&mut self, fragment: &[u8]) {
        let mut rest = fragment;
        while !rest.is_empty() {
            let mut new = vec![0; TABLE_LIMIT];
            let (context, tally) = (self.context, &mut self.tally);
            let Taken { taken, step } =
                self.reader
                    .take(&context, tally, &self.table, rest, &mut new);
            rest = &rest[taken..];
            if let Some(step) = step {
                self.context = step.context;
                if step.answer == 0 {
                    new.truncate(step.length);
                    self.table = new;
                }
                self.line(step.answer, step.dropped);
            }
        }
    }

    fn finish(&mut self) {
        if let Some(answer) = self.reader.finish(&self.context, &self.table) {
            self.line(answer, 0);
        }
    }

    fn line(&mut self, answer: u64, dropped: usize) {
        self.lines.push(Line {
            number: self.reader.line,
            answer,
            dropped,
            length: self.table.len(),
        });
    }
}

/// However the log is cut, and wherever it ends, its lines, table, context and tally
/// are those of the replay.
#[test]
fn a_log_in_fragments() {
    for end in 0..=LOG.len() {
        let log = &LOG[..end];
        let whole = skuldrefn::replay(PROGRAM_CAPABILITY, PROGRAM_WIDTH, PROGRAM_LINEAR_WIDTH, log);
        for size in [1, 2, 3, 7, 16, 24, 25, 62] {
            let mut run = Run::new();
            for fragment in log.chunks(size) {
                run.feed(fragment);
                assert!(run.reader.length <= 24);
            }
            run.finish();
            assert_eq!(run.lines, whole.lines, "{end} bytes by {size}");
            assert_eq!((run.context, &run.table), (whole.context, &whole.table));
            let tally = skuldrefn::count(48, &run.table);
            assert_eq!(tally.as_ref(), Ok(&run.tally));
            assert_eq!(run.reader.ignoring, 1);
        }
    }
}

/// A call stops behind the first event, and an empty one finishes none.
#[test]
fn one_event_for_each_call() {
    let mut reader = Reader::new();
    let mut tally = Tally::new();
    let context = Context::program();
    let mut take = |fragment: &[u8]| {
        let taken = reader.take(&context, &mut tally, &[], fragment, &mut [0xA5; 17]);
        (taken.taken, taken.step.map(|step| step.answer), reader)
    };
    let at = |line, ignoring, held: &[u8]| {
        let mut reader = Reader {
            line,
            ignoring,
            length: held.len() as u64,
            ..Reader::new()
        };
        reader.held[..held.len()].copy_from_slice(held);
        reader
    };
    assert_eq!(take(&[22, 23, 24]), (1, Some(0), at(1, 0, &[])));
    assert_eq!(take(&[]), (0, None, at(1, 0, &[])));
    assert_eq!(take(&[24, 7]), (2, None, at(1, 0, &[24, 7])));
    assert_eq!(take(&[]), (0, None, at(1, 0, &[24, 7])));
    // The bytes that were held stay where they are, and are not looked at.
    let after = |line, ignoring| Reader {
        length: 0,
        ..at(line, ignoring, &[24, 7])
    };
    assert_eq!(take(&[0, 4, 22]), (2, Some(4), after(2, 0)));
    assert_eq!(take(&[255, 22]), (1, Some(4), after(3, 1)));
    assert_eq!(take(&[22; 100]), (100, None, after(3, 1)));
    // An ignored finish call reports nothing; a reset ends the ignoring.
    assert_eq!(reader.finish(&context, &[]), None);
    assert_eq!(reader, after(3, 1));
    reader.reset();
    assert_eq!(reader, after(3, 0));
    let taken = reader.take(&context, &mut tally, &[], &[22], &mut []);
    assert_eq!((taken.taken, reader.line), (1, 4));
    assert_eq!(reader.finish(&context, &[]), None);
    assert_eq!(reader, after(4, 1));
}

/// A step's number, its tally and its buffer go with it.
#[test]
fn a_creation_in_two_parts() {
    let guest = Context {
        pcid: 1,
        place: Place::Guest { vpid: 5, ept: None },
        ..Context::program()
    };
    let mut tally = Tally::new();
    let mut reader = Reader {
        line: u64::MAX - 1,
        ..Reader::new()
    };
    let mut new = [0xA5; 20];
    let first = reader.take(&guest, &mut tally, &[], &A[..9], &mut new);
    assert_eq!((first.taken, first.step), (9, None));
    assert_eq!((new, &tally), ([0xA5; 20], &Tally::new()));
    let second = reader.take(&guest, &mut tally, &[], &A[9..], &mut new);
    let step = Step {
        answer: 0,
        rule: 0,
        context: guest,
        length: 17,
        dropped: 0,
    };
    assert_eq!((second.taken, second.step), (8, Some(step)));
    assert_eq!((&new[..17], &new[17..]), (&A[..], &[0xA5; 3][..]));
    assert_eq!((tally.pcids[1], tally.records()), (1, 1));
    assert_eq!(reader.line, u64::MAX);
    // The line stops there, no room is 12 and a wrong tally 13; the log goes on.
    let table = new[..17].to_vec();
    let mut answer = |tally: &mut Tally, room: usize| {
        let taken = reader.take(&guest, tally, &table, &A, &mut vec![0; room]);
        assert_eq!((reader.line, reader.ignoring), (u64::MAX, 0));
        taken.step.map(|step| step.answer)
    };
    assert_eq!(answer(&mut tally, 33), Some(12));
    assert_eq!(answer(&mut Tally::new(), 34), Some(13));
    assert_eq!(answer(&mut tally, 34), Some(0));
    // A table that is none ends it.
    let taken = reader.take(&guest, &mut tally, &A[..16], &[25, 25], &mut []);
    assert_eq!(
        (taken.taken, taken.step.map(|step| step.answer)),
        (1, Some(3))
    );
    assert_eq!((reader.line, reader.ignoring), (u64::MAX, 1));
}

/// Readers that no call leaves: they count as ignoring, and come back as they were.
#[test]
fn readers_that_ignore() {
    let context = Context::program();
    let holding = |held: &[u8], length| {
        let mut reader = Reader {
            length,
            ..Reader::new()
        };
        reader.held[..held.len()].copy_from_slice(held);
        reader
    };
    for reader in [
        holding(&[22], 1),
        holding(&A, 17),
        holding(&A, 18),
        holding(&[0], 1),
        holding(&[7], 1),
        holding(&[16], 25),
        holding(&[16], u64::MAX),
        Reader {
            ignoring: 2,
            ..holding(&[], 0)
        },
    ] {
        let mut own = reader;
        let taken = own.take(&context, &mut Tally::new(), &[], &[22; 30], &mut []);
        assert_eq!((taken.taken, taken.step, own), (30, None, reader));
        assert_eq!(own.finish(&context, &[]), None);
        assert_eq!(own, reader);
        own.reset();
        let due = Reader {
            ignoring: 0,
            length: 0,
            ..reader
        };
        assert_eq!(own, due);
    }
    // A kind of the other width is known there.
    let wide = Context {
        linear_width: 57,
        ..context
    };
    let mut own = holding(&[7], 1);
    let taken = own.take(&wide, &mut Tally::new(), &[], &[0; 30], &mut [0; 18]);
    assert_eq!((taken.taken, own.line), (17, 1));
}

#[test]
fn flat_contexts_and_null() {
    let odd = FlatContext {
        place: 3,
        linear_width: 57,
        ..start()
    };
    let mut reader = Reader::new();
    let mut tally = Tally::new();
    let refused = FlatStep {
        answer: 1,
        rule: 0,
        context: odd,
        length: 0,
        dropped: 0,
    };
    // Read at 57 bits; an event is answered 1 and the log goes on, an unknown kind
    // ends it.
    let mut take = |fragment: &[u8]| {
        let taken = reader.take_flat(&odd, &mut tally, &[], fragment, &mut []);
        let (number, ignoring) = (taken.reader.line, taken.reader.ignoring);
        (
            taken.taken,
            taken.finished,
            taken.step.answer,
            number,
            ignoring,
        )
    };
    assert_eq!(take(&[7; 17]), (17, 0, 0, 0, 0));
    assert_eq!(take(&[7; 17]), (1, 1, 1, 1, 0));
    assert_eq!(take(&[22]), (1, 1, 1, 2, 0));
    assert_eq!(take(&[1, 1]), (1, 1, 1, 3, 1));
    let mut reader = Reader::new();
    let taken = reader.take_flat(&odd, &mut tally, &[], &[25], &mut []);
    assert_eq!(taken.step, refused);
    reader.length = 1;
    reader.held[0] = 16;
    let finished = reader.finish_flat(&odd, &[]);
    assert_eq!((finished.finished, finished.answer), (1, 1));
    // SAFETY: null goes with length 0, which the header allows.
    unsafe {
        let (none, own) = (Reader::new(), Tally::new());
        let mut pcids = own.pcids.clone();
        let pcids = pcids.as_mut_ptr();
        let taken = raw::skuldrefn_take(
            none,
            start(),
            own.kinds,
            pcids,
            4_096,
            null(),
            0,
            null(),
            0,
            null_mut(),
            0,
        );
        assert_eq!((taken.reader, taken.taken, taken.finished), (none, 0, 0));
        assert_eq!((taken.kinds, taken.step.context), (own.kinds, start()));
        let taken = raw::skuldrefn_take(
            none,
            start(),
            own.kinds,
            null_mut(),
            0,
            null(),
            0,
            [22].as_ptr(),
            1,
            null_mut(),
            0,
        );
        assert_eq!((taken.finished, taken.step.answer), (1, 13));
        let finished = raw::skuldrefn_finish(none, start(), null(), 0);
        assert_eq!((finished.finished, finished.answer), (0, 0));
        assert_eq!(finished.reader.ignoring, 1);
    }
}
