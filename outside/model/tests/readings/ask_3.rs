//! Document 02, Ask 3: a log as it arrives.

use crate::common::*;
use model::replay::lines;
use model::stream::{finish, take, Finished, Reader, Taken, HELD};
use model::{Context, Line, Step, Tally, TABLE_LIMIT};

/// A reader that holds these bytes, with others behind them.
fn holding(held: &[u8]) -> Reader {
    let mut reader = Reader {
        line: 7,
        ignoring: 0,
        length: held.len() as u64,
        held: [0xEE; HELD],
    };
    reader.held[..held.len()].copy_from_slice(held);
    reader
}

/// A fragment on a table with its own tally and a new buffer of the limit.
fn taken(reader: &Reader, context: &Context, table: &[u8], fragment: &[u8]) -> Taken {
    let mut tally = matching(context, table);
    let mut new = vec![0xA5; TABLE_LIMIT];
    let taken = take(reader, context, &mut tally, table, fragment, &mut new);
    // What it does is what the counted step does.
    let (due, due_tally, due_table) = match taken.finished {
        None => (None, matching(context, table), Vec::new()),
        Some(_) => {
            let held = &reader.held[..reader.length as usize];
            let event = [held, &fragment[..taken.taken]].concat();
            let (step, new) = run(context, table, &event);
            let after = match step.answer {
                0 => matching(&step.context, &new),
                _ => matching(context, table),
            };
            (Some(step), after, new)
        }
    };
    assert_eq!(taken.finished, due);
    assert!(tally == due_tally);
    assert_eq!(new[..due_table.len()], due_table);
    assert!(new[due_table.len()..].iter().all(|byte| *byte == 0xA5));
    taken
}

/// The reader hands all back as it came and has taken the whole fragment, and a
/// finish call reports nothing.
fn is_ignored(reader: &Reader, context: &Context) -> bool {
    let after = |fragment: &[u8]| {
        let taken = taken(reader, context, &A, fragment);
        (taken.reader, taken.taken, taken.finished)
    };
    let finished = finish(reader, context, &A);
    [&[][..], &[25], &[0], &[1; 40]]
        .iter()
        .all(|fragment| after(fragment) == (*reader, fragment.len(), None))
        && (finished.reader, finished.answer) == (*reader, None)
}

fn answer_of(taken: &Taken) -> Option<u64> {
    taken.finished.map(|step| step.answer)
}

/// One of each kind of event at a width, from a reset, all accepted.
fn every_kind(linear_width: u64) -> Vec<Vec<u8>> {
    let [linear, _, combined, structure, _, both] = kinds_of(&at_width(outside(), linear_width));
    vec![
        VMXON.to_vec(),
        m_outside(linear),
        m_outside(structure),
        entry(1, 5, 1, EPTP, 1, 0),
        m(2).bytes(),
        m(combined).bytes(),
        m(5).bytes(),
        m(both).bytes(),
        violation(0, 1, 0),
        switch(1, 0),
        invlpg(0),
        invpcid(0, 1, 0),
        mov_to_cr3(2),
        exit(0),
        invvpid(2, 0, 0),
        invept(2, 0, 0),
        VMXOFF.to_vec(),
        RESET.to_vec(),
    ]
}

/// A run that is fed in fragments, with two buffers of a length.
struct Fed {
    reader: Reader,
    context: Context,
    tally: Tally,
    table: Vec<u8>,
    room: usize,
    lines: Vec<Line>,
    steps: Vec<Step>,
}

impl Fed {
    fn new(context: &Context, room: usize) -> Fed {
        Fed {
            reader: Reader::new(),
            context: *context,
            tally: Tally::empty(),
            table: Vec::new(),
            room,
            lines: Vec::new(),
            steps: Vec::new(),
        }
    }

    fn line(&mut self, answer: u64, dropped: usize) {
        self.lines.push(Line {
            number: self.reader.line,
            answer,
            dropped,
            length: self.table.len(),
        });
    }

    /// A fragment, call by call until all of it is taken.
    fn feed(&mut self, fragment: &[u8]) {
        let mut rest = fragment;
        loop {
            let mut new = vec![0; self.room];
            let (context, tally) = (self.context, &mut self.tally);
            let taken = take(&self.reader, &context, tally, &self.table, rest, &mut new);
            self.reader = taken.reader;
            rest = &rest[taken.taken..];
            if let Some(step) = taken.finished {
                self.context = step.context;
                if step.answer == 0 {
                    new.truncate(step.length);
                    self.table = new;
                }
                self.line(step.answer, step.dropped);
                self.steps.push(step);
            }
            if rest.is_empty() {
                return;
            }
        }
    }

    fn finish(&mut self) {
        let Finished { reader, answer } = finish(&self.reader, &self.context, &self.table);
        self.reader = reader;
        if let Some(answer) = answer {
            self.line(answer, 0);
        }
    }
}

/// The lines of a log that is fed in these fragments.
fn fed(context: &Context, fragments: &[&[u8]]) -> Vec<Line> {
    let mut fed = Fed::new(context, TABLE_LIMIT);
    for fragment in fragments {
        fed.feed(fragment);
    }
    fed.finish();
    fed.lines
}

#[test]
fn document_01s_five_events() {
    let log = [
        VMXON.to_vec(),
        entry(1, 5, 0, 0, 1, 0),
        A.to_vec(),
        exit(0),
        invvpid(1, 5, 0),
    ]
    .concat();
    let due = ["1 0 0 0", "2 0 0 0", "3 0 0 17", "4 0 0 17", "5 0 1 0"];
    for size in [1, 2, 3, 7, 24, 25, 62] {
        let lines = fed(&outside(), &log.chunks(size).collect::<Vec<_>>());
        let lines: Vec<String> = lines.iter().map(ToString::to_string).collect();
        assert_eq!(lines, due, "fragments of {size}");
    }
}

/// Cut anywhere, it gives the lines of the whole log, and one that ends too soon
/// those of the log that ends there.
#[test]
fn cut_anywhere() {
    for linear_width in [48, 57] {
        let context = at_width(outside(), linear_width);
        let log = every_kind(linear_width).concat();
        let whole = lines(&context, &log);
        assert_eq!(whole.len(), 18);
        assert!(whole.iter().all(|line| line.answer == 0));
        let bytes: Vec<&[u8]> = log.chunks(1).collect();
        assert_eq!(fed(&context, &bytes), whole);
        for cut in 0..=log.len() {
            let (one, other) = log.split_at(cut);
            assert_eq!(fed(&context, &[one, other]), whole, "cut at {cut}");
            assert_eq!(fed(&context, &[one, &[], other]), whole);
            assert_eq!(fed(&context, &[one]), lines(&context, one));
            for end in [cut, log.len().min(cut + 30)] {
                let (middle, last) = other.split_at(end - cut);
                assert_eq!(fed(&context, &[one, middle, last]), whole);
            }
        }
    }
}

/// At most 24 bytes are held, and only the places that they fill change.
#[test]
fn what_is_held() {
    for linear_width in [48, 57] {
        let context = at_width(outside(), linear_width);
        for event in every_kind(linear_width) {
            for cut in 0..event.len() {
                let start = holding(&[]);
                let first = taken(&start, &context, &[], &event[..cut]);
                assert_eq!((first.taken, first.finished), (cut, None));
                assert_eq!(first.reader, holding(&event[..cut]));
                let rest = [&event[cut..], &[0xFF, 22]].concat();
                let second = taken(&first.reader, &context, &[], &rest);
                assert_eq!(second.taken, event.len() - cut);
                let due = Reader {
                    line: 8,
                    length: 0,
                    ..first.reader
                };
                assert_eq!(second.reader, due);
                assert!(second.finished.is_some());
            }
        }
    }
    // INVVPID has 25 bytes, of which 24 wait.
    let event = invvpid(1, 5, 0);
    let reader = holding(&event[..24]);
    assert_eq!(
        answer_of(&taken(&reader, &root(), &A, &event[24..])),
        Some(0)
    );
}

#[test]
fn r11_1_what_begins_the_ignoring() {
    let bad = with_width(outside(), 53);
    let one = taken(&holding(&[]), &bad, &[], &VMXON);
    assert_eq!((answer_of(&one), one.reader.ignoring), (Some(1), 0));
    assert_eq!(one.reader.line, 8);
    let unknown = taken(&holding(&[]), &bad, &[], &[0, 22]);
    assert_eq!((answer_of(&unknown), unknown.taken), (Some(1), 1));
    assert_eq!((unknown.reader.ignoring, unknown.reader.line), (1, 8));
    // Answers 2 and 3 do; 4 of a bad field and all others do not.
    let long = vec![0; TABLE_LIMIT + 1];
    for (context, table, event, answer, ignoring) in [
        (outside(), &long[..], VMXON.to_vec(), 2, 1),
        (outside(), &A[..16], VMXON.to_vec(), 3, 1),
        (outside(), &m(7).bytes(), RESET.to_vec(), 3, 1),
        (outside(), &A, switch(4_096, 0), 4, 0),
        (outside(), &A, VMXOFF.to_vec(), 5, 0),
        (ept_guest(), &A, VMXON.to_vec(), 6, 0),
        (with_cpl(outside(), 3), &A, VMXON.to_vec(), 7, 0),
        (root(), &A, invvpid(4, 5, 0), 8, 0),
        (root(), &A, VMXON.to_vec(), 9, 0),
        (root(), &A, entry(1, 0, 0, 0, 0, 0), 10, 0),
        (root(), &A, A.to_vec(), 11, 0),
        (outside(), &A, VMXON.to_vec(), 0, 0),
    ] {
        let (held, rest) = event.split_at(event.len() / 2);
        let after = taken(&holding(held), &context, table, rest);
        assert_eq!(answer_of(&after), Some(answer));
        assert_eq!((after.reader.ignoring, after.reader.length), (ignoring, 0));
        assert_eq!((after.reader.line, after.taken), (8, rest.len()));
        assert_eq!(after.reader.held, holding(held).held);
    }
}

#[test]
fn r11_2_a_finish_with_nothing_held() {
    let done = finish(&holding(&[]), &outside(), &A);
    let due = Reader {
        ignoring: 1,
        ..holding(&[])
    };
    assert_eq!((done.reader, done.answer), (due, None));
    assert!(is_ignored(&done.reader, &outside()));
    // Nor does the table matter.
    assert_eq!(finish(&holding(&[]), &outside(), &A[..1]), done);
}

/// One byte is taken, of any fragment, and the answers 1 to 3 go first; 13 never.
#[test]
fn r11_3_an_unknown_kind() {
    let long = vec![0; TABLE_LIMIT + 1];
    for (context, table, answer) in [
        (outside(), &A[..], 4),
        (with_cpl(outside(), 4), &A, 1),
        (outside(), &long, 2),
        (outside(), &A[..16], 3),
        (with_width(outside(), 35), &long, 1),
    ] {
        for kind in [0, 7, 8, 9, 10, 11, 15, 28, 255] {
            for fragment in [vec![kind], vec![kind, 22], vec![kind; 30]] {
                let after = taken(&holding(&[]), &context, table, &fragment);
                assert_eq!((answer_of(&after), after.taken), (Some(answer), 1));
                let due = Reader {
                    line: 8,
                    ignoring: 1,
                    ..holding(&[])
                };
                assert_eq!(after.reader, due);
                assert!(is_ignored(&after.reader, &context));
            }
        }
        // The same for a cut record at the end.
        for cut in [&A[..16], &[16], &invvpid(1, 5, 0)[..24]] {
            let done = finish(&holding(cut), &context, table);
            assert_eq!(done.answer, Some(answer));
            let due = Reader {
                line: 8,
                ignoring: 1,
                length: 0,
                held: holding(cut).held,
            };
            assert_eq!(done.reader, due);
            assert!(is_ignored(&done.reader, &context));
        }
    }
}

#[test]
fn r11_4_ignored_calls() {
    for ignoring in [1, 2, 1 << 63, u64::MAX] {
        for held in [&[][..], &[1], &[0], &[16; 24]] {
            let reader = Reader {
                ignoring,
                ..holding(held)
            };
            assert!(is_ignored(&reader, &outside()));
            assert!(is_ignored(&reader, &with_width(outside(), 53)));
            // Until a reset.
            let after = reader.reset();
            let due = Reader {
                ignoring: 0,
                length: 0,
                ..reader
            };
            assert_eq!(after, due);
            assert_eq!(answer_of(&taken(&after, &outside(), &A, &VMXON)), Some(0));
        }
    }
}

#[test]
fn r11_5_held_bytes_that_count_as_ignoring() {
    // Complete ones, and more than that.
    for held in [
        &[22][..],
        &[23, 0],
        &[25; 24],
        &A,
        &[&A[..], &[0]].concat(),
        &switch(0, 0),
        &exit(0),
        &m(6).bytes(),
    ] {
        assert!(is_ignored(&holding(held), &outside()), "{held:?}");
    }
    // Bytes that begin nothing.
    for kind in [0, 7, 10, 11, 15, 28, 255] {
        assert!(is_ignored(&holding(&[kind]), &outside()), "kind {kind}");
    }
    // One byte less is fine.
    for held in [&A[..16], &[16; 24], &m(6).bytes()[..20], &[]] {
        assert!(!is_ignored(&holding(held), &outside()), "{held:?}");
    }
    // More than 24, whatever they are.
    for length in [25, 26, 1 << 32, (1 << 32) + 1, u64::MAX] {
        let reader = Reader {
            length,
            ..holding(&[16; 24])
        };
        assert!(is_ignored(&reader, &outside()));
        assert_eq!(reader.reset().length, 0);
    }
    // What is behind the held bytes is not looked at.
    let mut reader = holding(&[]);
    for byte in [0, 22, 255] {
        reader.held = [byte; HELD];
        assert!(!is_ignored(&reader, &outside()));
    }
}

/// The reader is handed back as it came, so that another width may know its bytes.
#[test]
fn r11_6_a_reader_of_the_other_width() {
    let wide = at_width(outside(), 57);
    let held = &m_outside(7)[..10];
    assert!(is_ignored(&holding(held), &outside()));
    let rest = &m_outside(7)[10..];
    let after = taken(&holding(held), &wide, &[], rest);
    assert_eq!((answer_of(&after), after.taken), (Some(0), 8));
}

#[test]
fn r11_8_a_call_stops_after_an_event() {
    let log = [&VMXON[..], &RESET, &VMXON].concat();
    let mut reader = Reader::new();
    for line in 1..=3 {
        let after = taken(&reader, &outside(), &[], &log[line - 1..]);
        assert_eq!((answer_of(&after), after.taken), (Some(0), 1));
        assert_eq!(after.reader.line, line as u64);
        reader = after.reader;
    }
    for held in [&[][..], &[1], &[16; 24]] {
        let none = taken(&holding(held), &outside(), &A, &[]);
        assert_eq!((none.reader, none.taken), (holding(held), 0));
        assert_eq!(none.finished, None);
    }
}

#[test]
fn r11_9_the_line_number_stops() {
    for (line, next) in [(u64::MAX - 1, u64::MAX), (u64::MAX, u64::MAX)] {
        let reader = Reader {
            line,
            ..Reader::new()
        };
        let after = |fragment: &[u8]| taken(&reader, &outside(), &[], fragment).reader;
        assert_eq!(after(&VMXON).line, next);
        assert_eq!(after(&[0]).line, next);
        assert_eq!(after(&[]).line, line);
        let cut = after(&[1, 2]);
        assert_eq!(cut.line, line);
        assert_eq!(finish(&cut, &outside(), &[]).reader.line, next);
        assert_eq!(finish(&reader, &outside(), &[]).reader.line, line);
    }
    // A reset of the reader does not begin again.
    assert_eq!(holding(&[1]).reset().line, 7);
}

/// Any event may be answered 12, and the run goes on.
#[test]
fn r11_10_short_buffers() {
    let (one, other) = (m_outside(1), m_outside(4));
    let mut run = Fed::new(&outside(), 17);
    run.feed(&[&one[..], &other, &VMXON, &RESET, &other].concat());
    run.finish();
    let lines: Vec<String> = run.lines.iter().map(ToString::to_string).collect();
    assert_eq!(
        lines,
        ["1 0 0 17", "2 12 0 17", "3 0 0 17", "4 0 1 0", "5 0 0 16"]
    );
    let mut run = Fed::new(&outside(), 17);
    run.feed(&one);
    run.room = 16;
    run.feed(&[VMXON, RESET].concat());
    let lines: Vec<String> = run.lines.iter().map(ToString::to_string).collect();
    assert_eq!(lines, ["1 0 0 17", "2 12 0 17", "3 12 0 17"]);
}

/// Kinds are known by the context's width, any but 57 read as 48.
#[test]
fn r11_11_the_width() {
    for (linear_width, own, foreign) in [(48, 1, 7), (57, 7, 1), (0, 1, 7), (56, 1, 7)] {
        let context = at_width(outside(), linear_width);
        let answer = |due| match linear_width {
            48 | 57 => due,
            // Out of range, and the run goes on.
            _ => 1,
        };
        let after = taken(&holding(&[]), &context, &[], &m_outside(own));
        assert_eq!(answer_of(&after), Some(answer(0)));
        assert_eq!(after.taken, m_outside(own).len());
        assert_eq!(after.reader.ignoring, 0);
        let after = taken(&holding(&[]), &context, &[], &m_outside(foreign));
        assert_eq!((answer_of(&after), after.taken), (Some(answer(4)), 1));
        assert_eq!(after.reader.ignoring, 1);
    }
}

/// 13 does not begin the ignoring, and a cut record or an unknown kind is 4.
#[test]
fn r14_7_a_wrong_tally() {
    let mut new = [0xA5; 40];
    let wrong = Tally::empty();
    for (fragment, answer, ignoring) in [
        (&VMXON[..], 13, 0),
        (&VMXOFF, 13, 0),
        (&[0], 4, 1),
        (&switch(4_096, 0), 4, 0),
    ] {
        let mut tally = wrong.clone();
        let after = take(
            &holding(&[]),
            &outside(),
            &mut tally,
            &A,
            fragment,
            &mut new,
        );
        assert_eq!(answer_of(&after), Some(answer));
        assert_eq!(after.finished, Some(Step::refused(answer, &outside())));
        assert_eq!((after.reader.ignoring, after.reader.line), (ignoring, 8));
        assert!(tally == wrong && new == [0xA5; 40]);
    }
    assert_eq!(finish(&holding(&A[..3]), &outside(), &A).answer, Some(4));
}

/// The tally is carried from event to event, and the context too.
#[test]
fn tally_and_context_are_carried() {
    let mut run = Fed::new(&outside(), TABLE_LIMIT);
    for byte in every_kind(48).concat() {
        run.feed(&[byte]);
        assert!(run.tally == matching(&run.context, &run.table));
    }
    assert_eq!((run.context, run.reader.line), (outside(), 18));
    let mut run = Fed::new(&outside(), TABLE_LIMIT);
    run.feed(&[&VMXON[..], &entry(1, 5, 0, 0, 1, 3)].concat());
    assert_eq!(run.context, with_cpl(guest(5, None), 3));
    assert_eq!(run.steps.len(), 2);
}

/// There is no limit to a log.
#[test]
fn a_log_of_more_than_65536_bytes() {
    let mut run = Fed::new(&outside(), 16);
    for _ in 0..70 {
        run.feed(&[25; 1_000]);
    }
    assert_eq!((run.reader.line, run.lines.len()), (70_000, 70_000));
    assert_eq!(run.lines[69_999].to_string(), "70000 0 0 0");
}
