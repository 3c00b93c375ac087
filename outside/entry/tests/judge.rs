//! The trace of another simulator, as a user has it judged.

use entry::{top, Checkout, A};
use std::fs;

/// VM entry with VPID 5 and PCID 1.
const ENTRY: [u8; 16] = [20, 1, 5, 0, 0, 0, 0, 0, 0, 0, 0, 0, 0, 1, 0, 0];

/// VMXON, the entry, the creation of A and a reset, after which the simulator
/// claims to have a table.
fn trace(after_reset: &[u8]) -> Vec<u8> {
    let mut trace = Vec::new();
    for (event, table) in [
        (&[22][..], &[][..]),
        (&ENTRY, &[]),
        (&A, &A),
        (&[25], after_reset),
    ] {
        trace.extend_from_slice(event);
        trace.extend_from_slice(&(table.len() as u32).to_le_bytes());
        trace.extend_from_slice(table);
    }
    trace
}

const FIRST: &str =
    "1 lawful accepted 0 of 0 records\n2 lawful accepted 0 of 0 records\n3 lawful accepted 1 of 1 records\n";

#[test]
fn a_file_or_standard_input() {
    let checkout = Checkout::bare();
    checkout.write("a.trace", &trace(&[]));
    checkout.write("-x", &trace(&[]));
    let due = format!("{FIRST}4 lawful accepted 0 of 0 records\n");
    let first = checkout.sh("./skuldrefn judge a.trace");
    assert_eq!((first.status, &first.out), (0, &due), "{}", first.said);
    assert_eq!(checkout.calls()[0], "rt lib in skuldrefn_c");
    assert!(checkout.calls()[1].ends_with(" -p judge"));
    for line in [
        "./skuldrefn judge a.trace",
        "./skuldrefn judge < a.trace",
        "./skuldrefn judge - < a.trace",
        "cat a.trace | ./skuldrefn judge",
        "./skuldrefn judge -- -x",
        "./skuldrefn judge --linear-width 48 a.trace",
        "./skuldrefn judge --linear-width 48 -- -x",
        "cd crates && ../skuldrefn judge ../a.trace",
    ] {
        let run = checkout.sh(line);
        assert_eq!((run.status, &run.said[..]), (0, ""), "{line}");
        assert_eq!(run.out, due, "{line}");
    }
    // What was built is used again.
    assert_eq!(checkout.calls().len(), 2);
}

#[test]
fn findings_and_traces_that_are_cut() {
    let checkout = Checkout::bare();
    let (whole, found) = (trace(&[]), trace(&A));
    checkout.write("cut.trace", &whole[..whole.len() - 1]);
    checkout.write("found.trace", &found);
    checkout.write("both.trace", &[&found[..], &[16]].concat());
    checkout.write("unknown.trace", &[&whole[..], &[7]].concat());
    assert_eq!(checkout.sh("./skuldrefn judge < /dev/null").status, 2);
    let unmatched = "4 found unmatched 0 \
        linear vpid=0x5 pcid=0x1 global=0x0 span=0x0 page=0x12345 frame=0xabcde\n";
    // The trace has 5 + 20 + 38 + 5 bytes, and 17 more where A is claimed.
    for (name, status, line, said) in [
        (
            "found",
            1,
            unmatched.to_string(),
            &["1 of 4 events was not lawful"][..],
        ),
        (
            "cut",
            2,
            "4 cut length 3 of 4 at byte 67\n".to_string(),
            &["the trace was not read to its end: event 4, cut length 3 of 4 at byte 67"],
        ),
        (
            "unknown",
            2,
            "4 lawful accepted 0 of 0 records\n5 unknown kind 0x7 at byte 68\n".to_string(),
            &["the trace was not read to its end: event 5, unknown kind 0x7 at byte 68"],
        ),
        (
            "both",
            1,
            format!("{unmatched}5 cut event 1 of 25 at byte 86\n"),
            &[
                "the trace was not read to its end: event 5, cut event 1 of 25 at byte 86",
                "1 of 4 events was not lawful",
            ],
        ),
    ] {
        let run = checkout.sh(&format!("./skuldrefn judge {name}.trace"));
        assert_eq!((run.status, run.out), (status, format!("{FIRST}{line}")));
        let said: String = said.iter().map(|line| format!("judge: {line}\n")).collect();
        assert_eq!(run.said, said, "{name}");
    }
    let run = checkout.sh("./skuldrefn judge < /");
    assert_eq!((run.status, &run.out[..]), (2, ""));
    assert!(
        run.said.contains("standard input cannot be read"),
        "{}",
        run.said
    );
}

/// A trace that the library makes of a log is lawful.
#[test]
fn a_trace_of_a_log() {
    let checkout = Checkout::bare();
    let log = [&[22][..], &ENTRY, &A, &[25]].concat();
    checkout.write("a.log", &log);
    let run = checkout.sh("./skuldrefn judge --make a.log > a.trace");
    assert_eq!(run.status, 0, "{}", run.said);
    let made = fs::read(checkout.path("a.trace")).expect("a trace");
    assert_eq!(made, trace(&[]));
    for line in [
        "./skuldrefn judge a.trace",
        "./skuldrefn judge --make < a.log | ./skuldrefn judge",
        "./skuldrefn judge --linear-width 48 --make - < a.log | ./skuldrefn judge",
    ] {
        let run = checkout.sh(line);
        assert_eq!((run.status, &run.said[..]), (0, ""), "{line}");
        assert_eq!(
            run.out,
            format!("{FIRST}4 lawful accepted 0 of 0 records\n")
        );
    }
}

/// What the documents have to paste, on the examples of the repository.
#[test]
fn the_examples() {
    let checkout = Checkout::bare();
    let traces = top().join("examples/traces");
    for (name, status) in [("drops-more", 0), ("keeps-after-invvpid", 1)] {
        for sort in ["txt", "trace"] {
            let file = format!("{name}.{sort}");
            let bytes = fs::read(traces.join(&file)).expect("an example");
            checkout.write(&file, &bytes);
        }
        let due = fs::read_to_string(traces.join(format!("{name}.expected")));
        assert_eq!(checkout.sh("./skuldrefn judge < /dev/null").status, 2);
        let run = checkout.sh(&format!("./skuldrefn judge {name}.trace"));
        assert_eq!((run.status, run.out), (status, due.expect("lines")));
        let run = checkout.sh(&format!(
            "./skuldrefn assemble {name}.txt | cmp - {name}.trace"
        ));
        assert_eq!((run.status, &run.out[..]), (0, ""), "{}", run.said);
    }
}
