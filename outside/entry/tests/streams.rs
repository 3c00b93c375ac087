//! Inputs that fail and outputs that cannot be written, of the replay program
//! and of the script: every lost line is told.

use entry::{replay, Checkout, Run, THREE};
use std::fs::{self, File};
use std::process::{Command, Stdio};

const UNWRITABLE: &str = "replay: standard output cannot be written\n";
const UNREADABLE: &str = "replay: standard input cannot be read\n";
const CUT_OFF: &str = "skuldrefn: standard output was closed before all lines were written\n";

/// The replay program itself on a file.
fn program(input: File, output: Stdio) -> Run {
    let output = Command::new(replay())
        .stdin(input)
        .stdout(output)
        .stderr(Stdio::piped())
        .output();
    Run::of(output.expect("the program starts"))
}

#[test]
fn the_program_on_a_full_disk() {
    let checkout = Checkout::bare();
    for log in ["resets.log", "three.log"] {
        let full = File::options().write(true).open("/dev/full");
        let log = File::open(checkout.path(log)).expect("a log");
        let run = program(log, full.expect("/dev/full").into());
        assert_eq!(run.said, UNWRITABLE);
    }
    checkout.write("long.log", &[25; 65_537]);
    let full = File::options().write(true).open("/dev/full");
    let log = File::open(checkout.path("long.log")).expect("a log");
    let run = program(log, full.expect("/dev/full").into());
    assert!(run.said.contains(UNWRITABLE), "{}", run.said);
}

#[test]
fn the_program_on_an_input_that_fails() {
    let run = program(File::open("/").expect("a folder"), Stdio::piped());
    assert_eq!((&run.out[..], &run.said[..]), ("", UNREADABLE));
}

#[test]
fn a_full_disk() {
    let checkout = Checkout::built();
    for line in [
        "./skuldrefn replay resets.log > /dev/full",
        "./skuldrefn replay three.log > /dev/full",
        "./skuldrefn replay < three.log > /dev/full",
        "TMPDIR=/dev/full ./skuldrefn replay three.log > /dev/full",
    ] {
        let run = checkout.sh(line);
        assert_eq!((run.status, &run.said[..]), (1, UNWRITABLE), "{line}");
    }
    // Nowhere to say it.
    let run = checkout.sh("./skuldrefn replay resets.log > /dev/full 2> /dev/full");
    assert_eq!(run.status, 1);
}

#[test]
fn a_disk_that_fills_up() {
    // A limit on the length of files stands for the disk: with the signal
    // ignored, a write past it writes what fits, and the next one fails.
    let checkout = Checkout::built();
    let whole = checkout.sh("./skuldrefn replay resets.log").out;
    assert_eq!(whole.lines().count(), 65_536);
    for (trap, said) in [
        ("trap '' XFSZ;", UNWRITABLE),
        ("", "skuldrefn: the replay program ended with status 153\n"),
    ] {
        let run = checkout.sh(&format!(
            "{trap} ulimit -f 200; ./skuldrefn replay resets.log > out"
        ));
        assert_eq!((run.status, &run.said[..]), (1, said), "{trap}");
        let part = fs::read_to_string(checkout.path("out")).expect("a part");
        assert_eq!(part.len(), 200 * 512);
        assert!(whole.starts_with(&part));
        fs::remove_file(checkout.path("out")).expect("a file");
    }
}

#[test]
fn a_closed_pipe() {
    let checkout = Checkout::built();
    for trap in ["", "trap '' PIPE; "] {
        let run = checkout.sh(&format!(
            "{trap}{{ ./skuldrefn replay resets.log; echo $? >&2; }} | head -n 1"
        ));
        assert_eq!(run.out, "1 0 0 0\n");
        assert_eq!(run.said, format!("{CUT_OFF}1\n"));
    }
    let line = "{ $REPLAY < resets.log; echo $? >&2; } | head -n 1";
    let run = checkout.sh(line);
    assert_eq!((&run.out[..], &run.said[..]), ("1 0 0 0\n", "141\n"));
}

#[test]
fn closed_descriptors() {
    let checkout = Checkout::built();
    let closed = "skuldrefn: standard input is closed\n";
    for command in [
        "replay",
        "replay -",
        "assemble",
        "disassemble",
        "tally",
        "widen",
        "rows",
        "table",
        "judge",
        "judge --make",
        "stream",
        "stream -",
    ] {
        let run = checkout.sh(&format!("./skuldrefn {command} <&-"));
        assert_eq!((run.status, &run.said[..]), (2, closed), "{command}");
        assert!(run.out.is_empty());
    }
    let run = checkout.sh("./skuldrefn replay three.log <&-");
    assert_eq!((run.status, &run.out[..], &run.said[..]), (0, THREE, ""));
    let closed = "skuldrefn: standard output is closed\n";
    for command in [
        "replay three.log",
        "disassemble three.log",
        "assemble",
        "tally three.log",
        "widen a.table",
        "rows a.table",
        "table a.rows",
        "judge three.log",
        "stream three.log",
        "help",
        "library",
        "fuzz",
        "mutants",
        "bench",
        "test",
    ] {
        let run = checkout.sh(&format!("./skuldrefn {command} >&-"));
        assert_eq!((run.status, &run.said[..]), (2, closed), "{command}");
    }
    let run = checkout.sh("./skuldrefn replay three.log 2>&-");
    assert_eq!((run.status, &run.out[..]), (0, THREE));
    let run = checkout.sh("./skuldrefn replay / 2>&-");
    assert_eq!((run.status, &run.out[..]), (2, ""));
    let run = checkout.sh("./skuldrefn replay < / 2>&-");
    assert_eq!((run.status, &run.out[..]), (1, ""));
    let run = checkout.sh("./skuldrefn replay <&- >&- 2>&-");
    assert_eq!(run.status, 2);
}

#[test]
fn an_input_that_fails() {
    let checkout = Checkout::built();
    let run = checkout.sh("./skuldrefn replay < /");
    assert_eq!(
        (run.status, &run.out[..], &run.said[..]),
        (1, "", UNREADABLE)
    );
    for command in ["assemble", "disassemble"] {
        let run = checkout.sh(&format!("./skuldrefn {command} < /"));
        assert_eq!((run.status, &run.out[..]), (1, ""));
        assert!(
            run.said.contains("cannot read standard input"),
            "{}",
            run.said
        );
    }
}

#[test]
fn the_other_programs() {
    let checkout = Checkout::bare();
    for command in [
        "fuzz 1 1",
        "mutants 1 1",
        "bench",
        "disassemble three.log",
        "tally three.log",
        "tally --every 1 three.log",
        "widen a.table",
        "rows a.table",
        "table a.rows",
        "judge three.log",
        "judge --make three.log",
        "stream three.log",
        "help",
        "help bench",
        "library",
    ] {
        let run = checkout.sh(&format!("./skuldrefn {command} > /dev/full"));
        assert_eq!(run.status, 1, "{command}: {}", run.said);
        assert!(
            !run.said.is_empty() && !run.said.contains("panicked"),
            "{}",
            run.said
        );
    }
    for command in ["fuzz 1 1", "mutants 1 1", "bench"] {
        // `true` is gone when the first line is written.
        let run = checkout.sh(&format!(
            "{{ sleep 0.2; ./skuldrefn {command}; echo $? >&2; }} | true"
        ));
        let mut lines = run.said.lines().rev();
        assert_eq!(lines.next(), Some("1"), "{command}");
        let word = lines.next().unwrap_or_default();
        assert!(
            word.contains("standard output cannot be written: Broken pipe"),
            "{word}"
        );
    }
    let run = checkout.sh("./skuldrefn bench --csv /nowhere/x.csv");
    assert_eq!((run.status, &run.out[..]), (1, ""));
    assert!(
        run.said.contains("/nowhere/x.csv: No such file"),
        "{}",
        run.said
    );
}
