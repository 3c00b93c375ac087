//! The totals of a log, as a user runs them.

use entry::{Checkout, A};

/// What is printed before the lines of PCIDs: record A is in force, or nothing.
fn rows(linear: u32) -> String {
    format!(
        "                          span 0  span 1  span 2  span 3  span 4\n\
         linear                         {linear}       0       0       0       0\n\
         guest-physical                 0       0       0       0       0\n\
         combined                       0       0       0       0       0\n\
         linear-structure               0       0       0       0       0\n\
         guest-physical-structure       0       0       0       0       0\n\
         combined-structure             0       0       0       0       0\n"
    )
}

/// VMXON, VM entry with VPID 5 and PCID 1, the creation of A.
fn log() -> Vec<u8> {
    let entry = [20, 1, 5, 0, 0, 0, 0, 0, 0, 0, 0, 0, 0, 1, 0, 0];
    [&[22], &entry[..], &A].concat()
}

#[test]
fn a_file_or_standard_input() {
    let checkout = Checkout::bare();
    checkout.write("a.log", &log());
    checkout.write("-x", &log());
    let due = rows(1)
        + "pcid 0x1: 1\nmappings in force: 1\nbytes in force: 17\n\
           events: 3\nrefused: 0\n";
    let first = checkout.sh("./skuldrefn tally a.log");
    assert_eq!((first.status, &first.out), (0, &due), "{}", first.said);
    assert_eq!(checkout.calls()[0], "rt lib in skuldrefn_c");
    assert!(checkout.calls()[1].ends_with(" -p tally"));
    for line in [
        "./skuldrefn tally a.log",
        "./skuldrefn tally < a.log",
        "./skuldrefn tally - < a.log",
        "cat a.log | ./skuldrefn tally",
        "./skuldrefn tally -- -x",
        "./skuldrefn tally --linear-width 48 a.log",
        "./skuldrefn tally --linear-width 48 -- -x",
        "cd crates && ../skuldrefn tally ../a.log",
    ] {
        let run = checkout.sh(line);
        assert_eq!((run.status, &run.said[..]), (0, ""), "{line}");
        assert_eq!(run.out, due, "{line}");
    }
    // What was built is used again.
    assert_eq!(checkout.calls().len(), 2);
}

#[test]
fn totals_over_time() {
    let checkout = Checkout::bare();
    checkout.write("a.log", &log());
    assert_eq!(checkout.sh("./skuldrefn tally a.log").status, 0);
    let zeros = ",0".repeat(29);
    let (first, second, third) = (
        format!("1,0,0,0,0,0{zeros}\n"),
        format!("2,0,0,0,0,0{zeros}\n"),
        format!("3,0,0,1,17,1{zeros}\n"),
    );
    for (words, due) in [
        ("--every 1", format!("{first}{second}{third}")),
        ("--every 2", format!("{second}{third}")),
        ("--every 999999999", third.clone()),
        ("--linear-width 48 --every 3", third.clone()),
        ("--every 3 --linear-width 48 --", third),
    ] {
        let run = checkout.sh(&format!("./skuldrefn tally {words} a.log"));
        assert_eq!((run.status, &run.said[..]), (0, ""), "{words}");
        let (names, lines) = run.out.split_once('\n').expect("a line");
        assert!(names.starts_with("event,answer,dropped,mappings,bytes,linear span 0,"));
        assert_eq!(lines, due, "{words}");
    }
}

#[test]
fn logs_that_are_not_read_to_their_end() {
    let checkout = Checkout::bare();
    checkout.write("cut.log", &log()[..30]);
    checkout.write("long.log", &[25; 65_537]);
    checkout.write("a.log", &log());
    assert_eq!(checkout.sh("./skuldrefn tally three.log").status, 0);
    let nothing = rows(0)
        + "mappings in force: 0\nbytes in force: 0\n\
           events: 3\nrefused: 1 (answer 4: 1)\n";
    for (words, out, due) in [
        (
            "cut.log",
            &nothing[..],
            "the run ended at event 3, byte 17: linear cut to 13 of 17 bytes",
        ),
        (
            "--linear-width 57 a.log",
            &nothing,
            "the run ended at event 3, byte 17: unknown kind 0x1, one of 48-bit linear addresses",
        ),
        ("long.log", "", "the log is longer than 65,536 bytes"),
    ] {
        let run = checkout.sh(&format!("./skuldrefn tally {words}"));
        assert_eq!((run.status, &run.out[..]), (1, out), "{words}");
        assert_eq!(run.said, format!("tally: {due}\n"));
    }
    let run = checkout.sh("./skuldrefn tally < /");
    assert_eq!((run.status, &run.out[..]), (1, ""));
    assert!(
        run.said.contains("standard input cannot be read"),
        "{}",
        run.said
    );
}
