//! The conversion of a stored table, as a user runs it.

use entry::{fed, Checkout, Run, A};
use std::fs;

/// A at 57 bits.
const WIDE: [u8; 18] = [
    0x07, 0x05, 0x00, 0x01, 0x00, 0x00, 0x00, 0x45, 0x23, 0x01, 0x00, 0x00, 0x00, 0xDE, 0xBC, 0x0A,
    0x00, 0x00,
];

/// Runs a line of shell that writes to the file `new`: how it ended, and the
/// bytes.
fn written(checkout: &Checkout, line: &str) -> (Run, Vec<u8>) {
    let run = checkout.sh(line);
    let new = fs::read(checkout.path("new")).unwrap_or_default();
    (run, new)
}

#[test]
fn a_file_or_standard_input() {
    let checkout = Checkout::bare();
    let first = checkout.sh("./skuldrefn widen a.table > new");
    assert_eq!(first.status, 0, "{}", first.said);
    assert_eq!(checkout.calls()[0], "rt lib in skuldrefn_c");
    assert!(checkout.calls()[1].ends_with(" -p widen"));
    checkout.write("-x", &A);
    for line in [
        "./skuldrefn widen a.table > new",
        "./skuldrefn widen < a.table > new",
        "./skuldrefn widen - < a.table > new",
        "cat a.table | ./skuldrefn widen > new",
        "./skuldrefn widen -- -x > new",
        "cd crates && ../skuldrefn widen ../a.table > ../new",
    ] {
        let (run, new) = written(&checkout, line);
        assert_eq!((run.status, &run.said[..]), (0, ""), "{line}");
        assert_eq!(new, WIDE, "{line}");
    }
    // What was built is used again.
    assert_eq!(checkout.calls().len(), 2);
    let mut command = checkout.command("./skuldrefn widen > new");
    let run = fed(&mut command, &[]).expect("it starts");
    assert_eq!((run.status, &run.said[..]), (0, ""));
    assert_eq!(fs::read(checkout.path("new")).expect("a file"), [0; 0]);
}

#[test]
fn refusals() {
    let checkout = Checkout::bare();
    checkout.write("cut.table", &[A, A].concat()[..30]);
    checkout.write("wide.table", &WIDE);
    checkout.write("long.table", &A.repeat(2_771));
    checkout.write("grown.table", &A.repeat(2_617));
    assert_eq!(checkout.sh("./skuldrefn widen a.table").status, 0);
    let bad = "is no valid record of 48-bit linear addresses";
    for (name, due) in [
        (
            "cut",
            format!("record 2 at byte 17 {bad}: linear cut to 13 of 17 bytes"),
        ),
        (
            "wide",
            format!("record 1 at byte 0 {bad}: unknown kind 0x7, one of 57-bit linear addresses"),
        ),
        ("long", "the table is longer than 47,104 bytes".to_string()),
        (
            "grown",
            "at 57 bits the table would be longer than 47,104 bytes".to_string(),
        ),
    ] {
        let (run, new) = written(&checkout, &format!("./skuldrefn widen {name}.table > new"));
        assert_eq!((run.status, run.said), (1, format!("widen: {due}\n")));
        assert!(new.is_empty(), "{name}");
    }
}

#[test]
fn an_input_that_fails() {
    let checkout = Checkout::bare();
    assert_eq!(checkout.sh("./skuldrefn widen a.table").status, 0);
    let run = checkout.sh("./skuldrefn widen < /");
    assert_eq!((run.status, &run.out[..]), (1, ""));
    assert!(
        run.said.contains("standard input cannot be read"),
        "{}",
        run.said
    );
}

/// A text of both widths, shown again at each.
#[test]
fn a_log_at_57_bits() {
    let checkout = Checkout::bare();
    let line = "linear-57 vpid=0x0 pcid=0x0 global=0x0 span=0x0 page=0x100000000000 frame=0x1";
    checkout.write("wide.txt", format!("{line}\nvmxon\n").as_bytes());
    let run = checkout.sh("./skuldrefn assemble wide.txt > wide.log");
    assert_eq!(run.status, 0, "{}", run.said);
    let run = checkout.sh("./skuldrefn disassemble --linear-width 57 wide.log");
    let due = format!("# 19 bytes\n{line}  # event 1 at byte 0\nvmxon  # event 2 at byte 18\n");
    assert_eq!((run.status, run.out), (0, due));
    for width in ["", "--linear-width 48"] {
        let run = checkout.sh(&format!("./skuldrefn disassemble {width} < wide.log"));
        assert_eq!(run.status, 0);
        assert!(
            run.out
                .contains("unknown kind 0x7, one of 57-bit linear addresses, a replay ends here"),
            "{}",
            run.out
        );
    }
    let run = checkout.sh("./skuldrefn replay wide.log");
    assert_eq!((run.status, &run.out[..]), (1, "1 4 0 0\n"));
    assert_eq!(
        run.said.lines().last(),
        Some("replay: the run ended at event 1, byte 0: the kind is unknown")
    );
}
