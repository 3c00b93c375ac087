//! A stored table as fixed rows, and rows as a table, as a user runs them.

use entry::{fed, top, Checkout, Run, A, ROW_A};
use std::fs;

/// A at 57 bits, and its row.
const WIDE: [u8; 18] = [
    0x07, 0x05, 0x00, 0x01, 0x00, 0x00, 0x00, 0x45, 0x23, 0x01, 0x00, 0x00, 0x00, 0xDE, 0xBC, 0x0A,
    0x00, 0x00,
];
const WIDE_ROW: [u8; 32] = [
    7, 0, 0, 0, 5, 0, 1, 0, 0x45, 0x23, 0x01, 0, 0, 0, 0, 0, 0xDE, 0xBC, 0x0A, 0, 0, 0, 0, 0, 0, 0,
    0, 0, 0, 0, 0, 0,
];

/// Runs a line of shell that writes to the file `new`: how it ended, and the
/// bytes.
fn written(checkout: &Checkout, line: &str) -> (Run, Vec<u8>) {
    let run = checkout.sh(line);
    let new = fs::read(checkout.path("new")).unwrap_or_default();
    (run, new)
}

#[test]
fn a_file_or_standard_input() {
    let checkout = Checkout::bare();
    let first = checkout.sh("./skuldrefn rows a.table > new");
    assert_eq!(first.status, 0, "{}", first.said);
    assert_eq!(checkout.calls()[0], "rt lib in skuldrefn_c");
    assert!(checkout.calls()[1].ends_with(" -p rows"));
    for (command, from, due) in [("rows", "a.table", &ROW_A[..]), ("table", "a.rows", &A)] {
        fs::copy(checkout.path(from), checkout.path("-x")).expect("a copy");
        for line in [
            format!("./skuldrefn {command} {from} > new"),
            format!("./skuldrefn {command} < {from} > new"),
            format!("./skuldrefn {command} - < {from} > new"),
            format!("cat {from} | ./skuldrefn {command} > new"),
            format!("./skuldrefn {command} -- -x > new"),
            format!("./skuldrefn {command} --linear-width 48 {from} > new"),
            format!("./skuldrefn {command} --linear-width 48 -- -x > new"),
            format!("cd crates && ../skuldrefn {command} ../{from} > ../new"),
        ] {
            let (run, new) = written(&checkout, &line);
            assert_eq!((run.status, &run.said[..]), (0, ""), "{line}");
            assert_eq!(new, due, "{line}");
        }
        let mut command = checkout.command(&format!("./skuldrefn {command} > new"));
        let run = fed(&mut command, &[]).expect("it starts");
        assert_eq!((run.status, &run.said[..]), (0, ""));
        assert_eq!(fs::read(checkout.path("new")).expect("a file"), [0; 0]);
    }
    let line = "./skuldrefn rows a.table | ./skuldrefn table | cmp - a.table";
    assert_eq!(checkout.sh(line).status, 0);
    // What was built is used again, by both.
    assert_eq!(checkout.calls().len(), 2);
}

#[test]
fn of_57_bits() {
    let checkout = Checkout::bare();
    checkout.write("wide.table", &WIDE);
    checkout.write("wide.rows", &WIDE_ROW);
    assert_eq!(checkout.sh("./skuldrefn rows a.table").status, 0);
    for (command, from, due) in [
        ("rows", "wide.table", &WIDE_ROW[..]),
        ("table", "wide.rows", &WIDE),
    ] {
        let line = format!("./skuldrefn {command} --linear-width 57 {from} > new");
        let (run, new) = written(&checkout, &line);
        assert_eq!((run.status, &run.said[..], &new[..]), (0, "", due));
        let (run, new) = written(&checkout, &format!("./skuldrefn {command} {from} > new"));
        assert_eq!((run.status, new.len()), (1, 0));
        let why = "unknown kind 0x7, one of 57-bit linear addresses\n";
        assert!(run.said.ends_with(why), "{}", run.said);
    }
}

#[test]
fn refusals() {
    let checkout = Checkout::bare();
    let mut set = ROW_A;
    set[24] = 1;
    checkout.write("cut.table", &[A, A].concat()[..30]);
    checkout.write("long.table", &A.repeat(2_771));
    checkout.write("cut.rows", &ROW_A[..31]);
    checkout.write("set.rows", &[ROW_A, set].concat());
    checkout.write("long.rows", &ROW_A.repeat(2_771));
    assert_eq!(checkout.sh("./skuldrefn rows a.table").status, 0);
    for (command, from, due) in [
        (
            "rows",
            "cut.table",
            "record 2 at byte 17 is no valid record of 48-bit linear addresses: linear cut to 13 of \
             17 bytes",
        ),
        (
            "rows",
            "long.table",
            "the table is longer than 47,104 bytes",
        ),
        (
            "table",
            "cut.rows",
            "the rows have 31 bytes, no multiple of 32",
        ),
        (
            "table",
            "set.rows",
            "row 2 at byte 32 is no valid row of 48-bit linear addresses: linear, but ep4ta is \
             unused and not zero",
        ),
        (
            "table",
            "long.rows",
            "the table would be longer than 47,104 bytes",
        ),
    ] {
        let (run, new) = written(&checkout, &format!("./skuldrefn {command} {from} > new"));
        assert_eq!((run.status, run.said), (1, format!("{command}: {due}\n")));
        assert!(new.is_empty(), "{from}");
    }
}

#[test]
fn an_input_that_fails() {
    let checkout = Checkout::bare();
    assert_eq!(checkout.sh("./skuldrefn rows a.table").status, 0);
    for command in ["rows", "table"] {
        let run = checkout.sh(&format!("./skuldrefn {command} < /"));
        assert_eq!((run.status, &run.out[..]), (1, ""));
        let due = format!("{command}: standard input cannot be read");
        assert!(run.said.contains(&due), "{}", run.said);
    }
}

/// The examples of README.md, pasted: their output is the block below each.
#[test]
fn the_readme() {
    let checkout = Checkout::bare();
    let examples = checkout.path("examples/tables");
    fs::create_dir_all(&examples).expect("a folder");
    for entry in fs::read_dir(top().join("examples/tables")).expect("the examples") {
        let path = entry.expect("a file").path();
        fs::copy(&path, examples.join(path.file_name().expect("a name"))).expect("a copy");
    }
    let log = "examples/five-events.log";
    fs::copy(top().join(log), checkout.path(log)).expect("a copy");
    assert_eq!(checkout.sh("./skuldrefn rows a.table").status, 0);
    assert_eq!(checkout.sh(&format!("./skuldrefn show {log}")).status, 0);
    let readme = fs::read_to_string(top().join("README.md")).expect("README.md");
    let (_, section) = readme
        .split_once("\n## A table as fixed rows\n")
        .expect("the section");
    let (section, _) = section.split_once("\n## ").expect("the next section");
    let mut tried = 0;
    for (line, status) in [
        ("./skuldrefn rows examples/tables/three-kinds.table | od -A d -t x1 -v -w32", 0),
        ("./skuldrefn show --table examples/five-events.log after=3 | ./skuldrefn rows | od -A d -t x1 -v -w32", 0),
        ("./skuldrefn table examples/tables/three-kinds.rows | cmp - examples/tables/three-kinds.table", 0),
        ("./skuldrefn table examples/tables/bad-row.rows", 1),
    ] {
        let (_, after) = section
            .split_once(&format!("\n    {line}\n"))
            .expect(line);
        let run = checkout.sh(line);
        assert_eq!(run.status, status, "{line}: {}", run.said);
        for printed in run.out.lines().chain(run.said.lines()) {
            assert!(after.contains(&format!("\n    {printed}\n")), "{printed}");
        }
        tried += 1;
    }
    assert_eq!(tried, 4);
}
