//! The example table: its text, its bytes and its rows belong together, and the program
//! makes each from the other.

use std::fs;
use std::path::{Path, PathBuf};
use std::process::{Command, Output};

fn path(name: &str) -> PathBuf {
    let tables = Path::new(env!("CARGO_MANIFEST_DIR")).join("../../examples/tables");
    tables.join(name)
}

fn read(name: &str) -> Vec<u8> {
    fs::read(path(name)).unwrap_or_else(|error| panic!("{name}: {error}"))
}

fn run(way: &str, name: &str) -> Output {
    let mut command = Command::new(env!("CARGO_BIN_EXE_rows"));
    let output = command.arg(way).arg(path(name)).output();
    output.expect("the program runs")
}

#[test]
fn text_table_and_rows() {
    let (table, rows) = (read("three-kinds.table"), read("three-kinds.rows"));
    let text = convert::assemble(&read("three-kinds.txt"));
    assert_eq!(text, Ok(table.clone()));
    let mut exported = vec![0; 96];
    assert_eq!(model::export(48, &table, &mut exported).length, 96);
    assert_eq!(exported, rows);
    assert_eq!(run("export", "three-kinds.table").stdout, rows);
    assert_eq!(run("import", "three-kinds.rows").stdout, table);
}

/// The rows of the example with one byte set.
#[test]
fn a_bad_row() {
    let (good, bad) = (read("three-kinds.rows"), read("bad-row.rows"));
    let changed: Vec<usize> = (0..96).filter(|at| good[*at] != bad[*at]).collect();
    assert_eq!((changed, bad[36]), (vec![36], 5));
    let output = run("import", "bad-row.rows");
    assert_eq!(output.status.code(), Some(1));
    assert!(output.stdout.is_empty());
    let due = "table: row 2 at byte 32 is no valid row of 48-bit linear addresses: \
               guest-physical, but vpid is unused and not zero\n";
    assert_eq!(String::from_utf8_lossy(&output.stderr), due);
}

/// The documents have the output that is worked out by hand.
#[test]
fn the_documents_show_the_rows() {
    let mut shown = String::new();
    for (nth, row) in read("three-kinds.rows").chunks(32).enumerate() {
        let pairs: Vec<String> = row.iter().map(|byte| format!("{byte:02x}")).collect();
        shown += &format!("    {:07} {}\n", 32 * nth, pairs.join(" "));
    }
    for name in ["../../README.md", "../README.md"] {
        let text = fs::read_to_string(path(name)).expect("a document");
        assert!(text.contains(&shown), "{name}");
    }
}
