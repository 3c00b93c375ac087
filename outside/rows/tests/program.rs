//! The program itself: what it writes and says, its streams and its exit status.

use generate::Rng;
use std::fs::File;
use std::io::Write;
use std::process::{Command, Output, Stdio};

const SEED: u64 = 11;

/// Document 01's A and G, and their rows.
const A: [u8; 17] = [
    0x01, 0x05, 0x00, 0x01, 0x00, 0x00, 0x00, 0x45, 0x23, 0x01, 0x00, 0x00, 0xDE, 0xBC, 0x0A, 0x00,
    0x00,
];
const G: [u8; 17] = [
    0x02, 0x67, 0x45, 0x23, 0x01, 0x00, 0x00, 0x10, 0x00, 0x00, 0x00, 0x00, 0x20, 0x00, 0x00, 0x00,
    0x00,
];
const ROW_A: [u8; 32] = [
    1, 0, 0, 0, 5, 0, 1, 0, 0x45, 0x23, 0x01, 0, 0, 0, 0, 0, 0xDE, 0xBC, 0x0A, 0, 0, 0, 0, 0, 0, 0,
    0, 0, 0, 0, 0, 0,
];
const ROW_G: [u8; 32] = [
    2, 0, 0, 0, 0, 0, 0, 0, 0x10, 0, 0, 0, 0, 0, 0, 0, 0x20, 0, 0, 0, 0, 0, 0, 0, 0x67, 0x45, 0x23,
    0x01, 0, 0, 0, 0,
];

/// A structure cache of 57 bits, VPID 5, PCID 1, span 4, page 1000000000h, structure
/// 77h, EP4TA 1234567h, and its row.
const W: [u8; 22] = [
    10, 5, 0, 1, 0, 4, 0, 0, 0, 0, 0x10, 0, 0x77, 0, 0, 0, 0, 0x67, 0x45, 0x23, 0x01, 0,
];
const ROW_W: [u8; 32] = [
    10, 4, 0, 0, 5, 0, 1, 0, 0, 0, 0, 0, 0x10, 0, 0, 0, 0x77, 0, 0, 0, 0, 0, 0, 0, 0x67, 0x45,
    0x23, 0x01, 0, 0, 0, 0,
];

fn run(words: &[&str], input: impl Into<Stdio>, stdout: impl Into<Stdio>) -> Output {
    let mut command = Command::new(env!("CARGO_BIN_EXE_rows"));
    let command = command.args(words).stdin(input).stdout(stdout);
    let child = command.stderr(Stdio::piped()).spawn();
    let child = child.expect("the program starts");
    child.wait_with_output().expect("the program ends")
}

/// Runs the program with these bytes as its standard input.
fn fed(words: &[&str], input: &[u8]) -> Output {
    let mut child = Command::new(env!("CARGO_BIN_EXE_rows"))
        .args(words)
        .stdin(Stdio::piped())
        .stdout(Stdio::piped())
        .stderr(Stdio::piped())
        .spawn()
        .expect("the program starts");
    // The child may end before it has read all; that shows in its status.
    let _ = child.stdin.take().expect("a pipe").write_all(input);
    child.wait_with_output().expect("the program ends")
}

fn said(output: &Output) -> &str {
    std::str::from_utf8(&output.stderr).expect("text")
}

/// What the program says of an input that it refuses.
fn refusal(words: &[&str], input: &[u8]) -> String {
    let output = fed(words, input);
    assert_eq!(output.status.code(), Some(1));
    assert!(output.stdout.is_empty());
    said(&output).to_string()
}

#[test]
fn there_and_back() {
    for (width, table, rows) in [
        (&[][..], [A, G].concat(), [ROW_A, ROW_G].concat()),
        (&["--linear-width", "48"], A.to_vec(), ROW_A.to_vec()),
        (
            &["--linear-width", "57"],
            [&W[..], &G, &W].concat(),
            [ROW_W, ROW_G, ROW_W].concat(),
        ),
        (&["--linear-width", "57"], vec![], vec![]),
        (&[], vec![], vec![]),
    ] {
        for (way, input, due) in [("export", &table, &rows), ("import", &rows, &table)] {
            for file in [&[][..], &["-"], &["--"], &["--", "-"]] {
                let words = [&[way], width, file].concat();
                let output = fed(&words, input);
                assert!(output.status.success(), "{}", said(&output));
                assert_eq!(&output.stdout, due, "{words:?}");
                assert!(output.stderr.is_empty());
            }
        }
    }
}

#[test]
fn a_file() {
    let path = std::env::temp_dir().join(format!("skuldrefn-rows-{}", std::process::id()));
    let name = path.to_str().expect("a name");
    for (way, input, due) in [("export", &A[..], &ROW_A[..]), ("import", &ROW_A, &A)] {
        std::fs::write(&path, input).expect("a file");
        for words in [
            &[way, name][..],
            &[way, "--", name],
            &[way, "--linear-width", "48", name],
        ] {
            let output = fed(words, &[0xFF]);
            assert!(output.status.success(), "{}", said(&output));
            assert_eq!(output.stdout, due);
        }
    }
    std::fs::remove_file(&path).expect("a file");
}

#[test]
fn tables_that_are_refused() {
    let bad = "is no valid record of 48-bit linear addresses";
    let mut global = A;
    global[5] = 2;
    for (table, due) in [
        (
            vec![0],
            format!("record 1 at byte 0 {bad}: unknown kind 0x0"),
        ),
        (
            [A, global].concat(),
            format!("record 2 at byte 17 {bad}: linear, but global is 0x2 and must be at most 0x1"),
        ),
        (
            [A, G].concat()[..33].to_vec(),
            format!("record 2 at byte 17 {bad}: guest-physical cut to 16 of 17 bytes"),
        ),
        (
            [&A[..], &A, &[22]].concat(),
            format!("record 3 at byte 34 {bad}: kind 0x16 is no mapping's"),
        ),
        (
            [&A[..], &W, &A].concat(),
            format!("record 2 at byte 17 {bad}: unknown kind 0xa, one of 57-bit linear addresses"),
        ),
        (
            vec![0; 47_105],
            "the table is longer than 47,104 bytes".to_string(),
        ),
    ] {
        assert_eq!(refusal(&["export"], &table), format!("rows: {due}\n"));
    }
    let due = "rows: record 2 at byte 22 is no valid record of 57-bit linear addresses: unknown \
               kind 0x1, one of 48-bit linear addresses\n";
    let words = ["export", "--linear-width", "57"];
    assert_eq!(refusal(&words, &[&W[..], &A].concat()), due);
}

/// A row with some of its bytes changed.
fn with(row: [u8; 32], changes: &[(usize, u8)]) -> [u8; 32] {
    let mut row = row;
    for (at, byte) in changes {
        row[*at] = *byte;
    }
    row
}

/// Each field that may be bad, with its bound.
#[test]
fn rows_that_are_refused() {
    // A structure cache of 48 bits, and a combined translation.
    let structure = with(ROW_A, &[(0, 4), (1, 1), (8, 0), (9, 2), (10, 0)]);
    let combined = with(ROW_G, &[(0, 3), (4, 5), (6, 1)]);
    for row in [ROW_A, ROW_G, structure, combined] {
        let output = fed(&["import"], &row);
        assert!(output.status.success(), "{}", said(&output));
    }
    for (row, why) in [
        ([0; 32], "unknown kind 0x0"),
        (ROW_W, "unknown kind 0xa, one of 57-bit linear addresses"),
        (with(ROW_A, &[(0, 11)]), "unknown kind 0xb"),
        (with(ROW_A, &[(0, 16)]), "kind 0x10 is no mapping's"),
        (with(ROW_A, &[(0, 22)]), "kind 0x16 is no mapping's"),
        (
            with(ROW_A, &[(1, 3)]),
            "linear, but span is 0x3 and must be at most 0x2",
        ),
        (
            with(ROW_A, &[(1, 255)]),
            "linear, but span is 0xff and must be at most 0x2",
        ),
        (
            with(structure, &[(1, 0)]),
            "linear-structure, but span is 0x0 and must be at least 0x1",
        ),
        (
            with(structure, &[(1, 4)]),
            "linear-structure, but span is 0x4 and must be at most 0x3",
        ),
        (
            with(ROW_A, &[(2, 2)]),
            "linear, but global is 0x2 and must be at most 0x1",
        ),
        (
            with(structure, &[(2, 1)]),
            "linear-structure, but global is unused and not zero",
        ),
        (with(ROW_A, &[(3, 1)]), "linear, but byte 3 is not zero"),
        (
            with(ROW_G, &[(5, 1)]),
            "guest-physical, but vpid is unused and not zero",
        ),
        (
            with(ROW_G, &[(6, 1)]),
            "guest-physical, but pcid is unused and not zero",
        ),
        (
            with(ROW_A, &[(6, 0), (7, 16)]),
            "linear, but pcid is 0x1000 and must be at most 0xfff",
        ),
        (
            with(ROW_A, &[(12, 0x10)]),
            "linear, but page is 0x1000012345 and must be at most 0xfffffffff",
        ),
        (
            with(ROW_A, &[(15, 0x80)]),
            "linear, but page is 0x8000000000012345 and must be at most 0xfffffffff",
        ),
        (
            with(ROW_A, &[(1, 1)]),
            "linear, but page is 0x12345 and must be a multiple of 0x200 with span 0x1",
        ),
        (
            with(ROW_A, &[(21, 1)]),
            "linear, but frame is 0x100000abcde and must be at most 0xffffffffff",
        ),
        (
            with(structure, &[(23, 1)]),
            "linear-structure, but structure is 0x1000000000abcde and must be at most 0xffffffffff",
        ),
        (
            with(ROW_A, &[(24, 1)]),
            "linear, but ep4ta is unused and not zero",
        ),
        (
            with(combined, &[(29, 1)]),
            "combined, but ep4ta is 0x10001234567 and must be at most 0xffffffffff",
        ),
        // The first bad field in the row's order.
        (
            with(ROW_A, &[(2, 2), (3, 1), (31, 1)]),
            "linear, but global is 0x2 and must be at most 0x1",
        ),
    ] {
        let due = format!("is no valid row of 48-bit linear addresses: {why}\n");
        let first = format!("table: row 1 at byte 0 {due}");
        assert_eq!(refusal(&["import"], &row), first);
        let third = format!("table: row 3 at byte 64 {due}");
        let rows = [ROW_A, ROW_G, row, row].concat();
        assert_eq!(refusal(&["import"], &rows), third);
    }
    let words = ["import", "--linear-width", "57"];
    let bad = "is no valid row of 57-bit linear addresses";
    for (row, why) in [
        (ROW_A, "unknown kind 0x1, one of 48-bit linear addresses"),
        (
            with(ROW_W, &[(13, 0x20)]),
            "combined-structure-57, but page is 0x201000000000 and must be at most 0x1fffffffffff",
        ),
        (
            with(ROW_W, &[(1, 5)]),
            "combined-structure-57, but span is 0x5 and must be at most 0x4",
        ),
    ] {
        let due = format!("table: row 2 at byte 32 {bad}: {why}\n");
        assert_eq!(refusal(&words, &[ROW_W, row].concat()), due);
    }
}

/// A bad length before a bad row, and both before the room.
#[test]
fn lengths_and_room() {
    let bad = [0; 32];
    for (count, rows) in [
        (1, vec![0]),
        (31, ROW_A[..31].to_vec()),
        (65, [&ROW_A[..], &bad, &[0]].concat()),
        (94_239, ROW_A.repeat(2_945)[..94_239].to_vec()),
    ] {
        let due = format!("table: the rows have {count} bytes, no multiple of 32\n");
        assert_eq!(refusal(&["import"], &rows), due);
    }
    // 2,770 records of 17 bytes are 47,090; one more is too many.
    let output = fed(&["import"], &ROW_A.repeat(2_770));
    assert_eq!(output.stdout, A.repeat(2_770));
    let long = "table: the table would be longer than 47,104 bytes\n";
    assert_eq!(refusal(&["import"], &ROW_A.repeat(2_771)), long);
    assert_eq!(refusal(&["import"], &ROW_A.repeat(2_945)), long);
    assert_eq!(refusal(&["import"], &ROW_A.repeat(10_000)), long);
    let rows = [ROW_A.repeat(2_944), bad.to_vec()].concat();
    assert!(refusal(&["import"], &rows).starts_with("table: row 2945 at byte 94208 "));
    // The fullest table: 2,944 records of 16 bytes.
    let structure = [4, 5, 0, 1, 0, 1, 0, 2, 0, 0, 0, 0x77, 0, 0, 0, 0];
    let output = fed(&["export"], &structure.repeat(2_944));
    assert_eq!(output.stdout.len(), 94_208);
    let output = fed(&["import"], &output.stdout);
    assert_eq!(output.stdout, structure.repeat(2_944));
}

#[test]
fn against_the_model() {
    println!("seed {SEED}");
    let mut rng = Rng::new(SEED);
    let mut reached = [0; 13];
    type Call = fn(u64, &[u8], &mut [u8]) -> model::Converted;
    type Draw = fn(&mut Rng) -> generate::RowsCall;
    let ways: [(&str, Draw, Call); 2] = [
        ("export", generate::export, model::export),
        ("import", generate::import, model::import),
    ];
    for number in 0..1_200 {
        let (way, draw, call) = ways[number % 2];
        let generate::RowsCall {
            linear_width,
            input,
            ..
        } = draw(&mut rng);
        if linear_width != 48 && linear_width != 57 {
            continue;
        }
        let width = linear_width.to_string();
        let words = [way, "--linear-width", &width];
        let mut output = vec![0; 100_000];
        let due = call(linear_width, &input, &mut output);
        reached[due.answer as usize] += 1;
        if due.answer == 0 {
            assert_eq!(fed(&words, &input).stdout, output[..due.length]);
            continue;
        }
        let said = refusal(&words, &input);
        if due.row > 0 {
            let start = 32 * (due.row - 1);
            let bad = format!("is no valid row of {width}-bit linear addresses: ");
            let due = format!("table: row {} at byte {start} {bad}", due.row);
            assert!(
                said.starts_with(&due) && !said.contains("library"),
                "{said}"
            );
        } else if due.answer == 4 {
            assert!(said.ends_with(" bytes, no multiple of 32\n"), "{said}");
        }
        assert!(!said.contains("answer"), "{said}");
    }
    println!("answers: {reached:?}");
    assert!(reached[0] > 300 && reached[2] > 5 && reached[3] > 20);
    assert!(reached[4] > 50 && reached[12] > 2);
}

/// No more of a long input is read than is needed to refuse it.
#[test]
fn an_input_without_an_end() {
    for (way, due) in [
        ("export", "rows: the table is longer than 47,104 bytes\n"),
        (
            "import",
            "table: row 1 at byte 0 is no valid row of 48-bit linear addresses: unknown kind 0x0\n",
        ),
    ] {
        let zeros = File::open("/dev/zero").expect("/dev/zero");
        let output = run(&[way], zeros, Stdio::piped());
        assert_eq!(output.status.code(), Some(1));
        assert_eq!(said(&output), due);
    }
}

#[test]
fn words_that_are_not_taken() {
    for words in [
        &[][..],
        &["rows"],
        &["-x"],
        &["export", "-x"],
        &["import", "--linear-width"],
        &["import", "--linear-width", "56"],
        &["import", "--linear-width", "048"],
        &["import", "--linear-width", "57", "--linear-width", "57"],
        &["export", "a", "b"],
        &["export", "--", "a", "b"],
        &["import", "-", "-"],
        &["a", "export"],
    ] {
        let output = fed(words, &[]);
        assert_eq!(output.status.code(), Some(2), "{words:?}");
        assert!(output.stdout.is_empty());
        assert!(said(&output).contains("\nusage: "), "{}", said(&output));
    }
    for word in ["help", "--help", "-h"] {
        let output = fed(&[word], &[]);
        assert!(output.status.success());
        assert!(output.stdout.starts_with(b"usage: "));
    }
}

#[test]
fn an_input_that_cannot_be_read() {
    let folder = env!("CARGO_MANIFEST_DIR");
    for (way, command) in [("export", "rows"), ("import", "table")] {
        for name in [folder, "/nowhere/table"] {
            let output = fed(&[way, name], &A);
            assert_eq!(output.status.code(), Some(1));
            assert!(output.stdout.is_empty());
            let due = format!("{command}: {name} cannot be read: ");
            assert!(said(&output).starts_with(&due), "{}", said(&output));
        }
        let output = run(
            &[way],
            File::open(folder).expect("a folder"),
            Stdio::piped(),
        );
        assert_eq!(output.status.code(), Some(1));
        assert!(output.stdout.is_empty());
        let due = format!("{command}: standard input cannot be read: ");
        assert!(said(&output).starts_with(&due), "{}", said(&output));
    }
}

#[test]
fn an_output_that_cannot_be_written() {
    let path = std::env::temp_dir().join(format!("skuldrefn-rows-full-{}", std::process::id()));
    let name = path.to_str().expect("a name");
    for (way, command, input) in [("export", "rows", &A[..]), ("import", "table", &ROW_A)] {
        let due = format!("{command}: standard output cannot be written: ");
        std::fs::write(&path, input).expect("a file");
        let full = File::options().write(true).open("/dev/full");
        let output = run(&[way, name], Stdio::null(), full.expect("/dev/full"));
        assert_eq!(output.status.code(), Some(1));
        assert!(said(&output).starts_with(&due), "{}", said(&output));
        let mut child = Command::new(env!("CARGO_BIN_EXE_rows"))
            .arg(way)
            .stdin(Stdio::piped())
            .stdout(Stdio::piped())
            .stderr(Stdio::piped())
            .spawn()
            .expect("the program starts");
        drop(child.stdout.take());
        let mut stdin = child.stdin.take().expect("a pipe");
        stdin.write_all(input).expect("the program reads");
        drop(stdin);
        let output = child.wait_with_output().expect("the program ends");
        assert_eq!(output.status.code(), Some(1));
        assert!(said(&output).starts_with(&due), "{}", said(&output));
    }
    std::fs::remove_file(&path).expect("a file");
}
