//! The program itself: what it writes and says, its streams and its exit status.

use generate::Rng;
use model::mapping::{length, Mapping};
use model::LinearWidth::Bits48;
use std::fs::File;
use std::io::Write;
use std::process::{Command, Output, Stdio};

const SEED: u64 = 11;

const A: [u8; 17] = [
    0x01, 0x05, 0x00, 0x01, 0x00, 0x00, 0x00, 0x45, 0x23, 0x01, 0x00, 0x00, 0xDE, 0xBC, 0x0A, 0x00,
    0x00,
];

/// A at 57 bits.
const WIDE: [u8; 18] = [
    0x07, 0x05, 0x00, 0x01, 0x00, 0x00, 0x00, 0x45, 0x23, 0x01, 0x00, 0x00, 0x00, 0xDE, 0xBC, 0x0A,
    0x00, 0x00,
];

fn run(words: &[&str], input: impl Into<Stdio>, stdout: impl Into<Stdio>) -> Output {
    let mut command = Command::new(env!("CARGO_BIN_EXE_widen"));
    let command = command.args(words).stdin(input).stdout(stdout);
    let child = command.stderr(Stdio::piped()).spawn();
    let child = child.expect("the program starts");
    child.wait_with_output().expect("the program ends")
}

/// Runs the program with these bytes as its standard input.
fn fed(words: &[&str], input: &[u8]) -> Output {
    let mut child = Command::new(env!("CARGO_BIN_EXE_widen"))
        .args(words)
        .stdin(Stdio::piped())
        .stdout(Stdio::piped())
        .stderr(Stdio::piped())
        .spawn()
        .expect("the program starts");
    // The child may end before it has read all; that shows in its status.
    let _ = child.stdin.take().expect("a pipe").write_all(input);
    child.wait_with_output().expect("the program ends")
}

fn said(output: &Output) -> &str {
    std::str::from_utf8(&output.stderr).expect("text")
}

/// What the program says of a table that it refuses.
fn refusal(table: &[u8]) -> String {
    let output = fed(&[], table);
    assert_eq!(output.status.code(), Some(1));
    assert!(output.stdout.is_empty());
    said(&output).to_string()
}

#[test]
fn a_table() {
    for words in [&[][..], &["-"], &["--"], &["--", "-"]] {
        let output = fed(words, &[A, A].concat());
        assert!(output.status.success(), "{}", said(&output));
        assert_eq!(output.stdout, [WIDE, WIDE].concat());
        assert!(output.stderr.is_empty());
    }
    let output = fed(&[], &[]);
    assert!(output.status.success() && output.stdout.is_empty());
}

#[test]
fn a_file() {
    let path = std::env::temp_dir().join(format!("skuldrefn-widen-{}", std::process::id()));
    std::fs::write(&path, A).expect("a file");
    let name = path.to_str().expect("a name");
    for words in [&[name][..], &["--", name]] {
        let output = fed(words, &[0xFF]);
        assert!(output.status.success(), "{}", said(&output));
        assert_eq!(output.stdout, WIDE);
    }
    std::fs::remove_file(&path).expect("a file");
}

#[test]
fn refusals() {
    let bad = "is no valid record of 48-bit linear addresses";
    let mut global = A;
    global[5] = 2;
    for (table, due) in [
        (
            vec![0],
            format!("record 1 at byte 0 {bad}: unknown kind 0x0\n"),
        ),
        (
            [&A[..], &[0]].concat(),
            format!("record 2 at byte 17 {bad}: unknown kind 0x0\n"),
        ),
        (
            [A, global].concat(),
            format!(
                "record 2 at byte 17 {bad}: linear, but global is 0x2 and must be at most 0x1\n"
            ),
        ),
        // Cut in its last byte.
        (
            [A, A].concat()[..33].to_vec(),
            format!("record 2 at byte 17 {bad}: linear cut to 16 of 17 bytes\n"),
        ),
        // An event that is no mapping.
        (
            [&A[..], &A, &[22]].concat(),
            format!("record 3 at byte 34 {bad}: kind 0x16 is no mapping's\n"),
        ),
        (
            [&A[..], &WIDE, &A].concat(),
            format!(
                "record 2 at byte 17 {bad}: unknown kind 0x7, one of 57-bit linear addresses\n"
            ),
        ),
    ] {
        assert_eq!(refusal(&table), format!("widen: {due}"));
    }
    let long = "widen: the table is longer than 47,104 bytes\n";
    assert_eq!(refusal(&[0; 47_105]), long);
    assert_eq!(refusal(&A.repeat(2_771)), long);
    assert_eq!(
        refusal(&[0; 47_104]),
        format!("widen: record 1 at byte 0 {bad}: unknown kind 0x0\n")
    );
    // 2,616 records of 18 bytes are 47,088.
    let output = fed(&[], &A.repeat(2_616));
    assert_eq!(output.stdout, WIDE.repeat(2_616));
    assert_eq!(
        refusal(&A.repeat(2_617)),
        "widen: at 57 bits the table would be longer than 47,104 bytes\n"
    );
}

/// Where the model finds the first bad record, and its number from 1.
fn first_bad(table: &[u8]) -> (usize, usize) {
    let (mut start, mut number) = (0, 1);
    loop {
        let record = length(Bits48, table[start]).and_then(|own| table.get(start..start + own));
        match record.filter(|record| Mapping::decode(Bits48, record).is_some()) {
            Some(record) => start += record.len(),
            None => return (start, number),
        }
        number += 1;
    }
}

#[test]
fn against_the_model() {
    println!("seed {SEED}");
    let mut rng = Rng::new(SEED);
    let mut reached = [0; 13];
    for _ in 0..600 {
        let table = generate::widening(&mut rng).table;
        let mut new = vec![0; model::TABLE_LIMIT];
        let due = model::widen(&table, &mut new);
        reached[due.answer as usize] += 1;
        if due.answer == 0 {
            assert_eq!(fed(&[], &table).stdout, new[..due.length]);
            continue;
        }
        let said = refusal(&table);
        if due.answer == 3 {
            let (start, number) = first_bad(&table);
            let bad = "is no valid record of 48-bit linear addresses: ";
            let due = format!("widen: record {number} at byte {start} {bad}");
            assert!(
                said.starts_with(&due) && said.len() > due.len() + 1,
                "{said}"
            );
        }
    }
    println!("answers: {reached:?}");
    assert!(reached[0] > 100 && reached[2] > 3 && reached[3] > 20 && reached[12] > 3);
}

/// No more of a long table is read than is needed to refuse it.
#[test]
fn an_input_without_an_end() {
    let zeros = File::open("/dev/zero").expect("/dev/zero");
    let output = run(&[], zeros, Stdio::piped());
    assert_eq!(output.status.code(), Some(1));
    assert_eq!(
        said(&output),
        "widen: the table is longer than 47,104 bytes\n"
    );
}

#[test]
fn words_that_are_not_taken() {
    for words in [
        &["-x"][..],
        &["--linear-width", "57"],
        &["a", "b"],
        &["--", "a", "b"],
        &["-", "-"],
    ] {
        let output = fed(words, &[]);
        assert_eq!(output.status.code(), Some(2), "{words:?}");
        assert!(output.stdout.is_empty());
        assert!(said(&output).contains("\nusage: "), "{}", said(&output));
    }
    for word in ["help", "--help", "-h"] {
        let output = fed(&[word], &[]);
        assert!(output.status.success());
        assert!(output.stdout.starts_with(b"usage: "));
    }
}

#[test]
fn an_input_that_cannot_be_read() {
    let folder = env!("CARGO_MANIFEST_DIR");
    for name in [folder, "/nowhere/table"] {
        let output = fed(&[name], &A);
        assert_eq!(output.status.code(), Some(1));
        assert!(output.stdout.is_empty());
        let due = format!("widen: {name} cannot be read: ");
        assert!(said(&output).starts_with(&due), "{}", said(&output));
    }
    let output = run(&[], File::open(folder).expect("a folder"), Stdio::piped());
    assert_eq!(output.status.code(), Some(1));
    assert!(output.stdout.is_empty());
    assert!(said(&output).starts_with("widen: standard input cannot be read: "));
}

#[test]
fn an_output_that_cannot_be_written() {
    let path = std::env::temp_dir().join(format!("skuldrefn-widen-full-{}", std::process::id()));
    std::fs::write(&path, A).expect("a file");
    let name = path.to_str().expect("a name");
    let full = File::options().write(true).open("/dev/full");
    let output = run(&[name], Stdio::null(), full.expect("/dev/full"));
    assert_eq!(output.status.code(), Some(1));
    assert!(said(&output).starts_with("widen: standard output cannot be written: "));
    std::fs::remove_file(&path).expect("a file");
    let mut child = Command::new(env!("CARGO_BIN_EXE_widen"))
        .stdin(Stdio::piped())
        .stdout(Stdio::piped())
        .stderr(Stdio::piped())
        .spawn()
        .expect("the program starts");
    drop(child.stdout.take());
    let mut stdin = child.stdin.take().expect("a pipe");
    stdin.write_all(&A).expect("the program reads");
    drop(stdin);
    let output = child.wait_with_output().expect("the program ends");
    assert_eq!(output.status.code(), Some(1));
    assert!(said(&output).starts_with("widen: standard output cannot be written: "));
}
