//! The program itself: what it prints and says, its streams and its exit status.

use generate::Rng;
use model::mapping::records;
use model::replay::first_event;
use model::{Context, LinearWidth, LOG_LIMIT, PROGRAM_CAPABILITY, PROGRAM_WIDTH, TABLE_LIMIT};
use std::fs::File;
use std::io::Write;
use std::process::{Command, Output, Stdio};

const SEED: u64 = 13;

/// Mappings of each kind; event 6 is refused, since its VPID is not current.
const LOG: &str = "
vmxon
entry vpid=0x5 ept=off pcid=0x1 cpl=0x0
linear vpid=0x5 pcid=0x1 global=0x0 span=0x0 page=0x12345 frame=0xabcde
linear vpid=0x5 pcid=0x1 global=0x1 span=0x1 page=0x12200 frame=0x1
linear-structure vpid=0x5 pcid=0x1 span=0x3 page=0x0 structure=0x7
linear vpid=0x6 pcid=0x1 global=0x0 span=0x0 page=0x12345 frame=0xabcde
switch pcid=0xfff cpl=0x0
linear-structure vpid=0x5 pcid=0xfff span=0x1 page=0x200 structure=0x8
exit pcid=0x0
entry vpid=0x7 ept=0x12345701e pcid=0x2 cpl=0x0
guest-physical ep4ta=0x123457 span=0x2 page=0x0 frame=0x2
combined vpid=0x7 pcid=0x2 global=0x0 span=0x0 page=0x1 frame=0x3 ep4ta=0x123457
guest-physical-structure ep4ta=0x123457 span=0x1 page=0x200 structure=0x4
combined-structure vpid=0x7 pcid=0x2 span=0x2 page=0x40000 structure=0x5 ep4ta=0x123457
";

const TOTALS: &str = "                          span 0  span 1  span 2  span 3  span 4
linear                         1       1       0       0       0
guest-physical                 0       0       1       0       0
combined                       1       0       0       0       0
linear-structure               0       1       0       1       0
guest-physical-structure       0       1       0       0       0
combined-structure             0       0       1       0       0
pcid 0x1: 3
pcid 0x2: 2
pcid 0xfff: 1
mappings in force: 8
bytes in force: 143
";

/// INVVPID type 3 spares the global mapping alone.
const INVVPID: &str = "
exit pcid=0x0
invvpid type=0x3 vpid=0x5 address=0x0
";

const LESS: &str = "                          span 0  span 1  span 2  span 3  span 4
linear                         0       1       0       0       0
guest-physical                 0       0       1       0       0
combined                       1       0       0       0       0
linear-structure               0       0       0       0       0
guest-physical-structure       0       1       0       0       0
combined-structure             0       0       1       0       0
pcid 0x1: 1
pcid 0x2: 2
mappings in force: 5
bytes in force: 94
";

const NOTHING: &str = "                          span 0  span 1  span 2  span 3  span 4
linear                         0       0       0       0       0
guest-physical                 0       0       0       0       0
combined                       0       0       0       0       0
linear-structure               0       0       0       0       0
guest-physical-structure       0       0       0       0       0
combined-structure             0       0       0       0       0
mappings in force: 0
bytes in force: 0
";

/// Totals with the lines of events that go after them.
fn with(totals: &str, events: &str) -> String {
    format!("{totals}{events}\n")
}

fn assembled(text: &str) -> Vec<u8> {
    convert::assemble(text.as_bytes()).expect("a log")
}

fn run(words: &[&str], input: impl Into<Stdio>, stdout: impl Into<Stdio>) -> Output {
    let mut command = Command::new(env!("CARGO_BIN_EXE_tally"));
    let command = command.args(words).stdin(input).stdout(stdout);
    let child = command.stderr(Stdio::piped()).spawn();
    let child = child.expect("the program starts");
    child.wait_with_output().expect("the program ends")
}

/// Runs the program with these bytes as its standard input.
fn fed(words: &[&str], input: &[u8]) -> Output {
    let mut child = Command::new(env!("CARGO_BIN_EXE_tally"))
        .args(words)
        .stdin(Stdio::piped())
        .stdout(Stdio::piped())
        .stderr(Stdio::piped())
        .spawn()
        .expect("the program starts");
    // The child may end before it has read all; that shows in its status.
    let _ = child.stdin.take().expect("a pipe").write_all(input);
    child.wait_with_output().expect("the program ends")
}

fn printed(output: &Output) -> &str {
    std::str::from_utf8(&output.stdout).expect("text")
}

fn said(output: &Output) -> &str {
    std::str::from_utf8(&output.stderr).expect("text")
}

#[test]
fn the_totals_of_a_log() {
    let due = with(TOTALS, "events: 14\nrefused: 1 (answer 11: 1)");
    for words in [
        &[][..],
        &["-"],
        &["--"],
        &["--", "-"],
        &["--linear-width", "48"],
    ] {
        let output = fed(words, &assembled(LOG));
        assert_eq!((printed(&output), said(&output)), (&due[..], ""));
        assert!(output.status.success());
    }
    let output = fed(&[], &assembled(&format!("{LOG}{INVVPID}")));
    let due = with(LESS, "events: 16\nrefused: 1 (answer 11: 1)");
    assert_eq!((printed(&output), said(&output)), (&due[..], ""));
    let output = fed(&[], &assembled(&format!("{LOG}{INVVPID}reset\n")));
    let due = with(NOTHING, "events: 17\nrefused: 1 (answer 11: 1)");
    assert_eq!((printed(&output), said(&output)), (&due[..], ""));
    let output = fed(&[], &[]);
    let due = with(NOTHING, "events: 0");
    assert_eq!((printed(&output), said(&output)), (&due[..], ""));
    assert!(output.status.success());
}

/// A log of which nothing was accepted does not look like an empty one. Its
/// answers stand in the order of their numbers.
#[test]
fn events_that_are_refused() {
    let refused = "
linear vpid=0x5 pcid=0x0 global=0x0 span=0x0 page=0x1 frame=0x1
exit pcid=0x0
linear vpid=0x5 pcid=0x0 global=0x0 span=0x0 page=0x2 frame=0x2
";
    for (log, events) in [
        (
            refused.to_string(),
            "events: 3\nrefused: 3 (answer 9: 1, answer 11: 2)",
        ),
        (
            format!("reset\n{refused}vmxoff\n{refused}"),
            "events: 8\nrefused: 7 (answer 5: 1, answer 9: 2, answer 11: 4)",
        ),
        ("reset\nreset\n".to_string(), "events: 2\nrefused: 0"),
    ] {
        let output = fed(&[], &assembled(&log));
        let due = with(NOTHING, events);
        assert_eq!((printed(&output), said(&output)), (&due[..], ""));
        assert!(output.status.success());
    }
}

#[test]
fn a_file() {
    let path = std::env::temp_dir().join(format!("skuldrefn-tally-{}", std::process::id()));
    std::fs::write(&path, assembled(LOG)).expect("a file");
    let name = path.to_str().expect("a name");
    let due = with(TOTALS, "events: 14\nrefused: 1 (answer 11: 1)");
    for words in [&[name][..], &["--", name]] {
        let output = fed(words, &[0xFF]);
        assert_eq!((printed(&output), said(&output)), (&due[..], ""));
    }
    std::fs::remove_file(&path).expect("a file");
}

/// The mappings of 57 bits stand in the rows of their siblings. At 48 bits they
/// are unknown, and the run ends.
#[test]
fn a_log_at_57_bits() {
    let log = assembled(
        "vmxon
        linear-57 vpid=0x0 pcid=0x0 global=0x0 span=0x2 page=0x100000000000 frame=0x1
        linear-structure-57 vpid=0x0 pcid=0x0 span=0x4 page=0x0 structure=0x1
        linear-structure-57 vpid=0x0 pcid=0x0 span=0x4 page=0x1000000000 structure=0x2
        entry vpid=0x7 ept=0x12345701e pcid=0x2 cpl=0x0
        combined-57 vpid=0x7 pcid=0x2 global=0x1 span=0x0 page=0x1 frame=0x3 ep4ta=0x123457
        combined-structure-57 vpid=0x7 pcid=0x2 span=0x1 page=0x0 structure=0x5 ep4ta=0x123457
        guest-physical ep4ta=0x123457 span=0x0 page=0x0 frame=0x2
        ",
    );
    let due = "                          span 0  span 1  span 2  span 3  span 4
linear                         0       0       1       0       0
guest-physical                 1       0       0       0       0
combined                       1       0       0       0       0
linear-structure               0       0       0       0       2
guest-physical-structure       0       0       0       0       0
combined-structure             0       1       0       0       0
pcid 0x0: 3
pcid 0x2: 2
mappings in force: 6
bytes in force: 114
events: 8
refused: 0
";
    let output = fed(&["--linear-width", "57"], &log);
    assert_eq!((printed(&output), said(&output)), (due, ""));
    assert!(output.status.success());
    let why = "tally: the run ended at event 2, byte 1: \
               unknown kind 0x7, one of 57-bit linear addresses\n";
    let due = with(NOTHING, "events: 2\nrefused: 1 (answer 4: 1)");
    let output = fed(&[], &log);
    assert_eq!((printed(&output), said(&output)), (&due[..], why));
    assert_eq!(output.status.code(), Some(1));
}

#[test]
fn totals_over_time() {
    let log = assembled(
        "vmxon
        linear vpid=0x0 pcid=0x0 global=0x0 span=0x0 page=0x1 frame=0x1
        linear-structure vpid=0x0 pcid=0x0 span=0x3 page=0x0 structure=0x1
        vmxon
        linear vpid=0x0 pcid=0x0 global=0x0 span=0x0 page=0x2 frame=0x2
        invlpg address=0x1000
        reset
        ",
    );
    let lines = [
        "1,0,0,0,0,0,0,0,0,0,0,0,0,0,0,0,0,0,0,0,0,0,0,0,0,0,0,0,0,0,0,0,0,0,0\n",
        "2,0,0,1,17,1,0,0,0,0,0,0,0,0,0,0,0,0,0,0,0,0,0,0,0,0,0,0,0,0,0,0,0,0,0\n",
        "3,0,0,2,33,1,0,0,0,0,0,0,0,0,0,0,0,0,0,0,0,0,0,1,0,0,0,0,0,0,0,0,0,0,0\n",
        "4,9,0,2,33,1,0,0,0,0,0,0,0,0,0,0,0,0,0,0,0,0,0,1,0,0,0,0,0,0,0,0,0,0,0\n",
        "5,0,0,3,50,2,0,0,0,0,0,0,0,0,0,0,0,0,0,0,0,0,0,1,0,0,0,0,0,0,0,0,0,0,0\n",
        "6,0,2,1,17,1,0,0,0,0,0,0,0,0,0,0,0,0,0,0,0,0,0,0,0,0,0,0,0,0,0,0,0,0,0\n",
        "7,0,1,0,0,0,0,0,0,0,0,0,0,0,0,0,0,0,0,0,0,0,0,0,0,0,0,0,0,0,0,0,0,0,0\n",
    ];
    // The last event is always told.
    for (every, due) in [
        ("1", &[1, 2, 3, 4, 5, 6, 7][..]),
        ("2", &[2, 4, 6, 7]),
        ("3", &[3, 6, 7]),
        ("7", &[7]),
        ("8", &[7]),
        ("18446744073709551615", &[7]),
    ] {
        for words in [
            &["--every", every][..],
            &["--every", every, "--linear-width", "48", "-"],
            &["--linear-width", "48", "--every", every, "--", "-"],
        ] {
            let output = fed(words, &log);
            assert!(output.status.success(), "{}", said(&output));
            let (names, rest) = printed(&output).split_once('\n').expect("a line");
            let due: String = due.iter().map(|number| lines[number - 1]).collect();
            assert_eq!(rest, due);
            let names: Vec<&str> = names.split(',').collect();
            assert_eq!(names.len(), 35);
            assert_eq!(
                names[..5],
                ["event", "answer", "dropped", "mappings", "bytes"]
            );
            assert_eq!(names[5], "linear span 0");
            assert_eq!(names[10], "guest-physical span 0");
            assert_eq!(names[15], "combined span 0");
            assert_eq!(names[23], "linear-structure span 3");
            assert_eq!(names[25], "guest-physical-structure span 0");
            assert_eq!(names[34], "combined-structure span 4");
        }
    }
    let output = fed(&["--every", "1"], &[]);
    assert!(output.status.success());
    assert_eq!(printed(&output).lines().count(), 1);
}

/// The totals are those of the table in force where the run ended.
#[test]
fn a_run_that_ends_early() {
    let whole = assembled(LOG);
    let length = whole.len();
    for (log, event, byte, why) in [
        (vec![0], 1, 0, "unknown kind 0x0"),
        (
            [&whole[..], &[28, 22]].concat(),
            15,
            length,
            "unknown kind 0x1c",
        ),
        (
            [&whole[..], &[21, 0]].concat(),
            15,
            length,
            "exit cut to 2 of 3 bytes",
        ),
        (
            [&whole[..], &[8; 30]].concat(),
            15,
            length,
            "unknown kind 0x8, one of 57-bit linear addresses",
        ),
    ] {
        let due = match event {
            1 => with(NOTHING, "events: 1\nrefused: 1 (answer 4: 1)"),
            _ => with(TOTALS, "events: 15\nrefused: 2 (answer 4: 1, answer 11: 1)"),
        };
        let why = format!("tally: the run ended at event {event}, byte {byte}: {why}\n");
        let output = fed(&[], &log);
        assert_eq!((printed(&output), said(&output)), (&due[..], &why[..]));
        assert_eq!(output.status.code(), Some(1));
        // The event is told, with answer 4.
        let output = fed(&["--every", "1000"], &log);
        assert_eq!(said(&output), why);
        let line = printed(&output).lines().nth(1).expect("a line");
        assert!(line.starts_with(&format!("{event},4,")), "{line}");
        assert_eq!(output.status.code(), Some(1));
    }
    let output = fed(&["--linear-width", "57"], &whole);
    let due = with(NOTHING, "events: 3\nrefused: 1 (answer 4: 1)");
    assert_eq!(printed(&output), due);
    let why = "tally: the run ended at event 3, byte 17: \
               unknown kind 0x1, one of 48-bit linear addresses\n";
    assert_eq!(said(&output), why);
    // A bad field, PCID 4,096, is no end.
    let output = fed(&[], &[&[21, 0, 0x10], &whole[..]].concat());
    let due = with(TOTALS, "events: 15\nrefused: 2 (answer 4: 1, answer 11: 1)");
    assert_eq!((printed(&output), said(&output)), (&due[..], ""));
}

#[test]
fn a_log_that_is_too_long() {
    let output = fed(&[], &[25; 65_536]);
    let due = with(NOTHING, "events: 65536\nrefused: 0");
    assert_eq!((printed(&output), said(&output)), (&due[..], ""));
    let zeros = || File::open("/dev/zero").expect("/dev/zero");
    for output in [
        fed(&[], &[25; 65_537]),
        fed(&["--every", "1"], &[25; 65_537]),
        run(&[], zeros(), Stdio::piped()),
    ] {
        let due = "tally: the log is longer than 65,536 bytes\n";
        assert_eq!((printed(&output), said(&output)), ("", due));
        assert_eq!(output.status.code(), Some(1));
    }
}

/// 2,944 structure caches of 16 bytes fill the table, and one more is refused.
#[test]
fn a_full_table() {
    let one = assembled("linear-structure vpid=0x0 pcid=0x0 span=0x1 page=0x0 structure=0x1");
    let output = fed(&[], &one.repeat(2_945));
    let printed = printed(&output);
    assert!(printed.contains("linear-structure               0    2944       0"));
    let due = "
pcid 0x0: 2944
mappings in force: 2944
bytes in force: 47104
events: 2945
refused: 1 (answer 12: 1)
";
    assert!(printed.ends_with(due), "{printed}");
    let output = fed(&["--every", "2945"], &one.repeat(2_945));
    let line = self::printed(&output).lines().nth(1).expect("a line");
    assert!(line.starts_with("2945,12,0,2944,47104,"), "{line}");
}

/// The lines that the model's steps give for a log.
fn modelled(linear_width: u64, log: &[u8]) -> Vec<String> {
    let width = LinearWidth::of(linear_width);
    let mut context = Context::after_reset(PROGRAM_CAPABILITY, PROGRAM_WIDTH, linear_width);
    let (mut table, mut rest, mut lines) = (Vec::new(), log, Vec::new());
    while !rest.is_empty() {
        let event = first_event(width, rest).unwrap_or(rest);
        let mut new = vec![0; TABLE_LIMIT];
        let step = model::step(&context, &table, event, &mut new);
        if step.answer == 0 {
            context = step.context;
            table = new[..step.length].to_vec();
        }
        let records = records(width, &table).expect("a valid table");
        let mut counts = [0; 30];
        for (_, record) in &records {
            counts[(5 * (record.sibling() - 1) + record.span) as usize] += 1;
        }
        let counts: Vec<String> = counts.iter().map(u32::to_string).collect();
        let (number, all) = (lines.len() + 1, records.len());
        lines.push(format!(
            "{number},{},{},{all},{},{}",
            step.answer,
            step.dropped,
            table.len(),
            counts.join(",")
        ));
        rest = &rest[event.len()..];
    }
    lines
}

#[test]
fn against_the_model() {
    println!("seed {SEED}");
    let mut rng = Rng::new(SEED);
    let mut most = 0;
    for number in 0..60 {
        let linear_width = [48, 57][number % 2];
        let length = rng.below(3_000);
        let log = generate::log(&mut rng, linear_width, length);
        assert!(log.len() <= LOG_LIMIT);
        let width = linear_width.to_string();
        let output = fed(&["--linear-width", &width, "--every", "1"], &log);
        let lines: Vec<&str> = printed(&output).lines().skip(1).collect();
        let due = modelled(linear_width, &log);
        assert_eq!(lines, due);
        most = most.max(due.len());
    }
    assert!(most > 60, "{most}");
}

#[test]
fn words_that_are_not_taken() {
    for words in [
        &["-x"][..],
        &["--linear-width"],
        &["--linear-width", "56"],
        &["--linear-width", "57", "--linear-width", "57"],
        &["--every"],
        &["--every", "0"],
        &["--every", "-1"],
        &["--every", "many"],
        &["--every", ""],
        &["--every", "18446744073709551616"],
        &["--every", "1", "--every", "1"],
        &["a", "--every", "1"],
        &["a", "b"],
        &["--", "a", "b"],
        &["-", "-"],
    ] {
        let output = fed(words, &[]);
        assert_eq!(output.status.code(), Some(2), "{words:?}");
        assert!(output.stdout.is_empty());
        assert!(said(&output).starts_with("tally: "), "{}", said(&output));
        assert!(said(&output).contains("\nusage: "), "{}", said(&output));
    }
    for words in [&["a", "--every", "1"][..], &["-", "--linear-width", "57"]] {
        let output = fed(words, &[]);
        let due = "tally: options go before the file\nusage: ";
        assert!(said(&output).starts_with(due), "{}", said(&output));
    }
    for word in ["help", "--help", "-h"] {
        let output = fed(&[word], &[]);
        assert!(output.status.success());
        assert!(output.stdout.starts_with(b"usage: "));
    }
}

#[test]
fn an_input_that_cannot_be_read() {
    let folder = env!("CARGO_MANIFEST_DIR");
    for name in [folder, "/nowhere/log"] {
        let output = fed(&[name], &[25]);
        assert_eq!(output.status.code(), Some(1));
        assert!(output.stdout.is_empty());
        let due = format!("tally: {name} cannot be read: ");
        assert!(said(&output).starts_with(&due), "{}", said(&output));
    }
    let output = run(&[], File::open(folder).expect("a folder"), Stdio::piped());
    assert_eq!(output.status.code(), Some(1));
    assert!(output.stdout.is_empty());
    assert!(said(&output).starts_with("tally: standard input cannot be read: "));
}

#[test]
fn an_output_that_cannot_be_written() {
    let full = || File::options().write(true).open("/dev/full");
    for words in [&[][..], &["--every", "1"], &["help"]] {
        let output = run(words, Stdio::null(), full().expect("/dev/full"));
        assert_eq!(output.status.code(), Some(1));
        assert!(said(&output).starts_with("tally: standard output cannot be written: "));
    }
    let mut child = Command::new(env!("CARGO_BIN_EXE_tally"))
        .stdin(Stdio::piped())
        .stdout(Stdio::piped())
        .stderr(Stdio::piped())
        .spawn()
        .expect("the program starts");
    drop(child.stdout.take());
    let mut stdin = child.stdin.take().expect("a pipe");
    stdin.write_all(&[25]).expect("the program reads");
    drop(stdin);
    let output = child.wait_with_output().expect("the program ends");
    assert_eq!(output.status.code(), Some(1));
    assert!(said(&output).starts_with("tally: standard output cannot be written: "));
}
