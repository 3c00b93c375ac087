//! The program itself: what it prints and says, its streams and its exit status.

use generate::Rng;
use model::mapping::records;
use model::replay::first_event;
use model::{Context, Judgement, LinearWidth, PROGRAM_CAPABILITY, PROGRAM_WIDTH, TABLE_LIMIT};
use std::fs::File;
use std::io::{BufRead, BufReader, Write};
use std::process::{Command, Output, Stdio};

const SEED: u64 = 17;

/// Records of VPID 0 and PCID 0 that can be created after a reset.
const A: &str = "linear vpid=0x0 pcid=0x0 global=0x0 span=0x0 page=0x1 frame=0xa";
const B: &str = "linear-structure vpid=0x0 pcid=0x0 span=0x1 page=0x200 structure=0xb";
const C: &str = "linear vpid=0x0 pcid=0x0 global=0x1 span=0x0 page=0x3 frame=0xc";

fn assembled(text: &str) -> Vec<u8> {
    convert::assemble(text.as_bytes()).expect("a log")
}

/// Records, or an event, as bytes.
fn bytes(lines: &[&str]) -> Vec<u8> {
    assembled(&lines.join("\n"))
}

/// An event and a claimed table, as a trace has them.
fn claimed(event: &[u8], table: &[u8]) -> Vec<u8> {
    let length = (table.len() as u32).to_le_bytes();
    [event, &length, table].concat()
}

/// The same by the names of the text form.
fn named(event: &str, table: &[&str]) -> Vec<u8> {
    claimed(&assembled(event), &bytes(table))
}

fn run(words: &[&str], input: impl Into<Stdio>, stdout: impl Into<Stdio>) -> Output {
    let mut command = Command::new(env!("CARGO_BIN_EXE_judge"));
    let command = command.args(words).stdin(input).stdout(stdout);
    let child = command.stderr(Stdio::piped()).spawn();
    let child = child.expect("the program starts");
    child.wait_with_output().expect("the program ends")
}

/// Runs the program with these bytes as its standard input.
fn fed(words: &[&str], input: &[u8]) -> Output {
    let mut child = Command::new(env!("CARGO_BIN_EXE_judge"))
        .args(words)
        .stdin(Stdio::piped())
        .stdout(Stdio::piped())
        .stderr(Stdio::piped())
        .spawn()
        .expect("the program starts");
    let mut stdin = child.stdin.take().expect("a pipe");
    let input = input.to_vec();
    // The program writes while it reads. It may end before it has read all; that
    // shows in its status.
    let writer = std::thread::spawn(move || stdin.write_all(&input));
    let output = child.wait_with_output().expect("the program ends");
    let _ = writer.join().expect("the writer ends");
    output
}

fn printed(output: &Output) -> &str {
    std::str::from_utf8(&output.stdout).expect("text")
}

fn said(output: &Output) -> &str {
    std::str::from_utf8(&output.stderr).expect("text")
}

/// Judges a trace of these parts: the lines and the status.
fn judged(parts: &[Vec<u8>]) -> (Vec<String>, i32) {
    let output = fed(&[], &parts.concat());
    let lines = printed(&output).lines().map(str::to_string).collect();
    (lines, output.status.code().expect("a status"))
}

/// The last line and the status.
fn last(parts: &[Vec<u8>]) -> (String, i32) {
    let (lines, status) = judged(parts);
    assert_eq!(lines.len(), parts.len());
    (lines.last().cloned().expect("a line"), status)
}

fn line(text: &str, status: i32) -> (String, i32) {
    (text.to_string(), status)
}

#[test]
fn what_is_lawful() {
    let parts = [
        named(A, &[A]),
        named(B, &[A, B]),
        named(C, &[B, C]),
        // VMXOFF outside VMX is refused with 5; the table stays.
        named("vmxoff", &[B, C]),
        // INVLPG takes B, and C at its own page alone.
        named("invlpg address=0x5000", &[C]),
        named("switch pcid=0x1 cpl=0x0", &[]),
        named("reset", &[]),
    ];
    let due = [
        "1 lawful accepted 1 of 1 records",
        "2 lawful accepted 2 of 2 records",
        "3 lawful accepted 2 of 3 records",
        "4 lawful refused 5 0 unchanged",
        "5 lawful accepted 1 of 1 records",
        "6 lawful accepted 0 of 1 records",
        "7 lawful accepted 0 of 0 records",
    ];
    let output = fed(&[], &parts.concat());
    assert_eq!(printed(&output).lines().collect::<Vec<_>>(), due);
    assert_eq!((output.status.code(), said(&output)), (Some(0), ""));
}

/// The rule of an EPTP goes with the answer.
#[test]
fn a_refusal_with_its_rule() {
    let parts = [
        named("vmxon", &[]),
        named("entry vpid=0x5 ept=0x123456709e pcid=0x0 cpl=0x0", &[]),
    ];
    assert_eq!(last(&parts), line("2 lawful refused 10 4 unchanged", 0));
}

#[test]
fn records_that_cannot_be_there() {
    let start = [named(A, &[A]), named(B, &[A, B])];
    let judged = |event: &str, table: &[&str]| last(&[&start[..], &[named(event, table)]].concat());
    for (event, table, due) in [
        // What the event takes, in part and in all.
        ("invlpg address=0x1000", &[B][..], (0, B)),
        ("invlpg address=0x2000", &[A, B], (17, B)),
        ("reset", &[A], (0, A)),
        // In another order, twice, and made up.
        (C, &[B, A], (16, A)),
        (C, &[A, B, B], (33, B)),
        (C, &[A, B, C, C], (50, C)),
        ("vmxon", &[A, C], (17, C)),
    ] {
        let (byte, record) = due;
        let due = format!("3 found unmatched {byte} {record}");
        assert_eq!(judged(event, table), line(&due, 1));
    }
}

#[test]
fn claims_that_are_no_tables() {
    let (a, b) = (bytes(&[A]), bytes(&[B]));
    let mut global = a.clone();
    global[5] = 2;
    let wide = bytes(&["linear-57 vpid=0x0 pcid=0x0 global=0x0 span=0x0 page=0x1 frame=0xa"]);
    for (claim, due) in [
        (vec![0], "0 unknown kind 0x0"),
        ([&a[..], &[255]].concat(), "17 unknown kind 0xff"),
        (a[..16].to_vec(), "0 linear cut to 16 of 17 bytes"),
        (
            [&a[..], &b[..1]].concat(),
            "17 linear-structure cut to 1 of 16 bytes",
        ),
        (
            [a.clone(), global].concat(),
            "17 linear, but global is 0x2 and must be at most 0x1",
        ),
        ([&a[..], &[22]].concat(), "17 kind 0x16 is no mapping's"),
        (wide, "0 unknown kind 0x7, one of 57-bit linear addresses"),
        // A record that has no match before rubbish.
        ([&b[..], &[0]].concat(), "16 unknown kind 0x0"),
        (a.repeat(2_771), "47104 47107 bytes, longer than 47,104"),
        (vec![0; 200_000], "47104 200000 bytes, longer than 47,104"),
    ] {
        let parts = [claimed(&a, &claim), named("reset", &[])];
        let (lines, status) = judged(&parts);
        assert_eq!(lines[0], format!("1 found malformed {due}"));
        // What is behind such a claim is found again.
        assert_eq!(lines[1..], ["2 lawful accepted 0 of 0 records"]);
        assert_eq!(status, 1);
    }
}

/// Where the event is refused, any other table than the one before is a finding.
#[test]
fn tables_that_a_refused_event_changed() {
    let (a, both) = (bytes(&[A]), bytes(&[A, B]));
    for (claim, byte) in [
        (&[][..], 0),
        (&a, 17),
        (&[&both[..], &a].concat(), 33),
        (&bytes(&[B, A]), 0),
        (&bytes(&[A, C]), 17),
        (&both[..32], 32),
        (&[&both[..], &[0; 100_000]].concat(), 33),
    ] {
        let parts = [named(A, &[A]), named(B, &[A, B]), claimed(&[23], claim)];
        let due = format!("3 found changed {byte} refused 5 0");
        assert_eq!(last(&parts), line(&due, 1));
    }
}

/// The claim goes on where it is a table, lawful or not, and else what our step
/// leaves.
#[test]
fn what_goes_on_after_a_finding() {
    let start = named(A, &[A]);
    for (second, third, due) in [
        // A is kept though INVLPG takes it: told once.
        (
            named("invlpg address=0x1000", &[A]),
            named("vmxon", &[A]),
            "3 lawful accepted 1 of 1 records",
        ),
        // C is made up: told once.
        (
            named("vmxon", &[A, C]),
            named("vmxoff", &[A, C]),
            "3 lawful accepted 2 of 2 records",
        ),
        // A refused event's new table.
        (
            named("vmxoff", &[C]),
            named("vmxon", &[C]),
            "3 lawful accepted 1 of 1 records",
        ),
        (
            named("vmxoff", &[C]),
            named("vmxon", &[A]),
            &format!("3 found unmatched 0 {A}"),
        ),
        // No table: A and B may be there.
        (
            claimed(&bytes(&[B]), &[0]),
            named("vmxon", &[A, B]),
            "3 lawful accepted 2 of 2 records",
        ),
        // No table, after a refused event: A may still be there.
        (
            claimed(&[23], &[0]),
            named("vmxon", &[A]),
            "3 lawful accepted 1 of 1 records",
        ),
    ] {
        let (lines, status) = judged(&[start.clone(), second, third]);
        assert!(lines[1].starts_with("2 found "), "{}", lines[1]);
        assert_eq!((&lines[2][..], status), (due, 1));
    }
    // The context goes on by our step: in root after VMXON, though the claim was bad.
    let parts = [claimed(&[22], &[0]), named("vmxon", &[])];
    let (lines, _) = judged(&parts);
    assert_eq!(lines[1], "2 lawful refused 9 0 unchanged");
}

/// A full table, into which nothing can be created: it has to stay.
#[test]
fn a_full_table() {
    let b = bytes(&[B]);
    let mut parts = Vec::new();
    let mut table = Vec::new();
    for _ in 0..2_944 {
        table.extend_from_slice(&b);
        parts.push(claimed(&b, &table));
    }
    assert_eq!(table.len(), TABLE_LIMIT);
    parts.push(claimed(&b, &table));
    let (lines, status) = judged(&parts);
    assert_eq!(
        lines[2_943..],
        [
            "2944 lawful accepted 2944 of 2944 records",
            "2945 lawful refused 12 0 unchanged"
        ]
    );
    assert_eq!(status, 0);
}

#[test]
fn a_trace_at_57_bits() {
    let wide = "linear-57 vpid=0x0 pcid=0x0 global=0x0 span=0x0 page=0x100000000000 frame=0x1";
    let trace = [named(wide, &[wide]), named("reset", &[wide])].concat();
    let output = fed(&["--linear-width", "57"], &trace);
    let due = format!("1 lawful accepted 1 of 1 records\n2 found unmatched 0 {wide}\n");
    assert_eq!(
        (printed(&output), output.status.code()),
        (&due[..], Some(1))
    );
    let output = fed(&["--linear-width", "48"], &trace);
    let due = "1 unknown kind 0x7 at byte 0\n";
    assert_eq!((printed(&output), output.status.code()), (due, Some(2)));
    let made = fed(
        &["--linear-width", "57", "--make"],
        &bytes(&[wide, "reset"]),
    );
    let due = [named(wide, &[wide]), named("reset", &[])].concat();
    assert_eq!((made.stdout, made.status.code()), (due, Some(0)));
}

/// Cut after each of its bytes, a trace is told as such wherever it is not
/// between two events.
#[test]
fn a_trace_cut_at_every_byte() {
    let parts = [named(A, &[A]), named("vmxon", &[A]), named("reset", &[])];
    let due = [
        "1 lawful accepted 1 of 1 records",
        "2 lawful accepted 1 of 1 records",
        "3 lawful accepted 0 of 0 records",
    ];
    let trace = parts.concat();
    // Where each event starts, and where the length of its table and that start.
    let places = [(0, 17, 21), (38, 39, 43), (60, 61, 65)];
    assert_eq!(trace.len(), 65);
    for end in 1..trace.len() {
        let output = fed(&[], &trace[..end]);
        let number = places
            .iter()
            .rposition(|place| place.0 < end)
            .expect("a place");
        let (start, length, table) = places[number];
        let next = places.get(number + 1).map_or(65, |place| place.0);
        let mut lines: Vec<String> = due[..number].iter().map(ToString::to_string).collect();
        if end == next {
            lines.push(due[number].to_string());
            assert_eq!((output.status.code(), said(&output)), (Some(0), ""));
        } else {
            let cut = if end < length {
                format!("event {} of {}", end - start, length - start)
            } else if end < table {
                format!("length {} of 4", end - length)
            } else {
                format!("table {} of {}", end - table, next - table)
            };
            let number = number + 1;
            lines.push(format!("{number} cut {cut} at byte {end}"));
            let why = format!("event {number}, cut {cut} at byte {end}");
            let why = format!("judge: the trace was not read to its end: {why}\n");
            assert_eq!((output.status.code(), said(&output)), (Some(2), &why[..]));
        }
        assert_eq!(printed(&output).lines().collect::<Vec<_>>(), lines);
    }
}

/// A length that no table has behind it, and one past the limit that is cut.
#[test]
fn lengths_that_are_not_there() {
    for (length, more, due) in [
        (u32::MAX, 0, "table 0 of 4294967295 at byte 5"),
        (
            u32::MAX,
            100_000,
            "table 100000 of 4294967295 at byte 100005",
        ),
        (47_105, 47_104, "table 47104 of 47105 at byte 47109"),
        (47_106, 47_105, "table 47105 of 47106 at byte 47110"),
    ] {
        let trace = [&[22], &length.to_le_bytes()[..], &vec![0; more]].concat();
        let output = fed(&[], &trace);
        assert_eq!(printed(&output), format!("1 cut {due}\n"));
        assert_eq!(output.status.code(), Some(2));
    }
}

#[test]
fn a_trace_with_no_events() {
    let output = fed(&[], &[]);
    assert!(output.status.code() == Some(2) && output.stdout.is_empty());
    assert_eq!(said(&output), "judge: the trace has no events\n");
}

/// Each line is there before the next event comes.
#[test]
fn a_trace_that_comes_bit_by_bit() {
    let mut child = Command::new(env!("CARGO_BIN_EXE_judge"))
        .stdin(Stdio::piped())
        .stdout(Stdio::piped())
        .spawn()
        .expect("the program starts");
    let mut stdin = child.stdin.take().expect("a pipe");
    let mut lines = BufReader::new(child.stdout.take().expect("a pipe")).lines();
    for number in 1..=3 {
        for byte in named("reset", &[]) {
            stdin.write_all(&[byte]).expect("the program reads");
            stdin.flush().expect("the program reads");
        }
        let due = format!("{number} lawful accepted 0 of 0 records");
        assert_eq!(lines.next().expect("a line").expect("text"), due);
    }
    drop(stdin);
    assert!(lines.next().is_none());
    assert!(child.wait().expect("the program ends").success());
}

/// Some bytes of an endless input are enough.
#[test]
fn an_input_without_an_end() {
    let zeros = File::open("/dev/zero").expect("/dev/zero");
    let output = run(&[], zeros, Stdio::piped());
    assert_eq!(printed(&output), "1 unknown kind 0x0 at byte 0\n");
    assert_eq!(output.status.code(), Some(2));
}

/// The line that is due by the model, but for the words of a malformed claim; and
/// the table and the context that go on.
fn modelled(context: &mut Context, table: &mut Vec<u8>, event: &[u8], claim: &[u8]) -> String {
    let mut new = vec![0; TABLE_LIMIT];
    let step = model::step(context, table, event, &mut new);
    let own = match step.answer {
        0 => new[..step.length].to_vec(),
        _ => table.clone(),
    };
    let width = context.linear();
    let count = |table: &[u8]| records(width, table).map_or(0, |records| records.len());
    let line = match model::judge_claim(context, table, event, claim) {
        Judgement::Accepted => format!(
            "lawful accepted {} of {} records",
            count(claim),
            count(&own)
        ),
        Judgement::Refused { answer, rule } if claim == *table => {
            format!("lawful refused {answer} {rule} unchanged")
        }
        Judgement::Refused { answer, rule } => {
            let most = claim.len().max(table.len());
            let byte = (0..most).find(|at| claim.get(*at) != table.get(*at));
            format!(
                "found changed {} refused {answer} {rule}",
                byte.expect("a byte")
            )
        }
        Judgement::Malformed if claim.len() > TABLE_LIMIT => {
            format!("found malformed {TABLE_LIMIT}")
        }
        Judgement::Malformed => {
            let bad = (0..=claim.len()).find(|at| is_bad(width, claim, *at));
            format!("found malformed {}", bad.expect("a byte"))
        }
        Judgement::Unmatched { position } => {
            let rest = &claim[position..];
            let record = first_event(width, rest).expect("a record");
            // The text form gives back the record's bytes.
            format!("found unmatched {position} {record:x?}")
        }
    };
    *context = step.context;
    *table = if claim.len() <= TABLE_LIMIT && records(width, claim).is_some() {
        claim.to_vec()
    } else {
        own
    };
    line
}

/// Whether valid records lead to a byte, and none goes on from there.
fn is_bad(width: LinearWidth, claim: &[u8], at: usize) -> bool {
    let next = first_event(width, &claim[at..]);
    let is_record = next.is_some_and(|record| records(width, record).is_some());
    records(width, &claim[..at]).is_some() && !is_record
}

/// A line of the program in the form of the model's: the words of a malformed
/// claim are left out, and a record is its bytes.
fn compared(line: &str) -> String {
    let fields: Vec<&str> = line.splitn(4, ' ').collect();
    match fields[..] {
        ["found", "malformed", byte, why] => {
            assert!(!why.is_empty());
            format!("found malformed {byte}")
        }
        ["found", "unmatched", byte, record] => {
            format!("found unmatched {byte} {:x?}", &assembled(record)[..])
        }
        _ => line.to_string(),
    }
}

#[test]
fn against_the_model() {
    println!("seed {SEED}");
    let mut rng = Rng::new(SEED);
    let mut reached = [0; 5];
    for number in 0..120 {
        let linear_width = [48, 57][number % 2];
        let start = Context::after_reset(PROGRAM_CAPABILITY, PROGRAM_WIDTH, linear_width);
        let log = generate::log(&mut rng, linear_width, 2_000);
        let (mut context, mut table) = (start, Vec::new());
        let (mut trace, mut due) = (Vec::new(), Vec::new());
        let mut rest = &log[..];
        while let Some(event) = first_event(context.linear(), rest) {
            let mut new = vec![0; TABLE_LIMIT];
            let step = model::step(&context, &table, event, &mut new);
            let left = match step.answer {
                0 => &new[..step.length],
                _ => &table[..],
            };
            // Mostly as it should be, so that tables grow.
            let claim = if rng.one_in(4) {
                generate::claim(&mut rng, &context, &table, left)
            } else {
                left.to_vec()
            };
            trace.extend(claimed(event, &claim));
            due.push(modelled(&mut context, &mut table, event, &claim));
            rest = &rest[event.len()..];
        }
        let output = fed(&["--linear-width", &linear_width.to_string()], &trace);
        let lines: Vec<&str> = printed(&output).lines().collect();
        assert_eq!(lines.len(), due.len());
        for (at, (line, due)) in lines.iter().zip(&due).enumerate() {
            let line = line
                .strip_prefix(&format!("{} ", at + 1))
                .expect("a number");
            assert_eq!(compared(line), *due, "seed {SEED}, trace {number}");
        }
        let found = due.iter().any(|line| line.starts_with("found"));
        assert_eq!(output.status.code(), Some(i32::from(found)));
        for (count, word) in
            reached
                .iter_mut()
                .zip(["accepted", "refused", "unmatched", "malformed", "changed"])
        {
            let has = |line: &&String| line.split(' ').nth(1) == Some(word);
            *count += due.iter().filter(has).count();
        }
    }
    println!("lines: {reached:?}");
    assert!(reached.iter().all(|count| *count > 50), "{reached:?}");
}

/// What is made of a log is its events with the model's tables.
#[test]
fn traces_of_logs() {
    let mut rng = Rng::new(SEED);
    for number in 0..60 {
        let linear_width = [48, 57][number % 2];
        let log = generate::log(&mut rng, linear_width, 1_500);
        let mut context = Context::after_reset(PROGRAM_CAPABILITY, PROGRAM_WIDTH, linear_width);
        let (mut table, mut due) = (Vec::new(), Vec::new());
        let mut rest = &log[..];
        while let Some(event) = first_event(context.linear(), rest) {
            let mut new = vec![0; TABLE_LIMIT];
            let step = model::step(&context, &table, event, &mut new);
            if step.answer == 0 {
                table = new[..step.length].to_vec();
                context = step.context;
            }
            due.extend(claimed(event, &table));
            rest = &rest[event.len()..];
        }
        let width = linear_width.to_string();
        let output = fed(&["--make", "--linear-width", &width], &log);
        assert!(output.stdout == due, "seed {SEED}, log {number}");
        let status = if rest.is_empty() { 0 } else { 2 };
        assert_eq!(output.status.code(), Some(status));
    }
}

#[test]
fn logs_that_are_cut() {
    let log = bytes(&["vmxon", "exit pcid=0x0"]);
    let output = fed(&["--make"], &log[..3]);
    assert_eq!(output.stdout, named("vmxon", &[]));
    assert_eq!(output.status.code(), Some(2));
    assert_eq!(
        said(&output),
        "judge: the log was not read to its end: event 2, cut event 2 of 3 at byte 3\n"
    );
}

#[test]
fn a_file() {
    let path = std::env::temp_dir().join(format!("skuldrefn-judge-{}", std::process::id()));
    std::fs::write(&path, named("vmxon", &[])).expect("a file");
    let name = path.to_str().expect("a name");
    for words in [&[name][..], &["--", name], &["--linear-width", "48", name]] {
        let output = fed(words, &[0xFF]);
        assert_eq!(printed(&output), "1 lawful accepted 0 of 0 records\n");
        assert!(output.status.success());
    }
    std::fs::remove_file(&path).expect("a file");
}

#[test]
fn words_that_are_not_taken() {
    for words in [
        &["-x"][..],
        &["--linear-width"],
        &["--linear-width", "56"],
        &["--linear-width", "57", "--linear-width", "57"],
        &["--make", "--make"],
        &["a", "--make"],
        &["a", "b"],
        &["--", "a", "b"],
        &["-", "-"],
    ] {
        let output = fed(words, &[]);
        assert_eq!(output.status.code(), Some(2), "{words:?}");
        assert!(output.stdout.is_empty());
        assert!(said(&output).contains("\nusage: "), "{}", said(&output));
    }
    for word in ["help", "--help", "-h"] {
        let output = fed(&[word], &[]);
        assert!(output.status.success());
        assert!(output.stdout.starts_with(b"usage: "));
    }
}

#[test]
fn an_input_that_cannot_be_read() {
    let folder = env!("CARGO_MANIFEST_DIR");
    for words in [&[folder][..], &["/nowhere/trace"], &["--make", folder]] {
        let output = fed(words, &[]);
        assert_eq!(output.status.code(), Some(2));
        assert!(output.stdout.is_empty());
        let due = format!("judge: {} cannot be read: ", words[words.len() - 1]);
        assert!(said(&output).starts_with(&due), "{}", said(&output));
    }
    let output = run(&[], File::open(folder).expect("a folder"), Stdio::piped());
    assert_eq!(output.status.code(), Some(2));
    assert!(said(&output).starts_with("judge: standard input cannot be read: "));
}

#[test]
fn an_output_that_cannot_be_written() {
    let path = std::env::temp_dir().join(format!("skuldrefn-judge-full-{}", std::process::id()));
    std::fs::write(&path, named("vmxon", &[])).expect("a file");
    let name = path.to_str().expect("a name");
    for words in [&[name][..], &["--make", name], &["help"]] {
        let full = File::options().write(true).open("/dev/full");
        let output = run(words, Stdio::null(), full.expect("/dev/full"));
        assert_eq!(output.status.code(), Some(1), "{words:?}");
        assert!(said(&output).starts_with("judge: standard output cannot be written: "));
    }
    std::fs::remove_file(&path).expect("a file");
}
