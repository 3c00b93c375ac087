//! The program itself: what it prints and when, what it says, its streams and its
//! exit status.

use generate::Rng;
use model::replay::lines;
use model::{print, Context, LOG_LIMIT, PROGRAM_CAPABILITY, PROGRAM_WIDTH};
use std::fs::File;
use std::io::{BufRead, BufReader, Read, Write};
use std::os::fd::OwnedFd;
use std::os::unix::net::UnixStream;
use std::path::{Path, PathBuf};
use std::process::{Child, ChildStdin, ChildStdout, Command, Output, Stdio};
use std::sync::mpsc::{channel, Receiver};
use std::thread;
use std::time::Duration;

const SEED: u64 = 17;

/// Document 01's five events, and its lines.
const FIVE: [&[u8]; 5] = [
    &[22],
    &[20, 1, 5, 0, 0, 0, 0, 0, 0, 0, 0, 0, 0, 1, 0, 0],
    &[
        1, 5, 0, 1, 0, 0, 0, 0x45, 0x23, 1, 0, 0, 0xDE, 0xBC, 0x0A, 0, 0,
    ],
    &[21, 0, 0],
    &[
        16, 1, 0, 0, 0, 0, 0, 0, 0, 5, 0, 0, 0, 0, 0, 0, 0, 0, 0, 0, 0, 0, 0, 0, 0,
    ],
];
const LINES: [&str; 5] = ["1 0 0 0", "2 0 0 0", "3 0 0 17", "4 0 0 17", "5 0 1 0"];

fn program(words: &[&str]) -> Command {
    let mut command = Command::new(env!("CARGO_BIN_EXE_stream"));
    command
        .args(words)
        .stdin(Stdio::piped())
        .stdout(Stdio::piped())
        .stderr(Stdio::piped());
    command
}

/// Runs the program with these bytes as its standard input.
fn fed(words: &[&str], input: &[u8]) -> Output {
    let mut child = program(words).spawn().expect("the program starts");
    let mut stdin = child.stdin.take().expect("a pipe");
    let input = input.to_vec();
    // The program writes while it reads. It may end before it has read all; that
    // shows in its status.
    let writer = thread::spawn(move || stdin.write_all(&input));
    let output = child.wait_with_output().expect("the program ends");
    let _ = writer.join().expect("the writer ends");
    output
}

fn printed(output: &Output) -> &str {
    std::str::from_utf8(&output.stdout).expect("text")
}

fn said(output: &Output) -> &str {
    std::str::from_utf8(&output.stderr).expect("text")
}

/// A run that is watched: its input, and each line as it comes.
struct Watched {
    child: Child,
    input: ChildStdin,
    lines: Receiver<String>,
}

impl Watched {
    fn new(words: &[&str]) -> Watched {
        let mut child = program(words).spawn().expect("the program starts");
        let input = child.stdin.take().expect("a pipe");
        let output = BufReader::new(child.stdout.take().expect("a pipe"));
        Watched {
            child,
            input,
            lines: read_lines(output),
        }
    }

    fn send(&mut self, bytes: &[u8]) {
        self.input.write_all(bytes).expect("the program reads");
    }

    /// The next line, for which nothing more is sent.
    fn line(&self) -> String {
        let line = self.lines.recv_timeout(Duration::from_secs(10));
        line.expect("a line before the next byte")
    }

    /// No line comes for a moment.
    fn is_silent(&self) -> bool {
        let moment = Duration::from_millis(30);
        self.lines.recv_timeout(moment).is_err()
    }

    /// The end of the input: the lines that were left, what was said and the status.
    fn end(self) -> (Vec<String>, String, Option<i32>) {
        drop(self.input);
        let left = self.lines.iter().collect();
        let output = self.child.wait_with_output().expect("the program ends");
        (left, said(&output).to_string(), output.status.code())
    }
}

fn read_lines(output: BufReader<ChildStdout>) -> Receiver<String> {
    let (sender, receiver) = channel();
    thread::spawn(move || {
        for line in output.lines().map_while(Result::ok) {
            if sender.send(line).is_err() {
                return;
            }
        }
    });
    receiver
}

/// Each line comes before the next byte is sent, and none before its event is whole.
#[test]
fn a_pipe_with_pauses() {
    let mut run = Watched::new(&[]);
    for (event, due) in FIVE.iter().zip(LINES) {
        let (last, before) = event.split_last().expect("a byte");
        run.send(before);
        assert!(run.is_silent());
        run.send(&[*last]);
        assert_eq!(run.line(), due);
    }
    assert_eq!(run.end(), (Vec::new(), String::new(), Some(0)));
}

#[test]
fn a_byte_at_a_time() {
    let mut run = Watched::new(&[]);
    for (event, due) in FIVE.iter().zip(LINES) {
        for byte in *event {
            run.send(&[*byte]);
        }
        assert_eq!(run.line(), due);
    }
    assert_eq!(run.end(), (Vec::new(), String::new(), Some(0)));
}

/// Two events and a part of the third at once, then the rest.
#[test]
fn fragments_with_several_events() {
    let log = FIVE.concat();
    let mut run = Watched::new(&["-"]);
    run.send(&log[..20]);
    assert_eq!([run.line(), run.line()], LINES[..2]);
    assert!(run.is_silent());
    run.send(&log[20..]);
    assert_eq!([run.line(), run.line(), run.line()], LINES[2..]);
    assert_eq!(run.end(), (Vec::new(), String::new(), Some(0)));
}

/// A cut record is told at the end of the input, an unknown kind at once.
#[test]
fn where_a_run_ends() {
    let mut run = Watched::new(&[]);
    run.send(&FIVE.concat()[..30]);
    assert_eq!([run.line(), run.line()], LINES[..2]);
    assert!(run.is_silent());
    let due = "stream: the run ended at event 3, byte 17: linear cut to 13 of 17 bytes\n";
    let line = vec!["3 4 0 0".to_string()];
    assert_eq!(run.end(), (line, due.to_string(), Some(1)));

    let mut run = Watched::new(&[]);
    run.send(&[22, 7]);
    assert_eq!([run.line(), run.line()], ["1 0 0 0", "2 4 0 0"]);
    // It does not wait for the end of its input.
    let Watched { child, input, .. } = run;
    let output = child.wait_with_output().expect("the program ends");
    let due = "stream: the run ended at event 2, byte 1: unknown kind 0x7, one of 57-bit linear \
               addresses\n";
    assert_eq!((said(&output), output.status.code()), (due, Some(1)));
    drop(input);
}

/// The lines of the model for a log, and whether the run ends too soon.
fn modelled(linear_width: u64, log: &[u8]) -> (String, bool) {
    let start = Context::after_reset(PROGRAM_CAPABILITY, PROGRAM_WIDTH, linear_width);
    let mut rest = log;
    while let Some(event) = model::replay::first_event(start.linear(), rest) {
        rest = &rest[event.len()..];
    }
    (print(Some(&lines(&start, log))), !rest.is_empty())
}

/// The number and the byte of the first creation that the model refuses for room.
fn no_room(linear_width: u64, log: &[u8], lines: &str) -> Option<(usize, usize)> {
    let refused = |line: &str| line.split(' ').nth(1) == Some("12");
    let place = lines.lines().position(refused)?;
    let start = Context::after_reset(PROGRAM_CAPABILITY, PROGRAM_WIDTH, linear_width);
    let mut byte = 0;
    for _ in 0..place {
        let event = model::replay::first_event(start.linear(), &log[byte..]);
        byte += event.expect("an event").len();
    }
    Some((place + 1, byte))
}

/// What is said of it.
fn no_room_words(number: usize, byte: usize) -> String {
    format!(
        "stream: event {number}, at byte {byte}: no room for this mapping; from here on mappings \
         may be missing\n"
    )
}

fn is_modelled(linear_width: u64, log: &[u8], what: &str) {
    let (due, ends) = modelled(linear_width, log);
    let no_room = no_room(linear_width, log, &due);
    let width = linear_width.to_string();
    let output = fed(&["--linear-width", &width], log);
    assert!(printed(&output) == due, "{what}");
    let told = no_room.map_or(String::new(), |(number, byte)| no_room_words(number, byte));
    let rest = said(&output).strip_prefix(&told[..]);
    let status = (output.status.code(), rest.map(str::is_empty));
    assert_eq!(status, (Some(i32::from(ends)), Some(!ends)), "{what}");
}

#[test]
fn random_logs_against_the_model() {
    println!("seed {SEED}");
    let mut rng = Rng::new(SEED);
    for number in 0..120 {
        let linear_width = [48, 57][number % 2];
        let log = match number % 6 {
            0 => rng.bytes(50),
            1 => generate::events(&mut rng, linear_width, 100).concat(),
            _ => generate::log(&mut rng, linear_width, 4_000),
        };
        is_modelled(linear_width, &log, &format!("seed {SEED}, log {number}"));
    }
    for linear_width in [48, 57] {
        let log = generate::filling_log(&mut rng, linear_width);
        assert!(log.len() <= LOG_LIMIT);
        is_modelled(linear_width, &log, "a log that fills the table");
    }
}

/// The first creation that is refused for room is told, once, and changes nothing else.
/// The table has room for 47,104 bytes: 2,770 records of 17 bytes, and 14 bytes more.
#[test]
fn no_room_in_the_table() {
    let mut log = FIVE[..2].concat();
    for page in 0..2_772_u64 {
        let mut record = FIVE[2].to_vec();
        record[7..12].copy_from_slice(&page.to_le_bytes()[..5]);
        log.extend(record);
    }
    log.extend(FIVE[3]);
    let lines = "2772 0 0 47090\n2773 12 0 47090\n2774 12 0 47090\n2775 0 0 47090\n";
    // The first two events have 17 bytes, and 2,770 records 47,090.
    let told = no_room_words(2773, 47_107);
    let output = fed(&[], &log);
    assert!(printed(&output).ends_with(lines), "{}", printed(&output));
    assert_eq!((said(&output), output.status.code()), (&told[..], Some(0)));
    log.push(7);
    let output = fed(&[], &log);
    // Two more records and the VM exit are before it: 34 and 3 bytes.
    let due = format!(
        "{told}stream: the run ended at event 2776, byte 47144: unknown kind 0x7, one of 57-bit \
         linear addresses\n"
    );
    assert_eq!((said(&output), output.status.code()), (&due[..], Some(1)));
}

/// There is no limit: a log that the replay program finds too long.
#[test]
fn a_long_log() {
    let resets = vec![25; 3 * LOG_LIMIT + 5];
    is_modelled(48, &resets, "resets");
    let mut rng = Rng::new(SEED);
    let mut log = Vec::new();
    while log.len() <= 3 * LOG_LIMIT {
        // Reset at the end, so that tables stay small.
        log.extend(generate::log_of_every_kind(&mut rng, 57));
    }
    is_modelled(57, &log, "every kind");
    log.extend([20, 1]);
    is_modelled(57, &log, "a cut record");
}

fn examples() -> PathBuf {
    Path::new(env!("CARGO_MANIFEST_DIR")).join("../../examples")
}

/// What the replay program prints of each example, that is printed here too.
#[test]
fn the_examples() {
    let files = std::fs::read_dir(examples()).expect("the examples are there");
    let mut count = 0;
    for entry in files {
        let path = entry.expect("a file").path();
        if path.extension().is_none_or(|own| own != "log") {
            continue;
        }
        let due = std::fs::read_to_string(path.with_extension("expected")).expect("lines");
        let output = fed(&[path.to_str().expect("a name")], &[0]);
        assert_eq!(printed(&output), due, "{}", path.display());
        let log = std::fs::read(&path).expect("a log");
        let (_, ends) = modelled(48, &log);
        assert_eq!(output.status.code(), Some(i32::from(ends)));
        assert_eq!(fed(&[], &log).stdout, due.as_bytes());
        count += 1;
    }
    assert!(count >= 8, "{count} examples");
}

#[test]
fn no_bytes_at_all() {
    let output = fed(&[], &[]);
    assert_eq!((printed(&output), said(&output)), ("", ""));
    assert_eq!(output.status.code(), Some(0));
}

#[test]
fn a_file() {
    let path = std::env::temp_dir().join(format!("skuldrefn-stream-{}", std::process::id()));
    std::fs::write(&path, FIVE.concat()).expect("a file");
    let name = path.to_str().expect("a name");
    for words in [&[name][..], &["--", name], &["--linear-width", "48", name]] {
        let output = fed(words, &[0xFF]);
        assert_eq!(printed(&output).lines().collect::<Vec<_>>(), LINES);
        assert!(output.status.success());
    }
    // At 57 bits the creation is of an unknown kind.
    let output = fed(&["--linear-width", "57", name], &[]);
    assert_eq!(printed(&output), "1 0 0 0\n2 0 0 0\n3 4 0 0\n");
    assert_eq!(output.status.code(), Some(1));
    let due = "stream: the run ended at event 3, byte 17: unknown kind 0x1, one of 48-bit linear \
               addresses\n";
    assert_eq!(said(&output), due);
    std::fs::remove_file(&path).expect("a file");
}

#[test]
fn words_that_are_not_taken() {
    for words in [
        &["-x"][..],
        &["--linear-width"],
        &["--linear-width", "56"],
        &["--linear-width", "57", "--linear-width", "57"],
        &["a", "--linear-width", "57"],
        &["a", "b"],
        &["--", "a", "b"],
        &["-", "-"],
    ] {
        let output = fed(words, &[]);
        assert_eq!(output.status.code(), Some(2), "{words:?}");
        assert!(output.stdout.is_empty());
        assert!(said(&output).contains("\nusage: "), "{}", said(&output));
    }
    for word in ["help", "--help", "-h"] {
        let output = fed(&[word], &[]);
        assert!(output.status.success());
        assert!(output.stdout.starts_with(b"usage: "));
    }
}

/// What cannot begin has status 2.
#[test]
fn an_input_that_cannot_be_read() {
    let folder = env!("CARGO_MANIFEST_DIR");
    for name in [folder, "/nowhere/log"] {
        let output = fed(&[name], &[]);
        assert_eq!(output.status.code(), Some(2));
        assert!(output.stdout.is_empty());
        let due = format!("stream: {name} cannot be read: ");
        assert!(said(&output).starts_with(&due), "{}", said(&output));
    }
    let mut child = program(&[]);
    child.stdin(File::open(folder).expect("a folder"));
    let output = child.output().expect("the program ends");
    assert_eq!((output.status.code(), printed(&output)), (Some(1), ""));
    assert!(said(&output).starts_with("stream: standard input cannot be read: "));
}

/// An input that fails midway: the other end of a socket is closed with a byte in it
/// that nobody has read. The lines so far are printed, and then the failure is told;
/// nothing is said of the record that is not whole.
#[test]
fn an_input_that_fails_midway() {
    let (mut own, mut theirs) = UnixStream::pair().expect("a socket");
    theirs.write_all(&[0]).expect("a byte");
    let mut child = program(&[])
        .stdin(OwnedFd::from(theirs))
        .spawn()
        .expect("the program starts");
    let output = BufReader::new(child.stdout.take().expect("a pipe"));
    let lines = read_lines(output);
    own.write_all(&[22, 25, 16]).expect("the program reads");
    for due in ["1 0 0 0", "2 0 0 0"] {
        assert_eq!(
            lines.recv_timeout(Duration::from_secs(10)).as_deref(),
            Ok(due)
        );
    }
    drop(own);
    assert_eq!(lines.iter().count(), 0);
    let output = child.wait_with_output().expect("the program ends");
    let due = "stream: standard input cannot be read: Connection reset";
    assert!(said(&output).starts_with(due), "{}", said(&output));
    assert_eq!(output.status.code(), Some(1));
}

#[test]
fn an_output_that_cannot_be_written() {
    for (words, input) in [(&[][..], &[22, 25][..]), (&[], &[22, 7]), (&["help"], &[])] {
        let full = File::options().write(true).open("/dev/full");
        let mut command = program(words);
        let mut child = command.stdout(full.expect("/dev/full")).spawn();
        let child = child.as_mut().expect("the program starts");
        let mut stdin = child.stdin.take().expect("a pipe");
        let _ = stdin.write_all(input);
        drop(stdin);
        let mut text = String::new();
        let mut stderr = child.stderr.take().expect("a pipe");
        stderr.read_to_string(&mut text).expect("text");
        assert!(text.starts_with("stream: standard output cannot be written: "));
        assert_eq!(child.wait().expect("an end").code(), Some(1), "{words:?}");
    }
}

/// The reader of the lines goes away: the next line is told to be lost.
#[test]
fn a_closed_output() {
    let mut child = program(&[]).spawn().expect("the program starts");
    let mut stdin = child.stdin.take().expect("a pipe");
    let mut output = BufReader::new(child.stdout.take().expect("a pipe"));
    stdin.write_all(&[22]).expect("the program reads");
    let mut line = String::new();
    output.read_line(&mut line).expect("a line");
    assert_eq!(line, "1 0 0 0\n");
    drop(output);
    // Another test that starts a program holds the pipe for a moment: so events are written until the program ends. Its input
    // is still open.
    while child.try_wait().expect("a status").is_none() {
        let _ = stdin.write_all(&[25]);
        thread::sleep(Duration::from_millis(10));
    }
    let output = child.wait_with_output().expect("the program ends");
    let due = "stream: standard output cannot be written: Broken pipe";
    assert!(said(&output).starts_with(due), "{}", said(&output));
    assert_eq!(output.status.code(), Some(1));
    drop(stdin);
}
