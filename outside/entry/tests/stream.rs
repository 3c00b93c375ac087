//! A log as it arrives, as a user replays it.

use entry::{ended, send, top, Checkout, A, THREE};
use generate::Rng;
use std::fs;
use std::io::{BufRead, BufReader, Write};
use std::process::Stdio;

/// VM entry with VPID 5 and PCID 1.
const ENTRY: [u8; 16] = [20, 1, 5, 0, 0, 0, 0, 0, 0, 0, 0, 0, 0, 1, 0, 0];

const SEED: u64 = 23;

#[test]
fn a_file_or_standard_input() {
    let checkout = Checkout::bare();
    checkout.write("-x", &[22, 23, 25]);
    let first = checkout.sh("./skuldrefn stream three.log");
    assert_eq!((first.status, &first.out[..]), (0, THREE), "{}", first.said);
    assert_eq!(checkout.calls()[0], "rt lib in skuldrefn_c");
    assert!(checkout.calls()[1].ends_with(" -p stream"));
    for line in [
        "./skuldrefn stream three.log",
        "./skuldrefn stream < three.log",
        "./skuldrefn stream - < three.log",
        "cat three.log | ./skuldrefn stream",
        "{ printf '\\026'; sleep 0.1; printf '\\027\\031'; } | ./skuldrefn stream",
        "./skuldrefn stream -- -x",
        "./skuldrefn stream --linear-width 48 three.log",
        "./skuldrefn stream --linear-width 57 -- -x",
        "cd crates && ../skuldrefn stream ../three.log",
    ] {
        let run = checkout.sh(line);
        assert_eq!((run.status, &run.said[..]), (0, ""), "{line}");
        assert_eq!(run.out, THREE, "{line}");
    }
    // What was built is used again.
    assert_eq!(checkout.calls().len(), 2);
}

/// Each line comes before the next byte is sent, and a signal ends the run.
#[test]
fn a_line_that_is_watched() {
    let checkout = Checkout::bare();
    assert_eq!(checkout.sh("./skuldrefn stream three.log").status, 0);
    let mut command = checkout.command("exec ./skuldrefn stream");
    let mut child = command.stdin(Stdio::piped()).spawn().expect("it starts");
    let mut input = child.stdin.take().expect("a pipe");
    let mut output = BufReader::new(child.stdout.take().expect("a pipe"));
    for (event, due) in [
        (&[22][..], "1 0 0 0\n"),
        (&ENTRY, "2 0 0 0\n"),
        (&A, "3 0 0 17\n"),
    ] {
        for byte in event {
            input.write_all(&[*byte]).expect("it reads");
        }
        let mut line = String::new();
        output.read_line(&mut line).expect("a line");
        assert_eq!(line, due);
    }
    send("INT", &child);
    let run = ended(child);
    assert_eq!((run.status, &run.said[..]), (130, ""));
    assert_eq!(checkout.processes(), [""; 0]);
    drop(input);
}

#[test]
fn logs_that_are_not_read_to_their_end() {
    let checkout = Checkout::bare();
    let log = [&[22][..], &ENTRY, &A].concat();
    checkout.write("cut.log", &log[..30]);
    checkout.write("a.log", &log);
    assert_eq!(checkout.sh("./skuldrefn stream three.log").status, 0);
    for (words, why) in [
        ("cut.log", "event 3, byte 17: linear cut to 13 of 17 bytes"),
        (
            "--linear-width 57 a.log",
            "event 3, byte 17: unknown kind 0x1, one of 48-bit linear addresses",
        ),
    ] {
        let run = checkout.sh(&format!("./skuldrefn stream {words}"));
        assert_eq!(
            (run.status, &run.out[..]),
            (1, "1 0 0 0\n2 0 0 0\n3 4 0 0\n")
        );
        assert_eq!(run.said, format!("stream: the run ended at {why}\n"));
    }
    // An unknown kind is told at once, though the input goes on.
    let run = checkout.sh("yes | ./skuldrefn stream");
    assert_eq!((run.status, &run.out[..]), (1, "1 4 0 0\n"));
    let run = checkout.sh("./skuldrefn stream < /");
    assert_eq!((run.status, &run.out[..]), (1, ""));
    assert!(
        run.said.contains("standard input cannot be read"),
        "{}",
        run.said
    );
    let run = checkout.sh("{ ./skuldrefn stream resets.log; echo $? >&2; } | head -n 1");
    assert_eq!(run.out, "1 0 0 0\n");
    let due = "stream: standard output cannot be written: Broken pipe (os error 32)\n1\n";
    assert_eq!(run.said, due);
}

/// The very lines of the replay program and its status, but for a log that is too
/// long for it.
#[test]
fn as_the_replay_program() {
    let checkout = Checkout::built();
    assert_eq!(checkout.sh("./skuldrefn stream three.log").status, 0);
    let same = |what: &str| {
        let replay = checkout.sh("./skuldrefn replay the.log");
        let stream = checkout.sh("./skuldrefn stream the.log");
        assert!(stream.out == replay.out, "{what}");
        assert_eq!(stream.status, replay.status, "{what}");
        // Both say where it ended, and why each in its own words.
        let (no_room, ended): (Vec<_>, Vec<_>) = stream
            .said
            .lines()
            .partition(|line| line.contains(": no room for this mapping; "));
        let places = |said: Vec<&str>| -> Vec<String> {
            let places = said.iter().filter_map(|line| line.rsplit_once(": "));
            places
                .map(|(place, _)| place.replace("replay:", "stream:"))
                .collect()
        };
        assert_eq!(places(ended), places(replay.said.lines().collect()));
        let refused = |line: &str| line.split(' ').nth(1) == Some("12");
        let due = usize::from(replay.out.lines().any(refused));
        assert_eq!(no_room.len(), due, "{what}: {}", stream.said);
    };
    let mut count = 0;
    for entry in fs::read_dir(top().join("examples")).expect("the examples") {
        let path = entry.expect("a file").path();
        if path.extension().is_some_and(|own| own == "log") {
            checkout.write("the.log", &fs::read(&path).expect("a log"));
            same(&path.display().to_string());
            count += 1;
        }
    }
    assert!(count >= 8, "{count} examples");
    println!("seed {SEED}");
    let mut rng = Rng::new(SEED);
    for number in 0..40 {
        let log = match number % 8 {
            0 => rng.bytes(60),
            1 => generate::filling_log(&mut rng, 48),
            2 => generate::log(&mut rng, 48, 40_000),
            _ => generate::log(&mut rng, 48, 2_000),
        };
        assert!(log.len() <= 65_536);
        checkout.write("the.log", &log);
        same(&format!("seed {SEED}, log {number}"));
    }
    checkout.write("the.log", &[25; 65_537]);
    let run = checkout.sh("./skuldrefn stream the.log | tail -n 1");
    assert_eq!((run.status, &run.out[..]), (0, "65537 0 0 0\n"));
}

/// What README.md has to paste.
#[test]
fn the_readme() {
    let checkout = Checkout::bare();
    assert_eq!(checkout.sh("./skuldrefn stream three.log").status, 0);
    fs::create_dir(checkout.path("examples")).expect("a folder");
    let log = fs::read(top().join("examples/five-events.log")).expect("a log");
    checkout.write("examples/five-events.log", &log);
    let readme = fs::read_to_string(top().join("README.md")).expect("the README");
    let mut lines = readme
        .lines()
        .filter(|line| line.contains("| ./skuldrefn stream"));
    let line = lines.next().expect("a line to paste");
    let run = checkout.sh(&line.replace("sleep 3", "sleep 0.2"));
    let due = fs::read_to_string(top().join("examples/five-events.expected"));
    assert_eq!((run.status, &run.said[..]), (0, ""));
    assert_eq!(run.out, due.expect("lines"));
}
