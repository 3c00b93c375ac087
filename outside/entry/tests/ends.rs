//! A log that is not replayed to its end: the lines are the model's, the
//! program says where the run ended, and the script's status is 1.

use entry::{fed, replay, top, Checkout};
use std::fs;
use std::process::{Command, Stdio};

const VMXON: &[u8] = &[22];

/// The log, and what the program says of it; nothing for a log that is
/// replayed to its end.
fn logs() -> Vec<(Vec<u8>, String)> {
    let entry = [20, 1, 5, 0, 0, 0, 0, 0, 0, 0, 0, 0, 0, 1, 0, 0];
    let bad_field = [24, 0, 0x10, 0];
    let cut = |event: u32, byte: u32| {
        format!("replay: the run ended at event {event}, byte {byte}: the record is cut\n")
    };
    let unknown = |event: u32, byte: u32| {
        format!("replay: the run ended at event {event}, byte {byte}: the kind is unknown\n")
    };
    let mut logs = vec![
        (vec![], String::new()),
        (VMXON.to_vec(), String::new()),
        (bad_field.to_vec(), String::new()),
        ([VMXON, &entry, &bad_field].concat(), String::new()),
        (vec![0], unknown(1, 0)),
        (vec![7], unknown(1, 0)),
        (vec![22, 255, 22, 22], unknown(2, 1)),
        // A whole record of kind 7, which only 57-bit addresses have.
        ([VMXON, &[7], &[0; 17], VMXON].concat(), unknown(2, 1)),
        ([VMXON, &entry, &[28]].concat(), unknown(3, 17)),
        ([VMXON, &bad_field, &bad_field[..3]].concat(), cut(3, 5)),
        (vec![25; 65_536], String::new()),
        ([&[25; 65_535][..], &[16]].concat(), cut(65_536, 65_535)),
        ([&[25; 65_535][..], &[28]].concat(), unknown(65_536, 65_535)),
    ];
    for end in 1..entry.len() {
        logs.push(([VMXON, &entry[..end]].concat(), cut(2, 1)));
    }
    for length in [65_537, 100_000] {
        let said = "replay: the log is longer than 65,536 bytes\n";
        logs.push((vec![25; length], said.to_string()));
        logs.push((vec![0; length], said.to_string()));
    }
    logs
}

#[test]
fn the_program_says_where_it_ended() {
    for (log, said) in logs() {
        let mut command = Command::new(replay());
        command.stdout(Stdio::piped()).stderr(Stdio::piped());
        let run = fed(&mut command, &log).expect("the program starts");
        assert_eq!(run.out, model::print(model::replay(&log).as_deref()));
        assert_eq!(run.said, said, "{} bytes", log.len());
    }
}

#[test]
fn the_script_ends_with_1() {
    let checkout = Checkout::built();
    for (log, said) in logs() {
        checkout.write("log", &log);
        let run = checkout.sh("./skuldrefn replay log");
        assert_eq!(run.out, model::print(model::replay(&log).as_deref()));
        assert_eq!(run.said, said);
        assert_eq!(run.status, i32::from(!said.is_empty()));
    }
}

#[test]
fn the_examples() {
    let checkout = Checkout::built();
    let mut early = Vec::new();
    for entry in fs::read_dir(top().join("examples")).expect("examples") {
        let log = entry.expect("an example").path();
        if log.extension().is_some_and(|own| own == "log") {
            let run = checkout.sh(&format!("./skuldrefn replay '{}'", log.display()));
            let due = fs::read_to_string(log.with_extension("expected"));
            assert_eq!(run.out, due.expect("the lines"));
            if run.status == 1 {
                early.push(log.file_stem().expect("a name").to_owned());
            }
        }
    }
    early.sort();
    assert_eq!(early, ["cut-in-transfer", "refusals"]);
}
