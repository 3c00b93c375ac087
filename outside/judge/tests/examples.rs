//! The example traces: each text assembles to its trace, and the program prints
//! what was worked out by hand; and what `examples/README.md` shows of them.

use std::fs;
use std::path::{Path, PathBuf};
use std::process::{Command, Output};

fn examples() -> PathBuf {
    Path::new(env!("CARGO_MANIFEST_DIR")).join("../../examples")
}

fn traces() -> PathBuf {
    examples().join("traces")
}

fn read(name: &str, sort: &str) -> Vec<u8> {
    let path = traces().join(format!("{name}.{sort}"));
    fs::read(&path).unwrap_or_else(|error| panic!("{}: {error}", path.display()))
}

/// The names of the examples that have a file of this sort.
fn names(sort: &str) -> Vec<String> {
    let files = fs::read_dir(traces()).expect("the examples are there");
    let mut names: Vec<String> = files
        .map(|entry| entry.expect("a file").path())
        .filter(|path| path.extension().is_some_and(|own| own == sort))
        .map(|path| path.file_stem().unwrap().to_string_lossy().into_owned())
        .collect();
    names.sort();
    names
}

fn run(words: &[&str], file: &Path) -> Output {
    let mut command = Command::new(env!("CARGO_BIN_EXE_judge"));
    let output = command.args(words).arg(file).output();
    output.expect("the program starts")
}

#[test]
fn each_has_a_text_a_trace_and_its_output() {
    let due = ["drops-more", "keeps-after-invvpid"];
    assert_eq!(names("trace"), due);
    assert_eq!(names("txt"), due);
    assert_eq!(names("expected"), due);
}

#[test]
fn each_text_is_its_trace() {
    for name in names("txt") {
        let trace = convert::assemble(&read(&name, "txt"));
        assert_eq!(trace, Ok(read(&name, "trace")), "{name}");
    }
}

#[test]
fn each_output_is_printed() {
    for (name, status) in [("drops-more", 0), ("keeps-after-invvpid", 1)] {
        let output = run(&[], &traces().join(format!("{name}.trace")));
        assert_eq!(output.status.code(), Some(status), "{name}");
        let printed = String::from_utf8(output.stdout).expect("text");
        let due = String::from_utf8(read(name, "expected")).expect("text");
        assert_eq!(printed, due, "{name}");
    }
}

/// The block of indented lines that a document has next after a command.
fn shown(document: &str, command: &str) -> String {
    let (_, after) = document.split_once(command).expect(command);
    after
        .lines()
        .skip_while(|line| !line.starts_with("    "))
        .map_while(|line| line.strip_prefix("    "))
        .map(|line| format!("{line}\n"))
        .collect()
}

#[test]
fn the_documents_have_what_is_printed() {
    let name = "keeps-after-invvpid";
    let due = String::from_utf8(read(name, "expected")).expect("text");
    for path in ["README.md", "../README.md"] {
        let document = fs::read_to_string(examples().join(path)).expect("a document");
        let command = format!("judge examples/traces/{name}.trace\n");
        assert_eq!(shown(&document, &command), due, "{path}");
    }
}

/// The trace that is made of each log, which is judged lawful to its end.
#[test]
fn traces_of_the_logs() {
    let logs = fs::read_dir(examples()).expect("the examples are there");
    let logs = logs.map(|entry| entry.expect("a file").path());
    let mut count = 0;
    for log in logs.filter(|path| path.extension().is_some_and(|own| own == "log")) {
        let made = run(&["--make"], &log);
        let events = fs::read_to_string(log.with_extension("expected")).expect("lines");
        // These two logs end at a cut record and at an unknown kind.
        let name = log.file_stem().unwrap().to_string_lossy().into_owned();
        let ended = name == "cut-in-transfer" || name == "refusals";
        assert_eq!(
            made.status.code(),
            Some(if ended { 2 } else { 0 }),
            "{name}"
        );
        let path = std::env::temp_dir().join(format!("skuldrefn-{name}-{}", std::process::id()));
        fs::write(&path, &made.stdout).expect("a file");
        let judged = run(&[], &path);
        fs::remove_file(&path).expect("a file");
        assert!(judged.status.success(), "{name}");
        let printed = String::from_utf8(judged.stdout).expect("text");
        assert_eq!(
            printed.lines().count() + usize::from(ended),
            events.lines().count()
        );
        // An answer of the replay is the answer here.
        for (line, event) in printed.lines().zip(events.lines()) {
            let (line, event): (Vec<&str>, Vec<&str>) =
                (line.split(' ').collect(), event.split(' ').collect());
            assert_eq!((line[0], line[1]), (event[0], "lawful"));
            match event[1] {
                "0" => assert_eq!((line[2], line[3]), ("accepted", line[5])),
                answer => assert_eq!((line[2], line[3]), ("refused", answer)),
            }
        }
        count += 1;
    }
    assert!(count >= 6);
}
