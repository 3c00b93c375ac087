//! The examples of totals in `examples/README.md` are what the program prints.

use std::fs;
use std::path::{Path, PathBuf};
use std::process::Command;

fn examples() -> PathBuf {
    Path::new(env!("CARGO_MANIFEST_DIR")).join("../../examples")
}

fn document() -> String {
    fs::read_to_string(examples().join("README.md")).expect("a document")
}

/// What the program prints for a log.
fn printed(words: &[&str], log: &Path) -> String {
    let mut command = Command::new(env!("CARGO_BIN_EXE_tally"));
    let output = command.args(words).arg(log).output();
    let output = output.expect("the program starts");
    String::from_utf8(output.stdout).expect("text")
}

/// The first columns of CSV, as `cut -d , -f 1-6` has them.
fn cut(text: &str) -> String {
    let first = |line: &str| line.split(',').take(6).collect::<Vec<_>>().join(",") + "\n";
    text.lines().map(first).collect()
}

/// The block of indented lines that a document has next after a command.
fn shown(document: &str, command: &str) -> String {
    let (_, after) = document.split_once(command).expect(command);
    after
        .lines()
        .skip_while(|line| !line.starts_with("    "))
        .map_while(|line| line.strip_prefix("    "))
        .map(|line| format!("{line}\n"))
        .collect()
}

#[test]
fn the_document_has_what_is_printed() {
    for (command, printed) in [
        (
            "tally examples/cut-in-transfer.log\n",
            printed(&[], &examples().join("cut-in-transfer.log")),
        ),
        (
            "tally --every 1 examples/forgotten-invvpid.log | cut -d , -f 1-6\n",
            cut(&printed(
                &["--every", "1"],
                &examples().join("forgotten-invvpid.log"),
            )),
        ),
    ] {
        assert_eq!(shown(&document(), command), printed, "{command}");
    }
}

/// The log of 57-bit addresses that the document has to paste.
#[test]
fn the_log_to_paste() {
    let document = document();
    let (_, after) = document
        .split_once("\n```\n./skuldrefn assemble > wide.log << 'END'\n")
        .expect("a log to paste");
    let (text, _) = after.split_once("\nEND\n```\n").expect("its end");
    let log = convert::assemble(text.as_bytes()).expect("a log");
    assert_eq!(
        shown(&document, "disassemble --linear-width 57 wide.log\n"),
        convert::disassemble(57, &log)
    );
    let path = std::env::temp_dir().join(format!("skuldrefn-wide-{}", std::process::id()));
    fs::write(&path, &log).expect("a file");
    let (wide, narrow) = (
        printed(&["--linear-width", "57"], &path),
        printed(&[], &path),
    );
    fs::remove_file(&path).expect("a file");
    assert_eq!(shown(&document, "tally --linear-width 57 wide.log\n"), wide);
    let due = "events: 2\nrefused: 1 (answer 4: 1)\n";
    assert!(narrow.ends_with(due), "{narrow}");
}
