//! The program itself: its streams and its exit status.

use std::fs::File;
use std::io::Write;
use std::process::{Command, Output, Stdio};

fn run(words: &[&str], input: &[u8], stdout: Stdio) -> Output {
    let mut child = Command::new(env!("CARGO_BIN_EXE_convert"))
        .args(words)
        .stdin(Stdio::piped())
        .stdout(stdout)
        .stderr(Stdio::piped())
        .spawn()
        .expect("the program starts");
    // The child may end before it reads; that shows in its status.
    let _ = child.stdin.take().expect("a pipe").write_all(input);
    child.wait_with_output().expect("the program ends")
}

fn said(output: &Output) -> &str {
    std::str::from_utf8(&output.stderr).expect("text")
}

#[test]
fn both_ways() {
    let output = run(&["assemble"], b"vmxon\nexit pcid=0x1\n", Stdio::piped());
    assert!(output.status.success());
    assert_eq!(output.stdout, [22, 21, 1, 0]);
    assert!(output.stderr.is_empty());
    let output = run(&["disassemble"], &[22, 21, 1, 0, 9], Stdio::piped());
    assert!(output.status.success());
    assert_eq!(
        String::from_utf8_lossy(&output.stdout),
        "# 5 bytes\n\
         vmxon  # event 1 at byte 0\n\
         exit pcid=0x1  # event 2 at byte 1\n\
         raw 09  # event 3 at byte 4: unknown kind 0x9, one of 57-bit linear addresses, a replay ends here\n"
    );
}

#[test]
fn a_bad_text_writes_nothing() {
    let output = run(&["assemble"], b"vmxon\nvmxon\nexit\n", Stdio::piped());
    assert_eq!(output.status.code(), Some(1));
    assert!(output.stdout.is_empty());
    assert_eq!(said(&output), "line 3: exit: field 'pcid' is missing\n");
}

#[test]
fn a_long_log_is_noted() {
    let text = "reset\n".repeat(65_537);
    let output = run(&["assemble"], text.as_bytes(), Stdio::piped());
    assert!(output.status.success());
    assert_eq!(output.stdout, vec![25; 65_537]);
    assert!(said(&output).contains("65537"));
}

/// Kind 9 is cut at 57 bits, and kind 4 is unknown.
#[test]
fn a_linear_width() {
    let text = |words: &[&str], log: &[u8]| {
        let output = run(words, log, Stdio::piped());
        assert!(output.status.success(), "{words:?}");
        String::from_utf8_lossy(&output.stdout).into_owned()
    };
    let cut = "# 1 bytes\n\
        raw 09  # event 1 at byte 0: linear-structure-57 cut to 1 of 17 bytes, a replay ends here\n";
    let unknown = |kind: u8, width: u64| {
        format!(
            "# 1 bytes\nraw 0{kind}  # event 1 at byte 0: unknown kind 0x{kind}, \
             one of {width}-bit linear addresses, a replay ends here\n"
        )
    };
    let wide = ["disassemble", "--linear-width", "57"];
    assert_eq!(text(&wide, &[9]), cut);
    assert_eq!(text(&wide, &[4]), unknown(4, 48));
    for more in [&["-"][..], &["--"], &["--", "-"]] {
        assert_eq!(text(&[&wide, more].concat(), &[9]), cut);
    }
    for words in [
        &["disassemble"][..],
        &["disassemble", "--linear-width", "48"],
    ] {
        assert_eq!(text(words, &[9]), unknown(9, 57));
    }
}

#[test]
fn words_that_are_not_taken() {
    for words in [
        &[][..],
        &["disassemble", "--linear-width"],
        &["disassemble", "--linear-width", "56"],
        &["disassemble", "--linear-width", "0x39"],
        &[
            "disassemble",
            "--linear-width",
            "57",
            "--linear-width",
            "57",
        ],
        &["disassemble", "--linear-width=57"],
        &["disassemble", "-", "--linear-width", "57"],
        &["assemble", "--linear-width", "57"],
        &["assembel"],
        &["assemble", "-x"],
        &["assemble", "--", "a", "b"],
        &["disassemble", "-", "-"],
        &["help", "me"],
    ] {
        let output = run(words, b"", Stdio::piped());
        assert_eq!(output.status.code(), Some(2), "{words:?}");
        assert!(output.stdout.is_empty());
        assert!(said(&output).contains("\nusage: "));
    }
    for word in ["help", "--help", "-h"] {
        let output = run(&[word], b"", Stdio::piped());
        assert!(output.status.success());
        assert!(output.stdout.starts_with(b"usage: "));
    }
}

#[test]
fn a_file_or_standard_input() {
    let examples = concat!(env!("CARGO_MANIFEST_DIR"), "/../../examples");
    let text = format!("{examples}/five-events.txt");
    let log = format!("{examples}/five-events.log");
    let due = std::fs::read(&log).expect("an example");
    for words in [&["assemble", &text][..], &["assemble", "--", &text]] {
        let output = run(words, b"vmxon", Stdio::piped());
        assert!(output.status.success());
        assert_eq!(output.stdout, due);
    }
    let shown = run(&["disassemble", &log], b"", Stdio::piped()).stdout;
    assert_eq!(
        shown,
        run(&["disassemble", "-"], &due, Stdio::piped()).stdout
    );
    let output = run(&["assemble", &log], b"", Stdio::piped());
    assert_eq!(output.status.code(), Some(1));
    assert!(output.stdout.is_empty());
    assert!(said(&output).starts_with(&format!("{log}: line 1: ")));
}

#[test]
fn an_input_that_cannot_be_read() {
    let folder = env!("CARGO_MANIFEST_DIR");
    for word in ["assemble", "disassemble"] {
        let output = run(&[word, folder], b"", Stdio::piped());
        assert_eq!(output.status.code(), Some(1));
        assert!(output.stdout.is_empty());
        assert!(said(&output).starts_with(folder));
        let output = Command::new(env!("CARGO_BIN_EXE_convert"))
            .arg(word)
            .stdin(File::open(folder).expect("a folder"))
            .output()
            .expect("the program starts");
        assert_eq!(output.status.code(), Some(1));
        assert!(output.stdout.is_empty());
        assert!(said(&output).starts_with("cannot read standard input: "));
    }
}

#[test]
fn a_full_disk_is_an_error() {
    // Linux has a device that is always full; elsewhere there is no such test.
    let Ok(full) = File::options().write(true).open("/dev/full") else {
        return;
    };
    for (word, input) in [("assemble", &b"vmxon\n"[..]), ("disassemble", &[22][..])] {
        let stdout = full.try_clone().expect("a second handle");
        let output = run(&[word], input, stdout.into());
        assert_eq!(output.status.code(), Some(1));
        assert!(said(&output).starts_with("cannot write standard output: "));
    }
}

#[test]
fn a_closed_pipe_is_an_error() {
    let mut child = Command::new(env!("CARGO_BIN_EXE_convert"))
        .arg("assemble")
        .stdin(Stdio::piped())
        .stdout(Stdio::piped())
        .stderr(Stdio::piped())
        .spawn()
        .expect("the program starts");
    drop(child.stdout.take());
    let mut stdin = child.stdin.take().expect("a pipe");
    stdin.write_all(b"vmxon\n").expect("the program reads");
    drop(stdin);
    let output = child.wait_with_output().expect("the program ends");
    assert_eq!(output.status.code(), Some(1));
    assert!(said(&output).starts_with("cannot write standard output: "));
}
