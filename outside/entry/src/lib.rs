//! Runs `../../skuldrefn` as a user does, in small checkouts of its own.
//!
//! A checkout has the script, crates.txt, a source, and stand-ins for `rt` and
//! `cargo` that build nothing: they copy the programs that were built before,
//! and note each call.

use std::fs;
use std::os::unix::fs::PermissionsExt;
use std::os::unix::process::ExitStatusExt;
use std::path::{Path, PathBuf};
use std::process::{id, Child, Command, Output, Stdio};
use std::sync::atomic::{AtomicUsize, Ordering};
use std::thread::sleep;
use std::time::{Duration, Instant};
use std::{env, io};

/// The stand-in for rt. SLOW: how many seconds a proof takes; FAILS: rt fails; BAD: the must-fail edits
/// that rt ci counts as bad.
const RT: &str = r#"#!/bin/sh
echo "rt $* in ${PWD##*/}" >>"$CHECKOUT/calls"
crate=${PWD##*/}
case $1 in
run | lib)
    echo "library model: modules loaded=3 checked=0"
    sleep "${SLOW:-0}"
    echo "crate $crate: modules loaded=3 checked=5"
    [ -z "${FAILS:-}" ] || { echo "logic=not-proved"; exit 1; }
    echo "logic=proved functions=7"
    mkdir -p out
    case $1 in
    run) cp "$REPLAY" out/replay && ./out/replay ;;
    lib) echo "${LIBRARY:-a library}" >out/libskuldrefn_c.a ;;
    esac
    ;;
ci)
    sleep "${SLOW:-0}"
    [ -z "${FAILS:-}" ] || { echo "rt: FAILED: model"; echo "11 passed, 1 failed"; exit 1; }
    echo "rt: ok; handles allowed: none; must-fail edits: 20 refused${BAD:-}; every proof was done in this run"
    echo "12 passed, 0 failed"
    ;;
esac
"#;

/// The stand-in for cargo.
const CARGO: &str = r#"#!/bin/sh
cd "$CHECKOUT" && echo "cargo $*" >>calls
mkdir -p outside/target/release && (cd "$PROGRAMS" && cp convert tally widen rows judge stream walk workbench fuzz mutants bench "$CHECKOUT/outside/target/release/")
"#;

/// The checks that the gate runs after rt.
const CHECK: &str = "echo \"check.sh $#\"; [ -z \"${CHECK_FAILS:-}\" ]\n";

/// The top folder of this repository.
pub fn top() -> PathBuf {
    Path::new(env!("CARGO_MANIFEST_DIR")).join("../..")
}

/// The replay program: what SKULDREFN_REPLAY names, else the one that is
/// built here.
pub fn replay() -> PathBuf {
    let named = env::var_os("SKULDREFN_REPLAY").map(PathBuf::from);
    let path = named.unwrap_or_else(|| top().join("target/bin/replay"));
    path.canonicalize()
        .unwrap_or_else(|error| panic!("{}: {error}", path.display()))
}

/// The folder with the other programs of this workspace.
fn programs() -> PathBuf {
    let own = env::current_exe().expect("a program");
    let folder = own.ancestors().nth(2).expect("target/release");
    assert!(
        folder.join("convert").is_file(),
        "build the whole workspace first"
    );
    folder.to_path_buf()
}

/// A small checkout, removed in the end.
pub struct Checkout(PathBuf);

impl Checkout {
    /// A checkout in which nothing is built.
    pub fn bare() -> Checkout {
        static COUNT: AtomicUsize = AtomicUsize::new(0);
        let number = COUNT.fetch_add(1, Ordering::Relaxed);
        let folder = env::temp_dir().join(format!("skuldrefn-entry-{}-{number}", id()));
        let checkout = Checkout(folder);
        for folder in [
            "bin",
            "crates/model/src",
            "crates/replay",
            "crates/skuldrefn_c",
            "outside/c",
            "tmp",
        ] {
            fs::create_dir_all(checkout.path(folder)).expect("a folder");
        }
        for file in ["skuldrefn", "crates.txt"] {
            fs::copy(top().join(file), checkout.path(file)).expect("a copy");
        }
        checkout.copy_all("outside/workbench/help");
        checkout.write("crates/model/src/lib.rt", b"// A source.\n");
        checkout.write("outside/check.sh", CHECK.as_bytes());
        for (name, text) in [("rt", RT), ("cargo", CARGO)] {
            let path = format!("bin/{name}");
            checkout.write(&path, text.as_bytes());
            let mode = fs::Permissions::from_mode(0o755);
            fs::set_permissions(checkout.path(&path), mode).expect("a mode");
        }
        checkout.write("a.table", &A);
        checkout.write("a.rows", &ROW_A);
        checkout.write("resets.log", &[25; 65_536]);
        checkout.write("three.log", &[22, 23, 25]);
        checkout
    }

    /// A checkout in which the replay program is built.
    pub fn built() -> Checkout {
        let checkout = Checkout::bare();
        let run = checkout.sh("./skuldrefn replay three.log");
        assert_eq!((run.status, &run.out[..]), (0, THREE), "{}", run.said);
        fs::remove_file(checkout.path("calls")).expect("calls");
        checkout
    }

    pub fn path(&self, name: &str) -> PathBuf {
        self.0.join(name)
    }

    pub fn write(&self, name: &str, bytes: &[u8]) {
        fs::write(self.path(name), bytes).expect("a file");
    }

    /// Copies the files of a folder of this repository.
    fn copy_all(&self, folder: &str) {
        fs::create_dir_all(self.path(folder)).expect("a folder");
        for file in fs::read_dir(top().join(folder)).expect("a folder") {
            let file = file.expect("a file");
            let copy = self.path(folder).join(file.file_name());
            fs::copy(file.path(), copy).expect("a copy");
        }
    }

    /// The calls of rt and cargo so far.
    pub fn calls(&self) -> Vec<String> {
        let text = fs::read_to_string(self.path("calls")).unwrap_or_default();
        text.lines().map(str::to_string).collect()
    }

    /// A line of shell, to be run in the checkout. Signals have their usual
    /// effect there: who started this program may have had some ignored, and a
    /// shell cannot take that back.
    pub fn command(&self, line: &str) -> Command {
        let path = env::var("PATH").expect("a PATH");
        let mut command = Command::new("env");
        command
            .args(["--default-signal", "sh", "-c", line])
            .current_dir(&self.0)
            .env("PATH", format!("{}:{path}", self.path("bin").display()))
            .env("CHECKOUT", &self.0)
            .env("TMPDIR", self.path("tmp"))
            .env("REPLAY", replay())
            .env("PROGRAMS", programs())
            .stdin(Stdio::null())
            .stdout(Stdio::piped())
            .stderr(Stdio::piped());
        command
    }

    /// Runs a line of shell in the checkout. Nothing may be left in TMPDIR.
    pub fn sh(&self, line: &str) -> Run {
        let output = self.command(line).output().expect("sh starts");
        assert_eq!(self.temporary_files(), 0, "{line}");
        Run::of(output)
    }

    /// How many files there are in TMPDIR.
    pub fn temporary_files(&self) -> usize {
        fs::read_dir(self.path("tmp")).expect("a folder").count()
    }

    /// The processes that were started from this checkout and still run.
    pub fn processes(&self) -> Vec<String> {
        let own = self.0.to_str().expect("a name");
        let folders = fs::read_dir("/proc").expect("Linux");
        let lines = folders.filter_map(|folder| {
            let folder = folder.ok()?.path();
            let environment = fs::read(folder.join("environ")).ok()?;
            let line = fs::read(folder.join("cmdline")).ok()?;
            let ours = environment
                .split(|byte| *byte == 0)
                .any(|word| word == format!("CHECKOUT={own}").as_bytes());
            (ours && !line.is_empty()).then(|| String::from_utf8_lossy(&line).replace('\0', " "))
        });
        lines.collect()
    }

    /// Waits until a process of this checkout runs whose words hold a text.
    pub fn await_process(&self, text: &str) {
        until(
            || self.processes().iter().any(|line| line.contains(text)),
            text,
        );
    }
}

impl Drop for Checkout {
    fn drop(&mut self) {
        let _ = fs::remove_dir_all(&self.0);
    }
}

/// Document 01's record A, which is the table `a.table`.
pub const A: [u8; 17] = [
    0x01, 0x05, 0x00, 0x01, 0x00, 0x00, 0x00, 0x45, 0x23, 0x01, 0x00, 0x00, 0xDE, 0xBC, 0x0A, 0x00,
    0x00,
];

/// The row of A, which is the file `a.rows`.
pub const ROW_A: [u8; 32] = [
    1, 0, 0, 0, 5, 0, 1, 0, 0x45, 0x23, 0x01, 0, 0, 0, 0, 0, 0xDE, 0xBC, 0x0A, 0, 0, 0, 0, 0, 0, 0,
    0, 0, 0, 0, 0, 0,
];

/// What the replay program prints for `three.log`.
pub const THREE: &str = "1 0 0 0\n2 0 0 0\n3 0 0 0\n";

/// How a run ended: its status, or 128 and the signal, and what it wrote.
#[derive(Debug)]
pub struct Run {
    pub status: i32,
    pub out: String,
    pub said: String,
}

impl Run {
    pub fn of(output: Output) -> Run {
        let signal = output.status.signal().map(|signal| 128 + signal);
        Run {
            status: output.status.code().or(signal).expect("an end"),
            out: String::from_utf8_lossy(&output.stdout).into_owned(),
            said: String::from_utf8_lossy(&output.stderr).into_owned(),
        }
    }
}

/// Waits for a condition, ten seconds at most.
pub fn until(condition: impl Fn() -> bool, what: &str) {
    let start = Instant::now();
    while !condition() {
        assert!(start.elapsed() < Duration::from_secs(10), "{what}");
        sleep(Duration::from_millis(5));
    }
}

/// Sends a signal to a process.
pub fn send(signal: &str, child: &Child) {
    let words = ["-s", signal, &child.id().to_string()];
    let status = Command::new("kill").args(words).status();
    assert!(status.is_ok_and(|status| status.success()));
}

/// Waits for a process that should end soon.
pub fn ended(mut child: Child) -> Run {
    let start = Instant::now();
    while matches!(child.try_wait(), Ok(None)) {
        if start.elapsed() > Duration::from_secs(10) {
            let _ = child.kill();
            panic!("it did not end");
        }
        sleep(Duration::from_millis(5));
    }
    Run::of(child.wait_with_output().expect("it ended"))
}

/// Runs a program on bytes.
pub fn fed(command: &mut Command, bytes: &[u8]) -> io::Result<Run> {
    use std::io::Write;
    let mut child = command.stdin(Stdio::piped()).spawn()?;
    let mut input = child.stdin.take().expect("a pipe");
    // The program may end before it has read all; that shows in its status.
    let _ = input.write_all(bytes);
    drop(input);
    Ok(Run::of(child.wait_with_output()?))
}
