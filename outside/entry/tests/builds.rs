//! When the script builds, where, and what it says of it.

use entry::{Checkout, THREE};
use std::fs;
use std::os::unix::fs::{symlink, PermissionsExt};
use std::process::Command;

#[test]
fn the_first_build_tells_each_crate() {
    let checkout = Checkout::bare();
    let run = checkout.sh("./skuldrefn replay three.log");
    assert_eq!((run.status, &run.out[..]), (0, THREE));
    let lines: Vec<&str> = run.said.lines().collect();
    assert_eq!(lines.len(), 3, "{}", run.said);
    let begun = lines[0].strip_prefix("skuldrefn: proving and building the replay program, ");
    let count = begun.and_then(|rest| rest.split_once(" crates; "));
    let count: u32 = count.expect(lines[0]).0.parse().expect("a number");
    assert!(count > 10, "{count}");
    assert_eq!(lines[1], format!("skuldrefn: 2 of {count}: replay proved"));
    assert_eq!(lines[2], "skuldrefn: done");
    // The next run says nothing and builds nothing, and needs no rt.
    fs::remove_file(checkout.path("bin/rt")).expect("rt");
    let run = checkout.sh("./skuldrefn replay three.log");
    assert_eq!((run.status, &run.out[..], &run.said[..]), (0, THREE, ""));
    assert_eq!(checkout.calls(), ["rt run in replay"]);
}

#[test]
fn sources_by_content() {
    let checkout = Checkout::built();
    let source = checkout.path("crates/model/src/lib.rt");
    // Touched, and not changed.
    let run =
        checkout.sh("touch -d tomorrow crates/model/src/lib.rt && ./skuldrefn replay three.log");
    assert_eq!((run.status, &run.said[..]), (0, ""));
    assert!(checkout.calls().is_empty());
    // Changed, and as old as before.
    let time = fs::metadata(&source)
        .expect("a source")
        .modified()
        .expect("a time");
    checkout.write("crates/model/src/lib.rt", b"// Another source.\n");
    let file = fs::File::options()
        .write(true)
        .open(&source)
        .expect("a source");
    file.set_modified(time).expect("a time");
    for _ in 0..2 {
        assert_eq!(checkout.sh("./skuldrefn replay three.log").out, THREE);
        assert_eq!(checkout.calls(), ["rt run in replay"]);
    }
    // A new source, and one that is gone.
    checkout.write("crates/model/src/more.rt", b"// More.\n");
    assert_eq!(checkout.sh("./skuldrefn replay three.log").out, THREE);
    assert_eq!(checkout.calls().len(), 2);
    fs::remove_file(checkout.path("crates/model/src/more.rt")).expect("a source");
    assert_eq!(checkout.sh("./skuldrefn replay three.log").out, THREE);
    assert_eq!(checkout.calls().len(), 3);
    // Another program in its place.
    checkout.write("target/bin/replay", b"#!/bin/sh\necho wrong\n");
    assert_eq!(checkout.sh("./skuldrefn replay three.log").out, THREE);
    assert_eq!(checkout.calls().len(), 4);
}

#[test]
fn a_build_that_fails() {
    let checkout = Checkout::bare();
    for _ in 0..2 {
        let run = checkout.sh("FAILS=1 ./skuldrefn replay three.log");
        assert_eq!((run.status, &run.out[..]), (2, ""));
        assert!(run.said.contains("logic=not-proved\n"));
        let last = run.said.lines().last().unwrap_or_default();
        let log = last.split_whitespace().last().unwrap_or_default();
        assert!(last.contains("could not be built"), "{last}");
        let text = fs::read_to_string(log).expect("the log");
        assert!(text.ends_with("logic=not-proved\n"), "{text}");
    }
    assert_eq!(checkout.sh("./skuldrefn replay three.log").out, THREE);
    assert_eq!(checkout.calls().len(), 3);
}

#[test]
fn tools_that_are_missing() {
    let checkout = Checkout::bare();
    let links = checkout.path("few");
    fs::create_dir(&links).expect("a folder");
    for tool in [
        "sh",
        "readlink",
        "dirname",
        "basename",
        "find",
        "sha256sum",
        "cut",
        "sort",
        "cat",
        "mkdir",
        "awk",
        "tail",
        "flock",
        "setsid",
    ] {
        let found = checkout.sh(&format!("command -v {tool}")).out;
        symlink(found.trim_end(), links.join(tool)).expect("a link");
    }
    for (command, tool) in [
        ("replay three.log", "rt"),
        ("library", "rt"),
        ("disassemble three.log", "cargo"),
        ("tally three.log", "rt"),
        ("widen a.table", "rt"),
        ("rows a.table", "rt"),
        ("table a.rows", "rt"),
        ("judge three.log", "rt"),
        ("stream three.log", "rt"),
        ("test", "rt"),
    ] {
        let run = checkout.sh(&format!("PATH=$CHECKOUT/few ./skuldrefn {command}"));
        assert_eq!(
            (run.status, &run.out[..]),
            (2, ""),
            "{command}: {}",
            run.said
        );
        assert!(
            run.said.starts_with(&format!("skuldrefn: {tool}, ")),
            "{}",
            run.said
        );
    }
}

#[test]
fn two_first_runs_at_once() {
    let checkout = Checkout::bare();
    let mut command = checkout.command("SLOW=1 ./skuldrefn replay three.log");
    let first = command.spawn().expect("it starts");
    checkout.await_process("sleep 1");
    let second = command.output().expect("it runs");
    let first = first.wait_with_output().expect("it runs");
    for output in [&first, &second] {
        assert!(output.status.success());
        assert_eq!(String::from_utf8_lossy(&output.stdout), THREE);
    }
    let said = String::from_utf8_lossy(&second.stderr);
    assert_eq!(
        said,
        "skuldrefn: another run is building here; waiting for it\n"
    );
    assert_eq!(checkout.calls(), ["rt run in replay"]);
    let log = fs::read_to_string(checkout.path("target/skuldrefn/replay.log")).expect("a log");
    assert_eq!(log.lines().count(), 3, "{log}");
}

#[test]
fn many_first_runs_at_once() {
    let checkout = Checkout::bare();
    let line = "for n in 1 2 3 4 5 6; do SLOW=0.2 ./skuldrefn replay three.log & done; wait";
    let run = checkout.sh(line);
    assert_eq!(run.out.lines().count(), 18, "{}", run.said);
    assert_eq!(checkout.calls(), ["rt run in replay"]);
}

#[test]
fn through_links() {
    let checkout = Checkout::built();
    let elsewhere = checkout.path("else where");
    fs::create_dir(&elsewhere).expect("a folder");
    symlink("../skuldrefn", elsewhere.join("relative")).expect("a link");
    symlink(checkout.path("skuldrefn"), elsewhere.join("absolute")).expect("a link");
    symlink("relative", elsewhere.join("again")).expect("a link");
    symlink(".", checkout.path("folder")).expect("a link");
    for line in [
        "'else where/relative' replay three.log",
        "'else where/absolute' replay three.log",
        "cd 'else where' && ./again replay ../three.log",
        "cd 'else where' && PATH=.:$PATH && again replay ../three.log",
        "cd / && \"$CHECKOUT/else where/relative\" replay \"$CHECKOUT/three.log\"",
        "folder/skuldrefn replay folder/three.log",
        "sh skuldrefn replay three.log",
        "CDPATH=/:/usr ./skuldrefn replay three.log",
    ] {
        let run = checkout.sh(line);
        assert_eq!(
            (run.status, &run.out[..], &run.said[..]),
            (0, THREE, ""),
            "{line}"
        );
    }
    assert!(checkout.calls().is_empty());
    // A copy is no checkout.
    fs::copy(checkout.path("skuldrefn"), elsewhere.join("copy")).expect("a copy");
    let run = checkout.sh("'else where/copy' replay three.log");
    assert_eq!((run.status, &run.out[..]), (2, ""));
    assert!(run.said.contains("has no crates.txt"), "{}", run.said);
}

/// Runs a line where nothing can be written: as nobody if this is root, else
/// with the folders' modes changed. None if neither can be had.
fn read_only(checkout: &Checkout, line: &str) -> Option<entry::Run> {
    let id = Command::new("id").arg("-u").output().expect("id");
    let is_root = id.stdout == b"0\n";
    let folders = format!("find {} -type d -exec chmod", checkout.path("").display());
    let sh = |line: &str| {
        let status = Command::new("sh").args(["-c", line]).status();
        assert!(status.is_ok_and(|status| status.success()), "{line}");
    };
    if is_root {
        let drop = "setpriv --reuid=65534 --regid=65534 --clear-groups";
        let reach = format!("{drop} test -x \"$PROGRAMS\" && {drop} test -r three.log");
        if checkout.sh(&reach).status != 0 {
            return None;
        }
        return Some(checkout.sh(&format!("exec {drop} sh -c '{line}'")));
    }
    sh(&format!("{folders} a-w {{}} +"));
    let run = checkout.sh(line);
    sh(&format!("{folders} u+w {{}} +"));
    Some(run)
}

#[test]
fn a_read_only_checkout() {
    let checkout = Checkout::built();
    let mode = fs::Permissions::from_mode(0o755);
    fs::set_permissions(checkout.path(""), mode).expect("a mode");
    let Some(run) = read_only(&checkout, "./skuldrefn replay three.log") else {
        println!("left out: this is root, and setpriv cannot make it nobody here");
        return;
    };
    assert_eq!((run.status, &run.out[..], &run.said[..]), (0, THREE, ""));
    checkout.write("crates/model/src/lib.rt", b"// Another source.\n");
    let run = read_only(&checkout, "./skuldrefn replay three.log").expect("as before");
    assert_eq!((run.status, &run.out[..]), (2, ""));
    assert!(
        run.said
            .contains("is not built of the sources that are here, and "),
        "{}",
        run.said
    );
    assert!(
        run.said.ends_with("/target/skuldrefn cannot be written\n"),
        "{}",
        run.said
    );
    assert!(checkout.calls().is_empty());
    fs::remove_dir_all(checkout.path("target")).expect("a folder");
    let run = read_only(&checkout, "./skuldrefn disassemble three.log").expect("as before");
    assert_eq!((run.status, &run.out[..]), (2, ""));
    assert!(
        run.said.ends_with("/target/skuldrefn cannot be written\n"),
        "{}",
        run.said
    );
}

#[test]
fn the_library() {
    let checkout = Checkout::bare();
    let run = checkout.sh("./skuldrefn library");
    let top = checkout.path("").canonicalize().expect("a folder");
    let top = top.display();
    let due = format!(
        "library: {top}/target/staticlib/libskuldrefn.a\nheader: {top}/outside/c/skuldrefn.h\n"
    );
    assert_eq!((run.status, run.out), (0, due));
    assert_eq!(checkout.calls(), ["rt lib in skuldrefn_c"]);
    let run = checkout.sh("./skuldrefn library");
    assert_eq!((run.status, &run.said[..]), (0, ""));
    assert_eq!(checkout.calls().len(), 1);
    // What links it is built again where it changes.
    assert_eq!(checkout.sh("./skuldrefn fuzz 1 1").status, 0);
    assert_eq!(checkout.sh("./skuldrefn fuzz 1 1").status, 0);
    assert_eq!(checkout.calls().len(), 2);
    checkout.write("crates/model/src/lib.rt", b"// Another source.\n");
    assert_eq!(
        checkout.sh("LIBRARY=another ./skuldrefn fuzz 1 1").status,
        0
    );
    assert_eq!(checkout.calls().len(), 4);
}

#[test]
fn the_gate() {
    let checkout = Checkout::bare();
    let run = checkout.sh("./skuldrefn test");
    assert_eq!(run.status, 0, "{}", run.said);
    let ok = "rt: ok; handles allowed: none; must-fail edits: 20 refused; every proof was done in this run\n";
    let last = "12 passed, 0 failed\n";
    let due = format!("{ok}{last}skuldrefn: the checks in Rust and C\ncheck.sh 2\n{last}");
    assert_eq!(run.out, due);
    let top = checkout.path("");
    let top = top.file_name().expect("a name").to_string_lossy();
    assert_eq!(
        checkout.calls(),
        [
            format!("rt ci in {top}"),
            "rt lib in skuldrefn_c".to_string(),
            "rt run in replay".to_string()
        ]
    );
    let run = checkout.sh("CHECK_FAILS=1 ./skuldrefn test");
    assert_eq!(run.status, 1);
    assert_eq!(run.out.lines().last(), Some("check.sh 2"));
    let run = checkout.sh("FAILS=1 ./skuldrefn test");
    let due = "rt: FAILED: model\n11 passed, 1 failed\n";
    assert_eq!((run.status, &run.out[..]), (1, due));
    // What rt ci passes with bad edits does not pass here.
    let run = checkout.sh("BAD=', 1 of them only by a limit, 2 bad' ./skuldrefn test");
    let due = "skuldrefn: some must-fail edits are bad\n";
    assert_eq!((run.status, &run.said[..]), (1, due));
    assert!(run.out.ends_with(last) && !run.out.contains("check.sh"));
    for none in ["", ", 0 bad", ", 3 of them only by a limit"] {
        let run = checkout.sh(&format!("BAD='{none}' ./skuldrefn test"));
        assert_eq!((run.status, &run.said[..]), (0, ""), "{none}");
    }
    let run = checkout.sh("./skuldrefn test > /dev/full");
    assert_eq!(run.status, 1);
    assert_eq!(checkout.processes(), [""; 0]);
}
