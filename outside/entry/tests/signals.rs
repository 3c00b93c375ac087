//! A signal ends the script and all that it started.

use entry::{ended, send, Checkout};
use std::process::Stdio;

const SIGNALS: [(&str, i32); 3] = [("HUP", 1), ("INT", 2), ("TERM", 15)];

#[test]
fn a_replay() {
    let checkout = Checkout::built();
    for (signal, number) in SIGNALS {
        let mut command = checkout.command("exec ./skuldrefn replay");
        let mut child = command.stdin(Stdio::piped()).spawn().expect("it starts");
        // The program reads, for its input does not end.
        let input = child.stdin.take();
        checkout.await_process("target/bin/replay");
        send(signal, &child);
        let run = ended(child);
        assert_eq!(
            (run.status, &run.out[..], &run.said[..]),
            (128 + number, "", "")
        );
        assert_eq!(checkout.processes(), [""; 0]);
        assert_eq!(checkout.temporary_files(), 0);
        drop(input);
    }
}

#[test]
fn a_build() {
    let checkout = Checkout::bare();
    for (signal, number) in SIGNALS {
        let mut command = checkout.command("SLOW=100 exec ./skuldrefn replay three.log");
        let child = command.spawn().expect("it starts");
        checkout.await_process("sleep 100");
        send(signal, &child);
        let run = ended(child);
        assert_eq!((run.status, &run.out[..]), (128 + number, ""));
        assert_eq!(checkout.processes(), [""; 0]);
        assert_eq!(checkout.temporary_files(), 0);
    }
    // What was begun does not count as built.
    let run = checkout.sh("./skuldrefn replay three.log");
    assert_eq!((run.status, &run.out[..]), (0, entry::THREE));
    assert_eq!(checkout.calls().len(), 4);
}

#[test]
fn a_build_that_is_stopped() {
    let checkout = Checkout::bare();
    let mut command = checkout.command("SLOW=100 exec ./skuldrefn replay three.log");
    let child = command.spawn().expect("it starts");
    checkout.await_process("sleep 100");
    let stopped = checkout.sh("kill -s STOP $(pgrep -f \"$CHECKOUT/bin/rt\")");
    assert_eq!(stopped.status, 0, "{}", stopped.said);
    send("TERM", &child);
    assert_eq!(ended(child).status, 143);
    assert_eq!(checkout.processes(), [""; 0]);
}

#[test]
fn a_run_that_waits_for_a_build() {
    let checkout = Checkout::bare();
    let mut command = checkout.command("SLOW=100 exec ./skuldrefn replay three.log");
    let first = command.spawn().expect("it starts");
    checkout.await_process("sleep 100");
    let second = command.spawn().expect("it starts");
    checkout.await_process("flock 9");
    send("TERM", &second);
    assert_eq!(ended(second).status, 143);
    assert!(!checkout
        .processes()
        .iter()
        .any(|line| line.contains("flock")));
    send("TERM", &first);
    assert_eq!(ended(first).status, 143);
    assert_eq!(checkout.processes(), [""; 0]);
    assert_eq!(checkout.temporary_files(), 0);
}

#[test]
fn the_gate() {
    let checkout = Checkout::bare();
    let mut command = checkout.command("SLOW=100 exec ./skuldrefn test");
    let child = command.spawn().expect("it starts");
    checkout.await_process("sleep 100");
    send("TERM", &child);
    assert_eq!(ended(child).status, 143);
    assert_eq!(checkout.processes(), [""; 0]);
    assert_eq!(checkout.temporary_files(), 0);
}
