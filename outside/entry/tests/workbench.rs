//! The tester's workbench, as a user runs it.

use entry::{Checkout, A};

const COMMANDS: [&str; 7] = [
    "show", "explain", "lookup", "leaks", "compare", "audit", "view",
];

/// VMXON, VM entry with VPID 5 and PCID 1, the creation of A, VM exit.
fn log() -> Vec<u8> {
    let entry = [20, 1, 5, 0, 0, 0, 0, 0, 0, 0, 0, 0, 0, 1, 0, 0];
    [&[22], &entry[..], &A, &[21, 0, 0]].concat()
}

const RECORD: &str = "linear vpid=0x5 pcid=0x1 global=0x0 span=0x0 page=0x12345 frame=0xabcde";

#[test]
fn help() {
    let checkout = Checkout::bare();
    let whole = checkout.sh("./skuldrefn help").out;
    for command in COMMANDS {
        assert!(whole.contains(&format!("\n  {command} LOG")), "{command}");
        let own = checkout.sh(&format!("./skuldrefn help {command}"));
        assert_eq!((own.status, &own.said[..]), (0, ""));
        let usage = format!("usage: ./skuldrefn {command} ");
        assert!(own.out.starts_with(&usage), "{}", own.out);
        assert!(own.out.ends_with("wrong use, or something is missing.\n"));
        for word in ["-h", "--help", "help"] {
            let run = checkout.sh(&format!("./skuldrefn {command} {word}"));
            assert_eq!((run.status, &run.out), (0, &own.out));
        }
        let run = checkout.sh(&format!("./skuldrefn {command}"));
        let due =
            format!("skuldrefn: the log is missing; './skuldrefn help {command}' says more\n");
        assert_eq!((run.status, run.out, run.said), (2, String::new(), due));
    }
    let run = checkout.sh("./skuldrefn replay --words");
    assert_eq!(run.status, 2);
    assert!(run.said.starts_with("skuldrefn: "), "{}", run.said);
    assert!(checkout.calls().is_empty());
}

#[test]
fn each_command() {
    let checkout = Checkout::bare();
    checkout.write("a.log", &log());
    checkout.write("-x", &log());
    checkout.write("longer.log", &[&log()[..], &[23]].concat());
    checkout.write("renters", b"2 anna\n");
    let first = checkout.sh("./skuldrefn show a.log after=3");
    assert_eq!(first.status, 0, "{}", first.said);
    assert!(
        first.out.contains(&format!("\n     3 {RECORD}\n")),
        "{}",
        first.out
    );
    assert_eq!(checkout.calls()[0], "rt lib in skuldrefn_c");
    assert!(checkout.calls()[1].ends_with(" -p workbench"));
    for (line, status, due) in [
        (
            "./skuldrefn show -- -x",
            0,
            "mappings in force: 1\nbytes in force: 17\n",
        ),
        (
            "./skuldrefn show - < a.log",
            0,
            "mappings in force: 1\nbytes in force: 17\n",
        ),
        (
            "cd crates && ../skuldrefn show ../a.log",
            0,
            "bytes in force: 17\n",
        ),
        (
            "./skuldrefn explain a.log event=4",
            0,
            "dropped: 0 of 1 mappings\n",
        ),
        (
            "./skuldrefn lookup a.log after=3 linear=0x12345678",
            0,
            "usable at linear address 0x12345678: 1\n",
        ),
        (
            "./skuldrefn leaks a.log renters=renters",
            0,
            "leaks: 0, in 1 VM entries\n",
        ),
        (
            "./skuldrefn leaks a.log",
            0,
            "stale translations: 0, in 1 translations created\n",
        ),
        ("./skuldrefn compare a.log -- -x", 0, "the same events: 4\n"),
        (
            "./skuldrefn compare a.log longer.log",
            1,
            "  only in longer.log: 0\n",
        ),
        (
            "./skuldrefn audit a.log longer.log 2>&1",
            0,
            "2 logs, 0 with findings\n",
        ),
        ("./skuldrefn view a.log", 0, "</html>\n"),
        ("./skuldrefn view --trace a.log", 0, "]}\n"),
        (
            "./skuldrefn replay --words a.log",
            0,
            "4 0 0 17 exit pcid=0x0  # accepted\n",
        ),
        (
            "cat a.log | ./skuldrefn replay --words -",
            0,
            "4 0 0 17 exit pcid=0x0  # accepted\n",
        ),
        ("./skuldrefn show a.log --help", 0, "or an unknown kind.\n"),
    ] {
        let run = checkout.sh(line);
        assert_eq!((run.status, &run.said[..]), (status, ""), "{line}");
        assert!(run.out.ends_with(due), "{line}: {}", run.out);
    }
    // What was built is used again.
    assert_eq!(checkout.calls().len(), 2);
}

#[test]
fn what_cannot_be_done() {
    let checkout = Checkout::bare();
    checkout.write("a.log", &log());
    assert_eq!(checkout.sh("./skuldrefn show a.log").status, 0);
    for (line, due) in [
        (
            "./skuldrefn show none.log",
            "show: none.log cannot be read: ",
        ),
        (
            "./skuldrefn show a.log after=9",
            "show: a.log has 4 events; there is no event 9\n",
        ),
        (
            "./skuldrefn leaks a.log renters=none",
            "leaks: none cannot be read: ",
        ),
        (
            "./skuldrefn show a.log --quick",
            "show: show has no option '--quick'\nusage: ",
        ),
        (
            "./skuldrefn show - <&-",
            "skuldrefn: standard input is closed\n",
        ),
        ("./skuldrefn replay a.log --words", "skuldrefn: "),
    ] {
        let run = checkout.sh(line);
        assert_eq!((run.status, &run.out[..]), (2, ""), "{line}");
        assert!(run.said.starts_with(due), "{line}: {}", run.said);
    }
    let run = checkout.sh("./skuldrefn show - < /");
    assert_eq!(run.status, 2);
    assert!(run.said.contains("standard input cannot be read"));
    let run = checkout.sh("./skuldrefn show a.log > /dev/full");
    assert_eq!(run.status, 2);
    assert!(run.said.contains("standard output cannot be written"));
}

/// A page or a help text is a source of the program.
#[test]
fn a_new_help_is_built_in() {
    let checkout = Checkout::bare();
    checkout.write("a.log", &log());
    assert_eq!(checkout.sh("./skuldrefn show a.log").status, 0);
    assert_eq!(checkout.calls().len(), 2);
    checkout.write("outside/workbench/help/show.txt", b"usage: other\n");
    assert_eq!(checkout.sh("./skuldrefn show a.log").status, 0);
    assert_eq!(checkout.calls().len(), 3);
}
