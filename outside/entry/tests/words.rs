//! The words that the script takes, and those that it does not.

use entry::{Checkout, THREE};

const COMMANDS: [&str; 15] = [
    "replay",
    "assemble",
    "disassemble",
    "tally",
    "widen",
    "rows",
    "table",
    "judge",
    "stream",
    "walk",
    "library",
    "test",
    "fuzz",
    "mutants",
    "bench",
];

#[test]
fn words_that_are_not_taken() {
    let checkout = Checkout::bare();
    for words in [
        "rplay",
        "help rplay",
        "help replay fuzz",
        "replay --help fuzz",
        "replay nofile.log",
        "replay --quick",
        "replay -x",
        "replay three.log three.log",
        "replay - three.log",
        "replay ''",
        "replay /",
        "replay -- a b",
        "assemble nofile.txt",
        "assemble three.log x",
        "disassemble --all",
        "disassemble --linear-width",
        "disassemble --linear-width 56",
        "disassemble --linear-width '' three.log",
        "disassemble --linear-width three.log",
        "disassemble --linear-width 57 --linear-width 57",
        "disassemble three.log --linear-width 57",
        "assemble --linear-width 57",
        "tally nofile.log",
        "tally --all",
        "tally --linear-width 56",
        "tally --linear-width three.log",
        "tally --linear-width 57 --linear-width 57",
        "tally --every",
        "tally --every 0",
        "tally --every -1",
        "tally --every 1000000000",
        "tally --every many three.log",
        "tally --every three.log",
        "tally --every 1 --every 1",
        "tally --every 1 --linear-width",
        "tally three.log --every 1",
        "tally three.log three.log",
        "tally --every 1 --help three.log",
        "tally --every --help",
        "tally three.log --help",
        "tally --every 1 /",
        "tally ''",
        "widen nofile.table",
        "widen --linear-width 57",
        "widen a.table a.table",
        "widen /",
        "widen ''",
        "rows nofile.table",
        "rows --all",
        "rows --linear-width",
        "rows --linear-width 56",
        "rows --linear-width a.table",
        "rows --linear-width 57 --linear-width 57",
        "rows a.table --linear-width 57",
        "rows a.table a.table",
        "rows a.table --help",
        "rows /",
        "rows ''",
        "table nofile.rows",
        "table --all",
        "table --linear-width 56",
        "table --linear-width a.table",
        "table a.table --linear-width 57",
        "table a.table a.table",
        "table -- a b",
        "table /",
        "table ''",
        "judge nofile.trace",
        "judge --all",
        "judge --linear-width 56",
        "judge --linear-width three.log",
        "judge --linear-width 57 --linear-width 57",
        "judge --make --make",
        "judge --make nofile.log",
        "judge --make --linear-width",
        "judge three.log --make",
        "judge three.log --linear-width 57",
        "judge three.log three.log",
        "judge --make three.log --help",
        "judge --make /",
        "judge /",
        "judge ''",
        "stream nofile.log",
        "stream --all",
        "stream --linear-width",
        "stream --linear-width 56",
        "stream --linear-width three.log",
        "stream --linear-width 57 --linear-width 57",
        "stream three.log --linear-width 57",
        "stream three.log three.log",
        "stream three.log --help",
        "stream /",
        "stream ''",
        "walk",
        "walk --",
        "walk -",
        "walk -x root=0 eptp=0 vpid=0 address=0",
        "walk nofile root=0 eptp=0 vpid=0 address=0",
        "walk / root=0 eptp=0 vpid=0 address=0",
        "walk /dev/null root=0 eptp=0 vpid=0 address=0",
        "walk '' root=0 eptp=0 vpid=0 address=0",
        "walk root=0 eptp=0 vpid=0 address=0",
        "walk a.table",
        "walk a.table root=0 eptp=0 vpid=0",
        "walk a.table root=0 eptp=0 vpid=0 adress=0",
        "walk a.table root=0 eptp=0 vpid=0 address",
        "walk a.table root=0 eptp=0 vpid=0 address=",
        "walk a.table root=0 eptp=0 vpid=0 address=0x",
        "walk a.table root=0 eptp=0 vpid=0 address=-1",
        "walk a.table root=0 eptp=0 vpid=0 address=1f",
        "walk a.table root=0 eptp=0 vpid=0 address=0xg",
        "walk a.table root=0 eptp=0 vpid=0 address=0 root=0",
        "walk a.table root=0 eptp=0 vpid=0 address=0 linear-width=57",
        "walk a.table root=0 eptp=0 vpid=0 address=0 '*'",
        "walk a.table a.table root=0 eptp=0 vpid=0 address=0",
        "library x",
        "test quickly",
        "fuzz many",
        "fuzz 1 2 3",
        "fuzz -1",
        "fuzz --case",
        "fuzz --case a b",
        "mutants many",
        "mutants 1 2 3",
        "mutants --case x",
        "bench x",
        "bench --csv",
        "bench --csv ''",
        "bench --png x",
    ] {
        let run = checkout.sh(&format!("./skuldrefn {words}"));
        assert_eq!((run.status, &run.out[..]), (2, ""), "{words}");
        assert!(run.said.starts_with("skuldrefn: "), "{words}: {}", run.said);
    }
    // None of them was worth a build.
    assert!(checkout.calls().is_empty());
    let run = checkout.sh("./skuldrefn");
    assert_eq!((run.status, &run.out[..]), (2, ""));
    assert!(run.said.starts_with("usage: "));
}

#[test]
fn help() {
    let checkout = Checkout::bare();
    let whole = checkout.sh("./skuldrefn help");
    assert_eq!((whole.status, &whole.said[..]), (0, ""));
    for word in ["-h", "--help"] {
        assert_eq!(checkout.sh(&format!("./skuldrefn {word}")).out, whole.out);
    }
    for command in COMMANDS {
        assert!(whole.out.contains(&format!("\n  {command} ")), "{command}");
        let own = checkout.sh(&format!("./skuldrefn help {command}"));
        assert_eq!((own.status, &own.said[..]), (0, ""));
        assert!(own
            .out
            .starts_with(&format!("usage: ./skuldrefn {command}")));
        for word in ["-h", "--help", "help"] {
            let run = checkout.sh(&format!("./skuldrefn {command} {word}"));
            assert_eq!((run.status, run.out), (0, own.out.clone()));
        }
    }
    assert!(checkout.calls().is_empty());
}

#[test]
fn options_after_the_file() {
    let checkout = Checkout::bare();
    for (words, due) in [
        ("tally three.log --every 1", "options go before the file"),
        ("tally - --linear-width 57", "options go before the file"),
        (
            "tally --every 1 three.log --linear-width 57",
            "options go before the file",
        ),
        (
            "disassemble three.log --linear-width 57",
            "options go before the file",
        ),
        (
            "disassemble three.log --every 1",
            "disassemble takes one file; '--every' is one too many",
        ),
        (
            "rows a.table --linear-width 57",
            "options go before the file",
        ),
        ("table - --linear-width 57", "options go before the file"),
        ("judge three.log --make", "options go before the file"),
        ("judge - --linear-width 57", "options go before the file"),
        ("stream - --linear-width 57", "options go before the file"),
        (
            "stream --linear-width 57 --linear-width 57 three.log",
            "--linear-width is given twice",
        ),
        (
            "disassemble --linear-width 48 --linear-width 57",
            "--linear-width is given twice",
        ),
        (
            "rows --linear-width 57 --linear-width 57 a.table",
            "--linear-width is given twice",
        ),
        (
            "table --linear-width 57 --linear-width",
            "--linear-width is given twice",
        ),
    ] {
        let run = checkout.sh(&format!("./skuldrefn {words}"));
        let command = words.split(' ').next().expect("a command");
        let due = format!("skuldrefn: {due}; './skuldrefn help {command}' says more\n");
        assert_eq!((run.status, run.said), (2, due), "{words}");
    }
}

#[test]
fn help_after_options() {
    let checkout = Checkout::bare();
    for (command, options) in [
        ("tally", "--every 1"),
        ("tally", "--linear-width 57 --every 1"),
        ("disassemble", "--linear-width 57"),
        ("rows", "--linear-width 57"),
        ("table", "--linear-width 57"),
        ("judge", "--make"),
        ("judge", "--linear-width 57 --make"),
        ("stream", "--linear-width 57"),
    ] {
        let due = checkout.sh(&format!("./skuldrefn help {command}"));
        for word in ["-h", "--help"] {
            let run = checkout.sh(&format!("./skuldrefn {command} {options} {word}"));
            assert_eq!((run.status, &run.out), (0, &due.out), "{options}");
            assert_eq!(run.said, "");
        }
    }
    assert!(checkout.calls().is_empty());
}

#[test]
fn help_of_replay() {
    let own = Checkout::bare().sh("./skuldrefn help replay").out;
    let own = own.replace('\n', " ");
    for due in [
        "or reading fails midway, or a line cannot be written.",
        "It is 2 where the log is not there, is a folder or may not be read.",
        "./skuldrefn stream prints the lines of a log of any length.",
    ] {
        assert!(own.contains(due), "{own}");
    }
}

#[test]
fn help_of_stream() {
    let own = Checkout::bare().sh("./skuldrefn help stream").out;
    let own = own.replace('\n', " ");
    for due in [
        "standard error says which, and of a cut record or an unknown kind at which byte.",
        "refused for room (answer 12) is told on standard error too:",
        " stty -F /dev/ttyS0 raw -echo 115200 ",
        "Ctrl-C ends the run.",
    ] {
        assert!(own.contains(due), "{own}");
    }
}

/// What the help of replay says of logs that cannot be read.
#[test]
fn logs_that_cannot_be_read() {
    let checkout = Checkout::built();
    assert_eq!(checkout.sh("./skuldrefn tally three.log").status, 0);
    assert_eq!(checkout.sh("./skuldrefn stream three.log").status, 0);
    for (words, status) in [("nofile.log", 2), ("/", 2), ("< /", 1), ("- < /", 1)] {
        for command in ["replay", "tally", "stream"] {
            let run = checkout.sh(&format!("./skuldrefn {command} {words}"));
            assert_eq!(
                (run.status, &run.out[..]),
                (status, ""),
                "{command} {words}"
            );
            assert!(!run.said.is_empty(), "{command} {words}");
        }
    }
}

#[test]
fn help_of_tally() {
    let checkout = Checkout::bare();
    let whole = checkout.sh("./skuldrefn help").out;
    let (_, after) = whole.split_once("\n  tally [FILE] ").expect("a line");
    let (line, _) = after.split_once("\n  widen ").expect("a line");
    assert!(line.contains("--linear-width 57 before FILE"), "{line}");
    assert!(line.contains("--every N"), "{line}");
    let own = checkout.sh("./skuldrefn help tally").out;
    let own = own.replace('\n', " ");
    for due in [
        "FILE is a log, not a stored table.",
        "It starts as replay does: from a reset, with N = 52 and the same capability, \
         and takes at most 65,536 bytes.",
        "The status is 1 where the log is too long, ends at a cut record or an unknown kind, \
         or reading or writing fails.",
    ] {
        assert!(own.contains(due), "{own}");
    }
}

/// The help of rows has every field of a row with its bytes, in order.
#[test]
fn help_of_rows() {
    let checkout = Checkout::bare();
    let whole = checkout.sh("./skuldrefn help").out;
    for (command, next) in [("rows", "table"), ("table", "judge")] {
        let start = format!("\n  {command} [FILE] ");
        let (_, after) = whole.split_once(&start).expect("a line");
        let (line, _) = after
            .split_once(&format!("\n  {next} "))
            .expect("the next line");
        assert!(line.contains("--linear-width 57 before FILE"), "{line}");
    }
    let own = checkout.sh("./skuldrefn help rows").out.replace('\n', " ");
    for due in [
        "kind 1, span 1, global 1, zero 1, VPID 2, PCID 2, page 8, frame or structure 8, EP4TA 8;",
        "The status is 1, and nothing is written, where a record is not valid or the table is \
         longer than 47,104 bytes;",
    ] {
        assert!(own.contains(due), "{own}");
    }
    let own = checkout.sh("./skuldrefn help table").out.replace('\n', " ");
    assert!(
        own.contains("where their bytes are no multiple of 32,"),
        "{own}"
    );
}

#[test]
fn a_file_or_standard_input() {
    let checkout = Checkout::built();
    assert_eq!(checkout.sh("./skuldrefn disassemble three.log").status, 0);
    checkout.write("-x", &[22, 23, 25]);
    checkout.write("a b", &[22, 23, 25]);
    for line in [
        "./skuldrefn replay three.log",
        "./skuldrefn replay < three.log",
        "./skuldrefn replay - < three.log",
        "cat three.log | ./skuldrefn replay",
        "./skuldrefn replay -- -x",
        "./skuldrefn replay './-x'",
        "./skuldrefn replay 'a b'",
        "cd crates && ../skuldrefn replay ../three.log",
        "./skuldrefn disassemble three.log | ./skuldrefn assemble | ./skuldrefn replay",
        "./skuldrefn disassemble < three.log > three.txt && ./skuldrefn assemble three.txt | ./skuldrefn replay -",
    ] {
        let run = checkout.sh(line);
        assert_eq!((run.status, &run.out[..], &run.said[..]), (0, THREE, ""), "{line}");
    }
    // Any bytes in a comment, and a byte-order mark.
    checkout.write(
        "marked.txt",
        b"\xEF\xBB\xBFvmxon # \xFF\xFE\n#\xC0\nvmxoff\nreset\n",
    );
    let run = checkout.sh("./skuldrefn assemble marked.txt | ./skuldrefn replay");
    assert_eq!((run.status, &run.out[..], &run.said[..]), (0, THREE, ""));
}
