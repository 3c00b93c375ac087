//! The program itself: its words, its streams and its exit status.

mod tool;

use std::fs::File;
use std::process::Stdio;
use tool::{assembled, command, fed, run, Folder};

const FIVE: &str = "examples/five-events.log";

#[test]
fn words_that_are_not_taken() {
    for (words, why) in [
        (&["show"][..], "the log is missing"),
        (&["show", "--json"], "the log is missing"),
        (&["show", ""], "the log's name is empty"),
        (
            &["show", FIVE, FIVE],
            "show does not know 'examples/five-events.log'",
        ),
        (&["show", FIVE, "event=3"], "show does not know 'event=3'"),
        (
            &["show", FIVE, "after="],
            "after takes a number, decimal or with 0x; 'after=' has none",
        ),
        (
            &["show", FIVE, "after=-1"],
            "after takes a number, decimal or with 0x; 'after=-1' has none",
        ),
        (
            &["show", FIVE, "after=1", "after=1"],
            "after is given twice",
        ),
        (&["show", "--all", FIVE], "show has no option '--all'"),
        (
            &["show", "--json", "--table", FIVE],
            "--json and --table are two forms of the result; take one",
        ),
        (&["show", "--json", FIVE, "--json"], "--json is given twice"),
        (
            &["show", FIVE, "--width"],
            "--width takes a number from 36 to 52",
        ),
        (
            &["show", FIVE, "--width", "35"],
            "--width takes a number from 36 to 52",
        ),
        (
            &["show", FIVE, "--width", "53"],
            "--width takes a number from 36 to 52",
        ),
        (
            &["show", FIVE, "--linear-width", "49"],
            "--linear-width takes 48 or 57",
        ),
        (
            &["show", FIVE, "--capability", "x"],
            "--capability takes a number below 2^64",
        ),
        (
            &["show", FIVE, "--capability", "0x10000000000000000"],
            "--capability takes a number below 2^64",
        ),
        (&["explain", FIVE], "event=N is missing"),
        (
            &["lookup", FIVE],
            "lookup takes one of linear=A and guest-physical=A",
        ),
        (
            &["lookup", FIVE, "linear=1", "guest-physical=1"],
            "lookup takes one of linear=A and guest-physical=A",
        ),
        (&["leaks", FIVE, "renters="], "renters takes a file"),
        (
            &["leaks", "-", "renters=-"],
            "standard input can be one file only",
        ),
        (&["compare", FIVE], "the second log is missing"),
        (
            &["compare", "-", "-"],
            "standard input can be one file only",
        ),
        (
            &["compare", FIVE, FIVE, FIVE],
            "compare does not know 'examples/five-events.log'",
        ),
        (&["audit"], "the log is missing"),
        (&["view", "--json", FIVE], "view has no option '--json'"),
        (&["replay", "--words"], "the log is missing"),
    ] {
        let run = run(words);
        assert_eq!((run.status, &run.out[..]), (2, ""), "{words:?}");
        let start = format!("{}: {why}\nusage: ./skuldrefn {}", words[0], words[0]);
        assert!(run.said.starts_with(&start), "{words:?}: {}", run.said);
    }
    for words in [&[][..], &["rplay"]] {
        let run = run(words);
        assert_eq!((run.status, &run.out[..]), (2, ""));
        assert!(run.said.starts_with("workbench: no command"));
    }
}

#[test]
fn help() {
    for name in [
        "show", "explain", "lookup", "leaks", "replay", "compare", "audit", "view",
    ] {
        for words in [&[name, "--help"][..], &[name, "-h"], &[name, "x", "--help"]] {
            let run = run(words);
            assert_eq!((run.status, &run.said[..]), (0, ""));
            assert!(run.out.starts_with(&format!("usage: ./skuldrefn {name} ")));
            assert!(run.out.lines().all(|line| line.len() <= 124), "{}", run.out);
        }
    }
}

/// Options stand anywhere, and behind -- nothing is one.
#[test]
fn where_words_stand() {
    let folder = Folder::new();
    let log = assembled("vmxon\nvmxoff\n");
    folder.write("--json", &log);
    folder.write("after=1", &log);
    let due = "before event 1 of 2\n";
    for words in [&["--json", "after=0"][..], &["after=1", "after=0"]] {
        let mut command = command(&["show", "--"]);
        let output = command.args(words).current_dir(folder.name("")).output();
        let output = output.expect("the program starts");
        let out = String::from_utf8(output.stdout).expect("text");
        assert!(out.starts_with(due), "{words:?}: {out}");
    }
    let due = run(&["show", "--json", FIVE, "after=3"]).out;
    for words in [
        &["show", FIVE, "after=3", "--json"][..],
        &["show", FIVE, "--json", "after=3"],
        &[
            "show",
            FIVE,
            "--linear-width",
            "48",
            "--json",
            "--width",
            "0x34",
            "after=0x3",
        ],
        &[
            "show",
            "--json",
            "--capability",
            "0xf0106304140",
            FIVE,
            "after=3",
        ],
    ] {
        assert_eq!(run(words).out, due, "{words:?}");
    }
}

/// A file or standard input, binary or as text.
#[test]
fn forms_of_a_log() {
    let text = std::fs::read(tool::top().join("examples/ept.txt")).expect("a text");
    let log = std::fs::read(tool::top().join("examples/ept.log")).expect("a log");
    for command in ["show", "leaks", "replay", "view"] {
        let due = run(&[command, "examples/ept.log"]);
        assert_eq!(due.status, 0);
        let name = |run: &str| run.replace("standard input", "examples/ept.log");
        for input in [&log, &text] {
            let run = fed(&[command, "-"], input);
            assert_eq!((run.status, &run.said[..]), (0, ""));
            assert_eq!(name(&run.out), due.out);
        }
        let run = run(&[command, "examples/ept.txt"]);
        assert_eq!(run.out.replace("ept.txt", "ept.log"), due.out);
    }
    let run = fed(&["compare", "-", "examples/ept.log"], &text);
    assert_eq!((run.status, &run.out[..]), (0, "the same events: 19\n"));
}

#[test]
fn what_cannot_be_read() {
    let folder = Folder::new();
    let none = folder.name("none");
    for words in [
        &["show", &none][..],
        &["explain", &none, "event=1"],
        &["lookup", &none, "linear=0"],
        &["leaks", &none],
        &["replay", "--words", &none],
        &["compare", FIVE, &none],
        &["view", &none],
    ] {
        let run = run(words);
        let due = format!(
            "{}: {none} cannot be read: No such file or directory (os error 2)\n",
            words[0]
        );
        assert_eq!((run.status, run.out, run.said), (2, String::new(), due));
    }
    let folder_itself = run(&["show", "examples"]);
    assert_eq!(folder_itself.status, 2);
    assert!(folder_itself
        .said
        .starts_with("show: examples cannot be read: "));
    let text = folder.write("bad.txt", b"vmxon\nentry vpid=5\n");
    let run = run(&["leaks", &text]);
    let due = format!(
        "leaks: {text}: read as text: line 2: entry: 'vpid=5': a value is hexadecimal with 0x, as 0x1f\n"
    );
    assert_eq!((run.status, run.out, run.said), (2, String::new(), due));
}

#[test]
fn events_that_are_not_there() {
    for (words, number) in [
        (&["show", FIVE, "after=6"][..], 6),
        (&["explain", FIVE, "event=6"], 6),
        (&["explain", FIVE, "event=0"], 0),
        (&["lookup", FIVE, "after=7", "linear=0"], 7),
    ] {
        let run = run(words);
        let due = format!(
            "{}: {FIVE} has 5 events; there is no event {number}\n",
            words[0]
        );
        assert_eq!((run.status, run.out, run.said), (2, String::new(), due));
    }
    // The largest number too.
    let run = run(&["show", FIVE, "after=18446744073709551615"]);
    assert_eq!(run.status, 2);
}

#[test]
fn renters_that_are_amiss() {
    let folder = Folder::new();
    let text = "vmxon\nentry vpid=0x5 ept=off pcid=0x1 cpl=0x0\nexit pcid=0x0\n\
                entry vpid=0x0 ept=off pcid=0x1 cpl=0x0\n";
    let log = folder.write("a.log", &assembled(text));
    for (renters, why) in [
        (
            &b"2 anna\nx bert\n"[..],
            "line 2: a line is the number of a VM entry and a name",
        ),
        (b"2\n", "line 1: event 2 has no name"),
        (b"2 # anna\n", "line 1: event 2 has no name"),
        (b"2 anna\n\n2 anna\n", "line 3: event 2 is named twice"),
        (b"2 \xFF\n", "line 1: not UTF-8 text"),
        (
            b"2 anna\n3 anna\n",
            &format!("event 3 of {log} is no VM entry"),
        ),
        (
            b"2 anna\n9 anna\n",
            &format!("event 9 of {log} is no VM entry"),
        ),
        (b"", "event 2 is a VM entry, and has no line"),
    ] {
        let file = folder.write("renters", renters);
        let run = run(&["leaks", &log, &format!("renters={file}")]);
        let due = format!("leaks: {file}: {why}\n");
        assert_eq!((run.status, run.out, run.said), (2, String::new(), due));
    }
    // A VM entry that was refused may have a line, and needs none.
    for renters in [&b"2 anna\n"[..], b"4 bert\r\n2 anna the first\r\n"] {
        let file = folder.write("renters", renters);
        let run = run(&["leaks", &log, &format!("renters={file}")]);
        assert_eq!(
            (run.status, &run.out[..]),
            (0, "leaks: 0, in 1 VM entries\n")
        );
    }
}

/// A log that is cut is a finding where the run gets there.
#[test]
fn a_cut_log() {
    let log = "examples/cut-in-transfer.log";
    let why = format!("{log}: the run ends at event 5, byte 37: invvpid cut to 10 of 25 bytes\n");
    for (words, status) in [
        (&["show", log][..], 1),
        (&["show", log, "after=5"], 1),
        (&["show", log, "after=4"], 0),
        (&["explain", log, "event=5"], 1),
        (&["explain", log, "event=4"], 0),
        (&["lookup", log, "linear=0"], 1),
        (&["leaks", log], 1),
        (&["replay", log], 1),
        (&["compare", log, log], 1),
        (&["view", log], 1),
    ] {
        let run = run(words);
        assert_eq!(run.status, status, "{words:?}");
        let said = match (words[0], status) {
            (_, 0) => String::new(),
            ("compare", _) => format!("compare: {why}compare: {why}"),
            (name, _) => format!("{name}: {why}"),
        };
        assert_eq!(run.said, said);
    }
    let run = run(&["explain", log, "event=5"]);
    let due = "event 5, at byte 37: raw 10 01 00 00 00 00 00 00 00 05\n\
               answer: refused with 4: not exactly one valid record; invvpid cut to 10 of 25 bytes\n";
    assert!(run.out.starts_with(due), "{}", run.out);
}

/// What is found before the cut is told, and who would come in behind it does not
/// matter. Event 38 of the story is cut, and event 49.
#[test]
fn a_cut_log_with_renters() {
    let folder = Folder::new();
    let story = std::fs::read(tool::top().join("examples/three-renters.log")).expect("a log");
    for (length, leaks, why) in [
        (
            606,
            "leaks: 0, in 5 VM entries\n",
            "event 38, byte 595: combined cut to 11 of 22 bytes",
        ),
        (
            760,
            "leaks: 3, in 7 VM entries\n",
            "event 49, byte 757: combined cut to 3 of 22 bytes",
        ),
    ] {
        let log = folder.write("cut", &story[..length]);
        let run = run(&["leaks", &log, "renters=examples/three-renters.renters"]);
        assert!(run.out.ends_with(leaks), "{}", run.out);
        let due = format!("leaks: {log}: the run ends at {why}\n");
        assert_eq!((run.status, run.said), (1, due));
    }
}

/// The rest of a log behind an unknown kind is not shown whole.
#[test]
fn an_unknown_kind_far_from_the_end() {
    let mut log = vec![22, 0xFF];
    log.resize(40_001, 7);
    let run = fed(&["replay", "--words", "-"], &log);
    let shown = ["ff"; 1].iter().chain(["07"; 31].iter()).copied();
    let shown: Vec<&str> = shown.collect();
    let due = format!(
        "1 0 0 0 vmxon  # accepted\n2 4 0 0 raw {} .. (40000 bytes)  # refused with 4: \
         not exactly one valid record; unknown kind 0xff\n",
        shown.join(" ")
    );
    assert_eq!((run.status, run.out), (1, due));
}

/// Another capability, width and linear width.
#[test]
fn settings() {
    // INVVPID needs capability bits 32 and, for type 1, 41.
    let text = "vmxon\ninvvpid type=0x1 vpid=0x5 address=0x0\n";
    for (capability, due) in [
        ("0x20100000000", "2 0 0 0 invvpid type=0x1 vpid=0x5 address=0x0  # accepted\n"),
        ("0x100000000", "2 8 0 0 invvpid type=0x1 vpid=0x5 address=0x0  # refused with 8: VMfail, invalid operand\n"),
        ("0", "2 5 0 0 invvpid type=0x1 vpid=0x5 address=0x0  # refused with 5: #UD\n"),
    ] {
        let run = fed(&["replay", "--capability", capability, "-"], text.as_bytes());
        assert!(run.out.ends_with(due), "{}", run.out);
    }
    // Document 01's card: EPTP 123456701Eh is good with N = 37, and not with 36.
    let text = "vmxon\ninvept type=0x1 eptp=0x123456701e\n";
    for (width, due) in [
        ("37", "  # accepted\n"),
        (
            "36",
            "  # refused with 8: VMfail, invalid operand, bad EPTP: bits above the width\n",
        ),
    ] {
        let run = fed(&["replay", "--width", width, "-"], text.as_bytes());
        assert!(run.out.ends_with(due), "{}", run.out);
    }
    let text =
        "\n\tlinear-structure-57 vpid=0x0 pcid=0x0 span=0x4 page=0x1000000000 structure=0x1\n";
    let log = assembled(text);
    for input in [text.as_bytes(), &log] {
        let run = fed(
            &[
                "lookup",
                "--linear-width",
                "57",
                "-",
                "linear=0x1000000000000",
            ],
            input,
        );
        let due = "     1 linear-structure-57 vpid=0x0 pcid=0x0 span=0x4 page=0x1000000000 structure=0x1\n\
                   usable at linear address 0x1000000000000: 1\n";
        assert!(run.out.ends_with(due), "{}{}", run.out, run.said);
        assert_eq!(run.status, 0);
    }
}

/// The five rules of an EPTP (document 02, Ask 6), in words. The second capability is
/// the program's without bit 21.
#[test]
fn rules_of_an_eptp() {
    for (capability, width, eptp, due) in [
        ("0xf0106304140", "52", "0x123456701c", "memory type"),
        ("0xf0106304140", "52", "0x1234567006", "walk length"),
        ("0xf0106104140", "52", "0x123456705e", "accessed and dirty"),
        ("0xf0106304140", "52", "0x123456709e", "bits 11:7"),
        (
            "0xf0106304140",
            "36",
            "0x123456701e",
            "bits above the width",
        ),
    ] {
        let text = format!("vmxon\ninvept type=0x1 eptp={eptp}\n");
        let words = ["explain", "--capability", capability, "--width", width];
        let run = fed(&[&words[..], &["-", "event=2"]].concat(), text.as_bytes());
        let due = format!(
            "\nanswer: refused with 8: VMfail, invalid operand, bad EPTP: {due}\nbefore: root "
        );
        assert!(run.out.contains(&due), "{}", run.out);
    }
}

/// 47,104 bytes have room for 2,770 records of 17 bytes.
#[test]
fn no_room() {
    let mapping = "linear vpid=0x0 pcid=0x0 global=0x0 span=0x0 page=0x1 frame=0x2";
    let text = format!("{mapping}\n").repeat(2_771);
    let run = fed(&["replay", "--words", "-"], text.as_bytes());
    let due = format!("2771 12 0 47090 {mapping}  # refused with 12: no room in the table\n");
    assert!(run.out.ends_with(&due));
    assert_eq!(run.status, 0);
}

/// Only the last ten invalidations are listed, if not all are asked for.
#[test]
fn many_invalidations() {
    let mapping = |frame: u32| {
        format!("linear vpid=0x0 pcid=0x0 global=0x0 span=0x0 page=0x1 frame={frame:#x}\n")
    };
    let text = mapping(1) + &"invlpg address=0x5000\n".repeat(12) + &mapping(2);
    let short = fed(&["leaks", "-"], text.as_bytes());
    assert!(short
        .out
        .contains("\n    2 earlier invalidations; --all lists them\n    left by event 4, "));
    assert_eq!(short.out.matches("\n    left by event ").count(), 10);
    let all = fed(&["leaks", "--all", "-"], text.as_bytes());
    assert_eq!(all.out.matches("\n    left by event ").count(), 12);
    for (words, earlier, count) in [
        (&["leaks", "--json", "-"][..], "\"earlier\":2,", 10),
        (&["leaks", "--json", "--all", "-"], "\"earlier\":0,", 12),
    ] {
        let json = fed(words, text.as_bytes());
        let due = "\"reason\":\"does not cover the address\"";
        assert_eq!(json.out.matches(due).count(), count);
        assert!(json.out.contains(earlier), "{}", json.out);
    }
    let none = fed(&["leaks", "-"], (mapping(1) + &mapping(2)).as_bytes());
    assert!(
        none.out.contains("\n    no invalidation since\nstale"),
        "{}",
        none.out
    );
}

/// A log of 65,536 bytes stays quick, whatever it has: 1,900 mappings that 10,000
/// invalidations leave, and 2,770 translations of one page.
#[test]
fn many_findings() {
    let folder = Folder::new();
    let renters = folder.write("renters", b"2 anna\n11904 bert\n");
    let entry = "entry vpid=0x5 ept=off pcid=0x1 cpl=0x0\n";
    let mut text = format!("vmxon\n{entry}");
    for page in 0..1_900 {
        text += &format!("linear vpid=0x5 pcid=0x1 global=0x0 span=0x0 page={page:#x} frame=0x2\n");
    }
    text += &"mov-to-cr3 pcid=0x2\n".repeat(10_000);
    text += &format!("exit pcid=0x0\n{entry}");
    assert!(assembled(&text).len() <= 65_536);
    let words = ["leaks", "-", &format!("renters={renters}")];
    let run = fed(&words, text.as_bytes());
    let earlier = "\n    9990 earlier invalidations; --all lists them\n";
    assert_eq!(run.out.matches(earlier).count(), 1_900);
    assert!(run.out.ends_with("leaks: 1900, in 2 VM entries\n"));
    assert!(run.out.len() < 2_000_000, "{}", run.out.len());
    let mut text = String::new();
    for frame in 0..2_770 {
        text +=
            &format!("linear vpid=0x0 pcid=0x0 global=0x0 span=0x0 page=0x1 frame={frame:#x}\n");
    }
    for (command, most) in [("leaks", 1_000_000), ("view", 2_000_000)] {
        let run = fed(&[command, "-"], text.as_bytes());
        assert!(run.out.len() < most, "{command}: {}", run.out.len());
    }
}

/// An older translation is told once, and counted where it still stands.
#[test]
fn a_stale_translation_that_stays() {
    let mapping = |frame: u32| {
        format!("linear vpid=0x0 pcid=0x0 global=0x0 span=0x0 page=0x1 frame={frame:#x}\n")
    };
    let text = mapping(1) + &mapping(2) + &mapping(3);
    let run = fed(&["leaks", "-"], text.as_bytes());
    let older = |number: u32| {
        let line = mapping(number);
        format!(
            "  beside an older translation, created by event {number}: {line}    \
             no invalidation since\n"
        )
    };
    let due = [
        format!("event 2, at byte 17: {}", mapping(2)),
        older(1),
        format!("event 3, at byte 34: {}", mapping(3)),
        "  still usable, told before: 1\n".to_string(),
        older(2),
        "stale translations: 2, in 3 translations created\n".to_string(),
    ];
    assert_eq!((run.status, run.out), (1, due.concat()));
}

/// An invalidation that was refused is a reason too.
#[test]
fn a_refused_invalidation() {
    let folder = Folder::new();
    let renters = folder.write("renters", b"2 anna\n6 bert\n");
    let text = "vmxon\n\
        entry vpid=0x5 ept=off pcid=0x1 cpl=0x0\n\
        linear vpid=0x5 pcid=0x1 global=0x0 span=0x0 page=0x1 frame=0x2\n\
        exit pcid=0x0\n\
        invvpid type=0x4 vpid=0x5 address=0x0\n\
        entry vpid=0x5 ept=off pcid=0x1 cpl=0x0\n";
    let run = fed(
        &["leaks", "-", &format!("renters={renters}")],
        text.as_bytes(),
    );
    let due = "event 6, at byte 62: entry vpid=0x5 ept=off pcid=0x1 cpl=0x0\n  \
        bert can use a mapping of anna, created by event 3: \
        linear vpid=0x5 pcid=0x1 global=0x0 span=0x0 page=0x1 frame=0x2\n    \
        left by event 5, refused with 8: VMfail, invalid operand: \
        invvpid type=0x4 vpid=0x5 address=0x0\n    \
        before event 6 it would go with: invvpid type=0x1 vpid=0x5 address=0x0\n\
        leaks: 1, in 2 VM entries\n";
    assert_eq!((run.status, &run.out[..]), (1, due));
}

/// Of every kind; where a step is refused, the answer is the reason.
#[test]
fn each_refused_invalidation() {
    let folder = Folder::new();
    let renters = folder.write("renters", b"2 anna\n12 bert\n");
    let text = "vmxon\n\
        entry vpid=0x5 ept=off pcid=0x1 cpl=0x0\n\
        linear vpid=0x5 pcid=0x1 global=0x0 span=0x0 page=0x1 frame=0x2\n\
        switch pcid=0x1 cpl=0x3\n\
        invlpg address=0x1000\n\
        ept-violation gpa=0x1000 linear=off\n\
        invpcid type=0x2 pcid=0x0 address=0x0\n\
        mov-to-cr3 pcid=0x1\n\
        invvpid type=0x1 vpid=0x5 address=0x0\n\
        invept type=0x2 eptp=0x0\n\
        exit pcid=0x0\n\
        entry vpid=0x5 ept=off pcid=0x1 cpl=0x0\n";
    let words = ["leaks", "-", &format!("renters={renters}")];
    let run = fed(&words, text.as_bytes());
    let due = "frame=0x2\n    \
        left by event 5, refused with 7: #GP(0): invlpg address=0x1000\n    \
        left by event 6, refused with 9: the event has no place here: ept-violation gpa=0x1000 linear=off\n    \
        left by event 7, refused with 7: #GP(0): invpcid type=0x2 pcid=0x0 address=0x0\n    \
        left by event 8, refused with 7: #GP(0): mov-to-cr3 pcid=0x1\n    \
        left by event 9, refused with 6: the event causes a VM exit: invvpid type=0x1 vpid=0x5 address=0x0\n    \
        left by event 10, refused with 6: the event causes a VM exit: invept type=0x2 eptp=0x0\n    \
        before event 12 it would go with: ";
    assert!(run.out.contains(due), "{}", run.out);
}

/// A mapping is told in full once for each renter who can use it.
#[test]
fn a_leak_that_stays() {
    let folder = Folder::new();
    let renters = folder.write("renters", b"2 anna\n5 bert\n7 bert\n9 carl\n11 anna\n");
    let entry = "entry vpid=0x5 ept=off pcid=0x1 cpl=0x0\n";
    let exit = "exit pcid=0x0\n";
    let mapping = "linear vpid=0x5 pcid=0x1 global=0x0 span=0x0 page=0x1 frame=0x2\n";
    let again = format!("{entry}{exit}").repeat(4);
    let text = format!("vmxon\n{entry}{mapping}{exit}{again}");
    let run = fed(
        &["leaks", "-", &format!("renters={renters}")],
        text.as_bytes(),
    );
    let event = |number: usize, byte: usize| format!("event {number}, at byte {byte}: {entry}");
    let full = |name: &str, number: usize| {
        format!(
            "  {name} can use a mapping of anna, created by event 3: {mapping}    \
             no invalidation since\n    \
             before event {number} it would go with: invvpid type=0x1 vpid=0x5 address=0x0\n"
        )
    };
    let due = [
        event(5, 37),
        full("bert", 5),
        event(7, 56),
        "  still usable, told before: 1\n".to_string(),
        event(9, 75),
        full("carl", 9),
        "leaks: 2, in 5 VM entries\n".to_string(),
    ];
    assert_eq!((run.status, run.out), (1, due.concat()));
}

/// A guest-physical mapping is shared by all who have its EPT; INVEPT takes it.
#[test]
fn a_shared_ept() {
    let folder = Folder::new();
    let renters = folder.write("renters", b"2 anna\n5 bert\n");
    let text = "vmxon\n\
        entry vpid=0x5 ept=0x10001e pcid=0x1 cpl=0x0\n\
        guest-physical ep4ta=0x100 span=0x0 page=0x1 frame=0x2\n\
        exit pcid=0x0\n\
        entry vpid=0x6 ept=0x10005e pcid=0x1 cpl=0x0\n";
    let run = fed(
        &["leaks", "-", &format!("renters={renters}")],
        text.as_bytes(),
    );
    let due = "  bert can use a mapping of anna, created by event 3: \
        guest-physical ep4ta=0x100 span=0x0 page=0x1 frame=0x2\n    \
        no invalidation since\n    \
        before event 5 it would go with: invept type=0x1 eptp=0x10005e\n";
    assert!(run.out.contains(due), "{}", run.out);
}

/// A log of more than 65,536 bytes is run whole.
#[test]
fn a_long_log() {
    let mapping = "linear vpid=0x0 pcid=0x0 global=0x0 span=0x0 page=0x1 frame=0x2";
    let mut log = vec![25; 100_000];
    log.extend(assembled(mapping));
    let run = fed(&["show", "-"], &log);
    let due =
        format!("after event 100001 of 100001, at byte 100000: {mapping}\nanswer: accepted\n");
    assert!(run.out.starts_with(&due), "{}", run.out);
    assert!(
        run.out.contains(&format!("\n100001 {mapping}\n")),
        "{}",
        run.out
    );
}

#[test]
fn an_output_that_cannot_be_written() {
    for words in [
        &["show", FIVE][..],
        &["replay", FIVE],
        &["view", FIVE],
        &["leaks", FIVE, "--help"],
    ] {
        let full = File::options()
            .write(true)
            .open("/dev/full")
            .expect("a device");
        let output = command(words).stdout(Stdio::from(full)).output();
        let output = output.expect("the program starts");
        assert_eq!(output.status.code(), Some(2), "{words:?}");
        let said = String::from_utf8(output.stderr).expect("text");
        assert!(said.contains("standard output cannot be written"), "{said}");
    }
}
