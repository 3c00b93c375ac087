//! Every command on every example. What is due was worked out by hand: the numbers
//! stand in NAME.expected and the events in NAME.txt, and what is in force at the end,
//! why some mappings went or stayed and what is stale stands here.

mod tool;

use std::fs;
use tool::{run, top};

/// An example: the events that created what is in force at its end, the context
/// there, how many stale translations it has, and where its run ends early.
struct Example {
    name: &'static str,
    stand: &'static [usize],
    context: &'static str,
    stale: usize,
    stop: &'static str,
}

const ROOT: &str = "root pcid=0x0 cpl=0x0";
const OUTSIDE: &str = "outside VMX pcid=0x0 cpl=0x0";

const fn whole(name: &'static str, stand: &'static [usize], context: &'static str) -> Example {
    Example {
        name,
        stand,
        context,
        stale: 0,
        stop: "",
    }
}

const EXAMPLES: [Example; 11] = [
    Example {
        stop: "event 5, byte 37: invvpid cut to 10 of 25 bytes",
        ..whole("cut-in-transfer", &[3], ROOT)
    },
    // The monitor's own mapping.
    whole("ept", &[1], OUTSIDE),
    whole("five-events", &[], ROOT),
    // Renter 2's mapping beside renter 1's; its INVLPG takes both.
    Example {
        stale: 1,
        ..whole("forgotten-invvpid", &[], ROOT)
    },
    whole("globals", &[], ROOT),
    // The root's own mapping.
    whole("invpcid", &[2], ROOT),
    whole("no-vpids", &[], OUTSIDE),
    Example {
        stop: "event 22, byte 246: unknown kind 0x7, one of 57-bit linear addresses",
        ..whole("refusals", &[], OUTSIDE)
    },
    Example {
        stale: 1,
        ..whole("three-renters", &[2, 30, 36, 38, 46, 47, 49], OUTSIDE)
    },
    whole("three-renters-mended", &[2, 47, 48, 50], OUTSIDE),
    whole("with-invvpid", &[], ROOT),
];

fn read(name: &str) -> String {
    let path = top().join("examples").join(name);
    fs::read_to_string(&path).unwrap_or_else(|error| panic!("{}: {error}", path.display()))
}

/// The events of an example, as they are written.
fn events(name: &str) -> Vec<String> {
    let text = read(&format!("{name}.txt"));
    let lines = text.lines();
    let lines = lines.map(|line| line.split('#').next().unwrap_or("").trim());
    let lines = lines.filter(|line| !line.is_empty());
    let mut events: Vec<String> = lines.map(str::to_string).collect();
    if name == "refusals" {
        // The unknown kind takes all that is left, a VMXON.
        assert_eq!(events[21..], ["raw 07", "vmxon"]);
        events.truncate(21);
        events.push("raw 07 16".to_string());
    }
    events
}

/// An answer in words.
fn words(answer: &str) -> &'static str {
    match answer {
        "0" => "accepted",
        "4" => "refused with 4: not exactly one valid record",
        "5" => "refused with 5: #UD",
        "6" => "refused with 6: the event causes a VM exit",
        "7" => "refused with 7: #GP(0)",
        "8" => "refused with 8: VMfail, invalid operand",
        "9" => "refused with 9: the event has no place here",
        "10" => "refused with 10: the VM entry fails",
        "11" => "refused with 11: a mapping that cannot be created here",
        _ => panic!("answer {answer}"),
    }
}

#[test]
fn all_examples_are_here() {
    let files = fs::read_dir(top().join("examples")).expect("a folder");
    let names = files.map(|file| file.expect("a file").file_name());
    let names = names.map(|name| name.into_string().expect("a name"));
    let mut names: Vec<String> = names
        .filter_map(|name| name.strip_suffix(".log").map(str::to_string))
        .collect();
    names.sort();
    assert_eq!(names, EXAMPLES.map(|example| example.name));
}

#[test]
fn replay_in_words() {
    for Example { name, stop, .. } in EXAMPLES {
        let log = format!("examples/{name}.log");
        let run = run(&["replay", "--words", &log]);
        let numbers = read(&format!("{name}.expected"));
        let events = events(name);
        let lines: Vec<&str> = run.out.lines().collect();
        assert_eq!(lines.len(), events.len(), "{name}");
        for ((line, numbers), event) in lines.iter().zip(numbers.lines()).zip(&events) {
            let answer = numbers.split(' ').nth(1).expect("an answer");
            let due = format!("{numbers} {event}  # {}", words(answer));
            let more = line
                .strip_prefix(&due)
                .unwrap_or_else(|| panic!("{line}, due {due}"));
            // Which rule an EPTP breaks, or why the event has no line.
            let may_say_more = ["8", "10", "4"].contains(&answer) || event.starts_with("raw");
            assert!(more.is_empty() || may_say_more, "{line}");
        }
        let said = match stop {
            "" => String::new(),
            stop => format!("replay: {log}: the run ends at {stop}\n"),
        };
        assert_eq!((run.status, run.said), (i32::from(!stop.is_empty()), said));
    }
}

/// What is said more of some refusals.
#[test]
fn refusals_in_words() {
    let out = run(&["replay", "--words", "examples/refusals.log"]).out;
    for due in [
        // EPTP 123456709Eh has bit 7 set, and 1234567006h bits 5:3 clear.
        "\n11 8 0 0 invept type=0x1 eptp=0x123456709e  # refused with 8: VMfail, invalid operand, bad EPTP: bits 11:7\n",
        "\n12 10 0 0 entry vpid=0x0 ept=off pcid=0x1 cpl=0x0  # refused with 10: the VM entry fails, VPID 0\n",
        "\n13 10 0 0 entry vpid=0x5 ept=0x1234567006 pcid=0x1 cpl=0x0  # refused with 10: the VM entry fails, bad EPTP: walk length\n",
        "\n17 4 0 17 raw 18 00 10 00  # refused with 4: not exactly one valid record; switch, but pcid is 0x1000 and must be at most 0xfff\n",
    ] {
        assert!(out.contains(due), "{due}");
    }
}

#[test]
fn what_is_in_force_at_the_end() {
    for example in EXAMPLES {
        let (name, context) = (example.name, example.context);
        let log = format!("examples/{name}.log");
        let run = run(&["show", &log]);
        let events = events(name);
        let mut due = format!("\ncontext: {context}\n");
        for created in example.stand {
            due += &format!("{created:6} {}\n", events[created - 1]);
        }
        due += "                          span 0  span 1";
        assert!(run.out.contains(&due), "{}", run.out);
        let expected = read(&format!("{name}.expected"));
        let bytes = expected.trim_end().rsplit(' ').next().expect("a number");
        let count = example.stand.len();
        let due = format!("mappings in force: {count}\nbytes in force: {bytes}\n");
        assert!(run.out.ends_with(&due), "{}", run.out);
        assert_eq!(run.status, i32::from(!example.stop.is_empty()));
        assert_eq!(
            run.said.contains(example.stop),
            !run.said.is_empty() || example.stop.is_empty()
        );
    }
}

#[test]
fn stale_translations() {
    for example in EXAMPLES {
        let log = format!("examples/{}.log", example.name);
        let run = run(&["leaks", &log]);
        let due = format!("stale translations: {}, in ", example.stale);
        assert!(run.out.contains(&due), "{}", run.out);
        assert_eq!(run.out.matches("older translation").count(), example.stale);
        let found = example.stale > 0 || !example.stop.is_empty();
        assert_eq!(run.status, i32::from(found), "{log}");
    }
    let run = run(&["leaks", "examples/forgotten-invvpid.log"]);
    let due = "event 6, at byte 53: linear vpid=0x5 pcid=0x1 global=0x0 span=0x0 page=0x7f000 frame=0xb0b
  beside an older translation, created by event 3: linear vpid=0x5 pcid=0x1 global=0x0 span=0x0 page=0x7f000 frame=0xa11ce
    no invalidation since
stale translations: 1, in 2 translations created
";
    assert_eq!(run.out, due);
}

/// Why mappings went or stayed: an event, and for each mapping in force before it the
/// event that created it and the reason.
#[test]
fn why_they_went_or_stayed() {
    for (name, event, due) in [
        // The EPT violation: of the combined mappings two cover the linear page.
        (
            "ept",
            9,
            &[
                (1, "wrong kind"),
                (4, "in scope"),
                (5, "in scope"),
                (6, "in scope"),
                (7, "does not cover the address"),
                (8, "in scope"),
            ][..],
        ),
        // Under another PCID the global mapping is spared.
        ("ept", 11, &[(1, "wrong kind"), (7, "wrong PCID")]),
        // With no linear address a combined mapping is of the wrong kind.
        (
            "ept",
            15,
            &[(1, "wrong kind"), (7, "wrong kind"), (12, "in scope")],
        ),
        ("ept", 17, &[(1, "wrong VPID"), (7, "wrong VPID")]),
        ("ept", 18, &[(1, "wrong kind"), (7, "in scope")]),
        ("ept", 19, &[(1, "event without a scope")]),
        ("five-events", 5, &[(3, "in scope")]),
        ("with-invvpid", 5, &[(3, "in scope")]),
        ("forgotten-invvpid", 5, &[(3, "event without a scope")]),
        ("forgotten-invvpid", 7, &[(3, "in scope"), (6, "in scope")]),
        ("cut-in-transfer", 5, &[(3, "step refused")]),
        // INVLPG under PCID 2: the global mapping goes, the structure cache of PCID 1 not.
        (
            "globals",
            7,
            &[(3, "wrong PCID"), (4, "in scope"), (5, "wrong PCID")],
        ),
        (
            "globals",
            10,
            &[(3, "in scope"), (5, "in scope"), (8, "spared as global")],
        ),
        ("globals", 11, &[(8, "in scope")]),
        ("no-vpids", 4, &[(1, "in scope"), (3, "in scope")]),
        ("no-vpids", 8, &[(7, "event without a scope")]),
        ("no-vpids", 11, &[(7, "in scope")]),
        // MOV to CR3 of PCID 1, and INVPCID of type 3.
        (
            "invpcid",
            9,
            &[
                (2, "wrong VPID"),
                (4, "in scope"),
                (5, "spared as global"),
                (6, "in scope"),
                (8, "wrong PCID"),
            ],
        ),
        (
            "invpcid",
            12,
            &[
                (2, "wrong VPID"),
                (5, "wrong PCID"),
                (8, "in scope"),
                (10, "wrong PCID"),
                (11, "wrong PCID"),
            ],
        ),
        (
            "invpcid",
            13,
            &[
                (2, "wrong VPID"),
                (5, "spared as global"),
                (10, "in scope"),
                (11, "in scope"),
            ],
        ),
        ("invpcid", 14, &[(2, "step refused"), (5, "step refused")]),
        ("invpcid", 21, &[(2, "wrong VPID"), (5, "in scope")]),
        ("refusals", 21, &[(16, "in scope")]),
    ] {
        let log = format!("examples/{name}.log");
        let run = run(&["explain", &log, &format!("event={event}")]);
        let events = events(name);
        let start = format!("event {event}, at byte ");
        assert!(run.out.starts_with(&start), "{}", run.out);
        let first = run.out.lines().next().expect("a line");
        assert!(
            first.ends_with(&format!(": {}", events[event - 1])),
            "{first}"
        );
        let mut lines = String::new();
        for (created, reason) in due {
            let fate = if *reason == "in scope" {
                "dropped"
            } else {
                "kept"
            };
            let record = &events[created - 1];
            lines += &format!("{created:6} {fate:7} {reason:26} {record}\n");
        }
        let dropped = due
            .iter()
            .filter(|(_, reason)| *reason == "in scope")
            .count();
        lines += &format!("dropped: {dropped} of {} mappings\n", due.len());
        assert!(
            run.out.ends_with(&format!("\n{lines}")),
            "{}\n{lines}",
            run.out
        );
        assert_eq!(run.out.lines().count(), 5 + due.len(), "{}", run.out);
    }
}

/// What is usable: after an event, at an address, the events that created it.
#[test]
fn what_is_usable() {
    for (name, after, address, due) in [
        // Renter 2 may read renter 1's page.
        ("forgotten-invvpid", 5, "linear=0x7f000123", &[3][..]),
        ("forgotten-invvpid", 6, "linear=0x7f000123", &[3, 6]),
        ("with-invvpid", 6, "linear=0x7f000123", &[]),
        ("five-events", 3, "linear=0x12345fff", &[3]),
        ("five-events", 4, "linear=0x12345fff", &[]),
        ("cut-in-transfer", 3, "linear=0x7f000000", &[3]),
        // Both a page and a structure cache that covers it.
        ("ept", 8, "linear=0x12345000", &[6, 8]),
        ("ept", 8, "guest-physical=0x10000", &[4, 5]),
        ("ept", 10, "linear=0x12346000", &[7]),
        ("ept", 14, "guest-physical=0x10000", &[12]),
        ("globals", 6, "linear=0x200000", &[4]),
        ("globals", 6, "linear=0x100000", &[]),
        ("no-vpids", 3, "linear=0x100000", &[1]),
        ("invpcid", 8, "linear=0x100000", &[8]),
        ("invpcid", 8, "linear=0x200000", &[5]),
        ("refusals", 16, "linear=0x12345000", &[16]),
        ("three-renters", 45, "linear=0x400000", &[38]),
        ("three-renters-mended", 46, "linear=0x400000", &[]),
    ] {
        let log = format!("examples/{name}.log");
        let run = run(&["lookup", &log, &format!("after={after}"), address]);
        let events = events(name);
        let lines: Vec<&str> = run.out.split_inclusive('\n').skip(3).collect();
        let mut list = String::new();
        for created in due {
            list += &format!("{created:6} {}\n", events[created - 1]);
        }
        let (list_end, count) = (lines.len() - 1, due.len());
        assert_eq!(lines[..list_end].concat(), list, "{name} {after} {address}");
        assert!(lines[list_end].ends_with(&format!(": {count}\n")));
        assert_eq!(run.status, 0);
    }
}

/// Each example is the same as its text, and the bars of its picture are its
/// accepted creations.
#[test]
fn pictures_and_comparisons() {
    for Example { name, stop, .. } in EXAMPLES {
        let (log, text) = (
            format!("examples/{name}.log"),
            format!("examples/{name}.txt"),
        );
        let compared = run(&["compare", &log, &text]);
        let events = events(name);
        assert_eq!(compared.out, format!("the same events: {}\n", events.len()));
        let numbers = read(&format!("{name}.expected"));
        let created = numbers.lines().zip(&events).filter(|(line, event)| {
            let kind = event.split(' ').next().unwrap_or("");
            let mapping = ["linear", "guest-physical", "combined"];
            line.split(' ').nth(1) == Some("0")
                && mapping.iter().any(|start| kind.starts_with(start))
        });
        let created = created.count();
        let page = run(&["view", &log]);
        assert_eq!(
            page.out.matches("<rect class=\"bar ").count(),
            created,
            "{name}"
        );
        let trace = run(&["view", "--trace", &log]);
        assert_eq!(
            trace.out.matches("\"cat\":\"mapping\"").count(),
            created,
            "{name}"
        );
        assert_eq!(page.status, i32::from(!stop.is_empty()));
    }
}
