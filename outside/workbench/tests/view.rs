//! The picture of a run, and its trace.

mod tool;

use std::collections::BTreeMap;
use tool::{assembled, fed, run, Folder};

const LOG: &str = "examples/three-renters.log";
const RENTERS: &str = "renters=examples/three-renters.renters";

/// The attribute of an element.
fn attribute<'a>(element: &'a str, name: &str) -> &'a str {
    let (_, after) = element
        .split_once(&format!(" {name}=\""))
        .unwrap_or_else(|| panic!("{name} in {element}"));
    after.split('"').next().expect("a value")
}

fn number(element: &str, name: &str) -> f64 {
    attribute(element, name).parse().expect("a number")
}

fn bars(page: &str) -> Vec<&str> {
    let lines = page.lines();
    lines
        .filter(|line| line.starts_with("<rect class=\"bar "))
        .collect()
}

/// The 23 creations of the story, by what ends them: INVLPG takes those of events 10
/// and 24, the EPT violation that of 4, INVPCID those of 20 and 21, the first INVEPT
/// those of 5 to 8, 15 and 16, the second that of 19, INVVPID those of 28, 29, 32 and
/// 22. Seven are in force at the end.
#[test]
fn the_story() {
    let page = run(&["view", LOG, RENTERS]);
    assert_eq!((page.status, &page.said[..]), (0, ""));
    let mut classes = BTreeMap::new();
    for bar in bars(&page.out) {
        *classes.entry(attribute(bar, "class")).or_insert(0) += 1;
    }
    let due = BTreeMap::from([
        ("bar held", 4),
        ("bar held found", 3),
        ("bar invlpg", 2),
        ("bar ept-violation", 1),
        ("bar invpcid", 2),
        ("bar invept", 7),
        ("bar invvpid", 4),
    ]);
    assert_eq!(classes, due);
    // A place for each time that the guest is entered, and one for root around each.
    assert_eq!(page.out.matches("<rect class=\"guest\"").count(), 7);
    assert_eq!(page.out.matches("<rect class=\"root\"").count(), 8);
    assert_eq!(page.out.matches("<circle class=\"mark\"").count(), 3);
    for (name, times) in [("anna", 4), ("bert", 2), ("carl", 1)] {
        let text = format!(">{name}</text>");
        assert_eq!(page.out.matches(&text).count(), times, "{name}");
    }
    assert!(!page.out.contains("id=\"refused\""));
    for due in [
        "<h1>examples/three-renters.log</h1>",
        "51 events, 0 refused; 23 mappings, 7 in force at the end; 3 found",
        ">VPID 0x0</text>",
        ">EP4TA 0x100</text>",
        ">EP4TA 0x200</text>",
        ">VPID 0x5, EP4TA 0x100</text>",
        ">VPID 0x6, EP4TA 0x200</text>",
        "created by event 30: combined vpid=0x5 pcid=0x1 global=0x1 span=0x1 page=0xffff81000 frame=0x5200 ep4ta=0x100\\u000aleft by event 31, wrong PCID: mov-to-cr3 pcid=0x2\\u000aleft by event 34, spared as global: invvpid type=0x3 vpid=0x5 address=0x0\\u000aleft by event 41, ",
        "address=0x0\\u000aleft by event 44, wrong EP4TA: invept type=0x1 eptp=0x20001e\\u000afound at event 45: carl can use this mapping of anna\\u000ain force at the end\"",
        "created by event 29: combined vpid=0x5 pcid=0x1 global=0x0 span=0x0 page=0x400 frame=0x5110 ep4ta=0x100\\u000adropped by event 34, in scope: invvpid type=0x3 vpid=0x5 address=0x0\"",
    ] {
        assert!(page.out.contains(due), "{due}");
    }
    // No other groups.
    assert_eq!(page.out.matches("<text x=\"4\" ").count(), 5);
    // One file that needs no network.
    assert!(!page.out.contains("http"));
    let mended = run(&[
        "view",
        "examples/three-renters-mended.log",
        "renters=examples/three-renters-mended.renters",
    ]);
    assert!(!mended.out.contains("class=\"mark\" data-bar"));
    assert_eq!(bars(&mended.out).len(), 23);
}

/// A bar goes from its creation to its end, and no two bars meet.
#[test]
fn bars_have_their_place() {
    let page = run(&["view", LOG]).out;
    let (_, step) = page.split_once("{\"step\":").expect("a step");
    let step: f64 = step
        .split(',')
        .next()
        .expect("a number")
        .parse()
        .expect("a number");
    let (_, data) = page.split_once("\"bars\":[\"").expect("bars");
    let words: Vec<&str> = data.split("\",\"").collect();
    for bar in bars(&page) {
        let place: usize = attribute(bar, "data-bar").parse().expect("a number");
        let after = |text: &str| -> Option<f64> {
            let (_, after) = words[place].split_once(text)?;
            let digits = after.find(|letter: char| !letter.is_ascii_digit())?;
            after[..digits].parse().ok()
        };
        let created = after("created by event ").expect("a number");
        let ended = after("dropped by event ").unwrap_or(52.0);
        let near = |one: f64, other: f64| (one - other).abs() < 0.02;
        assert!(near(number(bar, "x"), created * step), "{bar}");
        assert!(
            near(number(bar, "width"), (ended - created) * step),
            "{bar}"
        );
        for other in bars(&page) {
            let apart = (number(other, "y") - number(bar, "y")).abs() >= number(bar, "height")
                || number(other, "x") + 0.02 > number(bar, "x") + number(bar, "width")
                || number(other, "x") + number(other, "width") < number(bar, "x") + 0.02;
            assert!(other == bar || apart, "{bar}\n{other}");
        }
    }
}

/// What left a mapping is told for each who can use it, from the one before on.
#[test]
fn a_mapping_that_two_can_use() {
    let folder = Folder::new();
    let renters = folder.write("renters", b"2 anna\n17 bert\n20 carl\n");
    let entry = "entry vpid=0x5 ept=off pcid=0x1 cpl=0x0\n";
    let mapping = "linear vpid=0x5 pcid=0x1 global=0x0 span=0x0 page=0x1 frame=0x2";
    let text = format!("vmxon\n{entry}{mapping}\n")
        + &"invlpg address=0x5000\n".repeat(12)
        + &format!("exit pcid=0x0\n{entry}invlpg address=0x6000\nexit pcid=0x0\n{entry}");
    let words = ["view", "-", &format!("renters={renters}")];
    let page = fed(&words, text.as_bytes()).out;
    let mut due = format!("\"created by event 3: {mapping}\\u000aleft by 2 earlier invalidations");
    for number in 6..16 {
        due += &format!(
            "\\u000aleft by event {number}, does not cover the address: invlpg address=0x5000"
        );
    }
    due += "\\u000afound at event 17: bert can use this mapping of anna\
            \\u000aleft by event 18, does not cover the address: invlpg address=0x6000\
            \\u000afound at event 20: carl can use this mapping of anna\
            \\u000ain force at the end\"";
    assert!(page.contains(&due), "{due}");
    // Without VPIDs a VM entry invalidates too, one at which a mapping is found among it.
    let renters = folder.write("renters", b"2 anna\n5 bert\n7 carl\n");
    let entry = "entry vpid=off ept=0x10001e pcid=0x1 cpl=0x0";
    let mapping = "guest-physical ep4ta=0x100 span=0x0 page=0x1 frame=0x2";
    let text = format!("vmxon\n{entry}\n{mapping}\nexit pcid=0x0\n{entry}\nexit pcid=0x0\n{entry}");
    let words = ["view", "-", &format!("renters={renters}")];
    let page = fed(&words, text.as_bytes()).out;
    let due = format!(
        "\"created by event 3: {mapping}\
         \\u000aleft by event 4, wrong kind: exit pcid=0x0\
         \\u000afound at event 5: bert can use this mapping of anna\
         \\u000aleft by event 5, wrong kind: {entry}\
         \\u000aleft by event 6, wrong kind: exit pcid=0x0\
         \\u000afound at event 7: carl can use this mapping of anna\
         \\u000ain force at the end\""
    );
    assert!(page.contains(&due), "{due}");
}

/// Every kind that drops mappings has a colour and a key, one too whose line is raw:
/// a VM entry without VPIDs whose VPID field is not zero.
#[test]
fn colours() {
    let mapping = "linear vpid=0x0 pcid=0x0 global=0x0 span=0x0 page=0x1 frame=0x2\n";
    let within = mapping.replace("vpid=0x0 pcid=0x0", "vpid=0x5 pcid=0x1");
    let combined = within
        .replace("linear", "combined")
        .replace("\n", " ep4ta=0x100\n");
    let entry = "entry vpid=0x5 ept=off pcid=0x1 cpl=0x0\n";
    let ept = "entry vpid=0x5 ept=0x10001e pcid=0x1 cpl=0x0\n";
    let exit = "exit pcid=0x0\n";
    for (kind, text) in [
        ("invlpg", format!("{mapping}invlpg address=0x1000\n")),
        (
            "invpcid",
            format!("{mapping}invpcid type=0x2 pcid=0x0 address=0x0\n"),
        ),
        ("mov-to-cr3", format!("{mapping}mov-to-cr3 pcid=0x0\n")),
        ("reset", format!("{mapping}reset\n")),
        (
            "entry",
            format!("vmxon\n{mapping}raw 14 00 05 00 00 00 00 00 00 00 00 00 00 01 00 00\n"),
        ),
        (
            "exit",
            format!("vmxon\nentry vpid=off ept=off pcid=0x0 cpl=0x0\n{mapping}{exit}"),
        ),
        (
            "invvpid",
            format!("vmxon\n{entry}{within}{exit}invvpid type=0x2 vpid=0x0 address=0x0\n"),
        ),
        (
            "invept",
            format!("vmxon\n{ept}{combined}{exit}invept type=0x2 eptp=0x0\n"),
        ),
        (
            "ept-violation",
            format!("vmxon\n{ept}{combined}ept-violation gpa=0x0 linear=0x1000\n"),
        ),
    ] {
        let page = fed(&["view", "-"], text.as_bytes()).out;
        assert_eq!(bars(&page).len(), 1, "{kind}");
        let class = attribute(bars(&page)[0], "class");
        assert_eq!(class, format!("bar {kind}"));
        let key =
            format!("<span class=\"key\"><i class=\"{kind}\"></i>ended by {kind}: 1</span>\n");
        assert!(page.contains(&key), "{key}");
        let colour = |line: &str| {
            let (names, rest) = line.split_once(" { fill: #").unwrap_or(("", ""));
            let own = names.split(", ").any(|name| name == format!(".{kind}"));
            own && rest.contains("; background: #")
        };
        assert!(page.lines().any(colour), "{kind}");
    }
}

/// An event is 18 wide where there are few. Where the story's guests are entered and
/// left, where Carl gets at Anna's mappings, and the refused events of another log.
#[test]
fn places_and_marks() {
    const STEP: f64 = 18.0;
    let page = run(&["view", LOG, RENTERS]).out;
    let all = |start: &str| -> Vec<&str> {
        let lines = page.lines();
        lines.filter(|line| line.starts_with(start)).collect()
    };
    for (class, due) in [
        (
            "guest",
            &[
                (3, 13),
                (14, 17),
                (18, 25),
                (27, 33),
                (35, 39),
                (40, 42),
                (45, 50),
            ][..],
        ),
        (
            "root",
            &[
                (1, 3),
                (13, 14),
                (17, 18),
                (25, 27),
                (33, 35),
                (39, 40),
                (42, 45),
                (50, 51),
            ],
        ),
    ] {
        let places = all(&format!("<rect class=\"{class}\" "));
        let places = places.iter().map(|place| {
            let from = number(place, "x") / STEP;
            (from, from + number(place, "width") / STEP)
        });
        let places: Vec<(f64, f64)> = places.collect();
        let due = due
            .iter()
            .map(|(from, to)| (f64::from(*from), f64::from(*to)));
        assert_eq!(places, due.collect::<Vec<_>>(), "{class}");
    }
    // In the order of the bars: those of events 30, 36 and 38.
    let marks = all("<circle class=\"mark\" ");
    let marks = marks.iter().map(|mark| number(mark, "cx") / STEP);
    assert_eq!(marks.collect::<Vec<_>>(), [45.0, 48.0, 45.0]);
    let page = run(&["view", "examples/refusals.log"]).out;
    let expected = std::fs::read_to_string(tool::top().join("examples/refusals.expected"));
    let mut due = String::new();
    for line in expected.expect("a file").lines() {
        let numbers: Vec<f64> = line
            .split(' ')
            .map(|n| n.parse().expect("a number"))
            .collect();
        if numbers[1] != 0.0 {
            due += &format!("M{:.2} 17v12", (numbers[0] + 0.5) * STEP);
        }
    }
    assert!(
        page.contains(&format!("<path id=\"refused\" d=\"{due}\" ")),
        "{due}"
    );
}

#[test]
fn refused_events_are_marked() {
    let page = run(&["view", "examples/refusals.log"]);
    assert_eq!(page.status, 1);
    assert_eq!(
        page.said,
        "view: examples/refusals.log: the run ends at event 22, byte 246: \
         unknown kind 0x7, one of 57-bit linear addresses\n"
    );
    let (_, path) = page
        .out
        .split_once("<path id=\"refused\" d=\"")
        .expect("marks");
    let path = path.split('"').next().expect("a path");
    assert_eq!(path.matches('M').count(), 16);
    assert!(page
        .out
        .contains("22 events, 16 refused; 1 mappings, 0 in force at the end; 0 found"));
    assert!(page
        .out
        .contains("\"event 3: vmxon\\u000arefused with 7: #GP(0)\""));
}

/// The name of a log and of a renter are shown as they are.
#[test]
fn names_are_escaped() {
    let folder = Folder::new();
    let text = "vmxon\n\
        entry vpid=0x5 ept=off pcid=0x1 cpl=0x0\n\
        linear vpid=0x5 pcid=0x1 global=0x0 span=0x0 page=0x1 frame=0x2\n\
        exit pcid=0x0\n\
        entry vpid=0x5 ept=off pcid=0x1 cpl=0x0\n";
    let log = folder.write("<b>{data}.log", &assembled(text));
    let renters = folder.write("renters", b"2 </script>\n5 {drawing}\n");
    let page = run(&["view", &log, &format!("renters={renters}")]);
    assert_eq!(page.status, 0, "{}", page.said);
    assert!(page.out.contains("/&lt;b&gt;&#123;data}.log</h1>"));
    assert_eq!(page.out.matches("</script>").count(), 2);
    assert!(page
        .out
        .contains("{drawing} can use this mapping of \\u003c/script\\u003e"));
}

/// The numbers of a line of the trace.
fn field(line: &str, name: &str) -> String {
    let (_, after) = line.split_once(&format!("\"{name}\":")).expect(name);
    let end = after.find([',', '}']).expect("an end");
    after[..end].to_string()
}

#[test]
fn the_trace() {
    let trace = run(&["view", "--trace", LOG, RENTERS]);
    assert_eq!((trace.status, &trace.said[..]), (0, ""));
    let start = "{\"displayTimeUnit\":\"ms\",\"traceEvents\":[\n";
    assert!(trace.out.starts_with(start));
    assert!(trace.out.ends_with("}\n]}\n"));
    let mappings = trace
        .out
        .lines()
        .filter(|line| line.contains("\"cat\":\"mapping\""));
    let mappings: Vec<&str> = mappings.collect();
    assert_eq!(mappings.len(), 23);
    // The mapping of event 29 goes with event 34.
    let one = mappings.iter().find(|line| field(line, "created") == "29");
    let one = one.expect("a mapping");
    assert_eq!(
        (field(one, "ts"), field(one, "dur")),
        ("29000".to_string(), "5000".to_string())
    );
    assert!(one.contains("\"ended by\":\"invvpid\""), "{one}");
    // Those of events 30, 36 and 38.
    let found = trace.out.lines();
    let found = found.filter(|line| line.starts_with("{\"name\":\"found\",\"ph\":\"i\""));
    let found: Vec<String> = found.map(|line| field(line, "ts")).collect();
    assert_eq!(found, ["45000", "48000", "45000"]);
    assert_eq!(
        trace
            .out
            .matches("{\"name\":\"guest\",\"cat\":\"place\"")
            .count(),
        7
    );
    let refused = run(&["view", "--trace", "examples/refusals.log"]);
    assert_eq!(
        refused
            .out
            .matches("{\"name\":\"refused\",\"ph\":\"i\"")
            .count(),
        16
    );
}

/// Logs of 65,536 bytes: as many mappings as the table holds, and events of one byte.
#[test]
fn large_logs() {
    let mut creations = String::new();
    for page in 0..3_855 {
        creations += &format!(
            "linear vpid=0x0 pcid=0x0 global=0x0 span=0x0 page={page:#x} frame=0x1{page:04x}\n"
        );
    }
    let page = fed(&["view", "-"], creations.as_bytes());
    // 47,104 bytes have room for 2,770 records of 17 bytes.
    assert_eq!(bars(&page.out).len(), 2_770);
    assert!(
        page.out
            .contains("3855 events, 1085 refused; 2770 mappings"),
        "{}",
        page.said
    );
    assert!(page.out.len() < 2_000_000, "{}", page.out.len());
    let page = fed(&["view", "-"], &[23; 65_536]);
    assert!(page.out.contains("65536 events, 65536 refused; 0 mappings"));
    assert!(page.out.len() < 6_000_000, "{}", page.out.len());
}
