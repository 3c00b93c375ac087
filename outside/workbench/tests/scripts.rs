//! What scripts read is JSON, on every example.

mod tool;

use tool::{behind_json, fed, is_json_lines, run};

#[test]
fn what_is_json() {
    for text in [
        r#"{"a":[1,0.25,true],"b":{},"c":"x\"\u000a","d":null}"#,
        "[]",
        "\"\"",
    ] {
        assert!(is_json_lines(text), "{text}");
    }
    for text in [
        "",
        "{",
        "[1,]",
        "{\"a\"}",
        "{\"a\":1,}",
        "\"\\x\"",
        "\"a",
        "1 2",
        "x",
    ] {
        assert!(!is_json_lines(text), "{text}");
    }
}

#[test]
fn every_example() {
    let mut count = 0;
    for file in std::fs::read_dir(tool::top().join("examples")).expect("a folder") {
        let name = file.expect("a file").file_name();
        let name = name.to_str().expect("a name");
        let Some(name) = name.strip_suffix(".log") else {
            continue;
        };
        let log = format!("examples/{name}.log");
        let renters = format!("renters=examples/{name}.renters");
        for words in [
            &["show", "--json", &log][..],
            &["explain", "--json", &log, "event=4"],
            &[
                "lookup",
                "--json",
                &log,
                "after=3",
                "linear=0xffff800000000000",
            ],
            &["lookup", "--json", &log, "guest-physical=0x10000"],
            &["leaks", "--json", &log],
            &["replay", "--json", &log],
            &["compare", "--json", &log, "examples/ept.log"],
            &["audit", "--json", &log],
        ] {
            let run = run(words);
            assert!(is_json_lines(&run.out), "{words:?}: {}", run.out);
            count += 1;
        }
        let trace = run(&["view", "--trace", &log]);
        assert_eq!(behind_json(&trace.out), Some("\n"), "{name}");
        let page = run(&["view", &log]).out;
        let (_, data) = page.split_once(" id=\"data\">").expect("data");
        assert!(behind_json(data).is_some_and(|rest| rest.starts_with("</script>")));
        if name.starts_with("three-renters") {
            let run = run(&["leaks", "--json", &log, &renters]);
            assert!(is_json_lines(&run.out), "{}", run.out);
        }
    }
    assert_eq!(count, 11 * 8);
}

/// An empty log has an answer too.
#[test]
fn an_empty_log() {
    for words in [
        &["show", "--json", "-"][..],
        &["leaks", "--json", "-"],
        &["lookup", "--json", "-", "linear=0"],
        &["audit", "--json", "-"],
        &["compare", "--json", "-", "examples/ept.log"],
    ] {
        let run = fed(words, b"");
        assert!(is_json_lines(&run.out), "{words:?}: {}", run.out);
    }
    let replay = fed(&["replay", "-"], b"");
    assert_eq!((replay.status, &replay.out[..]), (0, ""));
    let leaks = fed(&["leaks", "-"], b"");
    let due = "stale translations: 0, in 0 translations created\n";
    assert_eq!((leaks.status, &leaks.out[..]), (1, due));
    assert_eq!(leaks.said, "leaks: standard input: it has no events\n");
    let trace = fed(&["view", "--trace", "-"], b"");
    assert_eq!(behind_json(&trace.out), Some("\n"));
    let page = fed(&["view", "-"], b"");
    assert!(page
        .out
        .contains("0 events, 0 refused; 0 mappings, 0 in force at the end; 0 found"));
}
