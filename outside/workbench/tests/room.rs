//! Logs with more mappings than the table has room for: what is found may not be all,
//! and that is told.

mod tool;

use std::fmt::Write;
use tool::{assembled, is_json_lines, run, Folder};

/// The table has room for 47,104 bytes, so for 2,770 records of 17 bytes and 14 bytes
/// more. The VMXON has 1 byte and the VM entry 16, so the first that is refused is event
/// 2773 at byte 17 + 2770 * 17.
const FIT: usize = 2_770;
const TOLD: &str = "event 2773, at byte 47107: no room for this mapping; from here on leaks may \
                    be missed (2 mappings were refused for room)";

const ENTRY: &str = "entry vpid=0x5 ept=off pcid=0x1 cpl=0x0\n";
const GLOBAL: &str = "linear vpid=0x5 pcid=0x1 global=0x1 span=0x0 page=0x7f000 frame=0x1\n";
const LAST: &str = "linear vpid=0x5 pcid=0x1 global=0x0 span=0x0 page=0x7f001 frame=0x1\n";

/// So many translations of 17 bytes each, that no INVVPID of type 3 spares.
fn translations(count: usize) -> String {
    let mut text = String::new();
    for page in 0..count {
        let _ = writeln!(
            text,
            "linear vpid=0x5 pcid=0x1 global=0x0 span=0x0 page={page:#x} frame=0x1"
        );
    }
    text
}

/// A log of some text, and its file of renters beside it.
fn written(folder: &Folder, text: &str, renters: &str) -> (String, String) {
    let log = folder.write("full.log", &assembled(text));
    let renters = folder.write("full.renters", renters.as_bytes());
    (log, format!("renters={renters}"))
}

/// Anna's mapping that the INVVPID spares was refused for room, so the table does not
/// have it when Bert comes in.
fn missed(folder: &Folder) -> (String, String) {
    let fill = translations(FIT);
    let text = format!(
        "vmxon\n{ENTRY}{fill}{GLOBAL}{LAST}exit pcid=0x0\n\
         invvpid type=0x3 vpid=0x5 address=0x0\n{ENTRY}"
    );
    written(folder, &text, "2 anna\n2777 bert\n")
}

#[test]
fn leaks_that_may_be_missed() {
    let folder = Folder::new();
    let (log, renters) = missed(&folder);
    let found = run(&["leaks", &log, &renters]);
    let due = format!("{TOLD}\nleaks: 0, in 2 VM entries; others may be missed\n");
    assert_eq!((&found.out[..], &found.said[..]), (&due[..], ""));
    assert_eq!(found.status, 1);
    let found = run(&["leaks", &log]);
    let due = format!(
        "{}\nstale translations: 0, in 2770 translations created; others may be missed\n",
        TOLD.replace("leaks", "stale translations")
    );
    assert_eq!((found.status, &found.out[..]), (1, &due[..]));
    let found = run(&["leaks", "--json", &log, &renters]);
    let due = "{\"findings\":[],\"entries\":2,\"translations\":2770,\
               \"room\":{\"at\":2773,\"byte\":47107,\"refused\":2},\"stopped\":\"\"}\n";
    assert_eq!((found.status, &found.out[..]), (1, due));
    assert!(is_json_lines(&found.out));
}

#[test]
fn many_logs() {
    let folder = Folder::new();
    let (log, _) = missed(&folder);
    let audited = run(&["audit", &log]);
    let due = format!(
        "      0       -       2    2770    2777  {log}; refused with 12: 2; {TOLD}\n\
         1 log, 1 with findings\n"
    );
    assert!(audited.out.ends_with(&due), "{}", audited.out);
    assert_eq!(
        (audited.status, &audited.said[..]),
        (1, "audit: 1 of 1 log\n")
    );
    let audited = run(&["audit", "--json", &log]);
    let due = format!(
        "{{\"log\":\"{log}\",\"leaks\":0,\"stale\":null,\"refused\":{{\"12\":2}},\"most\":2770,\
         \"events\":2777,\"amiss\":\"{TOLD}\"}}\n"
    );
    assert_eq!((audited.status, &audited.out[..]), (1, &due[..]));
}

#[test]
fn the_picture() {
    let folder = Folder::new();
    let (log, renters) = missed(&folder);
    let page = run(&["view", &log, &renters]);
    let due = format!(
        "2777 events, 2 refused; 2770 mappings, 0 in force at the end; 0 found; {}",
        TOLD.replace("leaks", "some that should be found")
    );
    assert!(page.out.contains(&due));
    assert_eq!(page.status, 0);
}

/// It stands between the findings, where it belongs: Bert finds Anna's mapping, then
/// there is no room for one of his, and then Carl finds all that there are.
#[test]
fn between_findings() {
    let folder = Folder::new();
    let fill = translations(FIT - 1);
    // Events 1 to 5 have 1, 16, 17, 3 and 16 bytes, and event 2775 is the first that is
    // refused: 53 + 2769 * 17 = 47126.
    let text =
        format!("vmxon\n{ENTRY}{GLOBAL}exit pcid=0x0\n{ENTRY}{fill}{LAST}exit pcid=0x0\n{ENTRY}");
    let (log, renters) = written(&folder, &text, "2 anna\n5 bert\n2777 carl\n");
    let found = run(&["leaks", &log, &renters]);
    let heads = found.out.lines().filter(|line| !line.starts_with(' '));
    let entry = ENTRY.trim_end();
    let due = [
        format!("event 5, at byte 37: {entry}"),
        "event 2775, at byte 47126: no room for this mapping; from here on leaks may be missed \
         (1 mapping was refused for room)"
            .to_string(),
        format!("event 2777, at byte 47146: {entry}"),
        "leaks: 2771, in 3 VM entries; others may be missed".to_string(),
    ];
    assert_eq!(heads.collect::<Vec<_>>(), due);
    assert_eq!(found.status, 1);
}

/// A full table alone is none.
#[test]
fn a_table_that_is_full() {
    let folder = Folder::new();
    let text = format!("vmxon\n{ENTRY}{}", translations(FIT));
    let (log, renters) = written(&folder, &text, "2 anna\n");
    let found = run(&["leaks", &log, &renters]);
    assert_eq!(
        (found.status, &found.out[..]),
        (0, "leaks: 0, in 1 VM entries\n")
    );
}
