//! Many logs: what is said of each, worked out by hand, and in which order.

mod tool;

use tool::{assembled, run, Folder};

/// The examples, worst first. Event 22 of three-renters has eleven mappings in force:
/// those of events 2, 5 to 8, 15, 16 and 19 to 22.
const EXAMPLES: &str = "  leaks   stale refused    most  events  log
      3       -       0      11      51  examples/three-renters.log
      -       0      16       1      22  examples/refusals.log; refused with 4: 2, 5: 1, 6: 1, 7: 1, 8: 5, 9: 3, 10: 2, 11: 1; the run ends at event 22, byte 246: unknown kind 0x7, one of 57-bit linear addresses
      -       0       1       1       5  examples/cut-in-transfer.log; refused with 4: 1; the run ends at event 5, byte 37: invvpid cut to 10 of 25 bytes
      -       1       0       2       8  examples/forgotten-invvpid.log
      -       0       5       5      22  examples/invpcid.log; refused with 4: 1, 7: 4
      -       0       0       6      19  examples/ept.log
      -       0       0       1       5  examples/five-events.log
      -       0       0       3      11  examples/globals.log
      -       0       0       2      11  examples/no-vpids.log
      0       -       0      11      52  examples/three-renters-mended.log
      -       0       0       1       9  examples/with-invvpid.log
11 logs, 4 with findings
";

#[test]
fn the_examples() {
    let run = run(&["audit", "examples"]);
    assert_eq!(run.out, EXAMPLES);
    assert_eq!(run.status, 1);
    assert!(run.said.ends_with("audit: 11 of 11 logs\n"), "{}", run.said);
}

#[test]
fn a_clean_log() {
    let run = run(&["audit", "--json", "examples/three-renters-mended.log"]);
    let due = "{\"log\":\"examples/three-renters-mended.log\",\"leaks\":0,\"stale\":null,\
               \"refused\":{},\"most\":11,\"events\":52,\"amiss\":\"\"}\n";
    assert_eq!((run.status, &run.out[..]), (0, due));
}

/// Nothing that is amiss with a log stops the others.
#[test]
fn logs_that_are_amiss() {
    let folder = Folder::new();
    let long = folder.write("long.log", &[25; 65_537]);
    folder.write("full.log", &[25; 65_536]);
    folder.write("text.log", b"vmxon\nvmxof\n");
    folder.write("empty.log", b"");
    let entry = assembled("vmxon\nentry vpid=0x5 ept=off pcid=0x1 cpl=0x0");
    folder.write("unnamed.log", &entry);
    folder.write("unnamed.renters", b"# nobody\n");
    folder.write("wrong.log", &entry);
    folder.write("wrong.renters", b"1 anna\n");
    folder.write("not-a-log.txt", b"?");
    std::fs::create_dir(folder.name("folder.log")).expect("a folder");
    let none = folder.name("none");
    let name = folder.name("");
    let audited = run(&["audit", &name, &none]);
    assert_eq!(audited.status, 1);
    for due in [
        format!("      -       0       0       0   65537  {long}; too long: 65537 bytes, and replay takes 65,536\n"),
        format!("      -       0       0       0   65536  {}\n", folder.name("full.log")),
        format!("      -       0       0       0       0  {}; it has no events\n", folder.name("empty.log")),
        format!("{0}; {0}: read as text: line 2: unknown event 'vmxof'\n", folder.name("text.log")),
        format!(
            "{}; {}: event 2 is a VM entry, and has no line\n",
            folder.name("unnamed.log"),
            folder.name("unnamed.renters")
        ),
        format!(
            "{0}; {1}: event 1 of {0} is no VM entry\n",
            folder.name("wrong.log"),
            folder.name("wrong.renters")
        ),
        format!("{none}; {none} cannot be read: No such file or directory (os error 2)\n"),
        "7 logs, 6 with findings\n".to_string(),
    ] {
        assert!(audited.out.contains(&due), "{}\n{due}", audited.out);
    }
    let any = run(&["audit", "--any-length", &long]);
    assert_eq!(any.status, 0, "{}", any.out);
    assert!(any.out.ends_with("1 log, 0 with findings\n"), "{}", any.out);
    // A folder without logs stops no others either.
    let nothing = folder.name("folder.log");
    let empty = run(&["audit", &nothing, "examples/five-events.log"]);
    let due = format!("  {nothing}; a folder that has no file that ends in .log\n");
    assert!(empty.out.contains(&due), "{}", empty.out);
    assert!(empty.out.ends_with("2 logs, 1 with findings\n"));
    assert_eq!(empty.status, 1);
}

/// Ten thousand were tried by hand; these are enough to keep all cores busy.
#[test]
fn a_folder_of_many_logs() {
    const COUNT: usize = 2_000;
    let folder = Folder::new();
    let five = std::fs::read(tool::top().join("examples/five-events.log")).expect("a log");
    for number in 0..COUNT {
        folder.write(&format!("{number:05}.log"), &five);
    }
    folder.write("00777.log", &five[..20]);
    let run = run(&["audit", &folder.name("")]);
    assert_eq!(run.status, 1);
    let lines: Vec<&str> = run.out.lines().collect();
    assert_eq!(lines.len(), COUNT + 2);
    let worst = "00777.log; refused with 4: 1; the run ends at event 3, byte 17: linear cut to 3 of 17 bytes";
    assert!(lines[1].ends_with(worst), "{}", lines[1]);
    assert!(lines[2].ends_with("00000.log"), "{}", lines[2]);
    assert_eq!(lines[COUNT + 1], "2000 logs, 1 with findings");
}
