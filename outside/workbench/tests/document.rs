//! The five minutes of the README: its commands, run in their order, print what it
//! shows.

mod tool;

use std::fs;
use std::path::Path;
use std::process::Command;
use tool::{top, Folder};

/// The document's blocks of indented lines, from a heading to another.
fn blocks(from: &str, to: &str) -> Vec<String> {
    let document = fs::read_to_string(top().join("README.md")).expect("a document");
    let (_, after) = document.split_once(from).expect(from);
    let (section, _) = after.split_once(to).expect(to);
    let mut blocks = vec![String::new()];
    for line in section.lines() {
        match line.strip_prefix("    ") {
            Some(line) => *blocks.last_mut().expect("a block") += &format!("{line}\n"),
            None => blocks.push(String::new()),
        }
    }
    blocks.retain(|block| !block.is_empty());
    blocks
}

/// Runs lines of shell in a folder where `./skuldrefn` runs the programs of this
/// workspace; the output of each.
fn run(folder: &Folder, lines: &str) -> Vec<String> {
    let shell = |line: &str| {
        let output = Command::new("sh")
            .args(["-c", line])
            .current_dir(folder.name(""))
            .output();
        String::from_utf8(output.expect("sh starts").stdout).expect("text")
    };
    lines.lines().map(shell).collect()
}

/// A folder with the examples, and a script in the place of `./skuldrefn`.
fn folder() -> Folder {
    let folder = Folder::new();
    let examples = top().join("examples").canonicalize().expect("a folder");
    std::os::unix::fs::symlink(examples, folder.name("examples")).expect("a link");
    let workbench = Path::new(env!("CARGO_BIN_EXE_workbench"));
    let convert = workbench.with_file_name("convert");
    assert!(convert.is_file(), "build the whole workspace first");
    let script = format!(
        "#!/bin/sh\ncase $1 in disassemble) exec {} \"$@\" ;; esac\nexec {} \"$@\"\n",
        convert.display(),
        workbench.display()
    );
    let script = folder.write("skuldrefn", script.as_bytes());
    let mode = std::os::unix::fs::PermissionsExt::from_mode(0o755);
    fs::set_permissions(script, mode).expect("a mode");
    folder
}

#[test]
fn five_minutes() {
    let folder = folder();
    let blocks = blocks("## From a log to the leak", "### Many logs");
    let [replay, numbers, leaks, found, look, usable, mend, clean] = &blocks[..] else {
        panic!("{blocks:#?}");
    };
    assert_eq!(&run(&folder, replay).concat(), numbers);
    assert_eq!(&run(&folder, leaks).concat(), found);
    let looks = run(&folder, look);
    assert!(
        looks[0].starts_with("event 34, at byte 528: "),
        "{}",
        looks[0]
    );
    assert_eq!(&looks[1], usable);
    let page = fs::read_to_string(folder.name("run.html")).expect("a page");
    assert!(page.ends_with("</html>\n"));
    assert_eq!(&run(&folder, mend).concat(), clean);
    // The mended log is the example, and type 3 in its place would not do.
    let lines = "./skuldrefn compare mended.txt examples/three-renters-mended.log\n\
                 sed 's/^invvpid type=0x1 vpid=0x5/invvpid type=0x3 vpid=0x5/' mended.txt > type-3.txt\n\
                 ./skuldrefn leaks type-3.txt renters=mended.renters";
    let last = run(&folder, lines);
    assert_eq!(last[0], "the same events: 52\n");
    assert!(
        last[2].ends_with("leaks: 1, in 7 VM entries\n"),
        "{}",
        last[2]
    );
}

#[test]
fn many_logs() {
    let folder = folder();
    let blocks = blocks("### Many logs", "### What it can tell");
    let [audit, table, parallel] = &blocks[..] else {
        panic!("{blocks:#?}");
    };
    assert_eq!(&run(&folder, audit).concat(), table);
    // The second of these lines finds what the first has put together.
    let lines: Vec<&str> = parallel.lines().collect();
    let find = "./skuldrefn audit --json examples > audit.json\n".to_string() + lines[1];
    let found = run(&folder, &find);
    let names = [
        "three-renters",
        "refusals",
        "cut-in-transfer",
        "forgotten-invvpid",
    ];
    let due = names.map(|name| format!("{{\"log\":\"examples/{name}.log\""));
    let found: Vec<&str> = found[1].lines().collect();
    assert_eq!(found.len(), due.len());
    for (line, due) in found.iter().zip(due) {
        assert!(line.starts_with(&due), "{line}");
    }
}
