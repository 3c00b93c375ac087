//! What is said of edits that do not fit, in small trees made for it.

use std::env::temp_dir;
use std::fs;
use std::path::PathBuf;
use std::process::{id, Command};
use tools::edits::amiss;

const SOURCE: &str = "\
// pub fn in_a_comment
pub fn first(x: u64) -> u64 {
    x + 1 + 1
}
pub extern \"C\" fn second() {}
fn own() {}
";

/// The two edits that name both functions.
const BOTH: &str = "# first, second: two for one\nfile: src/lib.rt\nold: x + 1\nnew: x + 2\n";

/// A tree with one crate, removed in the end.
struct Tree(PathBuf);

impl Tree {
    fn new(name: &str, edits: &[&str]) -> Tree {
        let top = temp_dir().join(format!("skuldrefn-{}-{name}", id()));
        for folder in ["src", "must-fail"] {
            fs::create_dir_all(top.join("crates/one").join(folder)).expect("a folder");
        }
        fs::write(top.join("crates/one/src/lib.rt"), SOURCE).expect("a source");
        for (number, edit) in edits.iter().enumerate() {
            let file = format!("crates/one/must-fail/{number}.edit");
            fs::write(top.join(file), edit).expect("an edit");
        }
        Tree(top)
    }
}

impl Drop for Tree {
    fn drop(&mut self) {
        // Where it stays behind, nothing is wrong with what was tested.
        fs::remove_dir_all(&self.0).unwrap_or(());
    }
}

/// What is said of one edit beside two that fit.
fn said(name: &str, edit: &str) -> Vec<String> {
    let tree = Tree::new(name, &[BOTH, BOTH, edit]);
    amiss(&tree.0).expect("a tree that can be read")
}

#[test]
fn edits_that_fit() {
    assert_eq!(said("fit", BOTH), [""; 0]);
    // A pair sees what the pairs before it made, and text may be taken out.
    let edit = "# x-of, y: why\nfile: src/lib.rt\nold: x + 1\nnew: z\n\nold: z + 1\nnew:\n";
    assert_eq!(said("pairs", edit), [""; 0]);
}

#[test]
fn a_text_that_does_not_stand_once() {
    let edit = "# first: why\nfile: src/lib.rt\nold: x - 1\nnew: x\nold:  + 1\nnew: x\n";
    let due = [
        "crates/one/must-fail/2.edit: the text 'x - 1' stands 0 times",
        "crates/one/must-fail/2.edit: the text ' + 1' stands 2 times",
    ];
    assert_eq!(said("once", edit), due);
}

#[test]
fn a_file_that_does_not_exist() {
    let edit = "# first: why\nfile: specs/Lib.antt\nold: x\nnew: y\n";
    let due = ["crates/one/must-fail/2.edit: there is no file crates/one/specs/Lib.antt"];
    assert_eq!(said("file", edit), due);
}

#[test]
fn pairs_that_are_not_whole() {
    let pair = "crates/one/must-fail/2.edit: 'new: y' has no 'file:' or no 'old:' before it";
    let edit = "# first: why\nold: x + 1\nnew: y\n";
    assert_eq!(said("no-file", edit), [pair]);
    let edit = "# first: why\nfile: src/lib.rt\nold: x + 1\nnew: z\nnew: y\n";
    assert_eq!(said("no-old", edit), [pair]);
    let due = ["crates/one/must-fail/2.edit: it has no 'old:' and 'new:' pair"];
    assert_eq!(
        said("no-pair", "# first: why\nfile: src/lib.rt\nold: x\n"),
        due
    );
}

#[test]
fn first_lines_without_names() {
    let rest = "file: src/lib.rt\nold: x + 1\nnew: x\n";
    let due = ["crates/one/must-fail/2.edit: its first line is not '# names: what'"];
    for (number, line) in [
        "# what it does",
        "# two words: what it does",
        "# first,second: what it does",
        "# first: ",
        "# : what it does",
        "first: what it does",
        "",
    ]
    .iter()
    .enumerate()
    {
        let name = format!("line-{number}");
        assert_eq!(said(&name, &format!("{line}\n{rest}")), due, "{line}");
    }
}

#[test]
fn functions_with_too_few_edits() {
    let one = BOTH.replace("first, second", "second");
    let tree = Tree::new("few", &[BOTH, &one]);
    let due = ["crates/one/src/lib.rt: first has 1 must-fail edits"];
    assert_eq!(amiss(&tree.0).expect("a tree"), due);
}

#[test]
fn the_program_prints_them_and_fails() {
    let run = |tree: &Tree, word: &str| {
        let program = Command::new(env!("CARGO_BIN_EXE_tools"))
            .arg(word)
            .arg(&tree.0)
            .output()
            .expect("tools starts");
        let printed = String::from_utf8(program.stdout).expect("text");
        (program.status.code(), printed)
    };
    let good = Tree::new("program", &[BOTH, BOTH]);
    let fine = "the must-fail edits fit\n".to_string();
    assert_eq!(run(&good, "edits"), (Some(0), fine));
    let none = Tree::new("none", &[]);
    let few = "crates/one/src/lib.rt: first has 0 must-fail edits\n\
               crates/one/src/lib.rt: second has 0 must-fail edits\n";
    assert_eq!(run(&none, "edits"), (Some(1), few.to_string()));
    assert_eq!(run(&none, "crates").0, Some(1));
    assert_eq!(run(&none, "cards").0, Some(1));
    assert_eq!(run(&none, "card").0, Some(2));
}
