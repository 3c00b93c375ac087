//! Every example: its text assembles to its log, and the independent model
//! prints what was worked out by hand.

use std::fs;
use std::path::{Path, PathBuf};

fn examples() -> PathBuf {
    Path::new(env!("CARGO_MANIFEST_DIR")).join("../../examples")
}

/// The names of the examples that have a file of this sort.
fn names(sort: &str) -> Vec<String> {
    let mut names: Vec<String> = fs::read_dir(examples())
        .expect("the examples are there")
        .map(|entry| entry.expect("a file").path())
        .filter(|path| path.extension().is_some_and(|own| own == sort))
        .map(|path| path.file_stem().unwrap().to_string_lossy().into_owned())
        .collect();
    names.sort();
    names
}

fn read(name: &str, sort: &str) -> Vec<u8> {
    let path = examples().join(format!("{name}.{sort}"));
    fs::read(&path).unwrap_or_else(|error| panic!("{}: {error}", path.display()))
}

#[test]
fn each_has_a_text_a_log_and_its_output() {
    assert!(names("log").len() >= 6);
    assert_eq!(names("txt"), names("log"));
    assert_eq!(names("expected"), names("log"));
    let readme = fs::read_to_string(examples().join("README.md")).expect("a README");
    for name in names("log") {
        assert!(readme.contains(&format!("`{name}`")), "{name}");
    }
}

#[test]
fn each_text_is_its_log() {
    for name in names("txt") {
        let log = convert::assemble(&read(&name, "txt"));
        assert_eq!(log, Ok(read(&name, "log")), "{name}");
        let again = convert::disassemble(48, &read(&name, "log"));
        assert_eq!(convert::assemble(again.as_bytes()), log, "{name}");
    }
}

#[test]
fn each_output_is_the_models() {
    for name in names("log") {
        let lines = model::replay(&read(&name, "log"));
        let printed = model::print(lines.as_deref());
        let expected = String::from_utf8(read(&name, "expected")).expect("text");
        assert_eq!(printed, expected, "{name}");
    }
}
