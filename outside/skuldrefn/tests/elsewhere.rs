//! Another workspace uses the wrapper with one line in its Cargo.toml.

use std::env::temp_dir;
use std::fs;
use std::path::{Path, PathBuf};
use std::process::{id, Command};

const MAIN: &str = r#"
use skuldrefn::{replay, Line, PROGRAM_CAPABILITY, PROGRAM_LINEAR_WIDTH, PROGRAM_WIDTH};

fn main() {
    let log = std::fs::read(std::env::args().nth(1).expect("a file")).expect("a log");
    for line in replay(PROGRAM_CAPABILITY, PROGRAM_WIDTH, PROGRAM_LINEAR_WIDTH, &log).lines {
        let Line { number, answer, dropped, length } = line;
        println!("{number} {answer} {dropped} {length}");
    }
}
"#;

/// A folder that is removed in the end.
struct Folder(PathBuf);

impl Drop for Folder {
    fn drop(&mut self) {
        let _ = fs::remove_dir_all(&self.0);
    }
}

#[test]
fn one_line_is_enough() {
    let folder = Folder(temp_dir().join(format!("skuldrefn-elsewhere-{}", id())));
    fs::create_dir_all(folder.0.join("src")).expect("a folder");
    let own = env!("CARGO_MANIFEST_DIR");
    let manifest = format!(
        "[package]\nname = \"elsewhere\"\nversion = \"0.1.0\"\nedition = \"2021\"\n\n\
         [dependencies]\nskuldrefn = {{ path = \"{own}\" }}\n"
    );
    fs::write(folder.0.join("Cargo.toml"), manifest).expect("a file");
    fs::write(folder.0.join("src/main.rs"), MAIN).expect("a file");
    let examples = Path::new(own).join("../../examples");
    let output = Command::new("cargo")
        .args(["run", "--quiet", "--offline", "--"])
        .arg(examples.join("five-events.log"))
        .current_dir(&folder.0)
        .env("CARGO_TARGET_DIR", folder.0.join("target"))
        .env("SKULDREFN_LIB", skuldrefn::LIBRARY)
        .output()
        .expect("cargo starts");
    let said = String::from_utf8_lossy(&output.stderr);
    assert!(output.status.success(), "{said}");
    let expected = fs::read(examples.join("five-events.expected")).expect("the lines");
    assert_eq!(output.stdout, expected, "{said}");
}
