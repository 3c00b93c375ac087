//! The example image: it is its description's, and its walks are those worked out by
//! hand, in the documents too.

use std::fs;
use std::path::{Path, PathBuf};
use std::process::{Command, Output};

fn top() -> PathBuf {
    Path::new(env!("CARGO_MANIFEST_DIR")).join("../..")
}

fn example(name: &str) -> PathBuf {
    top().join("examples").join(name)
}

/// What the program answers for an address in the example.
fn walked(address: &str) -> (Option<i32>, String) {
    let image = example("walk.image");
    let output = Command::new(env!("CARGO_BIN_EXE_walk"))
        .arg(image)
        .args(["root=0x10000", "eptp=0x101e", "vpid=5", "pcid=1"])
        .arg(format!("address={address}"))
        .output()
        .expect("the program starts");
    let text = String::from_utf8(output.stdout).expect("text");
    (output.status.code(), text)
}

fn image(words: &[&Path]) -> Output {
    let mut command = Command::new(env!("CARGO_BIN_EXE_image"));
    command.args(words).output().expect("the program starts")
}

#[test]
fn the_image_is_its_descriptions() {
    let made = image(&[&example("walk.entries")]);
    assert!(made.status.success());
    let own = fs::read(example("walk.image")).expect("the image");
    assert!(
        made.stdout == own,
        "make it again: examples/README.md says how"
    );
    assert_eq!(own.len(), 0x9000);
}

/// All of these take entry 1 of level 4, most of them 2 of level 3 and 3 of level 2.
#[test]
fn walks_worked_out_by_hand() {
    // Level 1, entry 4: EPT's entry for page 0x14 says frame 0xabcde.
    let due =
        "combined vpid=0x5 pcid=0x1 global=0x1 span=0x0 page=0x8080604 frame=0xabcde ep4ta=0x1\n\
               03 05 00 01 00 01 00 04 06 08 08 00 de bc 0a 00 00 01 00 00 00 00\n\
               24 entries read\n";
    assert_eq!(walked("0x8080604567"), (Some(0), due.to_string()));
    // Entry 5: 4 KBytes in EPT's 2 MBytes, an entry less.
    let due =
        "combined vpid=0x5 pcid=0x1 global=0x0 span=0x0 page=0x8080605 frame=0x12200 ep4ta=0x1\n\
               03 05 00 01 00 00 00 05 06 08 08 00 00 22 01 00 00 01 00 00 00 00\n\
               23 entries read\n";
    assert_eq!(walked("0x8080605567"), (Some(0), due.to_string()));
    // Level 2, entry 4: 2 MBytes at 0x40200000, in EPT's 1 GByte at 0x140000000.
    // Three guest entries with four of EPT each, and two of EPT.
    let due =
        "combined vpid=0x5 pcid=0x1 global=0x1 span=0x1 page=0x8080800 frame=0x140200 ep4ta=0x1\n\
               03 05 00 01 00 01 01 00 08 08 08 00 00 02 14 00 00 01 00 00 00 00\n\
               17 entries read\n";
    assert_eq!(walked("0x8080804567"), (Some(0), due.to_string()));
    for (address, due) in [
        ("0x8080606567", "absent: EPT entry of level 1 at 0x40a8, on the way to the final page; 24 entries read\n"),
        ("0x8080607567", "too high: guest-physical address 0x1000000000567 for the final page is 2^48 or more; 20 entries read\n"),
        ("0x8080608567", "absent: the guest's entry of level 1 at 0x8040; 20 entries read\n"),
        ("0x80c0000000", "outside the image: the guest's entry of level 2 at 0x9000; 14 entries read\n"),
        ("0", "absent: the guest's entry of level 4 at 0x5000; 5 entries read\n"),
    ] {
        assert_eq!(walked(address), (Some(1), due.to_string()), "{address}");
    }
}

/// Each command in the documents, with the block of output below it.
#[test]
fn the_documents_have_what_is_printed() {
    let mut count = 0;
    for name in ["README.md", "examples/README.md"] {
        let text = fs::read_to_string(top().join(name)).expect("a document");
        let start = "    ./skuldrefn walk examples/walk.image \
                     root=0x10000 eptp=0x101e vpid=5 pcid=1 address=";
        for after in text.split(start).skip(1) {
            let (address, rest) = after.split_once('\n').expect("a line");
            let shown: String = rest
                .lines()
                .skip_while(|line| !line.starts_with("    "))
                .map_while(|line| line.strip_prefix("    "))
                .map(|line| format!("{line}\n"))
                .collect();
            assert_eq!(walked(address).1, shown, "{name}: {address}");
            count += 1;
        }
    }
    assert!(count >= 2, "{count} commands");
}

#[test]
fn descriptions_that_are_not_taken() {
    let file = std::env::temp_dir().join(format!("skuldrefn-entries-{}", std::process::id()));
    for (text, due) in [
        ("0x0 0x7\n", "there is no line `length NUMBER`"),
        ("length 0x8\nlength 0x8\n", "line 2 is a second length"),
        (
            "length 8\n",
            "line 1 is neither `length NUMBER` nor `ADDRESS ENTRY`",
        ),
        (
            "length 0x8\n0x0\n",
            "line 2 is neither `length NUMBER` nor `ADDRESS ENTRY`",
        ),
        (
            "length 0x8\n0x0 0x1 0x2\n",
            "line 2 is neither `length NUMBER` nor `ADDRESS ENTRY`",
        ),
        ("length 0x8\n0x1 0x7\n", "the entry of line 2 ends outside"),
        (
            "length 0x8\n0x0 0x7\n0x0 0x7\n",
            "the entry of line 3 is there already",
        ),
        ("length 0xffffffffff\n", "0xffffffffff bytes are too many"),
    ] {
        fs::write(&file, text).expect("a file");
        let output = image(&[&file]);
        assert_eq!(
            (output.status.code(), &output.stdout[..]),
            (Some(1), &[][..]),
            "{text}"
        );
        let said = String::from_utf8(output.stderr).expect("text");
        assert_eq!(said, format!("image: {due}\n"));
    }
    fs::write(&file, "length 0xa # ten bytes\n\n0x1 0x7#\n").expect("a file");
    assert_eq!(image(&[&file]).stdout, [0, 7, 0, 0, 0, 0, 0, 0, 0, 0]);
    fs::remove_file(&file).expect("a file");
}
