//! A walk of page tables in an image, as a user runs it.

use entry::{top, Checkout};
use std::fs;
use std::time::{Duration, Instant};

const WORDS: &str = "root=0x10000 eptp=0x101e vpid=5 pcid=1 address=0x8080604567";

/// Worked out by hand from examples/walk.entries.
const DUE: &str =
    "combined vpid=0x5 pcid=0x1 global=0x1 span=0x0 page=0x8080604 frame=0xabcde ep4ta=0x1\n\
     03 05 00 01 00 01 00 04 06 08 08 00 de bc 0a 00 00 01 00 00 00 00\n\
     24 entries read\n";

fn with_image() -> Checkout {
    let checkout = Checkout::bare();
    let image = fs::read(top().join("examples/walk.image")).expect("the image");
    for name in ["a.image", "-x", "a b", "root=1"] {
        checkout.write(name, &image);
    }
    let first = checkout.sh(&format!("./skuldrefn walk a.image {WORDS}"));
    assert_eq!((first.status, &first.out[..]), (0, DUE), "{}", first.said);
    checkout
}

#[test]
fn an_image_and_its_words() {
    let checkout = with_image();
    assert_eq!(checkout.calls()[0], "rt lib in skuldrefn_c");
    assert!(checkout.calls()[1].ends_with(" -p walk"));
    for line in [
        format!("./skuldrefn walk a.image {WORDS}"),
        format!("./skuldrefn walk -- -x {WORDS}"),
        format!("./skuldrefn walk -- root=1 {WORDS}"),
        format!("./skuldrefn walk ./root=1 {WORDS}"),
        format!("./skuldrefn walk 'a b' {WORDS}"),
        format!("cd crates && ../skuldrefn walk ../a.image {WORDS}"),
        "./skuldrefn walk a.image address=551909606759 pcid=0x1 vpid=0x5 eptp=4126 root=69631"
            .to_string(),
        format!("./skuldrefn walk a.image width=52 capability=0xF0106304140 {WORDS}"),
        format!("./skuldrefn walk a.image {WORDS} <&-"),
    ] {
        let run = checkout.sh(&line);
        assert_eq!(
            (run.status, &run.out[..], &run.said[..]),
            (0, DUE, ""),
            "{line}"
        );
    }
    // What was built is used again.
    assert_eq!(checkout.calls().len(), 2);
}

#[test]
fn grounds_and_wrong_numbers() {
    let checkout = with_image();
    let run = checkout.sh("./skuldrefn walk a.image root=0x10000 eptp=0x101e vpid=5 address=0");
    let due = "absent: the guest's entry of level 4 at 0x5000; 5 entries read\n";
    assert_eq!((run.status, &run.out[..], &run.said[..]), (1, due, ""));
    // Numbers that only the program can judge.
    for (word, due) in [
        ("vpid=65536", "walk: vpid is at most 65535, not 65536\n"),
        (
            "vpid=18446744073709551616",
            "walk: vpid takes a number below 2^64",
        ),
    ] {
        let run = checkout.sh(&format!(
            "./skuldrefn walk a.image root=0 eptp=0 {word} address=0"
        ));
        assert_eq!((run.status, &run.out[..]), (2, ""), "{word}");
        assert!(run.said.starts_with(due), "{}", run.said);
    }
    let run = checkout.sh(&format!("./skuldrefn walk a.image {WORDS} > /dev/full"));
    assert_eq!(run.status, 1);
    assert!(
        run.said.contains("standard output cannot be written"),
        "{}",
        run.said
    );
}

/// What the script says of wrong words; none of them is worth a build.
#[test]
fn words_in_words() {
    let checkout = Checkout::bare();
    let more = "; './skuldrefn help walk' says more\n";
    for (words, due) in [
        ("", format!("the image is missing{more}")),
        ("root=0", format!("the image goes before 'root=0'{more}")),
        (
            "-",
            format!("the image is mapped, and so cannot be standard input{more}"),
        ),
        ("a.table root=0", format!("eptp=NUMBER is missing{more}")),
        (
            "a.table root=x",
            format!("root takes a number, decimal or with 0x; 'root=x' has none{more}"),
        ),
        (
            "a.table root",
            format!("root takes a number, decimal or with 0x; 'root' has none{more}"),
        ),
        (
            "a.table root=0 root=0",
            format!("root is given twice{more}"),
        ),
        ("a.table cpl=0", format!("walk does not know 'cpl=0'{more}")),
        (
            "/dev/null",
            "'/dev/null' is no regular file, and cannot be mapped\n".to_string(),
        ),
        ("/", "'/' is a folder\n".to_string()),
    ] {
        let run = checkout.sh(&format!("./skuldrefn walk {words}"));
        assert_eq!(
            (run.status, run.said),
            (2, format!("skuldrefn: {due}")),
            "{words}"
        );
    }
    // A pipe would wait for its writer.
    let run = checkout.sh(&format!("mkfifo pipe && ./skuldrefn walk pipe {WORDS}"));
    let due = "skuldrefn: 'pipe' is no regular file, and cannot be mapped\n";
    assert_eq!((run.status, &run.said[..]), (2, due));
    assert!(checkout.calls().is_empty());
}

/// The tables, and then nothing up to 32 GBytes.
#[test]
fn an_image_of_many_gigabytes() {
    let checkout = with_image();
    let run = checkout.sh("truncate -s 32G a.image");
    assert_eq!(run.status, 0, "{}", run.said);
    let start = Instant::now();
    let run = checkout.sh(&format!("./skuldrefn walk a.image {WORDS}"));
    assert_eq!((run.status, &run.out[..], &run.said[..]), (0, DUE, ""));
    assert!(start.elapsed() < Duration::from_secs(5));
    // What was past the image is there now, and 0.
    let words = WORDS.replace("8080604567", "80c0000000");
    let run = checkout.sh(&format!("./skuldrefn walk a.image {words}"));
    let due = "absent: the guest's entry of level 2 at 0x9000; 15 entries read\n";
    assert_eq!((run.status, &run.out[..]), (1, due));
}
