//! The program itself: what it writes and says, its images and its exit status.

use generate::Rng;
use model::walk::Ending;
use std::env::temp_dir;
use std::fs::{self, File};
use std::io::{Seek, SeekFrom, Write};
use std::path::{Path, PathBuf};
use std::process::{id, Command, Output, Stdio};
use std::time::{Duration, Instant};

const SEED: u64 = 13;

/// A file that is removed in the end.
struct Image(PathBuf);

impl Image {
    fn new(name: &str, bytes: &[u8]) -> Image {
        let image = Image(temp_dir().join(format!("skuldrefn-walk-{}-{name}", id())));
        fs::write(&image.0, bytes).expect("a file");
        image
    }

    fn name(&self) -> &str {
        self.0.to_str().expect("a name")
    }
}

impl Drop for Image {
    fn drop(&mut self) {
        let _ = fs::remove_file(&self.0);
    }
}

fn run(words: &[&str]) -> Output {
    let mut command = Command::new(env!("CARGO_BIN_EXE_walk"));
    command.args(words).output().expect("the program starts")
}

fn out(output: &Output) -> &str {
    std::str::from_utf8(&output.stdout).expect("text")
}

fn said(output: &Output) -> &str {
    std::str::from_utf8(&output.stderr).expect("text")
}

/// What the program prints for an image and the words after it, and its status.
fn printed(image: &Path, words: &[&str]) -> (i32, String) {
    let words = [&[image.to_str().expect("a name")], words].concat();
    let output = run(&words);
    assert_eq!(said(&output), "", "{words:?}");
    let status = output.status.code().expect("a status");
    (status, out(&output).to_string())
}

/// One entry that points at itself, for all levels.
const SELF: [u8; 8] = [7, 0, 0, 0, 0, 0, 0, 0];

#[test]
fn numbers_and_their_order() {
    let image = Image::new("order", &SELF);
    let due = "combined vpid=0x10 pcid=0x0 global=0x0 span=0x0 page=0x0 frame=0x0 ep4ta=0x0\n\
               03 10 00 00 00 00 00 00 00 00 00 00 00 00 00 00 00 00 00 00 00 00\n\
               24 entries read\n";
    for words in [
        &["root=0x0", "eptp=0x1e", "vpid=0x10", "address=0x567"][..],
        &["root=0", "eptp=30", "vpid=16", "address=1383"],
        &["address=1383", "vpid=16", "eptp=30", "root=4095"],
        &[
            "pcid=0",
            "width=36",
            "root=0",
            "eptp=0x18",
            "vpid=16",
            "address=0",
        ],
        // Write-back and walks of four levels are all that this EPTP needs.
        &[
            "capability=0x4040",
            "root=0",
            "eptp=0x1e",
            "vpid=16",
            "address=0",
        ],
    ] {
        assert_eq!(printed(&image.0, words), (0, due.to_string()), "{words:?}");
    }
    let words = [
        "root=0",
        "eptp=0x1e",
        "vpid=65535",
        "address=0",
        "pcid=4095",
    ];
    let (status, text) = printed(&image.0, &words);
    assert_eq!(status, 0);
    assert!(
        text.starts_with("combined vpid=0xffff pcid=0xfff "),
        "{text}"
    );
    assert!(text.contains("\n03 ff ff ff 0f 00 00 "), "{text}");
}

/// Each ground in words.
#[test]
fn grounds() {
    let image = Image::new("grounds", &SELF);
    let good = ["root=0", "eptp=0x1e", "vpid=5", "address=0"];
    for (place, word, due) in [
        (0, "root=0x1000000000000", "too high: guest-physical address 0x1000000000000 for the guest's entry of level 4 is 2^48 or more; 0 entries read"),
        (0, "root=0xfffffffffffff", "too high: guest-physical address 0xffffffffff000 for the guest's entry of level 4 is 2^48 or more; 0 entries read"),
        (1, "eptp=0x1f", "bad EPTP: rule 1, the memory type, bits 2:0, is none that the capability has; 0 entries read"),
        (1, "eptp=0x16", "bad EPTP: rule 2, bits 5:3 are not 3, or the capability lacks the walk of four levels; 0 entries read"),
        (1, "eptp=0x81e", "bad EPTP: rule 4, bits 11:7 are not 0; 0 entries read"),
        (1, "eptp=0x1000000000001e", "bad EPTP: rule 5, bits from the physical width on are not 0; 0 entries read"),
        (1, "eptp=0x101e", "outside the image: EPT entry of level 4 at 0x1000, on the way to the guest's entry of level 4; 0 entries read"),
        (3, "address=0x800000000000", "not canonical: bits 63:47 of the address 0x800000000000 are not all equal; 0 entries read"),
        // The second entry of the table is past the image: as the guest's, and for a root of page 1 as EPT's.
        (3, "address=0x1000", "outside the image: the guest's entry of level 1 at 0x8; 19 entries read"),
        (0, "root=0x1000", "outside the image: EPT entry of level 1 at 0x8, on the way to the guest's entry of level 4; 3 entries read"),
    ] {
        let mut words = good;
        words[place] = word;
        assert_eq!(printed(&image.0, &words), (1, format!("{due}\n")), "{word}");
    }
    for (word, due) in [
        ("pcid=4096", "context out of range: a PCID is at most 4095, not 4096; 0 entries read"),
        ("width=35", "context out of range: the width is 36 to 52, not 35; 0 entries read"),
        ("width=53", "context out of range: the width is 36 to 52, not 53; 0 entries read"),
        ("capability=0x4000", "bad EPTP: rule 2, bits 5:3 are not 3, or the capability lacks the walk of four levels; 0 entries read"),
    ] {
        let words = [&good[..], &[word]].concat();
        assert_eq!(printed(&image.0, &words), (1, format!("{due}\n")), "{word}");
    }
    let words = [
        "root=0",
        "eptp=0x5e",
        "vpid=5",
        "address=0",
        "capability=0x4040",
    ];
    let due = "bad EPTP: rule 3, bit 6 is set, and the capability lacks accessed and dirty flags; \
               0 entries read\n";
    assert_eq!(printed(&image.0, &words), (1, due.to_string()));
    fs::write(&image.0, [0; 8]).expect("a file");
    let due = "absent: EPT entry of level 4 at 0x0, on the way to the guest's entry of level 4; \
               1 entry read\n";
    assert_eq!(printed(&image.0, &good), (1, due.to_string()));
}

#[test]
fn an_empty_image() {
    let image = Image::new("empty", &[]);
    let words = ["root=0", "eptp=0x1e", "vpid=5", "address=0"];
    let due = "outside the image: EPT entry of level 4 at 0x0, \
               on the way to the guest's entry of level 4; 0 entries read\n";
    assert_eq!(printed(&image.0, &words), (1, due.to_string()));
}

/// 64 GBytes, of which two entries are on the disk: one at the very end.
#[test]
fn a_sparse_image_starts_at_once() {
    let image = Image::new("sparse", &[]);
    let mut file = File::options().write(true).open(&image.0).expect("a file");
    file.set_len(64 << 30).expect("a sparse file");
    // The last entry of the last page points at that page.
    let last = (64 << 30) - 8;
    file.seek(SeekFrom::Start(last)).expect("its end");
    file.write_all(&0xF_FFFF_F007_u64.to_le_bytes())
        .expect("an entry");
    let words = [
        "root=0xfffffffff000",
        "eptp=0xffffff01e",
        "vpid=5",
        "address=0xffffffffffffffff",
    ];
    let start = Instant::now();
    // EPT and the guest's level 4 take the last entry; the next guest-physical
    // address, 0xffffffff8, takes the first.
    let due = "absent: EPT entry of level 4 at 0xffffff000, \
               on the way to the guest's entry of level 3; 6 entries read\n";
    assert_eq!(printed(&image.0, &words), (1, due.to_string()));
    assert!(start.elapsed() < Duration::from_secs(5));
}

#[test]
fn images_that_cannot_be_mapped() {
    let words = ["root=0", "eptp=0x1e", "vpid=5", "address=0"];
    let pipe = temp_dir().join(format!("skuldrefn-walk-{}-pipe", id()));
    let made = Command::new("mkfifo").arg(&pipe).status().expect("mkfifo");
    assert!(made.success());
    let pipe = Image(pipe);
    for (name, due) in [
        (pipe.name(), "is no regular file, and cannot be mapped"),
        ("/dev/zero", "is no regular file, and cannot be mapped"),
        (env!("CARGO_MANIFEST_DIR"), "is a folder"),
        ("/nowhere/image", "cannot be read: "),
    ] {
        let output = run(&[&[name], &words[..]].concat());
        assert_eq!((output.status.code(), out(&output)), (Some(2), ""));
        let due = format!("walk: {name} {due}");
        assert!(said(&output).starts_with(&due), "{}", said(&output));
    }
}

#[test]
fn words_that_are_not_taken() {
    let image = Image::new("words", &SELF);
    let name = image.name();
    let good = ["root=0", "eptp=0x1e", "vpid=5", "address=0"];
    let without = |place: usize| {
        let mut words = vec![name];
        words.extend(
            good.iter()
                .enumerate()
                .filter(|(own, _)| *own != place)
                .map(|(_, word)| word),
        );
        words
    };
    let with = |word: &'static str| [&[name], &good[..], &[word]].concat();
    let instead = |place: usize, word: &'static str| {
        let mut words = [&[name], &good[..]].concat();
        words[place + 1] = word;
        words
    };
    for (words, due) in [
        (vec![], "the image is missing"),
        (vec!["--"], "the image is missing"),
        (good.to_vec(), "the image goes before \"root=0\""),
        (vec!["-x"], "no option \"-x\""),
        (
            vec!["-"],
            "the image is mapped, and so cannot be standard input",
        ),
        (vec![name], "vpid=NUMBER is missing"),
        (without(0), "root=NUMBER is missing"),
        (without(1), "eptp=NUMBER is missing"),
        (without(2), "vpid=NUMBER is missing"),
        (without(3), "address=NUMBER is missing"),
        (with("root=0"), "root is given twice"),
        (with("linear-width=57"), "no word \"linear-width=57\""),
        (with("Root=0"), "no word \"Root=0\""),
        (with("x"), "no word \"x\""),
        (with("pcid"), "pcid takes a number"),
        (with("pcid="), "pcid takes a number"),
        (with("pcid=0x"), "pcid takes a number"),
        (with("pcid=1f"), "pcid takes a number"),
        (with("pcid=+1"), "pcid takes a number"),
        (with("pcid=-1"), "pcid takes a number"),
        (with("pcid=0x+1"), "pcid takes a number"),
        (with("pcid= 1"), "pcid takes a number"),
        (with("pcid=1=1"), "pcid takes a number"),
        (
            with("capability=0x10000000000000000"),
            "capability takes a number below 2^64",
        ),
        (
            instead(3, "address=18446744073709551616"),
            "address takes a number below 2^64",
        ),
        (instead(2, "vpid=65536"), "vpid is at most 65535, not 65536"),
    ] {
        let output = run(&words);
        assert_eq!(
            (output.status.code(), out(&output)),
            (Some(2), ""),
            "{words:?}"
        );
        assert!(
            said(&output).starts_with(&format!("walk: {due}")),
            "{}",
            said(&output)
        );
        assert!(said(&output).contains("\nusage: "), "{}", said(&output));
    }
    let words = [&["--", name], &good[..]].concat();
    assert_eq!(run(&words).status.code(), Some(0));
    for word in ["help", "--help", "-h"] {
        let output = run(&[word]);
        assert!(output.status.success());
        assert!(out(&output).starts_with("usage: "));
        assert!(out(&output).contains(&format!("capability {:#x}", model::PROGRAM_CAPABILITY)));
    }
}

#[test]
fn an_output_that_cannot_be_written() {
    let image = Image::new("full", &SELF);
    let full = File::options().write(true).open("/dev/full");
    let output = Command::new(env!("CARGO_BIN_EXE_walk"))
        .args([image.name(), "root=0", "eptp=0x1e", "vpid=5", "address=0"])
        .stdout(full.expect("/dev/full"))
        .stderr(Stdio::piped())
        .spawn()
        .and_then(|child| child.wait_with_output())
        .expect("the program ends");
    assert_eq!(output.status.code(), Some(1));
    assert!(said(&output).starts_with("walk: standard output cannot be written: "));
}

/// The numbers of each walk are the model's.
#[test]
fn against_the_model() {
    println!("seed {SEED}");
    let mut rng = Rng::new(SEED);
    let mut reached = [0; 2];
    let image = Image::new("random", &[]);
    for _ in 0..400 {
        let case = generate::walk(&mut rng);
        let context = model::Context {
            capability: case.context.capability,
            width: case.context.width,
            pcid: case.context.pcid,
            ..model::Context::program()
        };
        let (root, eptp, address) = (case.root, case.eptp, case.address);
        let due = model::walk(&context, &case.image, root, eptp, case.vpid, address);
        fs::write(&image.0, &case.image).expect("a file");
        let words = [
            format!("root={root}"),
            format!("eptp={eptp:#x}"),
            format!("vpid={}", case.vpid),
            format!("address={address:#x}"),
            format!("pcid={}", context.pcid),
            format!("capability={:#x}", context.capability),
            format!("width={}", context.width),
        ];
        let words: Vec<&str> = words.iter().map(String::as_str).collect();
        let (status, text) = printed(&image.0, &words);
        let read = match due.read {
            1 => "1 entry read".to_string(),
            read => format!("{read} entries read"),
        };
        let text = text
            .strip_suffix(&format!("{read}\n"))
            .expect("the entries");
        let at = match due.ending {
            Ending::Translated(record) => {
                assert_eq!(status, 0);
                let lines: Vec<&str> = text.lines().collect();
                assert_eq!(convert::assemble(lines[0].as_bytes()), Ok(record.to_vec()));
                assert_eq!(lines[1..], [generate::hex(&record)]);
                reached[0] += 1;
                continue;
            }
            Ending::ContextOutOfRange => ("context out of range: ", None),
            Ending::BadEptp(_) => ("bad EPTP: ", None),
            Ending::NotCanonical => ("not canonical: ", None),
            Ending::Absent(at) => ("absent: ", Some(at)),
            Ending::TooHigh(at) => ("too high: ", Some(at)),
            Ending::Outside(at) => ("outside the image: ", Some(at)),
        };
        reached[1] += 1;
        assert!(status == 1 && text.starts_with(at.0), "{text}");
        if let Some(at) = at.1 {
            assert!(text.contains(&format!(" {:#x}", at.address)), "{text}");
            let goal = match at.guest_level {
                0 => "the final page".to_string(),
                level => format!("the guest's entry of level {level}"),
            };
            assert!(text.contains(&goal), "{text}");
            let ept = format!("EPT entry of level {}", at.ept_level);
            assert_eq!(text.contains(&ept), at.ept_level > 0, "{text}");
        }
    }
    println!("translations and grounds: {reached:?}");
    assert!(reached.iter().all(|count| *count > 80));
}
