//! The files of the cards, and the program that writes them and sees that they are as written.

use std::env::temp_dir;
use std::fs;
use std::path::Path;
use std::process::{id, Command};
use tools::{cards, crates, form};

/// The first card and the first lookup, put together by hand.
#[test]
fn the_form_of_a_card() {
    let files = form::files();
    let name = b"A, G; INVVPID 1, VPID 5";
    let mut due = vec![name.len() as u8, 34, 0, 0];
    for number in [0x0F01_0630_4140u64, 52, 48, 0, 0, 1, 0, 0, 0] {
        due.extend(number.to_le_bytes());
    }
    due.extend([25, 0]);
    due.extend(name);
    assert_eq!(files.stdin[..due.len()], due);
    let rest = &files.stdin[due.len()..];
    let event = [&[16, 1, 0, 0, 0, 0, 0, 0, 0, 5][..], &[0; 15]].concat();
    assert_eq!(rest[34..34 + 25], event);
    assert!(files.stdout.starts_with(
        "A, G; INVVPID 1, VPID 5: 0 0 1 17 16497073209664 52 48 0 0 1 0 0 0 \
         0267452301000010000000002000000000eeeeeeee"
    ));
    let lookup = "\nA at 12345678h: 0 0 17 010500010000004523010000debc0a0000\n";
    assert!(files.stdout.contains(lookup));
    assert!(files.stdout.contains("\nwhy: reset: 10 0 0 \n"));
}

/// The first step beside a tally and the first fresh count that is refused, put together by hand.
#[test]
fn the_form_of_a_tally() {
    let files = form::files();
    let name = b"tally: A, G; INVVPID 1, VPID 5";
    let mut due = vec![name.len() as u8, 34, 0, 5];
    for number in [0x0F01_0630_4140u64, 52, 48, 0, 0, 1, 0, 0, 0] {
        due.extend(number.to_le_bytes());
    }
    due.extend([101, 0]);
    due.extend(name);
    let at = files
        .stdin
        .windows(due.len())
        .position(|bytes| bytes == due);
    let extra = &files.stdin[at.expect("the card") + due.len() + 34..];
    let mut counts = [0; 60];
    counts[0] = 1;
    counts[10] = 1;
    assert_eq!(extra[..60], counts);
    let pcids = [0, 0, 0, 0, 1, 0, 1, 0, 2, 0, 0, 0, 0xFF, 0x0F, 0, 0];
    assert_eq!(extra[60..76], pcids);
    assert_eq!(extra[76..78], [16, 1]);
    assert!(files.stdout.contains(
        "\ntally: A, G; INVVPID 1, VPID 5: 0 0 1 17 16497073209664 52 48 0 0 1 0 0 0 \
         0 0 0 0 0 1 0 0 0 0 0 0 0 0 0 0 0 0 0 0 0 0 0 0 0 0 0 0 0 0 0 0 0 0 0 \
         0267452301000010000000002000000000eeeeeeee"
    ));

    let name = b"count: 4,095 lent";
    let mut due = vec![name.len() as u8, 17, 0, 6];
    for number in [0u64, 0, 48, 0, 0, 0, 0, 0, 0] {
        due.extend(number.to_le_bytes());
    }
    due.extend([10, 0]);
    due.extend(name);
    let at = files
        .stdin
        .windows(due.len())
        .position(|bytes| bytes == due);
    let extra = &files.stdin[at.expect("the card") + due.len() + 17..];
    assert_eq!(extra[..10], [0, 0, 1, 0, 2, 0, 0xFF, 0x0F, 0xFF, 0x0F]);
    assert!(files.stdout.contains(
        "\ncount: 4,095 lent: 13 \
         0 0 0 0 0 0 0 0 0 0 0 0 0 0 0 0 0 0 0 0 0 0 0 0 0 0 0 0 0 0 7 7 7 7 28672 \n"
    ));
}

/// Every answer and every reason has a card, and no two cards share a name.
#[test]
fn all_answers_and_reasons() {
    let steps = cards::steps();
    for answer in 0..=12 {
        assert!(steps.iter().any(|step| step.answer == answer), "{answer}");
    }
    let counted = cards::counted_steps();
    for answer in 0..=13 {
        let has = counted.iter().any(|own| own.step.answer == answer);
        assert!(has, "{answer} beside a tally");
    }
    let counts = cards::counts();
    for answer in [0, 2, 3, 13] {
        let has = counts.iter().any(|count| count.answer == answer);
        assert!(has, "{answer} to a fresh count");
    }
    let reasons = cards::reasons();
    for reason in 1..=10 {
        assert!(reasons.iter().any(|own| own.reason == reason), "{reason}");
    }
    let mut names: Vec<&str> = steps.iter().map(|step| step.name).collect();
    names.extend(cards::lookups().iter().map(|lookup| lookup.name));
    names.extend(counted.iter().map(|own| own.step.name));
    names.extend(counts.iter().map(|count| count.name));
    names.extend(reasons.iter().map(|reason| reason.name));
    names.extend(cards::widenings().iter().map(|widening| widening.name));
    let count = names.len();
    names.sort_unstable();
    names.dedup();
    assert_eq!(names.len(), count);
    assert!(names.iter().all(|name| name.len() <= 255));
}

/// A refused step leaves the tally. Before and after an accepted one as many records are counted by PCID
/// as by kind, those of kinds 2 and 5 left out, and what is created and dropped is the difference.
#[test]
fn tallies_of_cards() {
    for counted in cards::counted_steps() {
        let step = &counted.step;
        let total = |tally: &cards::Tally| tally.kinds.iter().flatten().sum::<u64>();
        let by_pcid =
            |tally: &cards::Tally| tally.pcids.iter().map(|(_, count)| count).sum::<u64>();
        let physical = |tally: &cards::Tally| {
            let [_, second, _, _, fifth, _] = &tally.kinds;
            second.iter().chain(fifth).sum::<u64>()
        };
        if step.answer != 0 {
            assert_eq!(counted.given.kinds, counted.left.kinds, "{}", step.name);
            assert_eq!(counted.given.pcids, counted.left.pcids, "{}", step.name);
            assert_eq!((step.dropped, step.new.len()), (0, 0), "{}", step.name);
            continue;
        }
        for tally in [&counted.given, &counted.left] {
            assert_eq!(
                total(tally) - physical(tally),
                by_pcid(tally),
                "{}",
                step.name
            );
        }
        let created = u64::from((1..=10).contains(&step.event[0]));
        assert_eq!(
            total(&counted.left) + step.dropped,
            total(&counted.given) + created,
            "{}",
            step.name
        );
    }
}

fn run(word: &str, top: &Path) -> Option<i32> {
    let program = Command::new(env!("CARGO_BIN_EXE_tools"))
        .args([word.as_ref(), top.as_os_str()])
        .output()
        .expect("tools starts");
    program.status.code()
}

#[test]
fn written_and_changed() {
    let top = temp_dir().join(format!("skuldrefn-{}-cards", id()));
    let folder = top.join("crates/cards");
    fs::create_dir_all(&folder).expect("a folder");
    assert_eq!(run("write-cards", &top), Some(0));
    assert_eq!(run("cards", &top), Some(0));
    let stdout = folder.join("stdout");
    let text = fs::read_to_string(&stdout).expect("the lines");
    fs::write(&stdout, text.replace("why: reset: 10 0", "why: reset: 9 0")).expect("a change");
    assert_eq!(run("cards", &top), Some(1));
    fs::remove_dir_all(&top).expect("it can be removed");
}

#[test]
fn crates_without_a_sentence() {
    let good = "# All.\n\n# The first,\n# of two lines.\none:\n# The second.\ntwo: one\n";
    assert_eq!(crates::amiss(good), [""; 0]);
    let due = ["crates.txt: two has no sentence above it"];
    assert_eq!(crates::amiss(&good.replace("# The second.\n", "")), due);
    assert_eq!(
        crates::amiss(&good.replace("# The second.", "# The second")),
        due
    );
    assert_eq!(
        crates::amiss(&good.replace("# The second.", "# The second.\n")),
        due
    );
}
