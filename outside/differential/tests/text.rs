//! A printed case is read back, and the program compares it again.

use differential::rows::Way;
use differential::{draw, parse, sweep, Case};
use generate::{Rng, SparseTally};
use std::io::Write;
use std::process::{Command, Output, Stdio};

fn cases() -> Vec<Case> {
    let mut rng = Rng::new(5);
    let mut cases = Vec::new();
    for _ in 0..50 {
        cases.push(Case::Step(draw::step(&mut rng)));
        cases.push(Case::Count(draw::count(&mut rng)));
        cases.push(Case::Lookup(draw::lookup(&mut rng)));
        cases.push(Case::Explain(draw::explain(&mut rng)));
        cases.push(Case::Claim(draw::claim(&mut rng)));
        cases.push(Case::Run(draw::run(&mut rng, 30)));
        cases.push(Case::Replay(draw::replay(&mut rng, 300)));
        cases.push(Case::Level(draw::level(&mut rng)));
        cases.push(Case::LevelLookup(draw::level_lookup(&mut rng)));
        cases.push(Case::LevelRun(draw::level_run(&mut rng, 20)));
        cases.push(Case::Take(draw::take(&mut rng)));
        cases.push(Case::Stream(draw::stream(&mut rng, 300)));
        cases.push(Case::Rows(draw::rows(&mut rng, Way::Export)));
        cases.push(Case::Rows(draw::rows(&mut rng, Way::Import)));
        cases.push(Case::Widen(draw::widen(&mut rng)));
        cases.push(Case::Walk(draw::walk(&mut rng)));
    }
    cases
}

#[test]
fn there_and_back() {
    for case in cases() {
        let text = format!("seed 1\n\n{case}\n\nDIFFERENT: this and that\n");
        assert_eq!(parse(&text), Ok(case));
    }
}

/// Tallies wrong in every way, and one with every count as large as can be.
#[test]
fn wrong_tallies_there_and_back() {
    let mut rng = Rng::new(6);
    let mut cases = sweep::near_counts(&mut rng);
    let mut largest = cases[0].clone();
    largest.tally = SparseTally {
        kinds: [[u16::MAX; 5]; 6],
        length: 5_000,
        pcids: (0..5_000).map(|pcid| (pcid, u16::MAX)).collect(),
    };
    cases.push(largest);
    assert!(cases.len() > 150);
    for case in cases.into_iter().map(Case::Step) {
        assert_eq!(parse(&case.to_string()), Ok(case));
    }
}

#[test]
fn damaged_tallies_are_errors() {
    let case = draw::step(&mut Rng::new(7));
    let text = case.to_string();
    let line = |name: &str| {
        let lines = text.lines().filter(|line| line.starts_with(name));
        lines.map(str::to_string).next().expect("a line")
    };
    let (kinds, pcids) = (line("kinds "), line("pcids "));
    for (old, new) in [
        (&kinds, format!("{kinds} 0x0")),
        (&kinds, kinds.replacen(" 0x", " 0x10000", 1)),
        (&kinds, "kinds 0x0".to_string()),
        (&pcids, "pcids".to_string()),
        (&pcids, "pcids 0x1000 0x1".to_string()),
        (&pcids, "pcids 0x1000 0x1000 0x1".to_string()),
        (&pcids, "pcids 0x1000 0x1 0x10000".to_string()),
        (&pcids, "pcids 0x200000000".to_string()),
    ] {
        assert!(parse(&text.replace(old, &new)).is_err(), "{new}");
    }
    let empty = text.replace(&pcids, "pcids 0x1000");
    assert!(parse(&empty).is_ok());
}

#[test]
fn damaged_texts_are_errors() {
    for case in cases() {
        let text = case.to_string();
        let cut = text.rsplit_once('\n').map_or("", |(before, _)| before);
        assert!(parse(cut).is_err());
    }
    for text in ["", "case", "case walk", "case fly", "case step\ncontext 1"] {
        assert!(parse(text).is_err());
    }
}

fn fuzz(words: &[&str], input: &str) -> Output {
    let mut child = Command::new(env!("CARGO_BIN_EXE_fuzz"))
        .args(words)
        .stdin(Stdio::piped())
        .stdout(Stdio::piped())
        .stderr(Stdio::piped())
        .spawn()
        .expect("fuzz starts");
    let mut stdin = child.stdin.take().expect("a pipe");
    // A program that does not read its input may have closed it.
    let _ = stdin.write_all(input.as_bytes());
    drop(stdin);
    child.wait_with_output().expect("fuzz ends")
}

#[test]
fn the_program_compares_a_case_again() {
    for case in cases().iter().take(32) {
        let output = fuzz(&["--case", "-"], &case.to_string());
        assert_eq!(output.status.code(), Some(0));
        assert_eq!(output.stdout, b"no difference\n");
    }
}

#[test]
fn the_program_takes_a_count_and_a_seed() {
    let output = fuzz(&["1", "0x7"], "");
    assert_eq!(output.status.code(), Some(0));
    assert!(output.stdout.starts_with(b"seed 7\n"));
    assert!(output.stdout.ends_with(b"1 rounds, no difference\n"));
}

#[test]
fn wrong_words_are_errors() {
    for words in [
        &["many"][..],
        &["1", "x"],
        &["1", "2", "3"],
        &["--case", "/nowhere"],
        &["--case", "-"],
    ] {
        assert_eq!(fuzz(words, "").status.code(), Some(2), "{words:?}");
    }
}
