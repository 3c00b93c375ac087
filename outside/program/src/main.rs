//! `program REPLAY EXAMPLES`: runs the replay program on logs and compares what it prints with the
//! independent model, and on the examples with their expected output. The seed of the random logs
//! is printed; a log that fails is printed as bytes.

mod compare;
mod logs;

use common::{LOG_LIMIT, PROGRAM_LINEAR_WIDTH};
use compare::{compare, modelled, printed};
use generate::{events, filling_log, log, Rng};
use logs::{every_kind, full_to_the_byte, wide_kinds, FULL_END, UNKNOWN};
use std::path::Path;
use std::process::ExitCode;
use std::{env, fs};

const SEED: u64 = 20_261_115;

fn run(replay: &str, examples: &Path) -> Result<usize, String> {
    let mut rng = Rng::new(SEED);
    let mut count = 0;
    let mut names: Vec<_> = fs::read_dir(examples)
        .map_err(|e| format!("{}: {e}", examples.display()))?
        .filter_map(|entry| entry.ok().map(|e| e.path()))
        .filter(|path| path.extension().is_some_and(|e| e == "log"))
        .collect();
    names.sort();
    if names.is_empty() {
        return Err(format!("{}: there is no log", examples.display()));
    }
    for path in &names {
        let read = |p: &Path| fs::read(p).map_err(|e| format!("{}: {e}", p.display()));
        compare(
            replay,
            &path.display().to_string(),
            &read(path)?,
            4096,
            &read(&path.with_extension("expected"))?,
        )?;
        count += 1;
    }
    let all = every_kind(&mut rng);
    for end in 0..=all.len() {
        modelled(
            replay,
            "a log with every kind, cut",
            &all[..end],
            1 + end % 7,
        )?;
        count += 1;
    }
    for log in wide_kinds(&mut rng) {
        let name = "a log with a kind of 57-bit addresses";
        compare(replay, name, &log, 4096, UNKNOWN.as_bytes())?;
        modelled(replay, name, &log, 1)?;
        count += 2;
    }
    for length in [0, 1, LOG_LIMIT - 1, LOG_LIMIT, LOG_LIMIT + 1, 70_000] {
        modelled(replay, "a log of resets", &vec![25; length], 4096)?;
        modelled(replay, "a log of random bytes", &rng.bytes(length), 1000)?;
        modelled(replay, "a log that ends early", &vec![0; length], LOG_LIMIT)?;
        let events = log(&mut rng, PROGRAM_LINEAR_WIDTH, length);
        modelled(replay, "a log of events", &events, LOG_LIMIT)?;
        count += 4;
    }
    modelled(
        replay,
        "a log that fills the table",
        &filling_log(&mut rng, PROGRAM_LINEAR_WIDTH),
        LOG_LIMIT,
    )?;
    let full = full_to_the_byte();
    modelled(
        replay,
        "a log that fills the table to the byte",
        &full,
        LOG_LIMIT,
    )?;
    if !String::from_utf8_lossy(&printed(replay, &full, LOG_LIMIT)?).ends_with(FULL_END) {
        return Err(
            "a log that fills the table to the byte ends otherwise than the papers say".to_string(),
        );
    }
    count += 2;
    for _ in 0..60 {
        let length = rng.below(3000);
        let width = PROGRAM_LINEAR_WIDTH;
        modelled(
            replay,
            "a log of events",
            &log(&mut rng, width, length),
            512,
        )?;
        let whole: Vec<u8> = events(&mut rng, width, 60).concat();
        modelled(replay, "a run", &whole, 64)?;
        let wide = log(&mut rng, 57, length);
        modelled(replay, "a log of 57-bit addresses", &wide, 512)?;
        count += 3;
    }
    Ok(count)
}

fn main() -> ExitCode {
    let words: Vec<String> = env::args().collect();
    let [_, replay, examples] = words.as_slice() else {
        eprintln!("usage: program REPLAY EXAMPLES");
        return ExitCode::from(2);
    };
    match run(replay, Path::new(examples)) {
        Ok(count) => {
            println!("program: {count} logs printed as expected (seed {SEED})");
            ExitCode::SUCCESS
        }
        Err(reason) => {
            eprintln!("program: {reason}");
            ExitCode::FAILURE
        }
    }
}
