//! `mutants [COUNT [SEED]]`: changes one token of a definition at a time, by a seed, and lists the changes that
//! no card, law or theorem refuses. It runs at the top of the repository.
//!
//! It works on copies below target/mutants, one for each core, that have no code, so that the proof of a
//! function refuses nothing. They go in the end, since rt ci refuses a checkout with copies in it. A change that
//! leaves the meaning as it was is listed in `equivalent.txt` with the reason.

mod change;
mod equivalent;
mod tree;

use change::{changed, changes, Change};
use equivalent::Equivalents;
use generate::Rng;
use std::collections::BTreeMap;
use std::fmt::Arguments;
use std::io::{self, Write};
use std::path::Path;
use std::process::ExitCode;
use std::sync::mpsc::{channel, Sender};
use std::sync::Mutex;
use std::thread::{available_parallelism, scope};
use std::time::{SystemTime, UNIX_EPOCH};
use std::{env, fs};
use tree::{Definitions, Tree};

/// Where the copies stand, below the top folder.
const COPIES: &str = "target/mutants";

/// Tries without an argument.
const DEFAULT_COUNT: u64 = 300;

const USAGE: &str = "\
usage: mutants [COUNT [SEED]]
Changes one token of a definition at a time, COUNT times (300 if not given),
by a seed (else from the clock), and lists what no card, law or theorem
refuses. Exit status 0 if every change was refused or leaves the meaning as it
was, 1 if not or if the output cannot be written, 2 for what could not be done.";

/// What stands in the way of an answer: the output, or anything else.
enum Stop {
    Output(io::Error),
    Other(io::Error),
}

fn main() -> ExitCode {
    let words: Vec<String> = env::args().skip(1).collect();
    let numbers: Option<Vec<u64>> = words.iter().map(|word| number(word)).collect();
    let (count, seed) = match numbers.as_deref() {
        Some([]) => (DEFAULT_COUNT, clock()),
        Some([count]) => (*count, clock()),
        Some([count, seed]) => (*count, *seed),
        _ => {
            tell(format_args!("{USAGE}"));
            return ExitCode::from(2);
        }
    };
    let left = run(count, seed);
    let left = removed().map_err(Stop::Other).and(left);
    match left {
        Ok(0) => ExitCode::SUCCESS,
        Ok(_) => ExitCode::FAILURE,
        Err(Stop::Output(error)) => {
            tell(format_args!(
                "mutants: standard output cannot be written: {error}"
            ));
            ExitCode::FAILURE
        }
        Err(Stop::Other(error)) => {
            tell(format_args!("mutants: {error}"));
            ExitCode::from(2)
        }
    }
}

/// A line on standard output.
fn print(line: Arguments) -> Result<(), Stop> {
    writeln!(io::stdout(), "{line}").map_err(Stop::Output)
}

/// A line on standard error; if that is gone there is nobody left to tell.
fn tell(line: Arguments) {
    let _ = writeln!(io::stderr(), "{line}");
}

/// A decimal number, or a hexadecimal one with 0x.
fn number(word: &str) -> Option<u64> {
    match word.strip_prefix("0x") {
        Some(digits) => u64::from_str_radix(digits, 16).ok(),
        None => word.parse().ok(),
    }
}

fn clock() -> u64 {
    let since = SystemTime::now().duration_since(UNIX_EPOCH);
    since.map_or(1, |time| time.as_secs())
}

/// A change of a file of definitions.
struct Try {
    definitions: Definitions,
    change: Change,
    /// The line in which it stands.
    line: String,
}

impl Try {
    fn place(&self) -> String {
        let new = match &self.change.new[..] {
            "" => "nothing",
            new => new,
        };
        format!(
            "{}:{}:{}: {} made {new}",
            self.definitions.name,
            self.change.line,
            self.change.column + 1,
            self.change.old,
        )
    }
}

/// What became of a try: the crate that refused it, if one did.
type Outcome = (Try, io::Result<Option<String>>);

/// Tries the changes and prints each that nothing refused; answers how many those are, but for those that leave
/// the meaning as it was.
fn run(count: u64, seed: u64) -> Result<usize, Stop> {
    print(format_args!("seed {seed}"))?;
    let workers = available_parallelism().map_or(1, usize::from);
    let trees = trees(workers).map_err(Stop::Other)?;
    let mut all = all_tries(&trees[0]).map_err(Stop::Other)?;
    let equivalents = Equivalents::read(&all).map_err(Stop::Other)?;
    let count = usize::try_from(count).map_or(all.len(), |count| count.min(all.len()));
    print(format_args!(
        "{} changes can be made; {count} are tried",
        all.len()
    ))?;
    let mut rng = Rng::new(seed);
    let drawn: Vec<Try> = (0..count)
        .map(|_| all.swap_remove(rng.below(all.len())))
        .collect();
    let queue = Mutex::new(drawn);
    let mut tally = Tally::new(count, equivalents);
    scope(|threads| {
        let (sender, outcomes) = channel();
        for tree in &trees {
            let (queue, sender) = (&queue, sender.clone());
            threads.spawn(move || work(tree, queue, sender));
        }
        drop(sender);
        for outcome in outcomes {
            if let Err(stop) = tally.take(outcome) {
                // The others end with what they are at.
                queue.lock().expect("no worker panics").clear();
                return Err(stop);
            }
        }
        tally.end()
    })
}

/// Removes the copies, if there are any.
fn removed() -> io::Result<()> {
    match fs::remove_dir_all(COPIES) {
        Err(error) if error.kind() != io::ErrorKind::NotFound => Err(error),
        _ => Ok(()),
    }
}

/// A copy for each worker; the first is proved as it stands.
fn trees(workers: usize) -> io::Result<Vec<Tree>> {
    removed()?;
    let top = Path::new(COPIES);
    let copies = (1..=workers).map(|n| Tree::copied(Path::new("."), &top.join(n.to_string())));
    let trees: Vec<Tree> = copies.collect::<io::Result<_>>()?;
    match trees[0].refusing_from_the_lowest()? {
        None => Ok(trees),
        Some(name) => Err(io::Error::other(format!(
            "without a change the crate {name} is refused"
        ))),
    }
}

fn all_tries(tree: &Tree) -> io::Result<Vec<Try>> {
    let mut tries = Vec::new();
    for definitions in tree.definitions()? {
        let text = fs::read_to_string(tree.path(&definitions))?;
        let lines: Vec<&str> = text.lines().collect();
        tries.extend(changes(&text).into_iter().map(|change| Try {
            line: lines[change.line - 1].trim().to_string(),
            definitions: definitions.clone(),
            change,
        }));
    }
    Ok(tries)
}

/// Tries what is left in the queue, until nobody listens.
fn work(tree: &Tree, queue: &Mutex<Vec<Try>>, outcomes: Sender<Outcome>) {
    loop {
        let next = queue.lock().expect("no worker panics").pop();
        let Some(next) = next else { return };
        let refusing = attempt(tree, &next);
        if outcomes.send((next, refusing)).is_err() {
            return;
        }
    }
}

/// The crate that refuses the change; the file is put back as it was.
fn attempt(tree: &Tree, next: &Try) -> io::Result<Option<String>> {
    let file = tree.path(&next.definitions);
    let saved = fs::read_to_string(&file)?;
    fs::write(&file, changed(&saved, &next.change))?;
    let refusing = tree.refusing(&next.definitions.crate_name);
    fs::write(&file, saved)?;
    refusing
}

/// What has been found so far.
struct Tally {
    count: usize,
    equivalents: Equivalents,
    tried: usize,
    refused: BTreeMap<String, usize>,
    same: usize,
    left: usize,
}

impl Tally {
    fn new(count: usize, equivalents: Equivalents) -> Tally {
        Tally {
            count,
            equivalents,
            tried: 0,
            refused: BTreeMap::new(),
            same: 0,
            left: 0,
        }
    }

    fn take(&mut self, (next, refusing): Outcome) -> Result<(), Stop> {
        self.tried += 1;
        let place = next.place();
        let so_far = format!("{} of {}", self.tried, self.count);
        match refusing.map_err(Stop::Other)? {
            Some(name) => {
                tell(format_args!("{so_far}: {name} refuses {place}"));
                *self.refused.entry(name).or_default() += 1;
            }
            None => match self.equivalents.reason(&next) {
                Some(reason) => {
                    print(format_args!("the same: {place}: {reason}"))?;
                    self.same += 1;
                }
                None => {
                    print(format_args!("nothing refuses {place}"))?;
                    self.left += 1;
                }
            },
        }
        Ok(())
    }

    fn end(&self) -> Result<usize, Stop> {
        for (name, count) in &self.refused {
            print(format_args!("{count} refused by {name}"))?;
        }
        print(format_args!("{} leave the meaning as it was", self.same))?;
        print(format_args!("{} refused by nothing", self.left))?;
        Ok(self.left)
    }
}
