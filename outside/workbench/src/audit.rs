//! `audit LOG...`: many logs, on all cores, and a table of what was found.

use crate::finder::{sought, watch};
use crate::json::Json;
use crate::log::Log;
use crate::renters::Renters;
use crate::room::NoRoom;
use crate::words::{Settings, Words};
use crate::{print, tell, Failure, Found};
use skuldrefn::LOG_LIMIT;
use std::cmp::Reverse;
use std::collections::BTreeMap;
use std::ffi::OsString;
use std::fs;
use std::io;
use std::panic::{catch_unwind, AssertUnwindSafe};
use std::path::{Path, PathBuf};
use std::sync::atomic::{AtomicUsize, Ordering};
use std::sync::Mutex;
use std::thread;
use std::time::{Duration, Instant};

/// How often it is told how far it is.
const TOLD_EVERY: Duration = Duration::from_secs(1);

/// How often the workers are asked how far they are.
const ASKED_EVERY: Duration = Duration::from_millis(5);

/// What is said of one log.
#[derive(Default)]
struct Outcome {
    log: String,
    events: usize,
    /// How many events were refused with each answer.
    refused: BTreeMap<u64, usize>,
    /// The most mappings that were held at once.
    most: usize,
    /// How many leaks were found; None where nobody says who rents.
    leaks: Option<usize>,
    /// How many stale translations were found; None where it is known who rents.
    stale: Option<usize>,
    /// Why the log was not read, or not to its end, or is too long, or why not all
    /// may be found.
    amiss: Option<String>,
}

impl Outcome {
    fn is_finding(&self) -> bool {
        self.leaks.unwrap_or(0) + self.stale.unwrap_or(0) > 0 || self.amiss.is_some()
    }

    fn refusals(&self) -> usize {
        self.refused.values().sum()
    }

    fn line(&self) -> String {
        let or_dash = |count: Option<usize>| count.map_or("-".to_string(), |n| n.to_string());
        let mut line = format!(
            "{:>7} {:>7} {:>7} {:>7} {:>7}  {}",
            or_dash(self.leaks),
            or_dash(self.stale),
            self.refusals(),
            self.most,
            self.events,
            self.log
        );
        if !self.refused.is_empty() {
            let answers = self.refused.iter();
            let answers = answers.map(|(answer, count)| format!("{answer}: {count}"));
            let answers: Vec<String> = answers.collect();
            line += &format!("; refused with {}", answers.join(", "));
        }
        if let Some(why) = &self.amiss {
            line += &format!("; {why}");
        }
        line + "\n"
    }

    fn json(&self) -> String {
        let or_null = |count: Option<usize>| count.map_or("null".to_string(), |n| n.to_string());
        let refused = self.refused.iter();
        let refused = refused.fold(Json::object(), |object, (answer, count)| {
            object.with(&answer.to_string(), count)
        });
        let json = Json::object()
            .text("log", &self.log)
            .with("leaks", or_null(self.leaks))
            .with("stale", or_null(self.stale))
            .with("refused", refused.end())
            .with("most", self.most)
            .with("events", self.events)
            .text("amiss", self.amiss.as_deref().unwrap_or(""))
            .end();
        format!("{json}\n")
    }
}

pub fn audit(words: &Words) -> Found {
    let logs = logs(&words.logs);
    let any_length = words.flag("--any-length");
    let mut outcomes = on_all_cores(&logs, |log| audit_log(log, &words.settings, any_length));
    outcomes.sort_by_cached_key(|outcome| {
        (
            Reverse(outcome.leaks.unwrap_or(0)),
            Reverse(outcome.amiss.is_some()),
            Reverse(outcome.stale.unwrap_or(0)),
            Reverse(outcome.refusals()),
            outcome.log.clone(),
        )
    });
    let found = outcomes.iter().filter(|outcome| outcome.is_finding());
    let found = found.count();
    if words.flag("--json") {
        let lines: String = outcomes.iter().map(Outcome::json).collect();
        print(&lines)?;
    } else {
        let names = ["leaks", "stale", "refused", "most", "events"];
        let names = names.map(|name| format!("{name:>7}")).join(" ");
        let lines: String = outcomes.iter().map(Outcome::line).collect();
        let count = counted(outcomes.len());
        print(&format!(
            "{names}  log\n{lines}{count}, {found} with findings\n"
        ))?;
    }
    Ok(found > 0)
}

/// So many logs, in words.
fn counted(logs: usize) -> String {
    match logs {
        1 => "1 log".to_string(),
        logs => format!("{logs} logs"),
    }
}

/// The logs that the words name. A folder stands for its files that end in .log; one
/// that has none is handed back itself.
fn logs(words: &[OsString]) -> Vec<PathBuf> {
    let mut logs = Vec::new();
    for word in words {
        let path = Path::new(word);
        let mut own = match path.is_dir() {
            true => logs_in(path).unwrap_or_default(),
            false => Vec::new(),
        };
        if own.is_empty() {
            own.push(path.to_path_buf());
        }
        own.sort();
        logs.extend(own);
    }
    logs
}

/// The files in a folder that end in .log.
fn logs_in(folder: &Path) -> io::Result<Vec<PathBuf>> {
    let mut logs = Vec::new();
    for entry in fs::read_dir(folder)? {
        let file = entry?.path();
        if file.extension().is_some_and(|end| end == "log") && !file.is_dir() {
            logs.push(file);
        }
    }
    Ok(logs)
}

/// Hands each log to a function, on all cores, and tells how far it is.
fn on_all_cores(logs: &[PathBuf], work: impl Fn(&Path) -> Outcome + Sync) -> Vec<Outcome> {
    let count = logs.len();
    let workers = thread::available_parallelism().map_or(1, usize::from);
    let (next, done) = (AtomicUsize::new(0), AtomicUsize::new(0));
    let outcomes = Mutex::new(Vec::with_capacity(count));
    thread::scope(|scope| {
        for _ in 0..workers.min(count) {
            scope.spawn(|| {
                while let Some(log) = logs.get(next.fetch_add(1, Ordering::Relaxed)) {
                    let outcome = work(log);
                    outcomes.lock().expect("no worker panics").push(outcome);
                    done.fetch_add(1, Ordering::Release);
                }
            });
        }
        let mut told = Instant::now();
        loop {
            let so_far = done.load(Ordering::Acquire);
            if so_far == count || told.elapsed() >= TOLD_EVERY {
                tell("audit", &format!("{so_far} of {}", counted(count)));
                told = Instant::now();
            }
            if so_far == count {
                break;
            }
            thread::sleep(ASKED_EVERY);
        }
    });
    outcomes.into_inner().expect("no worker panics")
}

/// Runs one log. Whatever is amiss with it is told, and nothing stops the others.
fn audit_log(path: &Path, settings: &Settings, any_length: bool) -> Outcome {
    let mut outcome = Outcome {
        log: path.display().to_string(),
        ..Outcome::default()
    };
    let run = || run_log(path, settings, any_length, &mut outcome);
    match catch_unwind(AssertUnwindSafe(run)) {
        Ok(Ok(amiss)) => outcome.amiss = amiss,
        Ok(Err(Failure(why))) => outcome.amiss = Some(why),
        Err(_) => outcome.amiss = Some("the run failed".to_string()),
    }
    outcome
}

/// Runs one log; what is amiss with it.
fn run_log(
    path: &Path,
    settings: &Settings,
    any_length: bool,
    outcome: &mut Outcome,
) -> Result<Option<String>, Failure> {
    if path.is_dir() {
        return Ok(Some(match logs_in(path) {
            Ok(_) => "a folder that has no file that ends in .log".to_string(),
            Err(error) => format!("a folder that cannot be read: {error}"),
        }));
    }
    let log = Log::read(path.as_os_str(), settings.linear_width)?;
    let beside = path.with_extension("renters");
    let renters = if path.extension().is_some() && beside.is_file() {
        Some(Renters::read(beside.as_os_str(), &log)?)
    } else {
        None
    };
    let (mut findings, mut no_room) = (0, None);
    let last = watch(
        &log,
        settings,
        renters.as_ref(),
        |run, event, taken, found| {
            outcome.events = event.number;
            outcome.most = outcome.most.max(run.count());
            findings += found.new.len();
            NoRoom::add(&mut no_room, event, taken);
            if taken.answer != 0 {
                *outcome.refused.entry(taken.answer).or_insert(0) += 1;
            }
        },
    );
    let last = last?;
    match renters {
        Some(_) => outcome.leaks = Some(findings),
        None => outcome.stale = Some(findings),
    }
    let amiss = log.amiss(last).map(|why| {
        let name = format!("{}: ", log.name);
        why.strip_prefix(&name).unwrap_or(&why).to_string()
    });
    let length = log.bytes.len();
    let long = (length > LOG_LIMIT && !any_length)
        .then(|| format!("too long: {length} bytes, and replay takes 65,536"));
    let no_room = no_room.map(|own| own.words(sought(renters.as_ref())));
    let all: Vec<String> = [long, no_room, amiss].into_iter().flatten().collect();
    Ok((!all.is_empty()).then(|| all.join("; ")))
}
