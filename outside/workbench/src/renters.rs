//! Who comes in with which VM entry.

use crate::log::{input, Log};
use crate::words::{number, Words};
use crate::Failure;
use std::collections::{BTreeMap, BTreeSet};
use std::ffi::OsStr;

/// The renters of a log.
pub struct Renters {
    /// What the file is called.
    file: String,
    names: Vec<String>,
    /// The place in `names` of who comes in, by the number of the VM entry.
    entries: BTreeMap<usize, usize>,
}

impl Renters {
    /// Those that the words name a file of.
    pub fn given(words: &Words, log: &Log) -> Result<Option<Renters>, Failure> {
        let file = words.value("renters");
        file.map(|file| Renters::read(file, log)).transpose()
    }

    /// Reads a file: a line for each VM entry of the log, with the number of its
    /// event and a name. `#` starts a comment.
    pub fn read(file: &OsStr, log: &Log) -> Result<Renters, Failure> {
        let (bytes, file) = input(file)?;
        let mut renters = Renters {
            file,
            names: Vec::new(),
            entries: BTreeMap::new(),
        };
        for (before, line) in bytes.split(|byte| *byte == b'\n').enumerate() {
            let added = renters.add(line);
            added.map_err(|why| {
                let file = &renters.file;
                Failure::new(format!("{file}: line {}: {why}", before + 1))
            })?;
        }
        renters.check(log)?;
        Ok(renters)
    }

    /// One line of the file.
    fn add(&mut self, line: &[u8]) -> Result<(), String> {
        let line = line.split(|byte| *byte == b'#').next().unwrap_or(line);
        let line = std::str::from_utf8(line).map_err(|_| "not UTF-8 text".to_string())?;
        let line = line.trim();
        if line.is_empty() {
            return Ok(());
        }
        let (entry, name) = line.split_once(char::is_whitespace).unwrap_or((line, ""));
        let entry = number(entry).and_then(|number| usize::try_from(number).ok());
        let entry = entry.ok_or("a line is the number of a VM entry and a name")?;
        let name = name.trim();
        if name.is_empty() {
            return Err(format!("event {entry} has no name"));
        }
        let place = self.names.iter().position(|own| own == name);
        let place = place.unwrap_or_else(|| {
            self.names.push(name.to_string());
            self.names.len() - 1
        });
        if self.entries.insert(entry, place).is_some() {
            return Err(format!("event {entry} is named twice"));
        }
        Ok(())
    }

    /// Each number is that of a VM entry, or lies behind the place where a log ends
    /// early.
    fn check(&self, log: &Log) -> Result<(), Failure> {
        let mut entries = BTreeSet::new();
        let mut end = usize::MAX;
        for event in log.events() {
            if event.is_entry() {
                entries.insert(event.number);
            }
            if !event.whole {
                end = event.number;
            }
        }
        let mut named = self.entries.keys();
        let wrong = named.find(|entry| **entry < end && !entries.contains(entry));
        match wrong {
            None => Ok(()),
            Some(entry) => Err(Failure::new(format!(
                "{}: event {entry} of {} is no VM entry",
                self.file, log.name
            ))),
        }
    }

    /// Who comes in with a VM entry that was accepted.
    pub fn of(&self, entry: usize) -> Result<usize, Failure> {
        self.entries.get(&entry).copied().ok_or_else(|| {
            Failure::new(format!(
                "{}: event {entry} is a VM entry, and has no line",
                self.file
            ))
        })
    }

    pub fn name(&self, renter: usize) -> &str {
        &self.names[renter]
    }
}
