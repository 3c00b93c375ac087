//! The words that the program takes.

use skuldrefn::{Address, PROGRAM_CAPABILITY, PROGRAM_LINEAR_WIDTH, PROGRAM_WIDTH};
use std::ffi::{OsStr, OsString};

/// A command, and the words that it takes.
pub struct Command {
    pub name: &'static str,
    pub help: &'static str,
    /// How many logs, at least and at most.
    logs: (usize, usize),
    /// Its own options, behind those that every command has.
    options: &'static [&'static str],
    /// What is given as name=value.
    named: &'static [&'static str],
}

const LINEAR: &str = "linear";
const GUEST_PHYSICAL: &str = "guest-physical";

pub const COMMANDS: [Command; 8] = [
    Command {
        name: "show",
        help: include_str!("../help/show.txt"),
        logs: (1, 1),
        options: &["--json", "--table"],
        named: &["after"],
    },
    Command {
        name: "explain",
        help: include_str!("../help/explain.txt"),
        logs: (1, 1),
        options: &["--json"],
        named: &["event"],
    },
    Command {
        name: "lookup",
        help: include_str!("../help/lookup.txt"),
        logs: (1, 1),
        options: &["--json"],
        named: &["after", LINEAR, GUEST_PHYSICAL],
    },
    Command {
        name: "leaks",
        help: include_str!("../help/leaks.txt"),
        logs: (1, 1),
        options: &["--json", "--all"],
        named: &["renters"],
    },
    Command {
        name: "replay",
        help: include_str!("../help/replay.txt"),
        logs: (1, 1),
        options: &["--words", "--json"],
        named: &[],
    },
    Command {
        name: "compare",
        help: include_str!("../help/compare.txt"),
        logs: (2, 2),
        options: &["--json"],
        named: &[],
    },
    Command {
        name: "audit",
        help: include_str!("../help/audit.txt"),
        logs: (1, usize::MAX),
        options: &["--json", "--any-length"],
        named: &[],
    },
    Command {
        name: "view",
        help: include_str!("../help/view.txt"),
        logs: (1, 1),
        options: &["--trace"],
        named: &["renters"],
    },
];

/// How a run starts.
#[derive(Clone, Copy, Debug, PartialEq, Eq)]
pub struct Settings {
    pub capability: u64,
    pub width: u64,
    pub linear_width: u64,
}

/// What the words ask for.
#[derive(Debug)]
pub struct Words {
    pub settings: Settings,
    pub logs: Vec<OsString>,
    /// The options without a value.
    flags: Vec<String>,
    /// The names with their values.
    named: Vec<(&'static str, OsString)>,
}

impl Words {
    /// The words behind a command: logs, options anywhere, and names behind the
    /// logs. Behind `--` nothing is an option.
    pub fn of(command: &Command, words: &[OsString]) -> Result<Words, String> {
        let mut read = Words {
            settings: Settings {
                capability: PROGRAM_CAPABILITY,
                width: PROGRAM_WIDTH,
                linear_width: PROGRAM_LINEAR_WIDTH,
            },
            logs: Vec::new(),
            flags: Vec::new(),
            named: Vec::new(),
        };
        let mut given = Vec::new();
        let mut dashes = false;
        let mut words = words.iter();
        while let Some(word) = words.next() {
            let text = word.to_str().unwrap_or("");
            if !dashes && text == "--" {
                dashes = true;
            } else if !dashes && text.len() > 1 && text.starts_with('-') {
                if given.contains(&text) {
                    return Err(format!("{text} is given twice"));
                }
                given.push(text);
                let value = || words.next().map(OsString::as_os_str);
                read.option(command, text, value)?;
            } else if read.logs.len() < command.logs.1 && !read.is_named(command, text) {
                if word.is_empty() {
                    return Err("the log's name is empty".to_string());
                }
                read.logs.push(word.clone());
            } else {
                read.name(command, word)?;
            }
        }
        read.check(command)?;
        Ok(read)
    }

    fn option<'a>(
        &mut self,
        command: &Command,
        option: &str,
        value: impl FnOnce() -> Option<&'a OsStr>,
    ) -> Result<(), String> {
        let settings = &mut self.settings;
        let (place, fits, takes): (_, fn(u64) -> bool, _) = match option {
            "--capability" => (&mut settings.capability, |_| true, "a number below 2^64"),
            "--width" => (
                &mut settings.width,
                |width| (36..=52).contains(&width),
                "a number from 36 to 52",
            ),
            "--linear-width" => (
                &mut settings.linear_width,
                |width| matches!(width, 48 | 57),
                "48 or 57",
            ),
            _ if command.options.contains(&option) => {
                self.flags.push(option.to_string());
                return Ok(());
            }
            _ => return Err(format!("{} has no option '{option}'", command.name)),
        };
        let number = value().and_then(OsStr::to_str).and_then(number);
        match number.filter(|number| fits(*number)) {
            Some(number) => {
                *place = number;
                Ok(())
            }
            None => Err(format!("{option} takes {takes}")),
        }
    }

    /// Whether a word is one of the command's names, with a log before it.
    fn is_named(&self, command: &Command, word: &str) -> bool {
        let name = word.split_once('=').map(|(name, _)| name);
        self.logs.len() >= command.logs.0 && name.is_some_and(|name| command.named.contains(&name))
    }

    fn name(&mut self, command: &Command, word: &OsStr) -> Result<(), String> {
        let shown = word.display();
        let (name, value) = split(word)
            .and_then(|(name, value)| {
                let name = command.named.iter().find(|own| **own == name)?;
                Some((*name, value))
            })
            .ok_or_else(|| format!("{} does not know '{shown}'", command.name))?;
        if self.named.iter().any(|(own, _)| *own == name) {
            return Err(format!("{name} is given twice"));
        }
        let is_number = value.to_str().and_then(number).is_some();
        if name == "renters" && value.is_empty() {
            return Err("renters takes a file".to_string());
        }
        if name != "renters" && !is_number {
            return Err(format!(
                "{name} takes a number, decimal or with 0x; '{shown}' has none"
            ));
        }
        self.named.push((name, value));
        Ok(())
    }

    fn check(&self, command: &Command) -> Result<(), String> {
        if self.logs.len() < command.logs.0 {
            let missing = match (command.logs.0, self.logs.len()) {
                (2, 1) => "the second log is missing",
                _ => "the log is missing",
            };
            return Err(missing.to_string());
        }
        let logs = self.logs.iter().map(OsString::as_os_str);
        let files = logs.chain(self.value("renters"));
        if files.filter(|file| *file == "-").count() > 1 {
            return Err("standard input can be one file only".to_string());
        }
        match command.name {
            "show" if self.flag("--json") && self.flag("--table") => {
                Err("--json and --table are two forms of the result; take one".to_string())
            }
            "explain" if self.number("event").is_none() => Err("event=N is missing".to_string()),
            "lookup" => self.address().map(|_| ()),
            _ => Ok(()),
        }
    }

    pub fn flag(&self, option: &str) -> bool {
        self.flags.iter().any(|own| own == option)
    }

    /// The number that a name was given.
    pub fn number(&self, name: &str) -> Option<u64> {
        self.value(name)?.to_str().and_then(number)
    }

    /// What a name was given.
    pub fn value(&self, name: &str) -> Option<&OsStr> {
        let named = self.named.iter().find(|(own, _)| *own == name);
        named.map(|(_, value)| value.as_os_str())
    }

    /// The address of a lookup.
    pub fn address(&self) -> Result<Address, String> {
        match (self.number(LINEAR), self.number(GUEST_PHYSICAL)) {
            (Some(address), None) => Ok(Address::Linear(address)),
            (None, Some(address)) => Ok(Address::GuestPhysical(address)),
            _ => Err("lookup takes one of linear=A and guest-physical=A".to_string()),
        }
    }
}

/// A word of the form name=value.
fn split(word: &OsStr) -> Option<(&str, OsString)> {
    use std::os::unix::ffi::OsStrExt;
    let bytes = word.as_bytes();
    let place = bytes.iter().position(|byte| *byte == b'=')?;
    let name = std::str::from_utf8(&bytes[..place]).ok()?;
    Some((name, OsStr::from_bytes(&bytes[place + 1..]).to_os_string()))
}

/// A decimal number, or a hexadecimal one with 0x.
pub fn number(word: &str) -> Option<u64> {
    let (digits, radix) = match word.strip_prefix("0x") {
        Some(digits) => (digits, 16),
        None => (word, 10),
    };
    // A sign would be taken too.
    let plain = digits.chars().all(|digit| digit.is_digit(radix));
    if !plain {
        return None;
    }
    u64::from_str_radix(digits, radix).ok()
}
