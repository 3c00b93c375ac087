//! Random logs against the independent model: its book says what stands and which
//! event created it, its reasons why, its lookups what is usable. Leaks and stale
//! translations are worked out from these by a slow definition.

mod tool;

use generate::{address, capability, events, Rng};
use model::book::Book;
use model::mapping::Mapping;
use model::replay::first_event;
use model::{explain, usable, Address, Context, LinearWidth, Reason, PROGRAM_CAPABILITY};
use std::collections::{BTreeMap, BTreeSet};
use std::fmt::Write;
use std::process::Output;
use tool::{fed, fed_output, Folder, Run};

const SEED: u64 = 20;

/// A log, run by the model's book.
struct Modelled {
    log: Vec<u8>,
    start: Context,
    events: Vec<Taken>,
}

/// What the book says of an event.
struct Taken {
    event: Vec<u8>,
    answer: u64,
    rule: u64,
    before: Context,
    after: Context,
    /// The mappings that stand before it and after it, with the numbers of the
    /// events that created them.
    stood: Vec<(usize, Vec<u8>)>,
    stand: Vec<(usize, Vec<u8>)>,
}

impl Modelled {
    fn of(start: Context, log: Vec<u8>) -> Modelled {
        let mut book = Book::new(&start);
        let width = LinearWidth::of(start.linear_width);
        // The number of the event of each note.
        let mut noted = Vec::new();
        let mut events: Vec<Taken> = Vec::new();
        let mut rest = &log[..];
        while !rest.is_empty() {
            let event = first_event(width, rest).unwrap_or(rest);
            rest = &rest[event.len()..];
            let before = *book.context();
            let verdict = book.feed(event);
            if verdict.answer == 0 {
                noted.push(events.len() + 1);
            }
            let stand = book.standing().iter();
            let stand = stand.map(|note| (noted[*note], book.notes()[*note].event.clone()));
            let stood = events.last().map(|taken| taken.stand.clone());
            events.push(Taken {
                event: event.to_vec(),
                answer: verdict.answer,
                rule: verdict.rule,
                before,
                after: *book.context(),
                stood: stood.unwrap_or_default(),
                stand: stand.collect(),
            });
        }
        Modelled { log, start, events }
    }

    /// Runs the program on the log, with the settings that the book had.
    fn run(&self, command: &str, words: &[&str]) -> Run {
        self.with_settings(command, words, fed)
    }

    /// The same where what it writes is no text.
    fn output(&self, command: &str, words: &[&str]) -> Output {
        self.with_settings(command, words, fed_output)
    }

    fn with_settings<T>(&self, command: &str, words: &[&str], run: fn(&[&str], &[u8]) -> T) -> T {
        let capability = format!("{:#x}", self.start.capability);
        let (width, linear) = (
            self.start.width.to_string(),
            self.start.linear_width.to_string(),
        );
        let mut all = vec![command, "--capability", &capability, "--width", &width];
        all.extend(["--linear-width", &linear, "-"]);
        all.extend(words);
        run(&all, &self.log)
    }

    fn linear_width(&self) -> u64 {
        self.start.linear_width
    }
}

/// Logs of both widths, some with a capability and a width of their own.
fn logs(count: usize) -> Vec<Modelled> {
    let mut rng = Rng::new(SEED);
    let mut logs = Vec::new();
    for nth in 0..count {
        let linear_width = [48, 57][nth % 2];
        let mut start = Context::after_reset(PROGRAM_CAPABILITY, 52, linear_width);
        if nth % 5 == 4 {
            start.capability = capability(&mut rng);
            start.width = 36 + rng.below(17) as u64;
        }
        let length = 40 + rng.below(80);
        let log = events(&mut rng, linear_width, length).concat();
        logs.push(Modelled::of(start, log));
    }
    logs
}

/// Mappings as the program lists them.
fn listed(width: u64, mappings: &[(usize, Vec<u8>)]) -> String {
    let mut text = String::new();
    for (created, record) in mappings {
        let line = convert::line(width, record).expect("a record");
        let _ = writeln!(text, "{created:6} {line}");
    }
    text
}

#[test]
fn what_stands_and_who_made_it() {
    let mut rng = Rng::new(SEED + 1);
    let mut mappings = 0;
    for modelled in logs(80) {
        let number = 1 + rng.below(modelled.events.len());
        let taken = &modelled.events[number - 1];
        let run = modelled.run("show", &[&format!("after={number}")]);
        let (_, after) = run.out.split_once("\ncontext: ").expect("a context");
        let (_, after) = after.split_once('\n').expect("a line");
        let list = listed(modelled.linear_width(), &taken.stand);
        assert!(
            after.starts_with(&format!("{list}           ")),
            "{}",
            run.out
        );
        let bytes: usize = taken.stand.iter().map(|(_, record)| record.len()).sum();
        let count = taken.stand.len();
        let due = format!("mappings in force: {count}\nbytes in force: {bytes}\n");
        assert!(run.out.ends_with(&due), "{}", run.out);
        let output = modelled.output("show", &["--table", &format!("after={number}")]);
        let records = taken.stand.iter().flat_map(|(_, record)| record);
        assert!(output.stdout.iter().eq(records), "{output:?}");
        assert_eq!(output.status.code(), Some(run.status));
        assert_eq!(output.stderr, run.said.as_bytes());
        mappings += count;
    }
    assert!(mappings > 200, "{mappings}");
}

fn reason(reason: Reason) -> &'static str {
    match reason {
        Reason::Refused { .. } => "kept    step refused               ",
        Reason::NoScope => "kept    event without a scope      ",
        Reason::NotCanonical => "kept    address not canonical      ",
        Reason::WrongKind => "kept    wrong kind                 ",
        Reason::WrongVpid => "kept    wrong VPID                 ",
        Reason::WrongPcid => "kept    wrong PCID                 ",
        Reason::WrongEp4ta => "kept    wrong EP4TA                ",
        Reason::NotCovering => "kept    does not cover the address ",
        Reason::SparedAsGlobal => "kept    spared as global           ",
        Reason::InScope => "dropped in scope                   ",
    }
}

#[test]
fn why_each_went_or_stayed() {
    let mut rng = Rng::new(SEED + 2);
    let mut reasons = BTreeSet::new();
    for modelled in logs(60) {
        let width = modelled.linear_width();
        for _ in 0..3 {
            let number = 1 + rng.below(modelled.events.len());
            let taken = &modelled.events[number - 1];
            let run = modelled.run("explain", &[&format!("event={number}")]);
            let mut due = String::new();
            for (created, record) in &taken.stood {
                let why = match taken.answer {
                    0 => explain(&taken.before, record, &taken.event),
                    answer => Reason::Refused {
                        answer,
                        rule: taken.rule,
                    },
                };
                reasons.insert(why.number());
                let line = convert::line(width, record).expect("a record");
                let _ = writeln!(due, "{created:6} {}{line}", reason(why));
            }
            let dropped = taken.stood.iter().filter(|one| !taken.stand.contains(one));
            let (dropped, all) = (dropped.count(), taken.stood.len());
            let _ = writeln!(due, "dropped: {dropped} of {all} mappings");
            let lines: Vec<&str> = run.out.split_inclusive('\n').skip(4).collect();
            assert_eq!(lines.concat(), due, "{}", run.out);
            let refused = format!("\nanswer: refused with {}: ", taken.answer);
            let accepted = "\nanswer: accepted\n";
            // An accepted event may have a field that the text form cannot say.
            assert!(
                match taken.answer {
                    0 => run.out.contains(accepted) || run.out.contains("\nanswer: accepted; "),
                    _ => run.out.contains(&refused),
                },
                "{}",
                run.out
            );
        }
    }
    assert!(reasons.len() >= 9, "{reasons:?}");
}

#[test]
fn what_is_usable() {
    let mut rng = Rng::new(SEED + 3);
    let mut found = 0;
    for modelled in logs(60) {
        let number = 1 + rng.below(modelled.events.len());
        let taken = &modelled.events[number - 1];
        let width = LinearWidth::of(modelled.linear_width());
        // The address of a mapping that stands, or any.
        let query = match taken.stand.len() {
            0 => address(&mut rng, modelled.linear_width()),
            count => {
                let (_, record) = &taken.stand[rng.below(count)];
                first_address(width, &Mapping::decode(width, record).expect("a record"))
            }
        };
        let table: Vec<u8> = taken
            .stand
            .iter()
            .flat_map(|(_, one)| one.clone())
            .collect();
        let due: Vec<(usize, Vec<u8>)> = usable(&taken.after, &table, query)
            .into_iter()
            .map(|place| {
                let mut start = 0;
                let mapping = taken.stand.iter().find(|(_, record)| {
                    start += record.len();
                    start > place.start
                });
                mapping.expect("a mapping").clone()
            })
            .collect();
        let (sort, number_of) = match query {
            Address::Linear(number) => ("linear", number),
            Address::GuestPhysical(number) => ("guest-physical", number),
        };
        let run = modelled.run(
            "lookup",
            &[&format!("after={number}"), &format!("{sort}={number_of}")],
        );
        let lines: Vec<&str> = run.out.split_inclusive('\n').skip(3).collect();
        let count = due.len();
        let list = listed(modelled.linear_width(), &due);
        let due = format!("{list}usable at {sort} address {number_of:#x}: {count}\n");
        assert_eq!(lines.concat(), due, "{}", run.out);
        found += count;
    }
    assert!(found > 20, "{found}");
}

/// An address as it is asked for: the canonical one of a page.
fn of_page(width: LinearWidth, mapping: &Mapping, page: u64) -> Address {
    if mapping.ep4ta.is_some() && mapping.vpid.is_none() {
        return Address::GuestPhysical(page << 12);
    }
    let low = page << 12;
    let high = match width {
        LinearWidth::Bits48 => low | 0xFFFF << 48,
        LinearWidth::Bits57 => low | 0x7F << 57,
    };
    Address::Linear(if width.canonical(low) { low } else { high })
}

fn first_address(width: LinearWidth, mapping: &Mapping) -> Address {
    of_page(width, mapping, mapping.page)
}

/// The pages of a mapping at its ends, and one within.
fn some_pages(mapping: &Mapping) -> [u64; 3] {
    let pages = 1 << (9 * mapping.span);
    [
        mapping.page,
        mapping.page + pages / 3,
        mapping.page + (pages - 1),
    ]
}

fn is_usable(context: &Context, record: &[u8], address: Address) -> bool {
    !usable(context, record, address).is_empty()
}

/// What is told of a log, as it stands in the program's text: the event, and the
/// mapping's.
fn told(run: &Run) -> Vec<(usize, usize)> {
    let mut told = Vec::new();
    let mut at = 0;
    for line in run.out.lines() {
        let number = |text: &str| -> usize {
            let end = text.find(|letter: char| !letter.is_ascii_digit());
            text[..end.unwrap_or(text.len())].parse().expect("a number")
        };
        if let Some(rest) = line.strip_prefix("event ") {
            at = number(rest);
        } else if let Some((_, rest)) = line.split_once("created by event ") {
            told.push((at, number(rest)));
        }
    }
    told
}

#[test]
fn stale_translations() {
    let mut all = 0;
    for modelled in logs(120) {
        let width = LinearWidth::of(modelled.linear_width());
        let (mut due, mut before) = (Vec::new(), BTreeSet::new());
        for (number, taken) in (1..).zip(&modelled.events) {
            let Some(new) = Mapping::decode(width, &taken.event) else {
                continue;
            };
            if taken.answer != 0 || !new.is_translation() {
                continue;
            }
            for (created, record) in &taken.stood {
                let old = Mapping::decode(width, record).expect("a record");
                let pages = [some_pages(&old), some_pages(&new)].concat();
                let stale = pages.into_iter().any(|page| {
                    let address = of_page(width, &new, page);
                    let frame = |mapping: &Mapping| {
                        i128::from(mapping.frame) + i128::from(page) - i128::from(mapping.page)
                    };
                    is_usable(&taken.after, record, address)
                        && is_usable(&taken.after, &taken.event, address)
                        && frame(&old) != frame(&new)
                });
                if old.is_translation() && stale && before.insert(*created) {
                    due.push((number, *created));
                }
            }
        }
        let run = modelled.run("leaks", &[]);
        assert_eq!(told(&run), due, "{}", run.out);
        assert_eq!(
            run.status,
            i32::from(!due.is_empty() || !run.said.is_empty())
        );
        all += due.len();
    }
    assert!(all > 20, "{all}");
}

#[test]
fn leaks_between_renters() {
    let mut rng = Rng::new(SEED + 4);
    let folder = Folder::new();
    let mut all = 0;
    for modelled in logs(400) {
        let width = LinearWidth::of(modelled.linear_width());
        // Who comes in, drawn for each VM entry that is accepted.
        let mut renters = String::from("# drawn\n");
        let mut names = BTreeMap::new();
        for (number, taken) in (1..).zip(&modelled.events) {
            if taken.event[0] == 20 && taken.answer == 0 {
                let name = rng.pick(&["a", "b c", "d"]);
                names.insert(number, name);
                let _ = writeln!(renters, "  {number}\t{name}  # a comment");
            }
        }
        let file = folder.write("renters", renters.as_bytes());
        let (mut here, mut owners) = ("", BTreeMap::new());
        let mut due = Vec::new();
        let mut before = BTreeSet::new();
        for (number, taken) in (1..).zip(&modelled.events) {
            if taken.answer != 0 {
                continue;
            }
            here = names.get(&number).copied().unwrap_or(here);
            if !taken.after.in_guest() {
                continue;
            }
            if taken.before.in_guest() && Mapping::decode(width, &taken.event).is_some() {
                owners.insert(number, here);
            }
            // Every mapping at every event, and not only where it can become usable.
            for (created, record) in &taken.stand {
                let mapping = Mapping::decode(width, record).expect("a record");
                let mut pages = some_pages(&mapping).into_iter();
                let foreign = owners.get(created).is_some_and(|owner| *owner != here);
                let usable = pages
                    .any(|page| is_usable(&taken.after, record, of_page(width, &mapping, page)));
                if foreign && usable && before.insert((*created, here)) {
                    due.push((number, *created));
                }
            }
        }
        let run = modelled.run("leaks", &[&format!("renters={file}")]);
        assert_eq!(told(&run), due, "{}{}", run.out, run.said);
        let count = due.len();
        let entries = names.len();
        assert!(run
            .out
            .ends_with(&format!("leaks: {count}, in {entries} VM entries\n")));
        all += count;
    }
    assert!(all > 20, "{all}");
}

/// Bars are the accepted creations, and those that end are all that the book drops.
#[test]
fn pictures() {
    for modelled in logs(40) {
        let width = LinearWidth::of(modelled.linear_width());
        let created = modelled
            .events
            .iter()
            .filter(|taken| taken.answer == 0 && Mapping::decode(width, &taken.event).is_some());
        let created = created.count();
        let refused = modelled.events.iter().filter(|taken| taken.answer != 0);
        let held = modelled.events.last().map_or(0, |taken| taken.stand.len());
        let page = modelled.run("view", &[]).out;
        assert_eq!(page.matches("<rect class=\"bar ").count(), created);
        assert_eq!(page.matches("<rect class=\"bar held").count(), held);
        let due = format!(
            "{} events, {} refused; {created} mappings, {held} in force at the end; ",
            modelled.events.len(),
            refused.count()
        );
        assert!(page.contains(&due), "{due}");
    }
}

/// A log beside itself without one of its events.
#[test]
fn comparisons() {
    let mut rng = Rng::new(SEED + 6);
    let folder = Folder::new();
    let mut apart = 0;
    for one in logs(60) {
        let width = one.linear_width();
        let left_out = rng.below(one.events.len());
        let mut log = Vec::new();
        for (place, taken) in one.events.iter().enumerate() {
            if place != left_out {
                log.extend_from_slice(&taken.event);
            }
        }
        let other = Modelled::of(one.start, log);
        let bytes = |modelled: &Modelled, place: usize| {
            modelled.events.get(place).map(|taken| taken.event.clone())
        };
        let part = (0..one.events.len()).find(|place| bytes(&one, *place) != bytes(&other, *place));
        let file = folder.write("other", &other.log);
        let run = one.run("compare", &[&file]);
        let Some(part) = part else {
            let count = one.events.len();
            assert_eq!(run.out, format!("the same events: {count}\n"));
            continue;
        };
        // What only one of them holds after the event of the parting, and at the end.
        let mut due = format!("they part at event {}\n", part + 1);
        for modelled in [&one, &other] {
            let name = if modelled.log == one.log {
                "standard input"
            } else {
                &file
            };
            let mut byte = 0;
            for taken in modelled.events.iter().take(part) {
                byte += taken.event.len();
            }
            match modelled.events.get(part) {
                Some(taken) if convert::line(width, &taken.event).is_some() => {
                    let line = convert::line(width, &taken.event).expect("a line");
                    let _ = writeln!(due, "  {name}, at byte {byte}: {line}");
                }
                Some(_) => {}
                None => {
                    let _ = writeln!(due, "  {name} has ended");
                }
            }
        }
        if due.lines().count() < 3 {
            // An event that the text form cannot say.
            continue;
        }
        let stand = |modelled: &Modelled, place: usize| {
            let last = modelled.events.len().min(place + 1);
            let taken = last.checked_sub(1).map(|last| &modelled.events[last]);
            taken.map_or(Vec::new(), |taken| taken.stand.clone())
        };
        for (when, place) in [
            (format!("after event {}\n", part + 1), part),
            (
                format!(
                    "at the end, after {} and {} events\n",
                    one.events.len(),
                    other.events.len()
                ),
                usize::MAX - 1,
            ),
        ] {
            due += &when;
            let held = [stand(&one, place), stand(&other, place)];
            for (name, own, others) in [
                ("standard input", &held[0], &held[1]),
                (&file[..], &held[1], &held[0]),
            ] {
                let only = less(own, others);
                apart += only.len();
                let _ = writeln!(due, "  only in {name}: {}", only.len());
                due += &listed(width, &only);
            }
        }
        assert_eq!(run.out, due);
    }
    assert!(apart > 20, "{apart}");
}

/// The mappings less those with equal records, each of which takes away one.
fn less(own: &[(usize, Vec<u8>)], others: &[(usize, Vec<u8>)]) -> Vec<(usize, Vec<u8>)> {
    let mut others: Vec<&Vec<u8>> = others.iter().map(|(_, record)| record).collect();
    let mut only = Vec::new();
    for mapping in own {
        match others.iter().position(|record| **record == mapping.1) {
            Some(place) => {
                others.remove(place);
            }
            None => only.push(mapping.clone()),
        }
    }
    only
}

/// The numbers of `replay --words` are the book's, for a log of any length.
#[test]
fn the_numbers_of_a_long_log() {
    let mut rng = Rng::new(SEED + 5);
    let mut log = Vec::new();
    while log.len() <= 66_000 {
        log.extend(generate::log(&mut rng, 48, 3000));
        if let Some(last) = broken(&log) {
            log.truncate(last);
        }
        log.push(25);
    }
    let modelled = Modelled::of(Context::program(), log);
    let run = modelled.run("replay", &["--words"]);
    assert_eq!((run.status, &run.said[..]), (0, ""));
    let mut lines = run.out.lines();
    for (number, taken) in (1..).zip(&modelled.events) {
        let length: usize = taken.stand.iter().map(|(_, record)| record.len()).sum();
        let dropped = match (
            taken.answer,
            Mapping::decode(LinearWidth::Bits48, &taken.event),
        ) {
            (0, Some(_)) => 0,
            _ => taken.stood.len() - taken.stand.len(),
        };
        let due = format!("{number} {} {dropped} {length} ", taken.answer);
        let line = lines.next().expect("a line");
        assert!(line.starts_with(&due), "{line}, due {due}");
    }
    assert_eq!(lines.next(), None);
}

/// Where a log of 48 bits ends early; None where it does not.
fn broken(log: &[u8]) -> Option<usize> {
    let mut at = 0;
    while at < log.len() {
        match first_event(LinearWidth::Bits48, &log[at..]) {
            Some(event) => at += event.len(),
            None => return Some(at),
        }
    }
    None
}
