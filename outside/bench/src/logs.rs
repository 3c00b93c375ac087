//! The logs that are replayed. Each has at most as many bytes as the replay
//! program reads.

use common::{encode, LOG_LIMIT, PROGRAM_LINEAR_WIDTH, TABLE_LIMIT};
use generate::Rng;
use model::replay::first_event;
use model::LinearWidth;

pub const CREATIONS: &str = "creations only";
pub const SWITCHES: &str = "fill, then VMXON and VMXOFF in turn";
pub const FILLED: &str = "fill, then random events";
pub const SMALL: &str = "random events on small tables";

const VMXON: u8 = 22;
const VMXOFF: u8 = 23;

/// A log with its name.
pub struct Log {
    pub name: &'static str,
    pub bytes: Vec<u8>,
}

pub fn logs() -> [Log; 4] {
    [
        (CREATIONS, creations(LOG_LIMIT)),
        (SWITCHES, switches()),
        (FILLED, filled()),
        (SMALL, small()),
    ]
    .map(|(name, bytes)| Log { name, bytes })
}

/// One creation again and again: VPID 0, PCID 0, span 1, page 0.
fn creations(length: usize) -> Vec<u8> {
    let creation = encode(4, &[0, 0, 1, 0, 0x07_0707_0707]);
    creation.repeat(length / creation.len())
}

/// The table is filled to its last byte, and stays so.
fn switches() -> Vec<u8> {
    let mut log = creations(TABLE_LIMIT);
    log.extend([VMXON, VMXOFF].repeat((LOG_LIMIT - log.len()) / 2));
    log
}

/// The table is filled, and stays nearly full until a random event of a wide
/// scope comes.
fn filled() -> Vec<u8> {
    generate::filling_log(&mut Rng::new(1), PROGRAM_LINEAR_WIDTH)
}

/// A log of the generator that is neither cut nor damaged, with VMXONs added
/// up to the limit. Wide scopes and resets keep its tables small.
fn small() -> Vec<u8> {
    for seed in 0.. {
        let mut log = generate::log(&mut Rng::new(seed), PROGRAM_LINEAR_WIDTH, LOG_LIMIT - 32);
        if log.len() <= LOG_LIMIT && is_whole(&log) {
            log.resize(LOG_LIMIT, VMXON);
            return log;
        }
    }
    Vec::new()
}

/// Whether a log ends with a whole event of a known kind.
fn is_whole(log: &[u8]) -> bool {
    let mut rest = log;
    while let Some(event) = first_event(LinearWidth::Bits48, rest) {
        rest = &rest[event.len()..];
    }
    rest.is_empty()
}

#[cfg(test)]
mod tests {
    use super::*;
    use model::{tuned, Context, Line};

    /// What the tuned model says of a log that has no room for another event
    /// of the longest, and has no event that ends a replay.
    fn lines(log: &[u8]) -> Vec<Line> {
        assert!(log.len() <= LOG_LIMIT && log.len() + 25 > LOG_LIMIT);
        assert!(is_whole(log));
        let mut lines = Vec::new();
        let [mut old, mut new] = [(); 2].map(|()| vec![0; TABLE_LIMIT]);
        let start = Context::program();
        tuned::replay(&start, log, &mut old, &mut new, |line| lines.push(line));
        lines
    }

    #[test]
    fn creations_until_there_is_no_room() {
        let lines = lines(&creations(LOG_LIMIT));
        let (accepted, refused) = lines.split_at(TABLE_LIMIT / 16);
        assert!(accepted.iter().all(|line| line.answer == 0));
        assert!(!refused.is_empty() && refused.iter().all(|line| line.answer == 12));
    }

    #[test]
    fn switches_on_a_full_table() {
        let lines = lines(&switches());
        assert!(lines.iter().all(|line| line.answer == 0));
        let full = lines.iter().filter(|line| line.length == TABLE_LIMIT);
        assert_eq!(full.count(), 1 + LOG_LIMIT - TABLE_LIMIT);
    }

    /// More than a thousand random events; the first of them, more than a
    /// hundred, on tables that are more than half full.
    #[test]
    fn random_events_after_a_fill() {
        let lines = lines(&filled());
        let full = lines.iter().position(|line| line.answer == 12);
        let random = &lines[full.expect("a full table")..];
        assert!(random[0].length > TABLE_LIMIT - 32 && random.len() > 1_000);
        let half = |line: &&Line| line.length > TABLE_LIMIT / 2;
        let long = random.iter().take_while(half).count();
        assert!(long > 100, "{long}");
    }

    /// At most the bytes of five dozen records of kind 4, on average at most
    /// those of two dozen.
    #[test]
    fn small_tables_stay_small() {
        let lines = lines(&small());
        let lengths = || lines.iter().map(|line| line.length);
        let mean = lengths().sum::<usize>() / lines.len();
        let most = lengths().max();
        assert!(most <= Some(60 * 16) && mean <= 24 * 16, "{most:?} {mean}");
    }
}
