//! Creations that were refused for room. Their mappings are in no table, and so what
//! is found from the first of them on may not be all.

use crate::json::Json;
use crate::log::Event;
use crate::run::Taken;

/// The answer where there is no room.
const NO_ROOM: u64 = 12;

/// Those of a run so far.
#[derive(Clone, Copy)]
pub struct NoRoom {
    /// The number of the first, and where it starts in the log.
    pub at: usize,
    pub byte: usize,
    /// How many there are.
    pub count: usize,
}

impl NoRoom {
    /// Counts an event that the run has taken, if it is one.
    pub fn add(sofar: &mut Option<NoRoom>, event: &Event, taken: &Taken) {
        if taken.answer == NO_ROOM {
            let first = NoRoom {
                at: event.number,
                byte: event.byte,
                count: 0,
            };
            sofar.get_or_insert(first).count += 1;
        }
    }

    /// What is said of them, with the name of what may be missed.
    pub fn words(&self, missed: &str) -> String {
        let NoRoom { at, byte, count } = self;
        let refused = match count {
            1 => "1 mapping was".to_string(),
            count => format!("{count} mappings were"),
        };
        format!(
            "event {at}, at byte {byte}: no room for this mapping; from here on {missed} may be \
             missed ({refused} refused for room)"
        )
    }

    pub fn json(&self) -> String {
        Json::object()
            .with("at", self.at)
            .with("byte", self.byte)
            .with("refused", self.count)
            .end()
    }
}
