//! The independent model: document 01 in plain Rust, and document 02's asks.
//!
//! Written from the papers (documents 01 and 02, and the sources that they name,
//! none of them in this repository) and from nothing else, so that it can be compared
//! with the proved model. It is meant to be read beside document 01: each
//! file is one of its sections.
//!
//! * [`address`]: linear addresses at 48 and 57 bits (Ask 12).
//! * [`context`]: the context and its ranges.
//! * [`mapping`]: mapping records and tables.
//! * [`event`]: events (with Ask 5's two), and the context after one.
//! * [`judge`]: the numbered answers, and the rules of an EPTP (Ask 6).
//! * [`scope`]: the required scopes.
//! * [`reason`]: why a mapping went or stayed (Ask 1).
//! * [`step()`], [`lookup()`], [`replay()`]: what the model does.
//! * [`tally`]: the tally beside the table (Ask 7).
//! * [`rows`]: a table as fixed rows and back (Ask 11).
//! * [`widen()`]: a stored 48-bit table at 57 bits (Ask 12).
//! * [`claim`]: another simulator's table judged (Ask 8).
//! * [`levels`]: two levels of TLB (Ask 10).
//! * [`stream`]: a log as it arrives, in fragments (Ask 3).
//! * [`walk()`]: a guest's tables walked through EPT (Ask 13).
//! * [`book`]: a whole run judged from its events alone.
//! * [`tuned`]: the same steps, rows and converter, written for speed.

pub mod address;
pub mod book;
mod bytes;
pub mod claim;
pub mod context;
pub mod event;
pub mod judge;
pub mod levels;
pub mod lookup;
pub mod mapping;
pub mod reason;
pub mod replay;
pub mod rows;
pub mod scope;
pub mod step;
pub mod stream;
pub mod tally;
pub mod tuned;
pub mod walk;
pub mod widen;

pub use address::LinearWidth;
pub use claim::{judge_claim, Judgement};
pub use context::{Context, Place};
pub use lookup::{lookup, usable, Address};
pub use reason::{explain, Reason};
pub use replay::{print, replay, Line};
pub use rows::{export, import, Converted};
pub use step::{step, Step};
pub use tally::{count, counted_step, Kinds, Tally, PCIDS};
pub use walk::{walk, Walk};
pub use widen::{widen, Widened};

/// The longest table, in bytes, at either linear width (Ask 12).
pub const TABLE_LIMIT: usize = 47_104;

/// The longest log that the replay program reads, in bytes.
pub const LOG_LIMIT: usize = 65_536;

/// The replay program's IA32_VMX_EPT_VPID_CAP: bits 6, 8, 14, 20, 21, 25, 26,
/// 32 and 40 to 43.
pub const PROGRAM_CAPABILITY: u64 = 1 << 6
    | 1 << 8
    | 1 << 14
    | 1 << 20
    | 1 << 21
    | 1 << 25
    | 1 << 26
    | 1 << 32
    | 1 << 40
    | 1 << 41
    | 1 << 42
    | 1 << 43;

/// The replay program's physical width N.
pub const PROGRAM_WIDTH: u64 = 52;

/// The replay program's linear width.
pub const PROGRAM_LINEAR_WIDTH: u64 = 48;
