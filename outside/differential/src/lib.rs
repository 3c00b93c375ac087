//! The proved library against the independent model.
//!
//! A case is the inputs of a step, of a fresh count, of the lookups of one
//! address, of an explanation, of a judgement, of a run, of a replay, of a step,
//! a lookup or a run of two levels, of a call of a reader, of a log in fragments, of an
//! export or import of fixed rows, of a conversion or of a walk. It is compared whole:
//! answers, contexts, numbers, each count of a tally, and each byte of each buffer
//! that was lent. A case in which the two differ is made smaller, if it can be, and
//! printed as text that `fuzz --case` reads.
//!
//! * [`case`], [`step`], [`count`], [`lookup`], [`explain`], [`claim`], [`run`], [`replay`],
//!   [`level`], [`level_run`], [`take`], [`stream`], [`rows`], [`widen`], [`walk`]: the
//!   cases.
//! * [`expected`]: what the model says, in the library's form.
//! * [`draw`], [`sweep`]: random cases, and all those near some bounds.
//! * [`work`]: how many of each make up a round.
//! * [`text`], [`parse()`]: a case as text and back.

pub mod buffer;
pub mod case;
pub mod claim;
pub mod count;
mod difference;
pub mod draw;
pub mod expected;
pub mod explain;
pub mod level;
pub mod level_run;
pub mod lookup;
mod parse;
pub mod reached;
pub mod replay;
pub mod rows;
pub mod run;
pub mod step;
pub mod stream;
pub mod sweep;
pub mod take;
pub mod text;
pub mod walk;
pub mod widen;
pub mod work;

pub use case::{Case, Failure};
pub use parse::parse;
pub use reached::Reached;
