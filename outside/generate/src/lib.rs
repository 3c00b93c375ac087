//! Deterministic random inputs for the outside checks.
//!
//! The same seed gives the same inputs on every machine. Tags, pages and
//! EP4TAs come from small pools, so that they collide often; most draws aim
//! at one of the answers 0 to 12, and some carry a second defect, so that the
//! order of the answers is tried too. One tally in six is wrong, for answer 13.
//! Contexts have either linear width, and records, addresses and logs are mostly
//! of that width.
//!
//! Bytes are put together, and counted, by the layouts in `common`. The model
//! lends the plain types of a context, an address and a tally, and no rule.
//!
//! * [`Rng`]: the generator of numbers.
//! * [`case`], [`query`], [`explain`], [`export`], [`import`], [`widening`],
//!   [`walk()`]: inputs of one step, of one lookup, of one explanation, of one table
//!   as fixed rows and back, of one conversion and of one walk.
//! * [`claim()`]: a claimed table after a step.
//! * [`level_case`], [`level_query`]: steps and lookups of two levels.
//! * [`taking`], [`reader`], [`fragments`]: logs in fragments, and readers of them.
//! * [`start`], [`events`], [`log`], [`filling_log`]: whole runs and logs.
//! * [`context`], [`table`], [`event`], [`address`] and so on: the parts.
//! * [`tally()`], [`near_tallies`]: the tallies to hand in with a table.
//! * [`near_contexts`], [`near_events`], [`near_imports`]: every input that differs
//!   from a given one in one field, by one or at a bound.

mod aim;
mod bounds;
mod case;
mod claim;
mod context;
mod damage;
mod event;
mod explain;
mod fitting;
mod levels;
mod pool;
mod query;
mod record;
mod rng;
mod rows;
mod run;
mod stream;
mod table;
mod tally;
mod walk;
mod widening;

pub use bounds::near_events;
pub use case::{case, Case};
pub use claim::claim;
pub use common::{hex, kinds, KINDS};
pub use context::{capability, context, near_contexts, BAD_LINEAR_WIDTHS};
pub use event::{event, event_of_kind};
pub use explain::{explain, Explain};
pub use fitting::fitting;
pub use levels::{level_case, level_query, LevelCase, LevelQuery, OneLevel};
pub use pool::address;
pub use query::{query, Query};
pub use record::other_width;
pub use rng::Rng;
pub use rows::{export, import, near_imports, rows_of, table_length, RowsCall};
pub use run::{events, filling_log, log, start};
pub use stream::{damage_reader, fragments, log_of_every_kind, reader, readers, taking, Taking};
pub use table::{any_table, full_table, removal, table};
pub use tally::{near_tallies, tally, wrong_tally, SparseTally};
pub use walk::{image_entries, walk, Walk};
pub use widening::{result_length, table_of_result, widening, Widening};
