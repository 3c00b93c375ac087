//! The readings of the papers where they leave room for doubt, by subject. The
//! number in a test's name is the reading's.

#[path = "../common/mod.rs"]
mod common;

mod answers;
mod ask_10;
mod ask_11;
mod ask_12;
mod ask_13;
mod ask_2;
mod ask_3;
mod ask_5;
mod ask_6;
mod ask_7;
mod ask_8;
mod contexts;
mod events;
mod lookups;
mod records;
mod replays;
mod runs;
mod scopes;
mod widen;
