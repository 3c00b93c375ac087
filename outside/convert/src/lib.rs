//! Event logs as text and back.
//!
//! The text has one event a line: a name, then its fields as `name=value` in
//! any order, each once. Every value is hexadecimal and carries `0x`, so that
//! `vpid=10` is an error and never 16 by mistake. `#` starts a comment, which
//! may hold any bytes; blank lines, and a byte-order mark at the start, do not
//! count.
//!
//! ```text
//! vmxon
//! entry vpid=0x5 ept=off pcid=0x1 cpl=0x0
//! linear vpid=0x5 pcid=0x1 global=0x0 span=0x0 page=0x12345 frame=0xabcde
//! exit pcid=0x0
//! invvpid type=0x1 vpid=0x5 address=0x0   # descriptor bits 63:16 are zero
//! ```
//!
//! `off` stands for a disabled field: `vpid` and `ept` of an entry (an
//! enabled `ept` is the whole EPTP), and `linear` of an EPT violation. Its
//! flag and its bytes are zero.
//!
//! A log is of one linear width, 48 or 57 (document 02, Ask 12), and the text
//! does not say which. Names that end in `-57` are the kinds of the second, and
//! are known like all others; a replay at the other width ends there.
//!
//! The names make only events that are valid by documents 01 and 02 at one of
//! the widths: a value out of its range, such as PCID 4,096, is an error that
//! names the limit. An EPT violation's linear address may be canonical at 57 bits
//! alone; at 48 that is a bad field.
//! Operands that the processor itself refuses, such as INVVPID type 4, are
//! valid events. All else is written as bytes, pairs of hexadecimal digits
//! without `0x`:
//!
//! ```text
//! raw 18 00 10 00
//! ```
//!
//! A `raw` line adds its bytes to the log as they are, and need not be one
//! event. [`disassemble`], which is told the linear width, uses it for what the
//! names cannot say exactly: a bad field, reserved descriptor bits, a disabled
//! field that is not zero, and all bytes from an unknown kind or a cut record
//! on, where a replay ends; kinds of the other width are unknown. So
//! [`assemble`] gives back the same log, whatever its bytes are.
//!
//! [`fault`], [`bad_record`] and [`row_fault`] say in these names why bytes are no
//! event, no table and no fixed row, and [`ended`] why a run ended.

mod assemble;
mod disassemble;
pub mod forms;
mod tables;

pub use assemble::{assemble, Error};
pub use disassemble::{disassemble, ended, fault, line};
pub use tables::{bad_record, row_fault, BadRecord};
