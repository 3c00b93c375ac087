//! What the crates beside the model share: the limits, the replay program's numbers, numbers in
//! bytes, where the fields of each event are, the rows of a replay, and the fixed rows of a table.
//!
//! The model uses none of this: it stands alone, written from the papers, and `tests/model.rs`
//! compares the two.

mod fixed_rows;
mod layouts;
mod numbers;
mod records;
mod rows;

pub use fixed_rows::{fixed_row, row_field, set_row_field, FIXED_ROW, FIXED_ROW_FIELDS};
pub use layouts::{
    encode, field, is_mapping_kind, is_wide_kind, kinds, length, set_field, sibling, sizes, KINDS,
};
pub use numbers::{fields, hex, number, put};
pub use records::Record;
pub use rows::{read_row, write_row, ROW};

/// The longest table, in bytes.
pub const TABLE_LIMIT: usize = 47_104;

/// The longest log that the replay program reads, in bytes.
pub const LOG_LIMIT: usize = 65_536;

/// How many PCIDs there are, and so how many counts a tally has for them (document 02, Ask 7).
pub const PCIDS: usize = 4_096;

/// Pages of guest-physical addresses, and of linear ones of 48 bits, are below this: 2^36.
pub const PAGES: u64 = 1 << 36;

/// Pages of linear addresses of 57 bits are below this: 2^45.
pub const WIDE_PAGES: u64 = 1 << 45;

/// The bits of IA32_VMX_EPT_VPID_CAP that document 01 reads. The replay program has them all.
pub const CAPABILITY_BITS: [u32; 12] = [6, 8, 14, 20, 21, 25, 26, 32, 40, 41, 42, 43];

/// The replay program's IA32_VMX_EPT_VPID_CAP.
pub const PROGRAM_CAPABILITY: u64 = all_of(&CAPABILITY_BITS);

/// The replay program's physical width N.
pub const PROGRAM_WIDTH: u64 = 52;

/// The replay program's linear width.
pub const PROGRAM_LINEAR_WIDTH: u64 = 48;

/// The linear widths that a context may have (document 02, Ask 12).
pub const LINEAR_WIDTHS: [u64; 2] = [48, 57];

/// The number that has these bits.
const fn all_of(bits: &[u32]) -> u64 {
    let mut number = 0;
    let mut next = 0;
    while next < bits.len() {
        number |= 1 << bits[next];
        next += 1;
    }
    number
}

/// The canonical address with these bits 47 to 0 (56 to 0 at linear width 57): those above are like
/// the highest of them. Any width but 57 is read as 48.
pub fn canonical(linear_width: u64, address: u64) -> u64 {
    let above = if linear_width == 57 { 7 } else { 16 };
    (((address << above) as i64) >> above) as u64
}
