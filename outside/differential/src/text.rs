//! Cases as text: a line for each field, its name first. Bytes are pairs of
//! hexadecimal digits; numbers carry `0x`; a buffer is its length and the
//! number that its pattern starts from.

use crate::buffer::Buffer;
use bridge::FlatContext;
use common::hex;
use generate::{image_entries, SparseTally};
use model::stream::Reader;
use model::Address;

/// A line of bytes.
pub fn bytes(name: &str, bytes: &[u8]) -> String {
    format!("{name} {}", hex(bytes))
}

/// A line of numbers.
pub fn numbers(name: &str, numbers: &[u64]) -> String {
    let words: Vec<String> = numbers.iter().map(|n| format!("{n:#x}")).collect();
    format!("{name} {}", words.join(" "))
}

/// A context as a line, its numbers in the order of the C interface.
pub fn context(c: &FlatContext) -> String {
    let fields = [
        c.capability,
        c.width,
        c.linear_width,
        c.pcid,
        c.cpl,
        c.place,
        c.vpid,
        c.ept,
        c.ep4ta,
    ];
    numbers("context", &fields)
}

/// A buffer as a line.
pub fn buffer(name: &str, buffer: &Buffer) -> String {
    numbers(name, &[buffer.length as u64, buffer.fill])
}

/// A reader as two lines: its line, its ignoring and the length held; then all bytes
/// that it has room for.
pub fn reader(reader: &Reader) -> String {
    let fields = [reader.line, reader.ignoring, reader.length];
    let fields = numbers("reader", &fields);
    format!("{fields}\n{}", bytes("held", &reader.held))
}

/// An image as a line: its length, and each entry in it that is not 0, its
/// address first. At the end of an odd length an entry may be cut.
pub fn image(image: &[u8]) -> String {
    let entries = image_entries(image);
    let mut words = vec![image.len() as u64];
    words.extend(entries.iter().flat_map(|(at, entry)| [*at as u64, *entry]));
    numbers("image", &words)
}

/// A tally as two lines: its thirty counts of kinds and spans; then the length
/// of its list of PCIDs, and each count in it that is not 0, its PCID first.
pub fn tally(tally: &SparseTally) -> String {
    let kinds: Vec<u64> = tally
        .kinds
        .iter()
        .flatten()
        .copied()
        .map(u64::from)
        .collect();
    let mut pcids = vec![tally.length as u64];
    for (pcid, count) in &tally.pcids {
        pcids.extend([*pcid as u64, u64::from(*count)]);
    }
    format!("{}\n{}", numbers("kinds", &kinds), numbers("pcids", &pcids))
}

/// An address as a line.
pub fn address(address: &Address) -> String {
    match address {
        Address::Linear(number) => numbers("linear", &[*number]),
        Address::GuestPhysical(number) => numbers("guest-physical", &[*number]),
    }
}
