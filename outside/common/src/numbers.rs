//! Numbers in bytes, little-endian.

/// The number in at most eight bytes.
#[inline]
pub fn number(bytes: &[u8]) -> u64 {
    let mut word = [0; 8];
    word[..bytes.len()].copy_from_slice(bytes);
    u64::from_le_bytes(word)
}

/// Appends a number in so many bytes; bits that do not fit are cut.
#[inline]
pub fn put(bytes: &mut Vec<u8>, number: u64, count: usize) {
    bytes.extend_from_slice(&number.to_le_bytes()[..count]);
}

/// Numbers end to end, each in so many bytes.
pub fn fields(fields: &[(u64, usize)]) -> Vec<u8> {
    let mut bytes = Vec::new();
    for (number, count) in fields {
        put(&mut bytes, *number, *count);
    }
    bytes
}

/// Bytes as pairs of hexadecimal digits, with a blank between them.
pub fn hex(bytes: &[u8]) -> String {
    let pairs: Vec<String> = bytes.iter().map(|byte| format!("{byte:02x}")).collect();
    pairs.join(" ")
}
