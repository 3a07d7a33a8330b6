//! What the crates use of memchr, as plain Rust.
pub fn memchr(byte: u8, bytes: &[u8]) -> Option<usize> { bytes.iter().position(|other| *other == byte) }
pub fn memchr2(one: u8, other: u8, bytes: &[u8]) -> Option<usize> { bytes.iter().position(|byte| *byte == one || *byte == other) }
pub fn memchr_iter(byte: u8, bytes: &[u8]) -> impl Iterator<Item = usize> + '_ {
    bytes.iter().enumerate().filter(move |found| *found.1 == byte).map(|found| found.0)
}
