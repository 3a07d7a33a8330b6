//! What the crates use of arrayvec, as plain Rust.
use std::fmt;
#[derive(Clone, Copy)]
pub struct ArrayString<const CAP: usize> { bytes: [u8; CAP], len: usize }
#[derive(Debug)]
pub struct CapacityError;
impl<const CAP: usize> ArrayString<CAP> {
    pub fn new() -> Self { ArrayString { bytes: [0; CAP], len: 0 } }
    pub fn push_str(&mut self, text: &str) { self.try_push_str(text).unwrap() }
    pub fn push(&mut self, letter: char) { self.push_str(letter.encode_utf8(&mut [0; 4])) }
    pub fn try_push_str(&mut self, text: &str) -> Result<(), CapacityError> {
        let end = self.len + text.len();
        self.bytes.get_mut(self.len..end).ok_or(CapacityError)?.copy_from_slice(text.as_bytes());
        self.len = end;
        Ok(())
    }
    pub fn as_str(&self) -> &str { std::str::from_utf8(&self.bytes[..self.len]).unwrap() }
    pub fn clear(&mut self) { self.len = 0 }
    pub fn truncate(&mut self, len: usize) { self.len = self.len.min(len) }
    pub fn capacity(&self) -> usize { CAP }
    pub fn remaining_capacity(&self) -> usize { CAP - self.len }
}
impl<const CAP: usize> std::ops::Deref for ArrayString<CAP> {
    type Target = str;
    fn deref(&self) -> &str { self.as_str() }
}
impl<const CAP: usize> PartialEq for ArrayString<CAP> {
    fn eq(&self, other: &Self) -> bool { self.as_str() == other.as_str() }
}
impl<const CAP: usize> Eq for ArrayString<CAP> {}
impl<const CAP: usize> fmt::Debug for ArrayString<CAP> {
    fn fmt(&self, f: &mut fmt::Formatter<'_>) -> fmt::Result { fmt::Debug::fmt(self.as_str(), f) }
}
impl<const CAP: usize> fmt::Display for ArrayString<CAP> {
    fn fmt(&self, f: &mut fmt::Formatter<'_>) -> fmt::Result { f.write_str(self.as_str()) }
}
