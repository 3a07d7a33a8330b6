//! What the crates use of itoa, as plain Rust.
#[derive(Default)]
pub struct Buffer(String);
impl Buffer {
    pub fn new() -> Buffer { Buffer::default() }
    pub fn format<N: std::fmt::Display>(&mut self, number: N) -> &str {
        self.0 = number.to_string();
        &self.0
    }
}
