//! The kit's `itoa`: the decimal digits of a number.

pub struct Buffer(String);

impl Buffer {
    pub fn new() -> Self {
        Buffer(String::new())
    }

    /// The digits, until the next number is written.
    pub fn format(&mut self, number: impl std::fmt::Display) -> &str {
        self.0 = number.to_string();
        &self.0
    }
}
