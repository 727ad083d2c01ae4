//! The kit's `String`: each allocation may fail.

use super::alloc::{AllocError, Global};
use std::borrow::Borrow;
use std::fmt;
use std::hash::{Hash, Hasher};
use std::ops::{Deref, DerefMut};

#[derive(Debug, PartialEq, Eq)]
pub struct String(std::string::String);

impl String {
    pub fn with_capacity(_: Global, capacity: usize) -> Result<Self, AllocError> {
        let mut text = std::string::String::new();
        text.try_reserve_exact(capacity).map_err(|_| AllocError)?;
        Ok(String(text))
    }

    pub fn from_str(alloc: Global, text: &str) -> Result<Self, AllocError> {
        let mut made = String::with_capacity(alloc, text.len())?;
        made.0.push_str(text);
        Ok(made)
    }

    pub fn push_str(&mut self, text: &str) -> Result<(), AllocError> {
        self.reserve(text.len())?;
        self.0.push_str(text);
        Ok(())
    }

    pub fn push(&mut self, letter: char) -> Result<(), AllocError> {
        self.reserve(letter.len_utf8())?;
        self.0.push(letter);
        Ok(())
    }

    pub fn reserve(&mut self, additional: usize) -> Result<(), AllocError> {
        self.0.try_reserve(additional).map_err(|_| AllocError)
    }

    /// For `write!`.
    pub fn write_fmt(&mut self, text: fmt::Arguments<'_>) -> Result<(), AllocError> {
        struct Growing<'a>(&'a mut String);
        impl fmt::Write for Growing<'_> {
            fn write_str(&mut self, text: &str) -> fmt::Result {
                self.0.push_str(text).map_err(|_| fmt::Error)
            }
        }
        fmt::write(&mut Growing(self), text).map_err(|_| AllocError)
    }
}

/// As the text's, by which a name is looked up.
impl Hash for String {
    fn hash<H: Hasher>(&self, state: &mut H) {
        self.0.as_str().hash(state)
    }
}

impl Borrow<str> for String {
    fn borrow(&self) -> &str {
        &self.0
    }
}

impl Deref for String {
    type Target = std::string::String;

    fn deref(&self) -> &Self::Target {
        &self.0
    }
}

impl DerefMut for String {
    fn deref_mut(&mut self) -> &mut Self::Target {
        &mut self.0
    }
}
