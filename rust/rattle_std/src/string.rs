//! A text whose growth may fail.
use crate::alloc::{AllocError, Global};
use crate::{Vec, fmt, heap, ops};

/// Rust's string, with an error where that ends the process.
#[derive(Debug, PartialEq, Eq, PartialOrd, Ord, Hash)]
pub struct String(pub heap::string::String);

impl String {
    pub const fn new(_: Global) -> String { String(heap::string::String::new()) }
    pub fn from_str(_: Global, text: &str) -> Result<String, AllocError> {
        let mut made = String::new(Global);
        made.push_str(text)?;
        Ok(made)
    }
    pub fn from_utf8(bytes: Vec<u8>) -> Result<String, heap::string::FromUtf8Error> { heap::string::String::from_utf8(bytes.0).map(String) }
    pub fn push_str(&mut self, text: &str) -> Result<(), AllocError> {
        self.0.try_reserve(text.len()).map_err(|_| AllocError)?;
        self.0.push_str(text);
        Ok(())
    }
    pub fn push(&mut self, letter: char) -> Result<(), AllocError> { self.push_str(letter.encode_utf8(&mut [0; 4])) }

    /// (beside Rust's trait, since this one may fail)
    #[allow(clippy::should_implement_trait)]
    pub fn clone(&self) -> Result<String, AllocError> { String::from_str(Global, &self.0) }
    pub fn into_bytes(self) -> Vec<u8> { Vec(self.0.into_bytes()) }
    pub fn write_fmt(&mut self, text: fmt::Arguments<'_>) -> Result<(), AllocError> { fmt::Write::write_fmt(self, text).map_err(|_| AllocError) }
}

impl ops::Deref for String {
    type Target = heap::string::String;
    fn deref(&self) -> &heap::string::String { &self.0 }
}

impl ops::DerefMut for String { fn deref_mut(&mut self) -> &mut heap::string::String { &mut self.0 } }
impl fmt::Write for String { fn write_str(&mut self, text: &str) -> fmt::Result { Ok(self.push_str(text)?) } }
impl fmt::Display for String { fn fmt(&self, f: &mut fmt::Formatter<'_>) -> fmt::Result { fmt::Display::fmt(&self.0, f) } }
