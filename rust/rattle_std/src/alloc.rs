//! The allocator that is passed along, and what is answered where it has no memory.
use crate::{String, fmt};

pub use crate::heap::alloc::Layout;

/// Memory ran out.
#[derive(Clone, Copy, Debug, PartialEq, Eq)]
pub struct AllocError;

/// Memory ran out, and this value could not be stored.
pub struct AllocFailed<T> {
    pub value: T,
}

/// The global allocator.
#[derive(Clone, Copy, Debug, PartialEq, Eq)]
pub struct Global;

impl fmt::Display for AllocError { fn fmt(&self, f: &mut fmt::Formatter<'_>) -> fmt::Result { f.write_str("memory allocation failed") } }
impl core::error::Error for AllocError {}
impl<T> fmt::Debug for AllocFailed<T> { fn fmt(&self, f: &mut fmt::Formatter<'_>) -> fmt::Result { f.write_str("AllocFailed") } }
impl<T> From<AllocFailed<T>> for AllocError { fn from(_: AllocFailed<T>) -> AllocError { AllocError } }
impl From<AllocError> for fmt::Error { fn from(_: AllocError) -> fmt::Error { fmt::Error } }

/// What `format!(in alloc; ..)` answers.
pub fn formatted(_: Global, text: fmt::Arguments<'_>) -> Result<String, AllocError> {
    let mut made = String::new(Global);
    made.write_fmt(text)?;
    Ok(made)
}
