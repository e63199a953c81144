//! What a test answers.
use crate::{fmt, heap};

/// Why a test failed.
pub struct Fail(heap::string::String);

impl<E: fmt::Debug> From<E> for Fail { fn from(error: E) -> Fail { Fail(heap::format!("{error:?}")) } }

/// Rust's tests panic where the kit's answer a failure.
pub trait Ran {
    fn ran(self);
}

impl Ran for () { fn ran(self) {} }

impl Ran for Result<(), Fail> {
    fn ran(self) {
        if let Err(Fail(text)) = self {
            panic!("{text}")
        }
    }
}
