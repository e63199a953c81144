//! Collecting into a vector whose growth may fail.
use crate::Vec;
use crate::alloc::{AllocError, Global};

/// The kit's `collect(alloc)`, under another name since Rust's has no argument.
pub trait CollectIn: Iterator + Sized {
    fn collect_in(self, _: Global) -> Result<Vec<Self::Item>, AllocError> {
        let mut made = Vec::new(Global);
        for item in self {
            made.push(item)?;
        }
        Ok(made)
    }
}

impl<I: Iterator> CollectIn for I {}
