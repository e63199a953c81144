//! Marks of types.
pub use core::marker::*;

/// A value may be dropped: in Rust each may.
pub trait MayDrop {}
impl<T: ?Sized> MayDrop for T {}
