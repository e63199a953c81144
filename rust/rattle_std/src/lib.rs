//! What the crates use of the Rattle kit's `std`, over Rust's: each of them names this crate `std`. Collections take an allocator, and answer an error
//! where Rust's end the process; input, output and files go through a runtime.
#![no_std]
#[cfg(any(feature = "os", test))]
extern crate std as real;

pub use core::*;

pub mod alloc;
mod boxed;
mod collected;
mod macros;
pub mod marker;
pub mod process;
pub mod rattle;
mod runtime;
mod string;
pub mod test;
mod vec;

#[cfg(feature = "os")]
mod host;
#[cfg(feature = "os")]
pub use host::{env, fs, io, memory, os, path, rt, time};
#[cfg(feature = "serde")]
mod by_serde;
#[doc(hidden)]
pub extern crate alloc as heap;

pub use boxed::Box;
pub use collected::CollectIn;
pub use runtime::{AllocGlobal, HostRuntime};
pub use string::String;
pub use vec::Vec;
