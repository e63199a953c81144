//! Files, streams, the clock, the command line and the program's memory, over Rust's std.
use crate::alloc::{AllocError, AllocFailed};

mod buffers;
pub mod env;
pub mod fs;
pub mod io;
pub mod memory;
pub mod os;
pub mod path;
#[cfg(windows)]
mod processes;
pub mod rt;
mod standard;
pub mod time;

impl From<AllocError> for real::io::Error {
    fn from(_: AllocError) -> real::io::Error { real::io::Error::from(real::io::ErrorKind::OutOfMemory) }
}

impl<T> From<AllocFailed<T>> for real::io::Error { fn from(_: AllocFailed<T>) -> real::io::Error { AllocError.into() } }
