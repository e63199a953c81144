//! The process, and the leave to end it.
#[cfg(feature = "os")]
pub use real::process::*;

/// The leave to end the process, which only tests have.
pub trait Abort {}
impl Abort for crate::HostRuntime {}
