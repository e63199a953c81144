//! All that a runtime has.
use super::env::Env;
pub use super::fs::Files;
use super::io::{Eprint, Input, Print};
use super::time::Clock;

/// Files, streams, the command line and the clock.
pub trait Runtime: Clone + Files + Env + Clock + Print + Eprint + Input {}
impl Runtime for crate::HostRuntime {}
