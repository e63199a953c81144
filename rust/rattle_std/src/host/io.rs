//! Streams through a runtime.
pub use super::buffers::{BufReader, BufWriter};
use super::buffers::Printed;
pub use super::standard::IsTerminal;
use super::standard::Standard;
use crate::HostRuntime;
use core::fmt;
pub use real::io::*;

/// Whether a kind has this name: stable Rust doesn't let one write all of them.
pub fn is_kind(kind: ErrorKind, name: &str) -> bool {
    let mut rest = Rest(name);
    fmt::write(&mut rest, format_args!("{kind:?}")).is_ok() && rest.0.is_empty()
}

/// What must still be written.
struct Rest<'a>(&'a str);

impl fmt::Write for Rest<'_> {
    fn write_str(&mut self, text: &str) -> fmt::Result {
        self.0 = self.0.strip_prefix(text).ok_or(fmt::Error)?;
        Ok(())
    }
}

/// What has a standard output.
pub trait Print {
    fn write_all(&self, bytes: &[u8]) -> Result<()>;

    fn print(&self, text: impl fmt::Display) -> Result<()> { Printed::print(writer(self), format_args!("{text}")) }
    fn println(&self, text: impl fmt::Display) -> Result<()> { Printed::print(writer(self), format_args!("{text}\n")) }
}

/// What has a standard error.
pub trait Eprint {
    fn eprint(&self, text: impl fmt::Display) -> Result<()>;

    fn eprintln(&self, text: impl fmt::Display) -> Result<()> { self.eprint(format_args!("{text}\n")) }
}

/// What has a standard input.
pub trait Input {
    fn reader(&self) -> Standard;
}

impl Print for HostRuntime { fn write_all(&self, bytes: &[u8]) -> Result<()> { Standard::Output.write_all(bytes) } }
impl<R: Print> Print for &R { fn write_all(&self, bytes: &[u8]) -> Result<()> { (**self).write_all(bytes) } }

impl Eprint for HostRuntime {
    fn eprint(&self, text: impl fmt::Display) -> Result<()> { Printed::print(Standard::Errors, format_args!("{text}")) }
}

impl<R: Eprint> Eprint for &R { fn eprint(&self, text: impl fmt::Display) -> Result<()> { (**self).eprint(text) } }
impl Input for HostRuntime { fn reader(&self) -> Standard { Standard::Input } }

impl HostRuntime {
    pub fn stdout(&self) -> Standard { Standard::Output }
    pub fn stderr(&self) -> Standard { Standard::Errors }
}

/// Standard output as a writer.
pub struct Printer<'a, R: ?Sized>(&'a R);

pub fn writer<R: Print + ?Sized>(rt: &R) -> Printer<'_, R> { Printer(rt) }

impl<R: Print + ?Sized> Write for Printer<'_, R> {
    fn write(&mut self, bytes: &[u8]) -> Result<usize> {
        self.0.write_all(bytes)?;
        Ok(bytes.len())
    }
    fn flush(&mut self) -> Result<()> { Ok(()) }
}

impl Write for crate::Vec<u8> {
    fn write(&mut self, bytes: &[u8]) -> Result<usize> {
        self.extend_from_slice(bytes)?;
        Ok(bytes.len())
    }
    fn flush(&mut self) -> Result<()> { Ok(()) }
}
