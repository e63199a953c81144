//! Readers and writers with room, which want memory when they are made.
use super::memory::unanswered;
use crate::alloc::Global;
use core::fmt;
use real::io::{BufRead, ErrorKind, Read, Result, Write};

/// A writer that gathers bytes.
pub struct BufWriter<W: Write>(real::io::BufWriter<W>);

impl<W: Write> BufWriter<W> {
    pub fn new(_: Global, writer: W) -> Result<BufWriter<W>> { Ok(BufWriter(unanswered(|| real::io::BufWriter::new(writer)))) }
}

impl<W: Write> Write for BufWriter<W> {
    fn write(&mut self, bytes: &[u8]) -> Result<usize> { self.0.write(bytes) }
    fn flush(&mut self) -> Result<()> { self.0.flush() }
}

/// A reader that reads ahead.
pub struct BufReader<R>(real::io::BufReader<R>);

impl<R: Read> BufReader<R> {
    pub fn new(_: Global, reader: R) -> Result<BufReader<R>> { Ok(BufReader(unanswered(|| real::io::BufReader::new(reader)))) }
}

impl<R: Read> Read for BufReader<R> { fn read(&mut self, room: &mut [u8]) -> Result<usize> { self.0.read(room) } }

impl<R: Read> BufRead for BufReader<R> {
    fn fill_buf(&mut self) -> Result<&[u8]> { self.0.fill_buf() }
    fn consume(&mut self, count: usize) { self.0.consume(count) }
}

/// A text that is printed in few writes and with no memory.
pub struct Printed<W: Write> {
    to: W,
    waiting: [u8; 1024],
    count: usize,
    ended: Result<()>,
}

impl<W: Write> Printed<W> {
    /// Prints a text.
    pub fn print(to: W, text: fmt::Arguments<'_>) -> Result<()> {
        let mut printed = Printed { to, waiting: [0; 1024], count: 0, ended: Ok(()) };
        let is_whole = fmt::write(&mut printed, text).is_ok() && printed.pass_on().is_ok();
        match printed.ended {
            Ok(()) if !is_whole => Err(ErrorKind::Other.into()),
            ended => ended,
        }
    }
    fn pass_on(&mut self) -> fmt::Result {
        self.ended = self.to.write_all(&self.waiting[..self.count]);
        self.count = 0;
        self.ended.as_ref().map(|_| ()).map_err(|_| fmt::Error)
    }
}

impl<W: Write> fmt::Write for Printed<W> {
    fn write_str(&mut self, text: &str) -> fmt::Result {
        let mut rest = text.as_bytes();
        while !rest.is_empty() {
            if self.count == self.waiting.len() {
                self.pass_on()?;
            }
            let fits = rest.len().min(self.waiting.len() - self.count);
            self.waiting[self.count..self.count + fits].copy_from_slice(&rest[..fits]);
            self.count += fits;
            rest = &rest[fits..];
        }
        Ok(())
    }
}
