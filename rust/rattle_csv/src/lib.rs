//! What disk1541 uses of the kit's csv, over Rust's.
use rattle_std::memory::unanswered;
use rattle_std::{Vec, alloc::Global};

/// How rows are written.
#[derive(Default)]
pub struct WriterBuilder(real::WriterBuilder);

impl WriterBuilder {
    pub fn new() -> WriterBuilder {
        WriterBuilder(unanswered(real::WriterBuilder::new))
    }

    pub fn has_headers(mut self, has: bool) -> WriterBuilder {
        self.0.has_headers(has);
        self
    }

    /// Over no bytes yet.
    pub fn from_writer(self, bytes: Vec<u8>) -> Writer {
        Writer(unanswered(|| self.0.from_writer(bytes.0)))
    }
}

/// Writes rows.
pub struct Writer(real::Writer<std::vec::Vec<u8>>);

impl Writer {
    pub fn serialize<T: serde::Serialize>(&mut self, _: Global, value: &T) -> Result<(), real::Error> {
        unanswered(|| self.0.serialize(value))
    }

    pub fn into_inner(mut self) -> Result<Vec<u8>, real::Error> {
        unanswered(|| {
            self.0.flush()?;
            self.0.into_inner().map(Vec).map_err(|it| std::io::Error::from(it.error().kind()).into())
        })
    }
}
