//! The entries of a directory.
use cbm_channel::FileType;
use cbm_volume::Entry as Inner;
use core::fmt;

/// An entry of a directory.
pub struct Entry(Inner);

impl Entry {
    /// The name, as PETSCII, without the filler after it.
    pub fn name(&self) -> &[u8] {
        self.0.name()
    }

    /// The type; None if its number is that of no type.
    pub fn file_type(&self) -> Option<FileType> {
        self.0.kind()
    }

    /// How many blocks the entry says that its file has.
    pub fn blocks(&self) -> u16 {
        self.0.blocks()
    }

    /// Whether the file was closed after it was written.
    pub fn is_closed(&self) -> bool {
        self.0.is_closed()
    }

    /// Whether the file is locked against SCRATCH.
    pub fn is_locked(&self) -> bool {
        self.0.is_locked()
    }

    /// The length of its records; 0 if it isn't a relative file.
    pub fn record_length(&self) -> u8 {
        if self.0.is_relative() { self.0.record_length() } else { 0 }
    }

    pub(crate) fn inner(&self) -> &Inner {
        &self.0
    }
}

impl fmt::Debug for Entry {
    fn fmt(&self, f: &mut fmt::Formatter<'_>) -> fmt::Result {
        f.debug_struct("Entry").field("name", &self.name()).field("type", &self.file_type()).field("blocks", &self.blocks()).finish()
    }
}

/// The entries of a directory, in order; those of empty slots are passed over.
pub struct Entries {
    pub(crate) slots: alloc::vec::IntoIter<Inner>,
}

impl Iterator for Entries {
    type Item = Entry;

    fn next(&mut self) -> Option<Entry> {
        self.slots.find(|slot| !slot.is_empty()).map(Entry)
    }
}
