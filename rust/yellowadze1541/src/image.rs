//! Images of disks.
use crate::{Entries, Entry, Error, Result, Unsound};
use alloc::vec::Vec;
use cbm_image::{AnyDisk, Kind, kind_of};
use cbm_shell::{DiskChange, Form, ShellFault};
use cbm_volume::Volume;
use rattle_std::alloc::Global;

/// The format of an image.
#[derive(Clone, Copy, Debug, PartialEq, Eq)]
#[non_exhaustive]
pub enum Format {
    /// The sectors of 35 tracks, in order.
    D64,
    /// The sectors of 40 tracks, in order.
    D64With40Tracks,
    /// Tracks as circles of bits.
    G64,
}

/// An image of the other format.
#[derive(Clone, Debug)]
pub struct Converted {
    /// The new image.
    pub image: Image,
    /// Whether the new image has all that the old one had.
    pub is_whole: bool,
}

/// The bytes of a disk image, which are known to be one.
#[derive(Clone, Debug, PartialEq, Eq)]
pub struct Image {
    bytes: Vec<u8>,
}

impl Image {
    /// An empty disk, formatted with a title of at most sixteen bytes, and an id.
    pub fn new(format: Format, title: &[u8], id: [u8; 2]) -> Result<Image> {
        let form = match format {
            Format::D64 => Form::D64,
            Format::D64With40Tracks => Form::LongD64,
            Format::G64 => Form::G64,
        };
        Ok(Image { bytes: cbm_shell::new_image(Global, form, title, id)?.into() })
    }

    /// The image of these bytes. Errors: [`Error::NotAnImage`], [`Error::Memory`].
    pub fn from_bytes(bytes: impl Into<Vec<u8>>) -> Result<Image> {
        let image = Image { bytes: bytes.into() };
        image.disk()?;
        Ok(image)
    }

    /// Its bytes.
    pub fn as_bytes(&self) -> &[u8] {
        &self.bytes
    }

    /// Its bytes.
    pub fn into_bytes(self) -> Vec<u8> {
        self.bytes
    }

    /// Its format.
    pub fn format(&self) -> Format {
        match kind_of(&self.bytes) {
            Kind::G64 => Format::G64,
            Kind::D64 if self.bytes.len() >= 196_608 => Format::D64With40Tracks,
            Kind::D64 => Format::D64,
        }
    }

    fn disk(&self) -> Result<AnyDisk> {
        Ok(AnyDisk::open(Global, &self.bytes, false)?)
    }

    fn volume(&self) -> Result<Volume<AnyDisk>> {
        Ok(Volume::open(self.disk()?))
    }

    /// The title: sixteen bytes of PETSCII, with the filler $A0.
    pub fn title(&self) -> Result<[u8; 16]> {
        Ok(self.volume()?.label()?.title)
    }

    /// The blocks that are free for files.
    pub fn free_blocks(&self) -> Result<u16> {
        Ok(self.volume()?.free()?)
    }

    /// Whether the disk is sound, or what is wrong first.
    pub fn check(&self) -> Result<core::result::Result<(), Unsound>> {
        Ok(self.volume()?.check())
    }

    /// The directory's entries.
    pub fn entries(&self) -> Result<Entries> {
        let slots: Vec<_> = cbm_shell::entries_of(Global, &self.volume()?)?.into();
        Ok(Entries { slots: slots.into_iter() })
    }

    /// The bytes of the first file whose name matches a pattern, such as `HELLO` or `H*`.
    pub fn read(&self, pattern: &[u8]) -> Result<Vec<u8>> {
        Ok(cbm_shell::get(Global, &self.volume()?, pattern)?.into())
    }

    /// The bytes of an entry's file.
    pub fn read_entry(&self, entry: &Entry) -> Result<Vec<u8>> {
        Ok(cbm_shell::read_file(Global, &self.volume()?, entry.inner())?.into())
    }

    /// Writes a file, by the text of an OPEN that writes, such as `HELLO,P,W`. At an error the image is as it was.
    pub fn write(&mut self, text: &[u8], bytes: &[u8]) -> Result<()> {
        self.change(&DiskChange::File(text, bytes))
    }

    /// Carries out a command of the drive, such as `S0:HELLO` or `R0:NEW=OLD`. At an error the image is as it was.
    pub fn command(&mut self, text: &[u8]) -> Result<()> {
        self.change(&DiskChange::Command(text))
    }

    fn change(&mut self, change: &DiskChange<'_>) -> Result<()> {
        self.bytes = cbm_shell::change(Global, &self.bytes, change)?.into();
        Ok(())
    }

    /// The image in the other format.
    pub fn convert(&self) -> Result<Converted> {
        let made = cbm_shell::convert(Global, &self.bytes)?;
        Ok(Converted { is_whole: made.lost.is_none(), image: Image { bytes: made.image.into() } })
    }

    pub(crate) fn of_disk(disk: &AnyDisk) -> Result<Image> {
        Ok(Image { bytes: disk.save(Global, disk.kind())?.into() })
    }

    pub(crate) fn of(bytes: Vec<u8>) -> Image {
        Image { bytes }
    }
}

impl TryFrom<&[u8]> for Image {
    type Error = Error;

    fn try_from(bytes: &[u8]) -> Result<Image> {
        let mut copy = Vec::new();
        copy.try_reserve_exact(bytes.len()).map_err(|_| Error::from(ShellFault::Memory))?;
        copy.extend_from_slice(bytes);
        Image::from_bytes(copy)
    }
}

impl AsRef<[u8]> for Image {
    fn as_ref(&self) -> &[u8] {
        &self.bytes
    }
}
