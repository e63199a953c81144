//! The DOS of a drive, as calls.
use crate::{Error, Image, Result, Status};
use alloc::vec::Vec;
use cbm_channel::Channels;
use cbm_image::AnyDisk;
use rattle_std::alloc::Global;

/// The least number of a status that reports an error.
const ERRORS: u8 = 20;

/// The channel of commands and of the status.
const COMMANDS: u8 = 15;

/// The DOS of a drive with a disk in it: OPEN, CLOSE and bytes of sixteen channels, without the bus.
pub struct Dos {
    dos: cbm_channel::Dos<AnyDisk>,
}

impl Dos {
    /// A drive that is switched on with the disk of an image.
    pub fn new(image: &Image) -> Result<Dos> {
        let disk = AnyDisk::open(Global, image.as_bytes(), false)?;
        Ok(Dos { dos: cbm_channel::Dos::new(disk, Channels::new(Global)?) })
    }

    /// OPEN of a channel, 0 to 15, with a text.
    pub fn open(&mut self, channel: u8, text: &[u8]) -> Result<()> {
        if channel > COMMANDS {
            return Err(Error::Invalid);
        }
        self.dos.open(channel, text);
        self.told()
    }

    /// CLOSE of a channel.
    pub fn close(&mut self, channel: u8) -> Result<()> {
        if channel > COMMANDS {
            return Err(Error::Invalid);
        }
        self.dos.close(channel);
        self.told()
    }

    /// What a channel sends, at most so many bytes.
    pub fn read(&mut self, channel: u8, most: u32) -> Result<Vec<u8>> {
        if channel > COMMANDS {
            return Err(Error::Invalid);
        }
        Ok(cbm_talk::said(Global, &mut self.dos, channel, most)?.into())
    }

    /// Sends bytes to a channel.
    pub fn write(&mut self, channel: u8, bytes: &[u8]) -> Result<()> {
        if channel > COMMANDS {
            return Err(Error::Invalid);
        }
        cbm_talk::hear(&mut self.dos, channel, bytes);
        self.told()
    }

    /// Carries out a command, such as `I0`.
    pub fn command(&mut self, text: &[u8]) -> Result<()> {
        self.open(COMMANDS, text)
    }

    /// The status.
    pub fn status(&self) -> Status {
        self.dos.status()
    }

    /// The image of the disk as it is now.
    pub fn image(&self) -> Result<Image> {
        Image::of_disk(self.dos.medium())
    }

    fn told(&self) -> Result<()> {
        let status = self.dos.status();
        let number = status.code.number();
        // 73 is what a drive reports when it is switched on
        if number < ERRORS || number == 73 { Ok(()) } else { Err(Error::Refused(status)) }
    }
}
