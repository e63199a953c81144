//! A drive on the serial bus.
use crate::{Error, Held, Image, Lines, Pace, Result};
use cbm_device::{Device, DeviceReaction as Inner};
use cbm_drive::Party;
use rattle_std::alloc::Global;

/// How a drive is set.
#[derive(Clone, Copy, Debug, PartialEq, Eq)]
pub struct Settings {
    /// Its number on the bus, 8 to 11.
    pub device: u8,
    /// How many microseconds it takes to react, 1 to 60.
    pub reaction: u8,
    /// Its times on the bus.
    pub pace: Pace,
    /// Whether the disk is write-protected.
    pub is_protected: bool,
}

impl Default for Settings {
    /// Number 8, 20 microseconds, for a computer with a KERNAL.
    fn default() -> Settings {
        Settings { device: 8, reaction: 20, pace: Pace::Kernal, is_protected: false }
    }
}

/// What a reaction of the drive did.
#[derive(Clone, Copy, Debug, PartialEq, Eq)]
pub struct Reaction {
    /// When, in microseconds.
    pub moment: u64,
    /// The lines that the drive held before.
    pub was: Held,
    /// Those that it holds since.
    pub now: Held,
}

impl From<Inner> for Reaction {
    fn from(inner: Inner) -> Reaction {
        Reaction { moment: inner.moment, was: inner.was, now: inner.now }
    }
}

/// A drive on the serial bus, with a disk in it. Moments are microseconds, and never go back.
pub struct Drive {
    device: Device,
}

impl Drive {
    /// A drive that is switched on with the disk of an image.
    pub fn new(image: &Image, settings: Settings) -> Result<Drive> {
        let party = Party { device: settings.device, reaction: settings.reaction, pace: settings.pace };
        Ok(Drive { device: Device::open(Global, image.as_bytes(), settings.is_protected, party)? })
    }

    /// From this moment on all others together hold these lines low. Errors: [`Error::Invalid`], if a reaction is due before
    /// (see [`Drive::reactions_until`]), or something happened later already.
    pub fn lines(&mut self, moment: u64, others: Lines) -> Result<()> {
        Ok(self.device.lines(moment, others)?)
    }

    /// When the next reaction is due; None if none is.
    pub fn next_due(&self) -> Option<u64> {
        self.device.next_due()
    }

    /// The reaction that is due by a moment happens, when it is due; None if none is.
    pub fn react(&mut self, moment: u64) -> Option<Reaction> {
        self.device.due(moment).ok().map(Reaction::from)
    }

    /// The reactions that are due by a moment: each happens when the iterator gives it.
    pub fn reactions_until(&mut self, moment: u64) -> Reactions<'_> {
        Reactions { drive: self, moment }
    }

    /// The lines that the drive holds low.
    pub fn holds(&self) -> Held {
        self.device.pulls()
    }

    /// The number of the status; it is not taken.
    pub fn status(&self) -> u8 {
        self.device.status()
    }

    /// How often the disk was written; the image has changed if this has grown.
    pub fn writes(&self) -> u64 {
        self.device.writes()
    }

    /// The image of the disk as it is now, also while a file is being written.
    pub fn image(&self) -> Result<Image> {
        let mut needed = 0;
        let _ = self.device.image(Global, &mut [], &mut needed);
        let mut room = alloc::vec::Vec::new();
        room.try_reserve_exact(needed).map_err(|_| Error::Memory)?;
        room.resize(needed, 0);
        self.device.image(Global, &mut room, &mut needed)?;
        Ok(Image::of(room))
    }

    /// Another disk is put in, while the drive goes on.
    pub fn insert(&mut self, image: &Image, is_protected: bool) -> Result<()> {
        Ok(self.device.insert(Global, image.as_bytes(), is_protected)?)
    }

    /// The drive is switched off and on, with its disk.
    pub fn reset(&mut self) {
        self.device.reset()
    }
}

/// The reactions that are due by a moment.
pub struct Reactions<'a> {
    drive: &'a mut Drive,
    moment: u64,
}

impl Iterator for Reactions<'_> {
    type Item = Reaction;

    fn next(&mut self) -> Option<Reaction> {
        self.drive.react(self.moment)
    }
}
