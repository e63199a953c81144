//! Why a call isn't carried out.
use cbm_channel::Status;
use cbm_device::DeviceRefusal;
use cbm_image::ImageFault;
use cbm_shell::ShellFault;
use cbm_volume::{Trouble, Unsound};
use core::fmt;
use rattle_std::alloc::AllocError;

/// Why a call isn't carried out. Nothing has changed then.
#[derive(Clone, Copy, Debug, PartialEq, Eq)]
#[non_exhaustive]
pub enum Error {
    /// Memory ran out.
    Memory,
    /// The bytes are no image of a disk; the number of the first fault of their format.
    NotAnImage(u8),
    /// The disk isn't sound, and so isn't changed; what is wrong first.
    Unsound(Unsound),
    /// The drive refused it, with this status.
    Refused(Status),
    /// A sector that is needed doesn't read, or a link leads nowhere.
    Unreadable(Trouble),
    /// No file has the name.
    NotFound,
    /// The file was never closed, so that it has no known end.
    NotClosed,
    /// An argument is out of its range, or comes too late.
    Invalid,
}

/// What a call answers.
pub type Result<T> = core::result::Result<T, Error>;

impl fmt::Display for Error {
    fn fmt(&self, f: &mut fmt::Formatter<'_>) -> fmt::Result {
        match self {
            Error::Memory => f.write_str("memory ran out"),
            Error::NotAnImage(fault) => write!(f, "this is no image of a disk (fault {fault})"),
            Error::Unsound(_) => f.write_str("the disk isn't sound, and so isn't changed"),
            Error::Refused(status) => write!(f, "the drive refused it with status {}", status.code.number()),
            Error::Unreadable(_) => f.write_str("a sector can't be read"),
            Error::NotFound => f.write_str("no such file"),
            Error::NotClosed => f.write_str("the file was never closed"),
            Error::Invalid => f.write_str("an argument is out of its range"),
        }
    }
}

impl core::error::Error for Error {}

impl From<AllocError> for Error {
    fn from(_: AllocError) -> Error {
        Error::Memory
    }
}

impl From<Trouble> for Error {
    fn from(trouble: Trouble) -> Error {
        Error::Unreadable(trouble)
    }
}

impl From<ImageFault> for Error {
    fn from(fault: ImageFault) -> Error {
        match fault {
            ImageFault::Format(number) => Error::NotAnImage(number),
            ImageFault::Memory => Error::Memory,
        }
    }
}

impl From<ShellFault> for Error {
    fn from(fault: ShellFault) -> Error {
        match fault {
            ShellFault::Memory => Error::Memory,
            ShellFault::Image(number) => Error::NotAnImage(number),
            ShellFault::Unsound(unsound) => Error::Unsound(unsound),
            ShellFault::Refused(status) => Error::Refused(status),
            ShellFault::Trouble(trouble) => Error::Unreadable(trouble),
            ShellFault::NotFound => Error::NotFound,
            ShellFault::NotClosed => Error::NotClosed,
            ShellFault::Mistaken => Error::Invalid,
        }
    }
}

impl From<DeviceRefusal> for Error {
    fn from(refusal: DeviceRefusal) -> Error {
        match refusal {
            DeviceRefusal::Memory => Error::Memory,
            DeviceRefusal::NoImage => Error::NotAnImage(0),
            _ => Error::Invalid,
        }
    }
}
