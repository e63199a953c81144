//! A Commodore 1541 disk drive: on its serial bus ([`Drive`]), as calls of its DOS ([`Dos`]), and its disk images ([`Image`]).
//!
//! Names and texts are bytes in PETSCII, as the drive has them. A facade: the crates below it were proved with their contracts.
#![no_std]
#![warn(missing_docs)]
extern crate alloc;

mod dos;
mod drive;
mod entry;
mod error;
mod image;

pub use cbm_channel::{FileType, Status};
pub use cbm_drive::{Held, Lines, Pace};
pub use cbm_volume::Unsound;
pub use dos::Dos;
pub use drive::{Drive, Reaction, Reactions, Settings};
pub use entry::{Entries, Entry};
pub use error::{Error, Result};
pub use image::{Converted, Format, Image};

/// The examples of README.md, which are tests.
#[cfg(doctest)]
#[doc = include_str!("../README.md")]
struct ReadMe;
