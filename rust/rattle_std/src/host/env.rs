//! The words of the command line, and variables.
use super::memory::unanswered;
use crate::alloc::AllocError;
use crate::{AllocGlobal, HostRuntime, String, Vec};
use real::ffi::OsString;
use real::io::{Error, ErrorKind};

/// Why a word wasn't copied.
pub enum FillError {
    NotPresent,
    TooLong,
}

/// What has a command line.
pub trait Env {
    /// Copies a word to the beginning of the room; how many bytes it has. The first word is the program's name.
    fn arg(&self, index: usize, room: &mut [u8]) -> Result<usize, FillError> {
        let word = word_at(index).ok_or(FillError::NotPresent)?;
        let bytes = word.as_encoded_bytes();
        room.get_mut(..bytes.len()).ok_or(FillError::TooLong)?.copy_from_slice(bytes);
        Ok(bytes.len())
    }
}

impl Env for HostRuntime {}

fn word_at(index: usize) -> Option<OsString> { unanswered(|| real::env::args_os().nth(index)) }

/// A variable's text.
pub fn var(_: &(impl Env + AllocGlobal), name: &str) -> Result<String, real::env::VarError> { unanswered(|| real::env::var(name)).map(String) }

/// The words of the command line. Errors: one is no text; memory ran out.
pub fn args(rt: &(impl Env + AllocGlobal)) -> Result<real::vec::IntoIter<String>, Error> {
    let mut words = Vec::new(rt.alloc());
    for word in unanswered(real::env::args_os) {
        let text = word.into_string().map_err(|_| Error::from(ErrorKind::InvalidData))?;
        words.push(String(text)).map_err(AllocError::from)?;
    }
    Ok(words.into_iter())
}
