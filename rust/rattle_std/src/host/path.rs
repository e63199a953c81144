//! Paths, which are text.
use super::fs::Files;
use super::memory::unanswered;
use crate::String;
use crate::alloc::{AllocError, Global};
use real::path::Path as Real;

/// A path.
#[derive(Clone, Copy, Debug, PartialEq, Eq)]
pub struct Path<'a>(&'a str);

impl<'a> Path<'a> {
    pub fn new(text: &'a str) -> Path<'a> { Path(text) }
    pub fn as_str(self) -> &'a str { self.0 }
    pub fn file_name(self) -> Option<&'a str> { Real::new(self.0).file_name()?.to_str() }
    pub fn extension(self) -> Option<&'a str> { Real::new(self.0).extension()?.to_str() }
    pub fn file_stem(self) -> Option<&'a str> { Real::new(self.0).file_stem()?.to_str() }
    pub fn parent(self) -> Option<Path<'a>> { Some(Path(Real::new(self.0).parent()?.to_str()?)) }
    pub fn is_dir(self, _: &impl Files) -> bool { unanswered(|| Real::new(self.0).is_dir()) }
    pub fn join(self, alloc: Global, more: &str) -> Result<PathBuf, AllocError> {
        let whole = unanswered(|| Real::new(self.0).join(more).into_os_string());
        match whole.into_string() {
            Ok(text) => Ok(PathBuf(String(text))),
            Err(_) => PathBuf::from_str(alloc, more),
        }
    }
}

/// A path that owns its text.
#[derive(Debug, PartialEq, Eq)]
pub struct PathBuf(String);

impl PathBuf {
    pub fn from_str(alloc: Global, text: &str) -> Result<PathBuf, AllocError> { Ok(PathBuf(String::from_str(alloc, text)?)) }
    pub fn as_path(&self) -> Path<'_> { Path(self.0.as_str()) }
    pub fn as_str(&self) -> &str { self.0.as_str() }
}

/// What names a file.
pub trait AsPath {
    fn path_text(&self) -> &str;
}

impl AsPath for &str { fn path_text(&self) -> &str { self } }
impl AsPath for Path<'_> { fn path_text(&self) -> &str { self.0 } }
