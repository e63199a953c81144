//! Files through a runtime. (Rust's std wants memory for a long path, and can't answer if there is none)
use super::memory::unanswered;
use super::path::{AsPath, PathBuf};
use crate::alloc::Global;
use crate::{AllocGlobal, HostRuntime, String, Vec};
pub use real::fs::{FileType, Metadata, Permissions, TryLockError};
use real::io::{Error, ErrorKind, Read, Result, Write};

/// An open file.
pub struct File(real::fs::File);

impl File {
    pub fn open<R: Files, P: AsPath>(rt: &R, path: P) -> Result<R::File> { open(rt, path) }
    pub fn lock(&self) -> Result<()> { self.0.lock() }
    pub fn try_lock(&self) -> core::result::Result<(), TryLockError> { self.0.try_lock() }
}

impl Read for File { fn read(&mut self, room: &mut [u8]) -> Result<usize> { self.0.read(room) } }

impl Write for File {
    fn write(&mut self, bytes: &[u8]) -> Result<usize> { self.0.write(bytes) }
    fn flush(&mut self) -> Result<()> { Ok(()) }
}

/// What can be done with any open file.
pub trait OpenFile: Read + Write {
    fn metadata(&self) -> Result<Metadata>;
    fn set_permissions(&self, permissions: Permissions) -> Result<()>;
    fn sync_all(&self) -> Result<()>;
}

impl OpenFile for File {
    fn metadata(&self) -> Result<Metadata> { self.0.metadata() }
    fn set_permissions(&self, permissions: Permissions) -> Result<()> { self.0.set_permissions(permissions) }
    fn sync_all(&self) -> Result<()> { self.0.sync_all() }
}

/// The names in a folder, each with a 0 after it. No read ends inside a name.
pub struct Dir {
    entries: real::fs::ReadDir,
    next: Option<real::ffi::OsString>,
}

impl Dir {
    /// The next name, if one is left.
    fn fill(&mut self) -> Result<bool> {
        if self.next.is_none() {
            let entry = unanswered(|| self.entries.next().map(|it| it.map(|entry| entry.file_name())));
            self.next = entry.transpose()?;
        }
        Ok(self.next.is_some())
    }

    /// Puts the next name into the room, if it fits. How many bytes it takes.
    fn put(&mut self, room: &mut [u8]) -> Option<usize> {
        let name = self.next.as_ref()?.as_encoded_bytes();
        let count = name.len();
        let (place, end) = room.get_mut(..=count)?.split_at_mut(count);
        place.copy_from_slice(name);
        end[0] = 0;
        self.next = None;
        Some(count + 1)
    }
}

impl Read for Dir {
    fn read(&mut self, room: &mut [u8]) -> Result<usize> {
        let mut count = 0;
        while self.fill()? {
            match self.put(&mut room[count..]) {
                Some(more) => count += more,
                None if count > 0 => break,
                None => return Err(Error::from(ErrorKind::InvalidInput)),
            }
        }
        Ok(count)
    }
}

/// What has files.
pub trait Files {
    type File: OpenFile;

    fn open_by(&self, how: &OpenOptions, path: &str) -> Result<Self::File>;

    fn open_dir(&self, path: &str) -> Result<Dir> {
        let entries = unanswered(|| real::fs::read_dir(path))?;
        Ok(Dir { entries, next: None })
    }
}

impl Files for HostRuntime {
    type File = File;
    fn open_by(&self, how: &OpenOptions, path: &str) -> Result<File> { unanswered(|| how.0.open(path)).map(File) }
}

/// How a file is opened.
pub struct OpenOptions(real::fs::OpenOptions);

impl Default for OpenOptions { fn default() -> OpenOptions { OpenOptions::new() } }

impl OpenOptions {
    pub fn new() -> OpenOptions { OpenOptions(real::fs::OpenOptions::new()) }
    pub fn write(&mut self, is: bool) -> &mut OpenOptions {
        self.0.write(is);
        self
    }
    pub fn create_new(&mut self, is: bool) -> &mut OpenOptions {
        self.0.create_new(is);
        self
    }
    pub fn open<R: Files, P: AsPath>(&self, rt: &R, path: P) -> Result<R::File> { rt.open_by(self, path.path_text()) }
}

pub fn open<R: Files, P: AsPath>(rt: &R, path: P) -> Result<R::File> {
    let mut how = OpenOptions::new();
    how.0.read(true);
    how.open(rt, path)
}

pub fn create<R: Files, P: AsPath>(rt: &R, path: P) -> Result<R::File> {
    let mut how = OpenOptions::new();
    how.0.write(true).create(true).truncate(true);
    how.open(rt, path)
}

pub fn write<R: Files, P: AsPath>(rt: &R, path: P, bytes: &[u8]) -> Result<()> { create(rt, path)?.write_all(bytes) }

pub fn read_to_string<R: Files + AllocGlobal, P: AsPath>(rt: &R, path: P) -> Result<String> {
    let mut file = open(rt, path)?;
    let mut bytes = Vec::new(rt.alloc());
    let mut room = [0; 4096];
    loop {
        match file.read(&mut room)? {
            0 => break,
            count => bytes.extend_from_slice(&room[..count])?,
        }
    }
    String::from_utf8(bytes).map_err(|_| Error::from(ErrorKind::InvalidData))
}

pub fn metadata<P: AsPath>(_: &impl Files, path: P) -> Result<Metadata> {
    #[cfg(windows)]
    if let Some(process) = path.path_text().strip_prefix("/proc/") {
        return super::processes::metadata(process);
    }
    unanswered(|| real::fs::metadata(path.path_text()))
}

pub fn symlink_metadata<P: AsPath>(_: &impl Files, path: P) -> Result<Metadata> { unanswered(|| real::fs::symlink_metadata(path.path_text())) }

pub fn canonicalize<P: AsPath>(_: &impl Files, path: P) -> Result<PathBuf> {
    let place = unanswered(|| real::fs::canonicalize(path.path_text()))?;
    let text = place.to_str().ok_or(ErrorKind::InvalidData)?;
    Ok(PathBuf::from_str(Global, text)?)
}

pub fn remove_file<P: AsPath>(_: &impl Files, path: P) -> Result<()> { unanswered(|| real::fs::remove_file(path.path_text())) }

pub fn create_dir<P: AsPath>(_: &impl Files, path: P) -> Result<()> { unanswered(|| real::fs::create_dir(path.path_text())) }

pub fn rename<P: AsPath, Q: AsPath>(_: &impl Files, from: P, to: Q) -> Result<()> {
    unanswered(|| real::fs::rename(from.path_text(), to.path_text()))
}

pub fn read_link<P: AsPath>(_: &impl Files, path: P) -> Result<PathBuf> {
    #[cfg(windows)]
    if path.path_text() == "/proc/self" {
        return Ok(PathBuf::from_str(Global, &real::format!("{}", real::process::id()))?);
    }
    let link = unanswered(|| real::fs::read_link(path.path_text()))?;
    let text = link.to_str().ok_or(ErrorKind::InvalidData)?;
    Ok(PathBuf::from_str(Global, text)?)
}
