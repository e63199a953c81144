//! What shows whether two names are of one file, and whose it is, as Unix has it.
use super::fs::Files;
use super::memory::unanswered;
use super::path::AsPath;
use real::io::Result;

pub mod unix {
    pub mod fs {
        #[cfg(unix)]
        pub use real::os::unix::fs::MetadataExt;
        #[cfg(not(unix))]
        pub use super::super::MetadataExt;
        pub use super::super::chown;
    }
}

/// The device and the number of a file on other systems: Windows shows neither on stable Rust, so its size and the moment of its creation are taken.
#[cfg(not(unix))]
pub trait MetadataExt {
    fn dev(&self) -> u64;
    fn ino(&self) -> u64;
    fn nlink(&self) -> u64 { 1 }
    fn uid(&self) -> u32 { 0 }
    fn gid(&self) -> u32 { 0 }
}

/// Gives a file another owner and another group, where the system has such.
pub fn chown<P: AsPath>(_: &impl Files, path: P, uid: Option<u32>, gid: Option<u32>) -> Result<()> {
    #[cfg(unix)]
    return unanswered(|| real::os::unix::fs::chown(path.path_text(), uid, gid));
    #[cfg(not(unix))]
    Ok(())
}

#[cfg(windows)]
impl MetadataExt for real::fs::Metadata {
    fn dev(&self) -> u64 { real::os::windows::fs::MetadataExt::file_size(self) }
    fn ino(&self) -> u64 { real::os::windows::fs::MetadataExt::creation_time(self) }
}
