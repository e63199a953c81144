//! Standard input, output and errors by their descriptors: Rust's own take one that is closed for one that takes all.
use real::io::{Read, Result, Write};

/// Which of the three.
#[derive(Clone, Copy, Debug, PartialEq, Eq)]
pub enum Standard {
    Input = 0,
    Output = 1,
    Errors = 2,
}

impl Read for Standard { fn read(&mut self, room: &mut [u8]) -> Result<usize> { system::read(*self, room) } }

impl Write for Standard {
    fn write(&mut self, bytes: &[u8]) -> Result<usize> { system::write(*self, bytes) }
    fn flush(&mut self) -> Result<()> { Ok(()) }
}

/// Ends the process at once: nothing that Rust has to do at its end may wait for what is under way.
pub use system::exit;

/// Whether somebody watches. (Rust's own trait is closed)
pub trait IsTerminal {
    fn is_terminal(&self) -> bool;
}

impl IsTerminal for Standard { fn is_terminal(&self) -> bool { system::is_terminal(*self) } }

#[cfg(unix)]
mod system {
    use super::Standard;
    use core::mem::ManuallyDrop;
    use core::sync::atomic::{AtomicU8, Ordering};
    use real::fs::File;
    use real::io::{Error, Read, Result, Write};
    use real::os::fd::FromRawFd;

    /// What `fcntl` is asked: a descriptor's flags. (the same on each Unix)
    const F_GETFD: i32 = 1;
    /// "Bad file descriptor". (the same on each Unix)
    const EBADF: i32 = 9;

    unsafe extern "C" {
        fn fcntl(descriptor: i32, command: i32, ...) -> i32;
        fn _exit(status: i32) -> !;
    }

    /// A bit for each that was closed when the program began.
    static CLOSED: AtomicU8 = AtomicU8::new(0);

    /// Rust opens /dev/null in place of a closed one before `main`, so they are looked at before that.
    extern "C" fn look() {
        for which in [Standard::Input, Standard::Output, Standard::Errors] {
            // SAFETY: the call takes numbers, and changes nothing.
            if unsafe { fcntl(which as i32, F_GETFD) } == -1 {
                CLOSED.fetch_or(1 << which as u8, Ordering::Relaxed);
            }
        }
    }

    // SAFETY: the section is a list of functions that are called at the program's start.
    #[used]
    #[cfg_attr(target_vendor = "apple", unsafe(link_section = "__DATA,__mod_init_func"))]
    #[cfg_attr(not(target_vendor = "apple"), unsafe(link_section = ".init_array"))]
    static LOOK: extern "C" fn() = look;

    pub fn exit(status: i32) -> ! {
        // SAFETY: the call takes a number, and doesn't return.
        unsafe { _exit(status) }
    }
    fn opened(which: Standard) -> Result<ManuallyDrop<File>> {
        if CLOSED.load(Ordering::Relaxed) & 1 << which as u8 != 0 {
            return Err(Error::from_raw_os_error(EBADF));
        }
        // SAFETY: the descriptor is open, and isn't closed by the file, which is never dropped.
        Ok(ManuallyDrop::new(unsafe { File::from_raw_fd(which as i32) }))
    }
    pub fn is_terminal(which: Standard) -> bool { opened(which).is_ok_and(|file| real::io::IsTerminal::is_terminal(&*file)) }
    pub fn read(which: Standard, room: &mut [u8]) -> Result<usize> { opened(which)?.read(room) }
    pub fn write(which: Standard, bytes: &[u8]) -> Result<usize> { opened(which)?.write(bytes) }
}

#[cfg(not(unix))]
mod system {
    use super::Standard;
    use real::io::{Read, Result, Write};

    pub use real::process::exit;

    /// A handle that isn't there is no place for bytes.
    #[cfg(windows)]
    fn is_there(handle: &impl real::os::windows::io::AsRawHandle) -> Result<()> {
        if handle.as_raw_handle().is_null() { Err(real::io::ErrorKind::NotConnected.into()) } else { Ok(()) }
    }
    #[cfg(not(windows))]
    fn is_there<T>(_: &T) -> Result<()> { Ok(()) }

    pub fn is_terminal(which: Standard) -> bool {
        use real::io::IsTerminal;
        if which == Standard::Errors { real::io::stderr().is_terminal() } else { real::io::stdout().is_terminal() }
    }
    pub fn read(_: Standard, room: &mut [u8]) -> Result<usize> {
        is_there(&real::io::stdin())?;
        real::io::stdin().read(room)
    }
    pub fn write(which: Standard, bytes: &[u8]) -> Result<usize> {
        if which == Standard::Errors {
            is_there(&real::io::stderr())?;
            return real::io::stderr().write(bytes);
        }
        is_there(&real::io::stdout())?;
        real::io::stdout().write_all(bytes)?;
        real::io::stdout().flush().map(|()| bytes.len())
    }
}
