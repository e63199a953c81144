//! What Linux has in /proc of processes, on Windows: their numbers, and which of them still run.
use real::ffi::c_void;
use real::fs::Metadata;
use real::io::{Error, ErrorKind, Result};

#[link(name = "kernel32")]
unsafe extern "system" {
    fn OpenProcess(access: u32, inherits: i32, process: u32) -> *mut c_void;
    fn GetExitCodeProcess(process: *mut c_void, code: *mut u32) -> i32;
    fn CloseHandle(handle: *mut c_void) -> i32;
    fn GetLastError() -> u32;
}

const QUERY_LIMITED_INFORMATION: u32 = 0x1000;
const STILL_ACTIVE: u32 = 259;
const INVALID_PARAMETER: u32 = 87;

/// Whether a process runs, or this process may not ask.
fn is_running(process: u32) -> bool {
    // SAFETY: the handle is used only if it is one, and closed once; `code` has room for the answer.
    unsafe {
        let handle = OpenProcess(QUERY_LIMITED_INFORMATION, 0, process);
        if handle.is_null() {
            return GetLastError() != INVALID_PARAMETER;
        }
        let mut code = STILL_ACTIVE;
        GetExitCodeProcess(handle, &mut code);
        CloseHandle(handle);
        code == STILL_ACTIVE
    }
}

/// As of the folder /proc/NUMBER: NotFound if no process of this number runs.
pub fn metadata(process: &str) -> Result<Metadata> {
    match process.parse() {
        Ok(process) if is_running(process) => real::fs::metadata("."),
        _ => Err(Error::from(ErrorKind::NotFound)),
    }
}
