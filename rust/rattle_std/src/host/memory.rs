//! A program's memory. Rust's std and the crates of others end the process by a signal where it runs out. Where they are at work, it ends here instead,
//! with a sentence and a status; everywhere else the answer is an error, as the crates want it.
use core::alloc::{GlobalAlloc, Layout};
use core::sync::atomic::{AtomicUsize, Ordering};
use real::alloc::System;
use real::io::Write;

use super::standard::{self, Standard};

/// The exit status where memory runs out, of all programs here.
const STATUS: i32 = 3;

/// How many calls are under way that can't answer want of memory. The first is Rust's own start, before `main`.
static UNDER_WAY: AtomicUsize = AtomicUsize::new(1);

/// The system's memory, and what is said where it runs out.
pub struct Memory {
    sentence: &'static str,
}

impl Memory {
    pub const fn of(sentence: &'static str) -> Memory { Memory { sentence } }
    fn answer(&self, place: *mut u8) -> *mut u8 {
        if place.is_null() && UNDER_WAY.load(Ordering::Relaxed) > 0 {
            self.end()
        }
        place
    }

    #[cold]
    fn end(&self) -> ! {
        // (whatever wants memory from here on gets no more than an error)
        UNDER_WAY.store(0, Ordering::Relaxed);
        let _ = Standard::Errors.write_all(self.sentence.as_bytes());
        let _ = Standard::Errors.write_all(b"\n");
        standard::exit(STATUS)
    }
}

// SAFETY: each call is the system's own, and its answer is passed on.
unsafe impl GlobalAlloc for Memory {
    unsafe fn alloc(&self, layout: Layout) -> *mut u8 { self.answer(unsafe { System.alloc(layout) }) }
    unsafe fn alloc_zeroed(&self, layout: Layout) -> *mut u8 { self.answer(unsafe { System.alloc_zeroed(layout) }) }
    unsafe fn realloc(&self, place: *mut u8, layout: Layout, size: usize) -> *mut u8 { self.answer(unsafe { System.realloc(place, layout, size) }) }
    unsafe fn dealloc(&self, place: *mut u8, layout: Layout) { unsafe { System.dealloc(place, layout) } }
}

/// Calls what answers want of memory by an error: all that a program of these crates does.
pub fn answered<T>(call: impl FnOnce() -> T) -> T {
    UNDER_WAY.fetch_sub(1, Ordering::Relaxed);
    let answer = call();
    UNDER_WAY.fetch_add(1, Ordering::Relaxed);
    answer
}

/// Calls what can't answer want of memory: a crate of others, or Rust's std.
pub fn unanswered<T>(call: impl FnOnce() -> T) -> T {
    UNDER_WAY.fetch_add(1, Ordering::Relaxed);
    let answer = call();
    UNDER_WAY.fetch_sub(1, Ordering::Relaxed);
    answer
}
