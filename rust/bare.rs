//! The C library's memory and panic without Rust's std: the three functions of capi/heap.c, and a trap. A proof says that no call panics.
use core::alloc::{GlobalAlloc, Layout};
use core::ptr::null_mut;

/// What heap.c answers.
#[repr(C)]
struct Tried {
    ok: u64,
    at: *mut u8,
}

unsafe extern "C" {
    fn rattle_alloc(size: usize, align: usize) -> Tried;
    fn rattle_realloc(at: *mut u8, kept: usize, size: usize, align: usize) -> Tried;
    fn rattle_dealloc(at: *mut u8);
}

fn answer(tried: Tried) -> *mut u8 {
    if tried.ok == 1 { tried.at } else { null_mut() }
}

struct Heap;

// SAFETY: heap.c's functions are malloc, realloc and free, whose blocks are aligned for all types here.
unsafe impl GlobalAlloc for Heap {
    unsafe fn alloc(&self, layout: Layout) -> *mut u8 {
        answer(unsafe { rattle_alloc(layout.size(), layout.align()) })
    }

    unsafe fn realloc(&self, place: *mut u8, layout: Layout, size: usize) -> *mut u8 {
        answer(unsafe { rattle_realloc(place, layout.size(), size, layout.align()) })
    }

    unsafe fn dealloc(&self, place: *mut u8, _: Layout) {
        unsafe { rattle_dealloc(place) }
    }
}

#[global_allocator]
static HEAP: Heap = Heap;

#[panic_handler]
fn panic(_: &core::panic::PanicInfo<'_>) -> ! {
    #[cfg(target_arch = "x86_64")]
    unsafe {
        core::arch::asm!("ud2", options(noreturn))
    }
    #[cfg(target_arch = "aarch64")]
    unsafe {
        core::arch::asm!("brk #1", options(noreturn))
    }
    #[cfg(target_arch = "wasm32")]
    core::arch::wasm32::unreachable();
    #[cfg(not(any(target_arch = "x86_64", target_arch = "aarch64", target_arch = "wasm32")))]
    loop {}
}
