//! The C library as a module for WebAssembly: room for the arguments of its calls, and the calls that a host makes all the time, whose numbers are JavaScript's.
//! capi/portable/inside.c and js.c have the same for the module that is made from the proof.
extern crate alloc;

use crate::drives::{y1541_due_for_c, y1541_lines_for_c, y1541_next_due_for_c};
use crate::{Handle, Reacted};
use alloc::alloc::{Layout, alloc, dealloc};
use core::ptr::null_mut;

/// Bytes of an address of this module. The module that is made from the proof has 8, and lacks this function.
#[unsafe(no_mangle)]
pub extern "C" fn address_bytes() -> u32 {
    size_of::<usize>() as u32
}

/// The size of a block of memory is kept in front of it, in this many bytes.
const HEAD: usize = 16;

fn layout_of(size: usize) -> Option<Layout> {
    Layout::from_size_align(size.checked_add(HEAD)?, HEAD).ok()
}

/// Memory for an argument or an answer; null if there is none.
#[unsafe(no_mangle)]
pub extern "C" fn room(size: usize) -> *mut u8 {
    let Some(layout) = layout_of(size) else {
        return null_mut();
    };
    // SAFETY: the layout has at least HEAD bytes.
    unsafe {
        let block = alloc(layout);
        if block.is_null() {
            return block;
        }
        block.cast::<usize>().write(size);
        block.add(HEAD)
    }
}

/// Frees memory.
///
/// # Safety
///
/// `room` returned it, and it was not freed.
#[unsafe(no_mangle)]
pub unsafe extern "C" fn room_back(bytes: *mut u8) {
    // SAFETY: `room` put the size in front of the bytes, so the layout is the one that was allocated.
    unsafe {
        let block = bytes.sub(HEAD);
        if let Some(layout) = layout_of(block.cast::<usize>().read()) {
            dealloc(block, layout);
        }
    }
}

/// `y1541_lines`. The moment is below 2^53.
///
/// # Safety
///
/// The pointer is as the header says.
#[unsafe(no_mangle)]
pub unsafe extern "C" fn js_lines(drive: &mut Handle, moment: f64, atn_low: u32, clock_low: u32, data_low: u32) -> i32 {
    unsafe { y1541_lines_for_c(drive, moment as u64, atn_low as u8, clock_low as u8, data_low as u8) }
}

/// `y1541_next_due`; infinity if the drive waits for a line.
///
/// # Safety
///
/// The pointer is as the header says.
#[unsafe(no_mangle)]
pub unsafe extern "C" fn js_next_due(drive: &mut Handle) -> f64 {
    match unsafe { y1541_next_due_for_c(drive) } {
        u64::MAX => f64::INFINITY,
        due => due as f64,
    }
}

/// `y1541_due`: the moment of the reaction, or a number below 0. `flags` gets the four flags of the struct, from the lowest bit on.
///
/// # Safety
///
/// The pointers are as the header says.
#[unsafe(no_mangle)]
pub unsafe extern "C" fn js_due(drive: &mut Handle, moment: f64, flags: &mut u8) -> f64 {
    let mut it = Reacted { moment: 0, clock_low: 0, data_low: 0, clock_changed: 0, data_changed: 0 };
    let answer = unsafe { y1541_due_for_c(drive, moment as u64, &mut it) };
    if answer != 0 {
        return answer.into();
    }
    *flags = it.clock_low | it.data_low << 1 | it.clock_changed << 2 | it.data_changed << 3;
    it.moment as f64
}
