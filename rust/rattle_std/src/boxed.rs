//! A box whose making may fail.
use crate::alloc::{AllocFailed, Global, Layout};
use crate::{heap, ops};

/// Rust's box, with an error where that ends the process.
#[derive(Debug, PartialEq, Eq)]
pub struct Box<T>(heap::boxed::Box<T>);

impl<T> Box<T> {
    pub fn new(_: Global, value: T) -> Result<Box<T>, AllocFailed<T>> {
        let layout = Layout::new::<T>();
        if layout.size() == 0 {
            return Ok(Box(heap::boxed::Box::new(value)));
        }
        // SAFETY: the layout is that of T, and its size isn't 0. What is allocated is written before it becomes a box.
        unsafe {
            let place = heap::alloc::alloc(layout) as *mut T;
            if place.is_null() {
                return Err(AllocFailed { value });
            }
            place.write(value);
            Ok(Box(heap::boxed::Box::from_raw(place)))
        }
    }
    pub fn into_inner(self) -> T { *self.0 }
    pub fn into_raw(self) -> *mut T { heap::boxed::Box::into_raw(self.0) }

    /// # Safety
    ///
    /// The pointer is one that `into_raw` gave, and is given back once.
    pub unsafe fn from_raw(_: Global, place: *mut T) -> Box<T> {
        // SAFETY: as the caller says.
        Box(unsafe { heap::boxed::Box::from_raw(place) })
    }
}

impl<T> ops::Deref for Box<T> {
    type Target = T;
    fn deref(&self) -> &T { &self.0 }
}

impl<T> ops::DerefMut for Box<T> { fn deref_mut(&mut self) -> &mut T { &mut self.0 } }
