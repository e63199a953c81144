//! A vector whose growth may fail.
use crate::alloc::{AllocError, AllocFailed, Global};
use crate::{heap, ops, slice};

/// Rust's vector, with an error where that ends the process.
#[derive(Debug, PartialEq, Eq, PartialOrd, Ord, Hash)]
pub struct Vec<T>(pub heap::vec::Vec<T>);

impl<T> Vec<T> {
    pub const fn new(_: Global) -> Vec<T> { Vec(heap::vec::Vec::new()) }
    pub fn with_capacity(_: Global, count: usize) -> Result<Vec<T>, AllocError> {
        let mut made = heap::vec::Vec::new();
        made.try_reserve_exact(count).map_err(|_| AllocError)?;
        Ok(Vec(made))
    }
    pub fn reserve(&mut self, more: usize) -> Result<(), AllocError> { self.0.try_reserve(more).map_err(|_| AllocError) }
    #[inline]
    pub fn push(&mut self, value: T) -> Result<(), AllocFailed<T>> {
        if self.0.len() == self.0.capacity() && self.0.try_reserve(1).is_err() {
            return Err(AllocFailed { value });
        }
        self.0.push(value);
        Ok(())
    }

    /// Where room was made before.
    #[inline]
    pub fn push_reserved(&mut self, value: T) {
        debug_assert!(self.0.len() < self.0.capacity());
        self.0.push(value)
    }
    pub fn insert(&mut self, at: usize, value: T) -> Result<(), AllocFailed<T>> {
        if self.0.try_reserve(1).is_err() {
            return Err(AllocFailed { value });
        }
        self.0.insert(at, value);
        Ok(())
    }
}

impl<T: Copy> Vec<T> {
    pub fn from_slice(_: Global, items: &[T]) -> Result<Vec<T>, AllocError> {
        let mut made = Vec::with_capacity(Global, items.len())?;
        made.0.extend_from_slice(items);
        Ok(made)
    }
    pub fn extend_from_slice(&mut self, items: &[T]) -> Result<(), AllocError> {
        self.reserve(items.len())?;
        self.0.extend_from_slice(items);
        Ok(())
    }

    /// (beside Rust's trait, since this one may fail)
    #[allow(clippy::should_implement_trait)]
    pub fn clone(&self) -> Result<Vec<T>, AllocError> { Vec::from_slice(Global, &self.0) }
}

impl<T: Clone> Vec<T> {
    pub fn resize(&mut self, count: usize, value: T) -> Result<(), AllocError> {
        self.reserve(count.saturating_sub(self.0.len()))?;
        self.0.resize(count, value);
        Ok(())
    }
}

impl Vec<crate::String> {
    /// With no memory. (the kit's is stable; texts that are equal are the same)
    pub fn sort(&mut self) -> Result<(), AllocError> {
        self.0.sort_unstable();
        Ok(())
    }
}

impl<T> ops::Deref for Vec<T> {
    type Target = heap::vec::Vec<T>;
    fn deref(&self) -> &heap::vec::Vec<T> { &self.0 }
}

impl<T> ops::DerefMut for Vec<T> { fn deref_mut(&mut self) -> &mut heap::vec::Vec<T> { &mut self.0 } }
impl<T> From<Vec<T>> for heap::vec::Vec<T> { fn from(items: Vec<T>) -> heap::vec::Vec<T> { items.0 } }

impl<T> IntoIterator for Vec<T> {
    type Item = T;
    type IntoIter = heap::vec::IntoIter<T>;
    fn into_iter(self) -> heap::vec::IntoIter<T> { self.0.into_iter() }
}

impl<'a, T> IntoIterator for &'a Vec<T> {
    type Item = &'a T;
    type IntoIter = slice::Iter<'a, T>;
    fn into_iter(self) -> slice::Iter<'a, T> { self.0.iter() }
}

impl<'a, T> IntoIterator for &'a mut Vec<T> {
    type Item = &'a mut T;
    type IntoIter = slice::IterMut<'a, T>;
    fn into_iter(self) -> slice::IterMut<'a, T> { self.0.iter_mut() }
}
