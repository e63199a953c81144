//! The runtime that `main` and each test are given.
use crate::alloc::Global;

/// The computer that the program runs on.
#[derive(Clone, Copy)]
pub struct HostRuntime;

/// What gives the allocator.
pub trait AllocGlobal {
    fn alloc(&self) -> Global { Global }
}

impl AllocGlobal for HostRuntime {}
impl<R: AllocGlobal> AllocGlobal for &R {}
