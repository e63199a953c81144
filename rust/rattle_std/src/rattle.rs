//! What each module of the kit has without naming it.
pub use crate::marker::MayDrop as Drop;
#[cfg(feature = "os")]
pub use crate::host::io::{Eprint, Input, Print};
pub use crate::{AllocGlobal, Box, CollectIn, HostRuntime, String, Vec};
pub use crate::{assert_eq_with as assert_eq, assert_ne_with as assert_ne, assert_with as assert, format_in as format, prove, vec_in as vec};
#[cfg(feature = "os")]
pub use crate::{eprint, eprintln, print, println};
