//! What threads share, as the library uses it: the standard library's. Under `cfg(pardz_explore)` it is the explorer's, which runs scenarios
//! through their schedules (`bindings/explore`).
#[cfg(pardz_explore)]
pub(crate) use explorer::{writes, AtomicBool, AtomicU32, AtomicUsize, Ordering};
#[cfg(not(pardz_explore))]
pub(crate) use std::sync::atomic::{AtomicBool, AtomicU32, AtomicUsize, Ordering};

/// Tells the explorer, where it looks on, that what stands there is written now.
#[cfg(not(pardz_explore))]
#[inline(always)]
pub(crate) fn writes<V: ?Sized>(_: *const V, _: &str) {}
